//! The host of the proved library: the command-line tool's parts.

pub mod abi;
pub mod args;
pub mod audit;
pub mod command;
pub mod commands;
pub mod cubes;
pub mod explain;
pub mod failure;
pub mod files;
pub mod floats;
pub mod judge;
pub mod lines;
pub mod marks;
pub mod numbers;
pub mod picture;
pub mod pieces;
pub mod refuse;
pub mod room;
pub mod sheet;
pub mod signals;
pub mod stl;
pub mod streams;
pub mod text;
pub mod tool;
pub mod volume;
