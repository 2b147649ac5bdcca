//! Trials of the proved library and of the tool: random cases, with and without fill, fuzzing, test volumes.

pub mod archive;
pub mod cases;
pub mod damage;
pub mod fill;
pub mod floats;
pub mod fuzz;
pub mod hold;
pub mod pairing;
pub mod pieces;
pub mod random;
pub mod stack;
pub mod stl;
pub mod tooled;
pub mod tray;
pub mod volumes;
