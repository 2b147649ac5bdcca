//! The commands. Adding one is a module and a line of this table.

pub mod audit;
pub mod build;
pub mod build_all;
pub mod check;
pub mod completion;
pub mod convert;
pub mod facets;
pub mod from_raw;
pub mod help;
pub mod info;
pub mod list;
pub mod manual;
pub mod picture;
pub mod pieces;
pub mod show;
pub mod stl;
pub mod version;

use crate::command::Command;

/// In the order of the help.
pub static COMMANDS: [&Command; 17] = [
    &from_raw::COMMAND,
    &convert::COMMAND,
    &info::COMMAND,
    &pieces::COMMAND,
    &build::COMMAND,
    &build_all::COMMAND,
    &check::COMMAND,
    &audit::COMMAND,
    &picture::COMMAND,
    &stl::COMMAND,
    &facets::COMMAND,
    &list::COMMAND,
    &show::COMMAND,
    &help::COMMAND,
    &version::COMMAND,
    &manual::COMMAND,
    &completion::COMMAND,
];
