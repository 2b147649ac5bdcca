use crate::abi;
use crate::args::Given;
use crate::command::Command;
use crate::failure::Failure;
use crate::streams::{Ended, Streams};

/// The tool's version.
pub const VERSION: &str = env!("CARGO_PKG_VERSION");

pub static COMMAND: Command = Command {
    name: "version",
    brief: "print the version; so does --version",
    names: &[],
    options: &[],
    text: "Prints the name and the version of the tool, and whether the proved library is linked in or runs under an emulator.",
    run,
};

fn run(_: &Given, streams: &mut Streams) -> Result<Ended, Failure> {
    let library = match (abi::EMULATED, abi::OWN) {
        (true, _) => "the proved library's x86-64 code, under an emulator",
        (false, true) => "the proved library's module, compiled for this processor",
        (false, false) => "the proved library, linked in",
    };
    streams.print(format_args!("malxuqeed {VERSION} ({library})"))?;
    Ok(Ended::Well)
}
