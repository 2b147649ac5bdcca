use crate::args::{usage, Given};
use crate::command::Command;
use crate::commands::COMMANDS;
use crate::failure::{shown, Failure};
use crate::streams::{Ended, Streams};
use crate::text::{filled, indented};

pub static COMMAND: Command = Command {
    name: "help",
    brief: "say more about a command; so does COMMAND --help",
    names: &["[COMMAND]"],
    options: &[],
    text: "Prints what a command does and which options it has; without COMMAND, what commands there are.",
    run,
};

pub const ABOUT: &str = "meshes micro-CT lattices and says which sheets are sound";

/// What holds for all commands.
pub const GENERAL: &str = "\
A volume file has nx, ny, nz (u16), then the samples (i16, x fastest, then y, then z), all little-endian. An axis has 2 to \
64 samples. A sample is the grey level sought minus the grey found: above 0 is air, any other is solid. But -32768 is the \
scanner's fill, which is no sample: a cube with such a corner is never visited, and a sheet ends there.

A name of - is standard input, or standard output where a file is written; ./- is a file of that name.

Exit status: 0 for success or accepted, 1 for a refusal, 2 for wrong usage or a file that cannot be read or written. A \
refusal's number is on standard output; a sentence that explains it and says what to do is on standard error.";

fn run(given: &Given, streams: &mut Streams) -> Result<Ended, Failure> {
    let text = match given.maybe(0) {
        None => tool(),
        Some(name) => match COMMANDS.iter().find(|command| name.to_str() == Some(command.name)) {
            Some(command) => about(command),
            None => return usage(format!("there is no command {}", shown(name))),
        },
    };
    streams.put(text.as_bytes())?;
    Ok(Ended::Well)
}

/// The help of the tool.
pub fn tool() -> String {
    let mut text = format!("malxuqeed: {ABOUT}.\n\n");
    for command in &COMMANDS {
        let names = command.names.iter().map(|name| format!(" {name}")).collect::<String>();
        text += &format!("  malxuqeed {:28} {}\n", format!("{}{names}", command.name), command.brief);
    }
    text += "\n  malxuqeed help COMMAND says more about a command, with its options.\n\n";
    text + &filled(GENERAL)
}

/// The help of a command.
pub fn about(command: &Command) -> String {
    let mut text = indented("  ", &format!("malxuqeed {}", command.usage())).trim_start().to_string();
    text += &format!("\n{}", filled(command.text));
    if !command.options.is_empty() {
        text += "\n";
    }
    for option in command.options {
        text += &format!("  {}\n{}", option.shape(), indented("      ", option.text));
    }
    text
}
