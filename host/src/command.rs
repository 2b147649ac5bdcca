//! What a command is. A command is one module with one `Command`; parsing, help, man page and completion are made from it.

use crate::args::Given;
use crate::failure::Failure;
use crate::streams::{Ended, Streams};

pub struct Command {
    pub name: &'static str,
    /// One line, for lists of commands.
    pub brief: &'static str,
    /// What is named behind the command, in order; a name in brackets may be left out.
    pub names: &'static [&'static str],
    pub options: &'static [Opt],
    /// What the command does, in paragraphs.
    pub text: &'static str,
    pub run: fn(&Given, &mut Streams) -> Result<Ended, Failure>,
}

/// An option of a command.
pub struct Opt {
    /// With its two dashes.
    pub name: &'static str,
    /// What stands behind it; nothing for a switch.
    pub value: &'static str,
    pub needed: bool,
    pub text: &'static str,
}

impl Opt {
    pub const fn switch(name: &'static str, text: &'static str) -> Opt {
        Opt { name, value: "", needed: false, text }
    }

    pub const fn with(name: &'static str, value: &'static str, text: &'static str) -> Opt {
        Opt { name, value, needed: false, text }
    }

    pub const fn needed(name: &'static str, value: &'static str, text: &'static str) -> Opt {
        Opt { name, value, needed: true, text }
    }

    /// `--start X,Y,Z`, or the bare name of a switch.
    pub fn shape(&self) -> String {
        format!("{} {}", self.name, self.value).trim_end().to_string()
    }
}

/// The start of `build`.
pub const START: Opt = Opt::with(
    "--start",
    "X,Y,Z|lowest",
    "the start cube, by its lowest corner, or the lowest cube that a surface crosses; without it, the lowest such cube with none \
     of its six faces in the volume's bounds. A cube that holds the fill is never taken",
);

/// The start of `list`.
pub const START_OF_LIST: Opt = Opt::with(
    "--start",
    "X,Y,Z|lowest",
    "the start cube, by its lowest corner; without it, or with lowest, the lowest cube that a surface crosses",
);

/// The start of a sheet that is there already.
pub const START_OR_AUTO: Opt = Opt::with(
    "--start",
    "X,Y,Z|lowest|auto",
    "the start cube that the sheet was built from, or lowest, the lowest cube that a surface crosses; auto takes it from the \
     sheet itself: the cubes round its first vertex are tried, and the answer says which one was taken",
);

/// The rule of rounding that a sheet was made under.
pub const RULE: Opt = Opt::with(
    "--rule",
    "down|nearest",
    "how the positions of the sheet were rounded: nearest, as build rounds them and as is taken without this, or down, as builds \
     before document 02 (vi) rounded them",
);

/// Of every command that writes a file.
pub const FORCE: Opt = Opt::switch("--force", "replace a file that is write-protected");

impl Command {
    /// How many names there must be at least.
    pub fn least(&self) -> usize {
        self.names.iter().filter(|name| !name.starts_with('[')).count()
    }

    pub fn option(&self, name: &[u8]) -> Option<&'static Opt> {
        self.options.iter().find(|option| option.name.as_bytes() == name)
    }

    /// `build VOLUME SHEET [--start X,Y,Z]`
    pub fn usage(&self) -> String {
        let mut line = self.name.to_string();
        for name in self.names {
            line += &format!(" {name}");
        }
        for option in self.options {
            let shape = option.shape();
            line += &if option.needed { format!(" {shape}") } else { format!(" [{shape}]") };
        }
        line
    }
}
