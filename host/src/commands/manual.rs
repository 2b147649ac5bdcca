use crate::args::Given;
use crate::command::Command;
use crate::commands::help::{ABOUT, GENERAL};
use crate::commands::version::VERSION;
use crate::commands::COMMANDS;
use crate::failure::Failure;
use crate::numbers::NUMBERS;
use crate::streams::{Ended, Streams};

pub static COMMAND: Command = Command {
    name: "manual",
    brief: "print the man page",
    names: &[],
    options: &[],
    text: "Prints the man page in the language of man, made from the same texts as the help.",
    run,
};

fn run(_: &Given, streams: &mut Streams) -> Result<Ended, Failure> {
    streams.put(page().as_bytes())?;
    Ok(Ended::Well)
}

/// Text with what man would take for its own signs escaped.
fn plain(text: &str) -> String {
    let text = text.replace('\\', "\\e").replace('-', "\\-");
    let line = |line: &str| if line.starts_with(['.', '\'']) { format!("\\&{line}") } else { line.to_string() };
    text.lines().map(line).collect::<Vec<_>>().join("\n")
}

fn paragraphs(text: &str) -> String {
    let laid = |paragraph: &str| match paragraph.starts_with(' ') {
        true => format!(".PP\n.nf\n{}\n.fi\n", plain(paragraph)),
        false => format!(".PP\n{}\n", plain(paragraph)),
    };
    text.split("\n\n").map(laid).collect()
}

pub fn page() -> String {
    let mut page =
        format!(".TH MALXUQEED 1 \"\" \"malxuqeed {VERSION}\" \"\"\n.SH NAME\nmalxuqeed \\- {}\n", plain(ABOUT));
    page += ".SH SYNOPSIS\n";
    for command in &COMMANDS {
        page += &format!(".B malxuqeed\n{}\n.br\n", plain(&command.usage()));
    }
    page += &format!(".SH DESCRIPTION\n{}", paragraphs(GENERAL));
    page += ".SH COMMANDS\n";
    for command in &COMMANDS {
        page += &format!(".SS {}\n{}", plain(&command.usage()), paragraphs(command.text));
        for option in command.options {
            page += &format!(".TP\n.B {}\n{}\n", plain(&option.shape()), plain(option.text));
        }
    }
    page += ".SH REFUSALS\n";
    for row in &NUMBERS {
        page += &format!(".TP\n.B {}\n{}. {}\n", row.number, plain(row.means), plain(row.remedy));
        if let Some(words) = row.stl {
            page += &format!("Of an STL file: {}. {}\n", plain(words.means), plain(words.remedy));
        }
        if let Some(words) = row.floats {
            page += &format!("Of a volume in floats: {}. {}\n", plain(words.means), plain(words.remedy));
        }
        if let Some(words) = row.pieces {
            page += &format!("Of a search for pieces: {}. {}\n", plain(words.means), plain(words.remedy));
        }
    }
    page
}
