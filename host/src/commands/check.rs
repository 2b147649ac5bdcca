use crate::args::{Given, Start};
use crate::command::{Command, RULE, START_OR_AUTO};
use crate::explain::{place_text, sentence, About};
use crate::failure::Failure;
use crate::files;
use crate::judge::{judge, other_accepts, other_text};
use crate::room::Room;
use crate::streams::{Ended, Streams};
use crate::volume::Volume;

pub static COMMAND: Command = Command {
    name: "check",
    brief: "check a sheet file against its volume",
    names: &["VOLUME", "SHEET"],
    options: &[START_OR_AUTO, RULE],
    text: "\
Checks that the sheet file SHEET holds exactly the sheet of VOLUME from the start cube: each vertex and each triangle \
once, in any order, a triangle from any corner. Without --start that is the cube that build takes where none is named: the \
lowest cube that a surface crosses with none of its six faces in the volume's bounds.

The first line of standard output is 'accepted', or 'refused N PLACE' with the number of the test that failed and the \
first record or triangle that failed it (0 where the number speaks of no record). With --start auto a second line, \
'start X,Y,Z', says which start was taken. A file that cannot be read as a sheet gets the refusal of reading it.

A sheet is checked under the rule of rounding that it was made under: nearest, or with --rule down the rule of builds before \
document 02 (vi), as the archive holds them. Where a file is refused under one rule and accepted under the other, the sentence \
on standard error says so; the verdict stays that of the rule that was asked for.",
    run,
};

fn run(given: &Given, streams: &mut Streams) -> Result<Ended, Failure> {
    let (from, sheet) = (given.name(0), given.name(1));
    let asked = given.start(&START_OR_AUTO)?;
    let rule = given.rule(&RULE)?;
    files::apart(&[from, sheet], &[])?;
    let volume = Volume::read(from, streams)?;
    let bytes = files::read_named_sheet(sheet, streams).map_err(|error| Failure::reading(sheet, &error))?;
    let mut room = Room::default();
    let judged = judge(&volume, &bytes, asked, rule, &mut room);
    let verdict = judged.verdict;
    match verdict.number {
        0 => streams.print(format_args!("accepted"))?,
        number => streams.print(format_args!("refused {number} {}", verdict.place))?,
    }
    if let (Start::Auto, Some(start)) = (asked, judged.start) {
        streams.print(format_args!("start {}", place_text(start)))?;
    }
    if verdict.number == 0 {
        return Ok(Ended::Well);
    }
    streams.flush()?;
    let start = if asked == Start::Unnamed { None } else { judged.start };
    let about = About { volume: Some((from, &volume)), sheet: Some((sheet, &bytes)), start, ..About::default() };
    streams.say(&sentence(verdict, &about));
    if other_accepts(judged, &volume, &bytes, asked, rule, &mut room) {
        streams.say(&format!("{}.", other_text(rule)));
    }
    Ok(Ended::Refused)
}
