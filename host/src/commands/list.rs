use crate::args::{Given, Start};
use crate::command::{Command, START_OF_LIST};
use crate::explain::About;
use crate::failure::Failure;
use crate::lines;
use crate::refuse::refuse;
use crate::room::Room;
use crate::sheet::Sheet;
use crate::streams::{Ended, Streams};
use crate::volume::Volume;
use std::path::Path;

pub static COMMAND: Command = Command {
    name: "list",
    brief: "print the sheet of a volume",
    names: &["[VOLUME]"],
    options: &[START_OF_LIST],
    text: "\
Prints the sheet of a volume: a line V T CUBES, a line 'v EDGE X Y Z' for each vertex, a line 't A B C' for each \
triangle. Coordinates are in 1/65536 of a sample step. Without VOLUME, or with -, the volume is read from standard input. \
A refusal prints 'refused N'.",
    run,
};

fn run(given: &Given, streams: &mut Streams) -> Result<Ended, Failure> {
    let from = given.maybe(0).unwrap_or(Path::new("-"));
    let start = match given.start(&START_OF_LIST)? {
        Start::Unnamed => Start::Lowest,
        named => named,
    };
    let volume = Volume::read(from, streams)?;
    let (built, sheet) = Sheet::build(&volume, start.given(), &mut Room::default());
    if built.number != 0 {
        return refuse(
            built.number,
            &About { volume: Some((from, &volume)), start: start.named(), ..About::default() },
            streams,
        );
    }
    streams.print(format_args!("{} {} {}", built.vertices, built.triangles, built.cubes))?;
    lines::print(streams.output, &sheet.vertices, &sheet.triangles).map_err(Failure::output)?;
    Ok(Ended::Well)
}
