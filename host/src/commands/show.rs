use crate::args::Given;
use crate::command::Command;
use crate::explain::About;
use crate::failure::Failure;
use crate::files;
use crate::lines;
use crate::refuse::refuse_at;
use crate::sheet::Sheet;
use crate::streams::{Ended, Streams};

pub static COMMAND: Command = Command {
    name: "show",
    brief: "print what a sheet file holds",
    names: &["SHEET"],
    options: &[],
    text: "\
Prints what a sheet file holds, whatever its volume: a line V T NX NY NZ, a line 'v EDGE X Y Z' for each vertex record, \
a line 't A B C' for each triangle. With - the sheet is read from standard input. A refusal prints 'refused N PLACE'.",
    run,
};

fn run(given: &Given, streams: &mut Streams) -> Result<Ended, Failure> {
    let path = given.name(0);
    let bytes = files::read_named_sheet(path, streams).map_err(|error| Failure::reading(path, &error))?;
    let sheet = match Sheet::read(&bytes) {
        Ok(sheet) => sheet,
        Err(verdict) => return refuse_at(verdict, &About { sheet: Some((path, &bytes)), ..About::default() }, streams),
    };
    let (sizes, nv, nt) = (sheet.sizes, sheet.vertices.len() / 4, sheet.triangles.len() / 3);
    streams.print(format_args!("{nv} {nt} {} {} {}", sizes.nx, sizes.ny, sizes.nz))?;
    lines::print(streams.output, &sheet.vertices, &sheet.triangles).map_err(Failure::output)?;
    Ok(Ended::Well)
}
