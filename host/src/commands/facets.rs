use crate::args::Given;
use crate::command::Command;
use crate::explain::About;
use crate::failure::Failure;
use crate::files;
use crate::refuse::refuse_at;
use crate::stl;
use crate::streams::{Ended, Streams};

pub static COMMAND: Command = Command {
    name: "facets",
    brief: "print what a binary STL file holds",
    names: &["STL"],
    options: &[],
    text: "\
Prints the facets of a binary STL file as the sheet has them: a line with their count, then a line 'f X Y Z X Y Z X Y Z' for \
each, its three corners in the sheet's order and in 1/65536 of a sample step. With - the file is read from standard input.

It reads back what 'malxuqeed stl' writes, to the same integers. Header, normals and attributes may be anything. A float that \
no coordinate from 0 to 4,128,768 gives is refused, so a file that was moved, scaled, smoothed or repaired is not taken for \
the sheet. A refusal prints 'refused N PLACE'.",
    run,
};

fn run(given: &Given, streams: &mut Streams) -> Result<Ended, Failure> {
    let path = given.name(0);
    let bytes = files::read_named_stl(path, streams).map_err(|error| Failure::reading(path, &error))?;
    let facets = match stl::facets(&bytes) {
        Ok(facets) => facets,
        Err(verdict) => return refuse_at(verdict, &About { stl: Some((path, &bytes)), ..About::default() }, streams),
    };
    streams.print(format_args!("{}", facets.len()))?;
    for [[a, b, c], [d, e, f], [g, h, i]] in facets {
        streams.print(format_args!("f {a} {b} {c} {d} {e} {f} {g} {h} {i}"))?;
    }
    Ok(Ended::Well)
}
