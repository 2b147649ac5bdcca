use crate::args::Given;
use crate::command::{Command, FORCE};
use crate::explain::About;
use crate::failure::Failure;
use crate::files;
use crate::refuse::refuse_at;
use crate::sheet::Sheet;
use crate::stl;
use crate::streams::{Ended, Streams};

pub static COMMAND: Command = Command {
    name: "stl",
    brief: "write a sheet as binary STL, for viewers",
    names: &["SHEET", "STL"],
    options: &[FORCE],
    text: "\
Writes the triangles of the sheet file SHEET as a binary STL file. The first line of standard output has the count of facets. \
A refusal prints 'refused N PLACE', and STL stays as it was. With - as STL the file goes to standard output, and the count to \
standard error.

Nothing is rounded, smoothed or thinned: each triangle is a facet, and each float is exactly a coordinate divided by 65,536. \
'malxuqeed facets' reads the same integers back. What a program that reads the file has to be told:

Units are sample steps, counted from sample (0, 0, 0): multiply by the voxel size to get millimetres.

Axes are right-handed in STL and left-handed in a sheet. x, y and z keep their values; the second and third corner of each \
triangle trade places, so that facets face the air in right-handed axes.

A pore's facets therefore face into the pore, since its air is inside; a housing's face outward. To a program that takes facets \
to face outward, the volume of a pore is negative.

Where a sample is exactly 0, vertices lie on each other, and some facets have no area. Some programs drop these facets; without \
them what was closed is still closed. How many there are is told on standard error.",
    run,
};

fn run(given: &Given, streams: &mut Streams) -> Result<Ended, Failure> {
    let (from, to) = (given.name(0), given.name(1));
    files::apart(&[from], &[to])?;
    let bytes = files::read_named_sheet(from, streams).map_err(|error| Failure::reading(from, &error))?;
    let about = About { sheet: Some((from, &bytes)), ..About::default() };
    let written = Sheet::read(&bytes).and_then(|sheet| Ok((stl::file(&sheet)?, sheet)));
    let (file, sheet) = match written {
        Ok(written) => written,
        Err(verdict) => return refuse_at(verdict, &about, streams),
    };
    files::put(to, &file, given.has(&FORCE), streams)?;
    let count = sheet.triangles.len() / 3;
    files::answer(to, &count.to_string(), streams)?;
    let flats = stl::flats(&sheet);
    if flats > 0 {
        streams.say(&format!("{flats} of {count} facets have no area; some programs drop these"));
    }
    Ok(Ended::Well)
}
