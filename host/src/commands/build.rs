use crate::args::Given;
use crate::command::{Command, FORCE, START};
use crate::cubes::Cubes;
use crate::explain::{place_text, About};
use crate::failure::Failure;
use crate::files;
use crate::pieces;
use crate::refuse::refuse;
use crate::room::Room;
use crate::sheet::Sheet;
use crate::streams::{Ended, Streams};
use crate::volume::Volume;

pub static COMMAND: Command = Command {
    name: "build",
    brief: "mesh a volume, write the sheet file",
    names: &["VOLUME", "SHEET"],
    options: &[START, FORCE],
    text: "\
Meshes the surface that passes through the start cube and writes it to the sheet file SHEET. The first line of standard \
output has the counts of vertices, triangles and visited cubes: V T CUBES. A refusal prints 'refused N', and SHEET stays \
as it was.

Without --start the start is the lowest cube that a surface crosses with none of its six faces in the volume's bounds, so not the \
tray's floor. Where only cubes at the bounds are crossed the answer is 'refused 5', and a sentence names the lowest of them, \
which --start lowest takes.

Where the volume has further surfaces, a line on standard error says how many crossed cubes are not on this sheet, and \
names the start of the next one. 'malxuqeed pieces' lists them all, and 'malxuqeed build-all' builds them.

SHEET is written beside its name and then renamed: a crash, a signal or a full disk leaves the old file or none. With - \
as SHEET the file goes to standard output, and the counts to standard error.",
    run,
};

fn run(given: &Given, streams: &mut Streams) -> Result<Ended, Failure> {
    let (from, to) = (given.name(0), given.name(1));
    let start = given.start(&START)?;
    files::apart(&[from], &[to])?;
    let volume = Volume::read(from, streams)?;
    let about = About { volume: Some((from, &volume)), start: start.named(), ..About::default() };
    let mut room = Room::default();
    let (built, sheet) = Sheet::build(&volume, start.given(), &mut room);
    if built.number != 0 {
        return refuse(built.number, &about, streams);
    }
    let bytes = match sheet.file() {
        Ok(bytes) => bytes,
        Err(number) => return refuse(number, &about, streams),
    };
    files::put(to, &bytes, given.has(&FORCE), streams)?;
    let counts = format!("{} {} {}", built.vertices, built.triangles, built.cubes);
    files::answer(to, &counts, streams)?;
    if let Some(rest) = rest(&volume, built.cubes, &sheet, &mut room) {
        streams.say(&rest);
    }
    Ok(Ended::Well)
}

/// What the volume holds besides a sheet that passes through so many of its cubes, in a sentence.
fn rest(volume: &Volume, visited: usize, sheet: &Sheet, room: &mut Room) -> Option<String> {
    let starts = pieces::find(volume, room).ok()?;
    let others = starts.len() - 1;
    if others == 0 {
        return None;
    }
    let cubes = Cubes::of(volume)?;
    let (left, lowest) = (cubes.crossed() - visited, cubes.lowest_of(sheet)?);
    let own = starts.iter().position(|start| *start == lowest)?;
    let next = place_text(starts[(own + 1) % starts.len()]);
    let surfaces = if others == 1 { "1 other surface".to_string() } else { format!("{others} other surfaces") };
    Some(format!(
        "{left} crossed cubes are not on this sheet but on {surfaces}; the next one is built with --start {next}"
    ))
}
