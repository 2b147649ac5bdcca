use crate::args::{usage, Given, Start};
use crate::command::{Command, Opt, FORCE, RULE, START_OR_AUTO};
use crate::explain::{place_text, About};
use crate::failure::Failure;
use crate::files;
use crate::judge::judge;
use crate::marks::marks;
use crate::picture;
use crate::refuse::refuse_at;
use crate::room::Room;
use crate::sheet::Sheet;
use crate::streams::{Ended, Streams};
use crate::volume::Volume;
use std::path::Path;

const VOLUME: Opt = Opt::with("--volume", "VOLUME", "the sheet's volume: triangles that are wrong against it are red");
const SIZE: Opt = Opt::with("--size", "PIXELS", "width and height of the picture, 64 to 4096; 640 without it");

pub static COMMAND: Command = Command {
    name: "picture",
    brief: "draw a sheet as a PNG picture",
    names: &["SHEET", "PNG"],
    options: &[VOLUME, START_OR_AUTO, RULE, SIZE, FORCE],
    text: "\
Draws a sheet, seen from the corner of greatest x, y and z, with z upwards: x runs from the left corner of the outline to the \
front one, y from the right one to the front one. A surface is blue where it is seen from the air and sand-coloured where it \
is seen from the solid. The same sheet gives the same bytes.

With --volume a triangle that the check would refuse by itself is red, also where it is hidden behind others; one with a \
vertex at a wrong position is orange; where nothing is red, what is missing is purple. Where there are few of these, a ring is \
round each. The start is taken from the sheet itself where none is named. Prints the counts of vertices and triangles, and \
with --volume the verdict, the start and the count of wrong triangles. The exit status is that of the drawing, not of the \
verdict.",
    run,
};

fn run(given: &Given, streams: &mut Streams) -> Result<Ended, Failure> {
    let (from, to) = (given.name(0), given.name(1));
    let volume = given.get(&VOLUME).map(Path::new);
    let size = match given.get(&SIZE).map(|text| text.to_str().and_then(|text| text.parse::<usize>().ok())) {
        None => picture::USUAL,
        Some(Some(size)) if (64..=4096).contains(&size) => size,
        Some(_) => return usage("--size takes a whole number of pixels, 64 to 4096"),
    };
    let start = match given.start(&START_OR_AUTO)? {
        Start::Unnamed => Start::Auto,
        named if volume.is_some() => named,
        _ => return usage("--start needs the --volume that it is a cube of"),
    };
    let rule = given.rule(&RULE)?;
    if given.has(&RULE) && volume.is_none() {
        return usage("--rule needs the --volume that the sheet is checked against");
    }
    let read: Vec<&Path> = [from].into_iter().chain(volume).collect();
    files::apart(&read, &[to])?;
    let bytes = files::read_named_sheet(from, streams).map_err(|error| Failure::reading(from, &error))?;
    let about = About { sheet: Some((from, &bytes)), ..About::default() };
    let sheet = match Sheet::read(&bytes) {
        Ok(sheet) => sheet,
        Err(verdict) => return refuse_at(verdict, &about, streams),
    };
    let mut line = format!("{} {}", sheet.vertices.len() / 4, sheet.triangles.len() / 3);
    let mut marked = None;
    if let Some(path) = volume {
        let volume = Volume::read(path, streams)?;
        let mut room = Room::default();
        let judged = judge(&volume, &bytes, start, rule, &mut room);
        marked = marks(&sheet, &volume, judged.start, rule, &mut room);
        let (verdict, about) = (judged.verdict, About { volume: Some((path, &volume)), start: judged.start, ..about });
        if marked.is_none() {
            return refuse_at(verdict, &about, streams);
        }
        line += &match verdict.number {
            0 => " accepted".to_string(),
            number => format!(" refused {number} {}", verdict.place),
        };
        line += &judged.start.map_or(String::new(), |start| format!(" start {}", place_text(start)));
        line += &marked.as_ref().map_or(String::new(), |marks| format!(" wrong {}", marks.wrong()));
    }
    let png = picture::png(&sheet, marked.as_ref(), size);
    files::put(to, &png, given.has(&FORCE), streams)?;
    files::answer(to, &line, streams)?;
    Ok(Ended::Well)
}
