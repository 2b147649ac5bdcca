use crate::abi::{Level, Sizes};
use crate::args::{triple, usage, Given};
use crate::command::{Command, Opt, FORCE};
use crate::cubes::Cubes;
use crate::explain::About;
use crate::failure::{escaped, Failure};
use crate::files;
use crate::floats::{self, Floats};
use crate::refuse::refuse_at;
use crate::streams::{Ended, Streams};
use std::os::unix::ffi::OsStrExt;

const LEVEL: Opt =
    Opt::with("--level", "G", "the grey between air and solid: a darker voxel is air, any other is solid");
const AIR: Opt = Opt::with("--air", "A", "the grey of air; the level is then halfway between air and material");
const MATERIAL: Opt = Opt::with("--material", "M", "the grey of material, which is above that of air");
const SCALE: Opt =
    Opt::with("--scale", "S", "steps of a sample for a step of grey: 1, 2, 4 .. 256; 1 where it is not given");
const SIZES: Opt =
    Opt::with("--sizes", "X,Y,Z", "the file has voxels alone, so many on each axis, and no sizes before them");

pub static COMMAND: Command = Command {
    name: "convert",
    brief: "make a volume from voxels in 32-bit floats",
    names: &["FLOATS", "VOLUME"],
    options: &[LEVEL, AIR, MATERIAL, SCALE, SIZES, FORCE],
    text: "\
Makes a volume file from a file of 32-bit floats: nx, ny, nz (16 bits each), then the voxels, x running fastest, then y, then z, \
all little-endian. The level is given by --level, or by --air and --material: then it is half their sum. The first line of \
standard output has the sizes. A refusal prints 'refused N PLACE', and VOLUME stays as it was.

A voxel gives level minus voxel, rounded as 32-bit floats are. That times the scale, cut towards zero and held to -32767 .. \
32767, is its sample; where it is above 0 the sample is at least 1. So a voxel below the level is air and any other is solid, \
whatever the scale. Positions of vertices follow the samples: where greys differ by little, a larger scale places them better, \
as long as the greys next to the surface stay within 32767.

Voxels and greys are numbers within 65536 of 0.",
    run,
};

fn grey(given: &Given, option: &Opt) -> Result<Option<f32>, Failure> {
    let Some(text) = given.get(option) else { return Ok(None) };
    match text.to_str().and_then(|text| text.parse().ok()) {
        Some(grey) => Ok(Some(grey)),
        None => usage(format!("{} takes a number, not {}", option.shape(), escaped(&text.to_string_lossy()))),
    }
}

fn level(given: &Given) -> Result<Level, Failure> {
    match (grey(given, &LEVEL)?, grey(given, &AIR)?, grey(given, &MATERIAL)?) {
        (Some(grey), None, None) => Ok(Level::Fixed(grey)),
        (None, Some(air), Some(material)) => Ok(Level::Halfway { air, material }),
        _ => usage("the level is given by --level G, or by --air A and --material M"),
    }
}

/// A scale that is too large for a word is as wrong as the largest.
fn scale(given: &Given) -> Result<u32, Failure> {
    let Some(text) = given.get(&SCALE) else { return Ok(1) };
    let bytes = text.as_bytes();
    if bytes.is_empty() || !bytes.iter().all(u8::is_ascii_digit) {
        return usage("--scale takes a whole number from 1 on");
    }
    Ok(text.to_str().and_then(|text| text.parse().ok()).unwrap_or(u32::MAX))
}

fn sizes(given: &Given) -> Result<Option<Sizes>, Failure> {
    let Some(text) = given.get(&SIZES) else { return Ok(None) };
    match triple(text.as_bytes()) {
        Some([nx, ny, nz]) => Ok(Some(Sizes { nx, ny, nz })),
        None => usage("--sizes takes X,Y,Z: three whole numbers, parted by commas"),
    }
}

fn run(given: &Given, streams: &mut Streams) -> Result<Ended, Failure> {
    let (from, to) = (given.name(0), given.name(1));
    let (level, scale, sizes) = (level(given)?, scale(given)?, sizes(given)?);
    files::apart(&[from], &[to])?;
    let bytes = files::read_named(from, floats::ENOUGH, streams).map_err(|error| Failure::reading(from, &error))?;
    let floats = Floats::parse(&bytes, sizes);
    let volume = match floats.convert(level, scale) {
        Ok(volume) => volume,
        Err(verdict) => {
            let about = About { floats: Some((from, &floats, level, scale)), ..About::default() };
            return refuse_at(verdict, &about, streams);
        }
    };
    files::put(to, &volume.file(), given.has(&FORCE), streams)?;
    let Sizes { nx, ny, nz } = volume.sizes;
    files::answer(to, &format!("{nx} {ny} {nz}"), streams)?;
    if Cubes::of(&volume).and_then(|cubes| cubes.lowest_crossed()).is_none() {
        let side = if volume.samples.iter().any(|sample| *sample > 0) { "air" } else { "solid" };
        streams.say(&format!("all samples are {side}: no surface is at this level; choose one between the greys"));
    }
    Ok(Ended::Well)
}
