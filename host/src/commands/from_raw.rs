use crate::abi::Sizes;
use crate::args::{triple, usage, Given};
use crate::command::{Command, Opt, FORCE};
use crate::cubes::Cubes;
use crate::explain::sizes_text;
use crate::failure::{escaped, shown, Failure};
use crate::files;
use crate::room;
use crate::streams::{Ended, Streams};
use crate::volume::{Volume, FILL};
use std::ffi::OsStr;
use std::fs::File;
use std::io;
use std::os::unix::ffi::OsStrExt;
use std::os::unix::fs::FileExt;
use std::path::Path;

const SIZES: Opt =
    Opt::needed("--sizes", "X,Y,Z", "how many greys there are on each axis; x runs fastest, then y, then z");
const TYPE: Opt = Opt::needed("--type", "u8|u16|i16", "what a grey is: 8 or 16 bits, unsigned or signed");
const LEVEL: Opt =
    Opt::needed("--level", "G", "the grey between air and solid: a darker voxel is air, any other is solid");
const BIG: Opt = Opt::switch("--big-endian", "the greys' high byte comes first");
const UNSEEN: Opt = Opt::with(
    "--fill",
    "G",
    "the grey that the scanner writes where it sees nothing: such a voxel is no sample, and becomes the fill, -32768",
);
const BOX: Opt = Opt::with(
    "--box",
    "X,Y,Z,NX,NY,NZ",
    "take only a box of NX x NY x NZ greys, from grey X,Y,Z on: for scans with more than 64 on an axis",
);

pub static COMMAND: Command = Command {
    name: "from-raw",
    brief: "make a volume from greys without a header",
    names: &["RAW", "VOLUME"],
    options: &[SIZES, TYPE, LEVEL, UNSEEN, BIG, BOX, FORCE],
    text: "\
Makes a volume file from a file of greys without a header. A sample is the level minus the grey, held to -32767 .. 32767, so \
a voxel darker than the level is air and any other is solid. With --fill a voxel of exactly that grey is neither: it becomes \
-32768, which is no sample. Prints a line with the sizes and how many samples are air, and with --fill how many are fill.

Whatever does not fit (the length of the file, the type, the level, an axis) is refused in words, and nothing is written.",
    run,
};

/// What a grey is in the file.
#[derive(Clone, Copy, PartialEq)]
enum Grey {
    U8,
    U16,
    I16,
}

impl Grey {
    fn named(name: &OsStr) -> Result<Grey, Failure> {
        match name.to_str() {
            Some("u8") => Ok(Grey::U8),
            Some("u16") => Ok(Grey::U16),
            Some("i16") => Ok(Grey::I16),
            _ => usage(format!("--type takes u8, u16 or i16, not {}", escaped(&name.to_string_lossy()))),
        }
    }

    fn width(self) -> usize {
        if self == Grey::U8 {
            1
        } else {
            2
        }
    }

    fn range(self) -> (i32, i32) {
        match self {
            Grey::U8 => (0, 255),
            Grey::U16 => (0, 65_535),
            Grey::I16 => (-32_768, 32_767),
        }
    }

    fn value(self, bytes: &[u8], big: bool) -> i32 {
        let pair = |bytes: &[u8]| if big { [bytes[0], bytes[1]] } else { [bytes[1], bytes[0]] };
        match self {
            Grey::U8 => i32::from(bytes[0]),
            Grey::U16 => i32::from(u16::from_be_bytes(pair(bytes))),
            Grey::I16 => i32::from(i16::from_be_bytes(pair(bytes))),
        }
    }
}

/// What the options ask for.
struct Asked {
    all: [usize; 3],
    from: [usize; 3],
    sizes: [usize; 3],
    grey: Grey,
    big: bool,
    level: i32,
    fill: Option<i32>,
}

/// A grey of the type that an option names.
fn grey_of(given: &Given, option: &Opt, grey: Grey) -> Result<i32, Failure> {
    let text = given.get(option).unwrap_or_default();
    let Some(value) = text.to_str().and_then(|text| text.parse::<i32>().ok()) else {
        return usage(format!("{} takes a grey: a whole number", option.name));
    };
    let (least, greatest) = grey.range();
    if value < least || value > greatest {
        return usage(format!("{} {value} is no grey of this type, which has {least} to {greatest}", option.name));
    }
    Ok(value)
}

impl Asked {
    fn of(given: &Given) -> Result<Asked, Failure> {
        let text = |option: &Opt| given.get(option).unwrap_or_default();
        let Some(all) = triple(text(&SIZES).as_bytes()) else {
            return usage("--sizes takes X,Y,Z: three whole numbers, parted by commas");
        };
        let grey = Grey::named(text(&TYPE))?;
        let big = given.has(&BIG);
        if big && grey == Grey::U8 {
            return usage("--big-endian says nothing about u8: leave it out, or name another --type");
        }
        let level = grey_of(given, &LEVEL, grey)?;
        let fill = if given.has(&UNSEEN) { Some(grey_of(given, &UNSEEN, grey)?) } else { None };
        let (from, sizes) = match given.get(&BOX) {
            None => ([0; 3], all),
            Some(text) => part(text.as_bytes(), all)?,
        };
        let [nx, ny, nz] = sizes;
        let taken = Sizes { nx, ny, nz };
        if !room::fits(taken) {
            let sizes = sizes_text(taken);
            return usage(format!(
                "{sizes} is no volume: an axis has 2 to 64 samples; --box takes a part of a larger scan"
            ));
        }
        Ok(Asked { all, from, sizes, grey, big, level, fill })
    }

    /// How many bytes the whole has; nothing where that is beyond counting.
    fn bytes(&self) -> Option<u64> {
        let factors = self.all.into_iter().chain([self.grey.width()]);
        factors.map(|factor| factor as u64).try_fold(1u64, |product, factor| product.checked_mul(factor))
    }
}

/// The place and the sizes of a box that must lie within the whole.
fn part(text: &[u8], all: [usize; 3]) -> Result<([usize; 3], [usize; 3]), Failure> {
    let cut = text.iter().enumerate().filter(|(_, &byte)| byte == b',').nth(2).map(|(at, _)| at);
    let both = cut.and_then(|at| Some((triple(&text[..at])?, triple(&text[at + 1..])?)));
    let Some((from, sizes)) = both else {
        return usage("--box takes X,Y,Z,NX,NY,NZ: six whole numbers, parted by commas");
    };
    for axis in 0..3 {
        if from[axis].saturating_add(sizes[axis]) > all[axis] {
            let (name, first, count, whole) = (["x", "y", "z"][axis], from[axis], sizes[axis], all[axis]);
            return usage(format!(
                "the box has {count} greys from {first} on the {name} axis, where there are {whole}"
            ));
        }
    }
    Ok((from, sizes))
}

/// The greys: a file that is read where it is needed, or bytes from a stream.
enum Raw {
    File(File),
    Bytes(Vec<u8>),
}

/// Longer streams are not held in memory.
const LONGEST: u64 = 4 << 30;

impl Raw {
    /// Opens a file, or takes what a stream has, as far as one byte more than is wanted; answers the length too.
    fn open(path: &Path, wanted: u64, streams: &mut Streams) -> io::Result<(Raw, u64)> {
        let most = LONGEST.min(wanted.saturating_add(1));
        let bytes = if files::is_stream(path) {
            files::read_front(&mut *streams.input, most)?
        } else {
            let file = File::open(path)?;
            let about = file.metadata()?;
            if about.is_file() {
                return Ok((Raw::File(file), about.len()));
            }
            files::read_front(file, most)?
        };
        let length = bytes.len() as u64;
        Ok((Raw::Bytes(bytes), length))
    }

    fn row(&self, at: u64, row: &mut [u8]) -> io::Result<()> {
        match self {
            Raw::File(file) => file.read_exact_at(row, at),
            Raw::Bytes(bytes) => {
                row.copy_from_slice(&bytes[at as usize..][..row.len()]);
                Ok(())
            }
        }
    }
}

fn run(given: &Given, streams: &mut Streams) -> Result<Ended, Failure> {
    let (from, to) = (given.name(0), given.name(1));
    let asked = Asked::of(given)?;
    files::apart(&[from], &[to])?;
    let Some(wanted) = asked.bytes() else { return usage("--sizes is larger than any file") };
    let (raw, length) = Raw::open(from, wanted, streams).map_err(|error| Failure::reading(from, &error))?;
    if length != wanted {
        return Err(Failure::File(misfit(&asked, from, wanted, length)));
    }
    let (volume, unnamed) = taken(&asked, &raw).map_err(|error| Failure::reading(from, &error))?;
    files::put(to, &volume.file(), given.has(&FORCE), streams)?;
    let air = volume.samples.iter().filter(|sample| **sample > 0).count();
    let filled = volume.samples.iter().filter(|sample| **sample == FILL).count();
    let [nx, ny, nz] = asked.sizes;
    let mut line = format!("{nx} {ny} {nz} samples, {air} of {} are air", volume.samples.len());
    if asked.fill.is_some() {
        line += &format!(", {filled} are fill");
    }
    files::answer(to, &line, streams)?;
    if unnamed > 0 {
        streams.say(&format!(
            "{unnamed} greys are {LEAST}, as scanners fill what they do not see; with --fill {LEAST} they are no samples"
        ));
    }
    if Cubes::of(&volume).and_then(|cubes| cubes.lowest_crossed()).is_none() {
        let (level, seen) = (asked.level, volume.samples.len() - filled);
        let why = match (air, filled) {
            (0, 0) => "all samples are solid".to_string(),
            (_, 0) => "all samples are air".to_string(),
            (_, _) if seen == 0 => "all samples are fill".to_string(),
            _ => format!("no cube without one of the {filled} samples of fill is crossed"),
        };
        let look = if filled == 0 { "" } else { ", and look at --fill" };
        streams.say(&format!("{why}: no surface is at level {level}; choose a level between the greys{look}"));
    }
    Ok(Ended::Well)
}

fn misfit(asked: &Asked, path: &Path, wanted: u64, length: u64) -> String {
    let [nx, ny, nz] = asked.all;
    let sizes = sizes_text(Sizes { nx, ny, nz });
    let head = format!("{sizes} greys of {} byte(s) make {wanted} bytes, {} holds", asked.grey.width(), shown(path));
    if length < wanted {
        let fewer = wanted - length;
        return format!("{head} {length}, {fewer} fewer: look at --sizes and --type, or copy the file again");
    }
    if files::is_stream(path) {
        return format!("{head} more: look at --sizes and --type, and cut a header off first");
    }
    let more = length - wanted;
    let cut = format!("tail -c +{} {} >NEW", more + 1, shown(path));
    format!("{head} {length}, {more} more: look at --sizes and --type; if that is a header, cut it off with '{cut}'")
}

/// The least grey of 16 bits, which scanners use as their fill.
const LEAST: i32 = -32_768;

/// The samples of the box; and how many greys are such that they look like a fill that was not named.
fn taken(asked: &Asked, raw: &Raw) -> io::Result<(Volume, usize)> {
    let ([all_x, all_y, _], [x, y, z], [nx, ny, nz]) = (asked.all, asked.from, asked.sizes);
    let width = asked.grey.width();
    let mut row = vec![0; nx * width];
    let mut samples = Vec::with_capacity(nx * ny * nz);
    let mut unnamed = 0;
    for z in z..z + nz {
        for y in y..y + ny {
            let first = x as u64 + all_x as u64 * (y as u64 + all_y as u64 * z as u64);
            raw.row(first * width as u64, &mut row)?;
            for grey in row.chunks_exact(width).map(|grey| asked.grey.value(grey, asked.big)) {
                let seen = (asked.level - grey).clamp(-32_767, 32_767) as i16;
                samples.push(if asked.fill == Some(grey) { FILL } else { seen });
                unnamed += usize::from(asked.fill.is_none() && grey == LEAST);
            }
        }
    }
    Ok((Volume { sizes: Sizes { nx, ny, nz }, samples, bytes: 0 }, unnamed))
}
