use crate::abi::Sizes;
use crate::args::Given;
use crate::command::Command;
use crate::cubes::Cubes;
use crate::explain::{place_text, sizes_text, About};
use crate::failure::Failure;
use crate::files;
use crate::refuse::refuse;
use crate::room;
use crate::streams::{Ended, Streams};
use crate::volume::{Volume, ENOUGH, FILL};

pub static COMMAND: Command = Command {
    name: "info",
    brief: "say what a volume holds, and what looks wrong with it",
    names: &["VOLUME"],
    options: &[],
    text: "\
Prints a line for each of: sizes; least and greatest sample; samples of air; zeros; samples of -32768, the scanner's fill; \
crossed cubes; surfaces; and for each surface, by its lowest cube and up to 100 of them, its start and how many cubes it passes \
through. The fill is no sample: least, greatest and shares leave it out, and a cube with such a corner counts as not crossed.

Hints on standard error say what looks like a wrong sign, a wrong byte order, a header, or greys that are no samples yet, and \
how much is fill. A volume that cannot be meshed prints 'refused N'.",
    run,
};

/// Surfaces that are listed.
const LISTED: usize = 100;

fn run(given: &Given, streams: &mut Streams) -> Result<Ended, Failure> {
    let path = given.name(0);
    let bytes = files::read_named(path, ENOUGH, streams).map_err(|error| Failure::reading(path, &error))?;
    let volume = Volume::parse(&bytes);
    let Some(cubes) = Cubes::of(&volume) else {
        let number = if room::fits(volume.sizes) { 2 } else { 1 };
        let ended = refuse(number, &About { volume: Some((path, &volume)), ..About::default() }, streams);
        header_hints(&bytes).iter().for_each(|hint| streams.say(hint));
        return ended;
    };
    let pieces = cubes.pieces();
    let facts = Facts::of(&volume);
    let Sizes { nx, ny, nz } = volume.sizes;
    streams.print(format_args!("sizes {nx} {ny} {nz}"))?;
    let range = facts.range.map_or("all fill".to_string(), |(least, greatest)| format!("{least} to {greatest}"));
    streams.print(format_args!("samples {}, {range}", volume.samples.len()))?;
    streams.print(format_args!("air {} ({})", facts.air, percent(facts.air, facts.seen)))?;
    streams.print(format_args!("zeros {}", facts.zeros))?;
    streams.print(format_args!("fill {} (of -32768)", facts.fill))?;
    let crossed: usize = pieces.iter().map(|piece| piece.cubes).sum();
    streams.print(format_args!("crossed cubes {crossed} of {}", cubes.count()))?;
    streams.print(format_args!("surfaces {}", pieces.len()))?;
    for piece in pieces.iter().take(LISTED) {
        streams.print(format_args!("start {} passes through {} cubes", place_text(piece.start), piece.cubes))?;
    }
    streams.flush()?;
    facts.hints(&cubes, &volume).iter().for_each(|hint| streams.say(hint));
    Ok(Ended::Well)
}

fn percent(part: usize, whole: usize) -> String {
    format!("{:.1} %", 100.0 * part as f64 / whole.max(1) as f64)
}

/// Counts over the samples. Those that are not the fill are seen.
struct Facts {
    /// The least and the greatest that is seen.
    range: Option<(i16, i16)>,
    seen: usize,
    air: usize,
    zeros: usize,
    fill: usize,
}

impl Facts {
    fn of(volume: &Volume) -> Facts {
        let count = |wanted: fn(&i16) -> bool| volume.samples.iter().filter(|sample| wanted(sample)).count();
        let fill = count(|sample| *sample == FILL);
        Facts {
            range: volume.range(),
            seen: volume.samples.len() - fill,
            air: count(|sample| *sample > 0),
            zeros: count(|sample| *sample == 0),
            fill,
        }
    }

    fn hints(&self, cubes: &Cubes, volume: &Volume) -> Vec<String> {
        let mut hints = Vec::new();
        let Some((least, _)) = self.range else {
            return vec!["hint: all samples are -32768, the scanner's fill: it has seen nothing".to_string()];
        };
        if least >= 0 {
            hints.push(
                "hint: no sample is below 0, as if these were greys: a sample is the level minus the grey; \
                 'malxuqeed from-raw' makes them"
                    .to_string(),
            );
        } else if self.air == 0 {
            hints.push("hint: no sample is air: the level is below all greys, or the sign is turned".to_string());
        }
        let (rim, rim_air) = rim(volume);
        if self.air > 0 && 10 * rim_air < rim && 5 * self.air > self.seen {
            let solid = percent(rim - rim_air, rim);
            hints.push(format!(
                "hint: {solid} of the outermost samples are solid while much of the inside is air: if air surrounds the part, the \
                 sign is turned (a sample is the level minus the grey)"
            ));
        }
        let swapped =
            Volume { samples: volume.samples.iter().map(|sample| sample.swap_bytes()).collect(), ..volume.clone() };
        if 4.0 * roughness(&swapped) < roughness(volume) {
            hints.push(
                "hint: the samples are far smoother with their bytes swapped: they are probably big-endian; \
                 'malxuqeed from-raw --big-endian' turns them"
                    .to_string(),
            );
        }
        if self.fill > 0 {
            let (part, filled) = (percent(self.fill, volume.samples.len()), cubes.filled());
            hints.push(format!(
                "hint: {part} of the samples are -32768, the scanner's fill; it is no sample: the {filled} cubes that hold it are \
                 never visited, and a sheet ends there"
            ));
        }
        if 100 * self.zeros > self.seen {
            let part = percent(self.zeros, self.seen);
            hints.push(format!(
                "hint: {part} of the samples are 0: 0 is solid, and vertices beside it fall on one point"
            ));
        }
        hints
    }
}

/// How many samples that are seen lie in an outer face of the lattice, and how many of those are air.
fn rim(volume: &Volume) -> (usize, usize) {
    let Sizes { nx, ny, nz } = volume.sizes;
    let outer = |n: &usize| {
        let [x, y, z] = [n % nx, n / nx % ny, n / nx / ny];
        x == 0 || y == 0 || z == 0 || x == nx - 1 || y == ny - 1 || z == nz - 1
    };
    let rim: Vec<i16> = (0..volume.samples.len()).filter(outer).map(|n| volume.samples[n]).collect();
    let count = |wanted: fn(&i16) -> bool| rim.iter().filter(|sample| wanted(sample)).count();
    (count(|sample| *sample != FILL), count(|sample| *sample > 0))
}

/// The mean step between neighbours on the x axis that are both seen.
fn roughness(volume: &Volume) -> f64 {
    let rows = volume.samples.chunks_exact(volume.sizes.nx);
    let pairs = rows.flat_map(|row| row.windows(2)).filter(|pair| !pair.contains(&FILL));
    let steps: Vec<f64> = pairs.map(|pair| (f64::from(pair[0]) - f64::from(pair[1])).abs()).collect();
    steps.iter().sum::<f64>() / steps.len().max(1) as f64
}

/// What a file that is no volume might be.
fn header_hints(bytes: &[u8]) -> Vec<String> {
    let mut hints = Vec::new();
    let length = bytes.len();
    if length as u64 == ENOUGH {
        hints.push(
            "hint: it is longer than any volume; a larger scan is cut with 'malxuqeed from-raw --box'".to_string(),
        );
        return hints;
    }
    if let Some(head) = bytes.get(..6) {
        let axis = |at: usize| usize::from(u16::from_be_bytes([head[at], head[at + 1]]));
        let turned = Sizes { nx: axis(0), ny: axis(2), nz: axis(4) };
        if room::fits(turned) && length == 6 + 2 * room::samples(turned) {
            let sizes = sizes_text(turned);
            hints.push(format!("hint: read as big-endian it is a volume of {sizes} samples: the byte order is turned"));
        }
    }
    for (width, kind) in [(1, "u8"), (2, "u16 or i16")] {
        if let Some(axis) = (2..=64).find(|axis| axis * axis * axis * width == length) {
            hints.push(format!(
                "hint: its length is that of {axis} x {axis} x {axis} greys of {kind} without a header; 'malxuqeed from-raw' takes such"
            ));
        }
    }
    hints
}
