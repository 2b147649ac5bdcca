//! A refusal in a sentence that names the files and their values, and says what to do.

use crate::abi::{Level, Place, Sizes, Verdict};
use crate::cubes::Cubes;
use crate::failure::shown;
use crate::files;
use crate::floats::{self, Floats};
use crate::numbers::{self, Of};
use crate::pieces;
use crate::room::{self, Room};
use crate::sheet::Sheet;
use crate::stl::{self, Corners};
use crate::volume::{self, Volume, FILL};
use std::fmt::Display;
use std::path::Path;

/// What was refused.
#[derive(Clone, Copy, Default)]
pub struct About<'a> {
    pub volume: Option<(&'a Path, &'a Volume)>,
    pub sheet: Option<(&'a Path, &'a [u8])>,
    pub stl: Option<(&'a Path, &'a [u8])>,
    /// A volume in f32, the level and the scale.
    pub floats: Option<(&'a Path, &'a Floats, Level, u32)>,
    pub start: Option<Place>,
    /// Whether the pieces of the volume were sought.
    pub pieces: bool,
}

impl About<'_> {
    fn of(&self) -> Of {
        match (self.stl, self.floats, self.pieces) {
            (Some(_), ..) => Of::Stl,
            (None, Some(_), _) => Of::Floats,
            (None, None, true) => Of::Pieces,
            (None, None, false) => Of::Sheet,
        }
    }
}

pub fn sizes_text(sizes: Sizes) -> String {
    format!("{} x {} x {}", sizes.nx, sizes.ny, sizes.nz)
}

pub fn place_text(place: Place) -> String {
    format!("{},{},{}", place.x, place.y, place.z)
}

/// The trailer of a sheet file, whatever it says.
struct Trailer {
    vertices: u64,
    triangles: u64,
    sizes: Sizes,
    mark: u16,
}

fn trailer(bytes: &[u8]) -> Option<Trailer> {
    let end = bytes.get(bytes.len().checked_sub(24)?..)?;
    let word = |at: usize| u64::from(u32::from_le_bytes([end[at], end[at + 1], end[at + 2], end[at + 3]]));
    let half = |at: usize| u16::from_le_bytes([end[at], end[at + 1]]);
    let axis = |at: usize| usize::from(half(at));
    let sizes = Sizes { nx: axis(16), ny: axis(18), nz: axis(20) };
    Some(Trailer { vertices: word(4), triangles: word(12), sizes, mark: half(22) })
}

/// The refusal in full: number, what was found, what to do.
pub fn sentence(verdict: Verdict, about: &About) -> String {
    let remedy = numbers::number(verdict.number).map_or("", |row| row.words(about.of()).remedy);
    format!("refused {}: {}. {remedy}", verdict.number, found(verdict, about)).trim_end().to_string()
}

/// What was found, by names and values where they are known.
pub fn found(verdict: Verdict, about: &About) -> String {
    let Verdict { number, place } = verdict;
    values(verdict, about).unwrap_or_else(|| match numbers::number(number).and_then(|row| row.place) {
        Some(counts) => format!("{} (the first is {counts} {place}, counted from 0)", numbers::meaning(number)),
        None => numbers::meaning(number).to_string(),
    })
}

/// The values behind a refusal.
fn values(Verdict { number, place }: Verdict, about: &About) -> Option<String> {
    if let Some((path, floats, level, scale)) = about.floats {
        return of_floats(Verdict { number, place }, path, floats, level, scale);
    }
    match number {
        1 => axes(about),
        2 => about.volume.map(|(path, volume)| samples(path, volume)),
        4 => {
            let (path, volume) = about.volume?;
            let (Sizes { nx, ny, nz }, start) = (volume.sizes, place_text(about.start?));
            let (sizes, last) = (sizes_text(volume.sizes), place_text(Place { x: nx - 2, y: ny - 2, z: nz - 2 }));
            Some(format!(
                "start {start} is no cube of {}, whose {sizes} samples have cubes 0,0,0 to {last}",
                shown(path)
            ))
        }
        5 => about.volume.and_then(|(path, volume)| not_crossed(path, volume, about.start)),
        14 if about.stl.is_some() => about.stl.map(|(path, bytes)| stl_length(path, bytes)),
        15 => about.sheet.and_then(|(path, bytes)| stray(place, path, bytes)),
        11..=16 => about.sheet.and_then(|(path, bytes)| layout(number, path, bytes, about)),
        17 | 18 => about.sheet.and_then(|(path, bytes)| record(number, place, path, bytes, about.volume)),
        19 => {
            let (path, bytes) = about.sheet?;
            let Trailer { vertices, triangles, .. } = trailer(bytes)?;
            let what = numbers::meaning(19).replace("the sheet file", &shown(path));
            Some(format!("{what}, which holds {vertices} vertices and {triangles} triangles, all of them right"))
        }
        25 => coordinates(place, about),
        _ => None,
    }
}

fn axes(about: &About) -> Option<String> {
    let of =
        |path: &Path, sizes: Sizes| format!("{} says {} samples, an axis has 2 to 64", shown(path), sizes_text(sizes));
    match (about.volume, about.sheet) {
        (Some((path, volume)), _) if volume.bytes < 6 => {
            Some(format!("{} has {} bytes, a volume begins with three sizes in 6", shown(path), volume.bytes))
        }
        (Some((path, volume)), _) if !room::fits(volume.sizes) => Some(of(path, volume.sizes)),
        (_, Some((path, bytes))) => trailer(bytes).map(|trailer| of(path, trailer.sizes)),
        _ => None,
    }
}

fn samples(path: &Path, volume: &Volume) -> String {
    let (wanted, body) = (room::samples(volume.sizes), volume.bytes - 6);
    let held = match volume.bytes as u64 {
        volume::ENOUGH => format!("more than {}", body / 2),
        _ if body % 2 == 1 => format!("{} and half of one", body / 2),
        _ => (body / 2).to_string(),
    };
    format!("{} asks for {wanted} samples, {} holds {held}", sizes_text(volume.sizes), shown(path))
}

/// Refusal 5: what is at the start's corners, or whether no cube is crossed or only cubes at the bounds are.
fn not_crossed(path: &Path, volume: &Volume, start: Option<Place>) -> Option<String> {
    let cubes = Cubes::of(volume)?;
    let name = shown(path);
    let starts = pieces::find(volume, &mut Room::default()).unwrap_or_default();
    Some(match start {
        Some(start) => {
            let (cube, corners) = (place_text(start), cubes.corners(start));
            let why = match corners.iter().filter(|corner| **corner == FILL).count() {
                0 => {
                    let side = if corners[0] > 0 { "air" } else { "solid" };
                    format!("all eight corners of cube {cube} of {name} are {side}")
                }
                count => format!(
                    "cube {cube} of {name} holds the scanner's fill: {count} of its eight corners are -32768, which is no \
                     sample, and such a cube is never visited"
                ),
            };
            format!("{why}; {}", there(&starts))
        }
        None => match starts.first() {
            Some(&lowest) => {
                let free = if volume.samples.contains(&FILL) { " and that is free of the scanner's fill" } else { "" };
                format!(
                    "each cube of {name} that a surface crosses{free} has a face in the volume's bounds, and where no start is \
                     named such a cube is not taken; the lowest of them is {}, which --start lowest takes",
                    place_text(lowest)
                )
            }
            None => format!("no surface is in {name}: {}", nowhere(volume)),
        },
    })
}

/// Starts that are named in a sentence.
const NAMED: usize = 3;

/// The surfaces that there are, by their starts.
fn there(starts: &[Place]) -> String {
    let named: Vec<String> = starts.iter().take(NAMED).map(|start| place_text(*start)).collect();
    match (starts.len(), named.as_slice()) {
        (0, _) => "no surface is in the volume".to_string(),
        (1, _) => format!("the one surface there is starts at {}", named[0]),
        (count, [first @ .., last]) if count <= NAMED => {
            format!("its {count} surfaces start at {} and {last}", first.join(", "))
        }
        (count, _) => format!("its {count} surfaces start at {} and so on", named.join(", ")),
    }
}

/// Why no cube of a volume is crossed.
fn nowhere(volume: &Volume) -> String {
    let Some((least, greatest)) = volume.range() else {
        return "all its samples are -32768, the scanner's fill".to_string();
    };
    let filled = volume.samples.len() - volume.seen().count();
    let range = format!("its samples are {least} to {greatest}");
    match (least > 0, greatest > 0, filled) {
        (true, _, 0) => format!("{range}, all air"),
        (_, false, 0) => format!("{range}, all solid"),
        (true, ..) => format!("{range}, all air, beside {filled} of -32768, the scanner's fill"),
        (_, false, _) => format!("{range}, all solid, beside {filled} of -32768, the scanner's fill"),
        _ => format!(
            "{range}, but no cube free of the scanner's fill is crossed: {filled} samples are -32768, and a cube with such \
             a corner is never visited"
        ),
    }
}

fn layout(number: usize, path: &Path, bytes: &[u8], about: &About) -> Option<String> {
    let (name, length) = (shown(path), bytes.len() as u64);
    if number == 11 {
        return Some(format!("{name} has {length} bytes, a sheet file has 24 at least"));
    }
    let Trailer { vertices, triangles, sizes, mark } = trailer(bytes)?;
    match number {
        12 => Some(format!("{name} ends in {mark}, a sheet file in the mark 21331")),
        14 => {
            let wanted = 16 * vertices + 12 * triangles + 24;
            let many = vertices > 2_000_000 || triangles > 4_000_000;
            let limits = if many { ", more than a sheet file may hold" } else { "" };
            let counts = format!("{vertices} vertices and {triangles} triangles{limits}");
            // of a file that is too long the end alone was read
            let has = if bytes.len() == files::END { "another length".to_string() } else { length.to_string() };
            Some(format!("{name} says {counts}, which makes {wanted} bytes by document 01; it has {has}"))
        }
        16 => {
            let (of, volume) = about.volume?;
            let (own, other) = (sizes_text(sizes), sizes_text(volume.sizes));
            Some(format!("{name} is a sheet of {own} samples, {} has {other}", shown(of)))
        }
        _ => None,
    }
}

/// Refusal 15: the index that is too large.
fn stray(place: usize, path: &Path, bytes: &[u8]) -> Option<String> {
    let vertices = trailer(bytes)?.vertices;
    let at = 16 * usize::try_from(vertices).ok()? + 12 * place;
    let index = |k: usize| {
        bytes.get(at + 4 * k..at + 4 * k + 4).map(|word| u32::from_le_bytes([word[0], word[1], word[2], word[3]]))
    };
    let large = [index(0)?, index(1)?, index(2)?].into_iter().find(|&index| u64::from(index) >= vertices)?;
    let name = shown(path);
    Some(format!("triangle {place} of {name}, counted from 0, names vertex {large}, where there are {vertices}"))
}

/// Refusals 17 and 18: the record or triangle that is wrong.
fn record(number: usize, place: usize, path: &Path, bytes: &[u8], volume: Option<(&Path, &Volume)>) -> Option<String> {
    let sheet = Sheet::read(bytes).ok()?;
    let what = numbers::meaning(number).replace("the sheet file", &shown(path));
    let found = match number {
        17 => {
            let [edge, x, y, z] = sheet.record(place.try_into().ok()?);
            let filled = volume.and_then(|(_, volume)| Cubes::of(volume)).is_some_and(|cubes| cubes.ends_at_fill(edge));
            let fill = if filled { ", and that edge ends at the scanner's fill" } else { "" };
            format!("vertex record {place}, counted from 0, says edge {edge} at {x} {y} {z}{fill}")
        }
        _ => {
            let [a, b, c] = sheet.corners().nth(place)?;
            let [e, f, g] = sheet.by_edges().nth(place)?;
            format!("triangle {place}, counted from 0, joins vertices {a} {b} {c}, on edges {e} {f} {g}")
        }
    };
    Some(format!("{what}: {found}"))
}

/// Refusal 14 of an STL file: its length beside what it says.
fn stl_length(path: &Path, bytes: &[u8]) -> String {
    let (name, has) = (shown(path), bytes.len() as u64);
    let Some(count) = stl::said_count(bytes) else {
        return format!("{name} has {has} bytes, a binary STL file has {} at least", stl::HEAD);
    };
    let wanted = stl::length(count);
    // of a file that is too long no more was read
    let has = if has > wanted { "more".to_string() } else { has.to_string() };
    format!("{name} says {count} facets, which makes {wanted} bytes; it has {has}")
}

/// Refusal 25: the corners of the facet, or of the sheet's triangle.
fn coordinates(place: usize, about: &About) -> Option<String> {
    let (what, path, corners) = match (about.stl, about.sheet) {
        (Some((path, bytes)), _) => ("facet", path, corners_text(stl::floats(bytes, place)?)),
        (None, Some((path, bytes))) => {
            let sheet = Sheet::read(bytes).ok()?;
            let triangle = sheet.corners().nth(place)?;
            ("triangle", path, corners_text(stl::triangle(&sheet, triangle)))
        }
        (None, None) => return None,
    };
    let rule = match what {
        "facet" => "not all of these are coordinates from 0 to 4128768, divided by 65536",
        _ => "not all of these are from 0 to 4128768",
    };
    Some(format!("{what} {place} of {}, counted from 0, has corners {corners}; {rule}", shown(path)))
}

fn corners_text<T: Display>(corners: Corners<T>) -> String {
    corners.map(|[x, y, z]| format!("({x} {y} {z})")).join(" ")
}

/// A refusal of a volume in f32, or of the level and the scale that it was given.
fn of_floats(
    Verdict { number, place }: Verdict,
    path: &Path,
    floats: &Floats,
    level: Level,
    scale: u32,
) -> Option<String> {
    let (name, sizes) = (shown(path), sizes_text(floats.sizes));
    match number {
        1 if floats.headed && floats.bytes < 6 => {
            Some(format!("{name} has {} bytes, a volume in floats begins with three sizes in 6", floats.bytes))
        }
        1 if floats.headed => Some(format!("{name} says {sizes} samples, an axis has 2 to 64")),
        1 => Some(format!("--sizes says {sizes} samples, an axis has 2 to 64")),
        2 => {
            let wanted = 4 * room::samples(floats.sizes);
            let held = match floats.bytes as u64 {
                floats::ENOUGH => "more".to_string(),
                _ => floats.body().to_string(),
            };
            Some(format!("{sizes} voxels have {wanted} bytes, {name} holds {held}"))
        }
        21 => {
            let greys = match level {
                Level::Fixed(grey) => vec![("the level", grey)],
                Level::Halfway { air, material } => vec![("the grey of air", air), ("the grey of material", material)],
            };
            // NaN is not within anything
            let wrong = greys.into_iter().find(|(_, grey)| !(-65_536.0..=65_536.0).contains(grey));
            let (what, value) = match wrong {
                Some((what, grey)) => (what.to_string(), grey),
                None => (format!("voxel {place} of {name}, counted from 0,"), *floats.voxels.get(place)?),
            };
            Some(format!("{what} is {value}, a grey is a number from -65536 to 65536"))
        }
        22 => match level {
            Level::Halfway { air, material } => {
                Some(format!("the grey of air, {air}, is not below that of material, {material}"))
            }
            Level::Fixed(_) => None,
        },
        26 => Some(format!("the scale is {scale}, it is a power of two from 1 to 256")),
        _ => None,
    }
}
