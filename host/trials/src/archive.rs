//! An archive as a bench has one: scans with several surfaces each, sound sheets from many starts and in many orders, and
//! wrong ones of every kind that the trade has seen. Every other scan has a ring of fill. The sheets are the second mesher's.

use crate::cases::{content, Case};
use crate::damage;
use crate::fill::{self, FILL};
use crate::random::Random;
use second::{serialize, Content, Lattice, Start};
use std::io;
use std::path::Path;

/// What is the matter with a sheet.
#[derive(Clone, Copy, Debug, PartialEq, Eq)]
pub enum Kind {
    Sound,
    /// Its vertices were sorted by position, and its triangles not renumbered.
    Sorted,
    /// Two corners of every triangle have traded places.
    Mirrored,
    /// A triangle is left out.
    Missing,
    /// A coordinate is one unit off.
    Moved,
    /// A triangle is there twice.
    Doubled,
    /// The file ends early.
    Cut,
    /// It is the sheet of another scan of the same sizes.
    Strange,
    /// There is no such file.
    Gone,
}

/// An archived sheet: the scan it belongs to, its file's name, the cube it was built from, and what is the matter.
pub struct Archived {
    pub volume: String,
    pub sheet: String,
    pub start: [usize; 3],
    pub kind: Kind,
}

/// Bubbles of air in solid, on a small lattice, perhaps in a ring of fill.
fn scan(random: &mut Random, ring: bool) -> Case {
    let sizes = [(); 3].map(|_| 12 + random.below(5));
    let bubbles: Vec<([f64; 3], f64)> =
        (0..6).map(|_| (sizes.map(|axis| random.unit() * axis as f64), 1.2 + random.unit() * 1.8)).collect();
    let [nx, ny, nz] = sizes;
    let depth = |n: usize| {
        let at = [n % nx, n / nx % ny, n / nx / ny].map(|v| v as f64);
        let far = |from: &[f64; 3]| (0..3).map(|i| (at[i] - from[i]).powi(2)).sum::<f64>().sqrt();
        bubbles.iter().map(|(centre, radius)| radius - far(centre)).fold(f64::NEG_INFINITY, f64::max)
    };
    let samples = (0..nx * ny * nz).map(|n| (2000.0 * depth(n).max(-8.0) + 60.0 * random.unit()) as i16).collect();
    let mut scan = Case { sizes, start: Start::Lowest, samples };
    if ring {
        fill::ring(&mut scan, 2, 6.2);
    }
    scan
}

/// A cube that a surface passes through.
fn crossed(random: &mut Random, case: &Case) -> [usize; 3] {
    let lattice = Lattice::new(case.sizes, &case.samples).expect("sizes and samples fit");
    let cubes: Vec<[i64; 3]> = lattice.cubes().filter(|cube| lattice.crossed(*cube)).map(|c| [c.x, c.y, c.z]).collect();
    random.pick(&cubes).map(|v| v as usize)
}

/// The records by position, as a mesher sorts them that forgets its triangles.
pub fn sort(content: &mut Content) {
    content.records.sort_by_key(|[_, x, y, z]| [*z, *y, *x]);
}

fn spoil(random: &mut Random, content: &mut Content, kind: Kind) {
    let (record, triangle) = (random.below(content.records.len()), random.below(content.triangles.len()));
    match kind {
        Kind::Sorted => sort(content),
        Kind::Mirrored => content.triangles.iter_mut().for_each(|triangle| triangle.swap(1, 2)),
        Kind::Missing => drop(content.triangles.remove(triangle)),
        Kind::Moved => content.records[record][1 + random.below(3)] += 1,
        Kind::Doubled => content.triangles.push(content.triangles[triangle]),
        Kind::Sound | Kind::Cut | Kind::Strange | Kind::Gone => {}
    }
}

/// Of 240 sheets 206 are sound, 33 are wrong and one is gone.
pub const KINDS: [(Kind, usize); 9] = [
    (Kind::Sound, 206),
    (Kind::Sorted, 20),
    (Kind::Mirrored, 3),
    (Kind::Missing, 3),
    (Kind::Moved, 3),
    (Kind::Doubled, 2),
    (Kind::Cut, 1),
    (Kind::Strange, 1),
    (Kind::Gone, 1),
];

/// The kinds of an archive, in a random order.
pub fn kinds(random: &mut Random) -> Vec<Kind> {
    let mut kinds: Vec<Kind> = KINDS.iter().flat_map(|(kind, count)| vec![*kind; *count]).collect();
    random.shuffle(&mut kinds);
    kinds
}

/// The sheet that an archive has of a scan from a start, and that start.
fn sheet(random: &mut Random, scan: &Case, kind: Kind) -> (Content, [usize; 3]) {
    loop {
        let start = crossed(random, scan);
        let mut case = Case { start: Start::Cube(start), ..scan.clone() };
        if kind == Kind::Strange {
            let seen = case.samples.iter_mut().filter(|sample| **sample != FILL);
            seen.for_each(|sample| *sample = sample.saturating_add(90));
        }
        let sheet = content(&case);
        // the start may not be crossed in the other scan; and a small sheet may be sorted by position as it is
        if let Some(sheet) = sheet {
            let mut sorted = sheet.clone();
            sort(&mut sorted);
            if kind != Kind::Sorted || sorted != sheet {
                return (sheet, start);
            }
        }
    }
}

/// Writes scans of twenty sheets each, and the sheets; answers what is there.
pub fn write(folder: &Path, random: &mut Random, kinds: &[Kind]) -> io::Result<Vec<Archived>> {
    let mut archived = Vec::new();
    for (tray, kinds) in kinds.chunks(20).enumerate() {
        let scan = scan(random, tray % 2 == 1);
        let volume = format!("tray-{tray}.vol");
        std::fs::write(folder.join(&volume), scan.file())?;
        for (number, &kind) in kinds.iter().enumerate() {
            let (mut content, start) = sheet(random, &scan, kind);
            if random.once_in(2) && kind != Kind::Sorted {
                damage::shuffle(random, &mut content);
            }
            spoil(random, &mut content, kind);
            let mut bytes = serialize(&content);
            if kind == Kind::Cut {
                bytes.truncate(bytes.len() / 2);
            }
            let name = format!("tray-{tray}-{number}.sheet");
            if kind != Kind::Gone {
                std::fs::write(folder.join(&name), bytes)?;
            }
            archived.push(Archived { volume: volume.clone(), sheet: name, start, kind });
        }
    }
    Ok(archived)
}

/// A manifest without starts.
pub fn manifest(archived: &[Archived]) -> String {
    archived.iter().map(|sheet| format!("{} {}\n", sheet.volume, sheet.sheet)).collect()
}
