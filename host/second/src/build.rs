//! Building into lent slices.

use crate::lattice::{Lattice, Point};
use crate::sheet::{Rule, Sheet};

/// Where a sheet starts (document 02 (iv)).
#[derive(Clone, Copy, Debug, PartialEq, Eq)]
pub enum Start {
    /// None is named: the lowest crossed cube with none of its six faces in the lattice's bounds.
    Unnamed,
    /// The lowest crossed cube, by name.
    Lowest,
    Cube([usize; 3]),
}

/// What a build or a check is asked about.
#[derive(Clone, Copy)]
pub struct Volume<'a> {
    pub sizes: [usize; 3],
    pub start: Start,
    pub samples: &'a [i16],
}

/// The lent work room.
pub struct Work<'a> {
    pub words: &'a mut [u16],
    pub waiting: &'a mut [u32],
    pub slots: &'a mut [u32],
}

impl Work<'_> {
    pub(crate) fn long_enough(&self, lattice: &Lattice) -> bool {
        let cubes = lattice.cube_count();
        let samples: usize = lattice.sizes().iter().product();
        self.words.len() >= cubes && self.waiting.len() >= cubes && self.slots.len() >= 7 * samples
    }

    /// What a call that worked leaves: the needed fronts all 0.
    pub(crate) fn clear(&mut self, lattice: &Lattice) {
        let cubes = lattice.cube_count();
        let samples: usize = lattice.sizes().iter().product();
        self.words[..cubes].fill(0);
        self.waiting[..cubes].fill(0);
        self.slots[..7 * samples].fill(0);
    }
}

#[derive(Clone, Copy, Debug, PartialEq, Eq)]
pub struct Built {
    pub number: usize,
    pub vertices: usize,
    pub triangles: usize,
    pub cubes: usize,
}

/// Tests 1 to 5: the lattice and its start cube.
pub(crate) fn begin<'a>(volume: Volume<'a>, work: &Work) -> Result<(Lattice<'a>, Point), usize> {
    let lattice = Lattice::new(volume.sizes, volume.samples)?;
    if !work.long_enough(&lattice) {
        return Err(3);
    }
    let start = match volume.start {
        Start::Cube(named) => {
            let [x, y, z] = named.map(|v| i64::try_from(v).unwrap_or(i64::MAX));
            let cube = Point { x, y, z };
            if !lattice.is_cube(cube) {
                return Err(4);
            }
            Some(cube).filter(|cube| lattice.crossed(*cube))
        }
        Start::Lowest => lattice.cubes().find(|cube| lattice.crossed(*cube)),
        Start::Unnamed => lattice.cubes().find(|cube| lattice.crossed(*cube) && lattice.inside(*cube)),
    };
    start.map(|cube| (lattice, cube)).ok_or(5)
}

pub fn build(volume: Volume, vertices: &mut [i32], triangles: &mut [u32], work: &mut Work) -> Built {
    build_under(Rule::Nearest, volume, vertices, triangles, work)
}

/// The same under a rule: what the archive holds was built under document 01's.
pub fn build_under(rule: Rule, volume: Volume, vertices: &mut [i32], triangles: &mut [u32], work: &mut Work) -> Built {
    let (lattice, start) = match begin(volume, work) {
        Ok(begun) => begun,
        Err(number) => return Built { number, vertices: 0, triangles: 0, cubes: 0 },
    };
    let sheet = Sheet::of(rule, &lattice, start);
    work.clear(&lattice);
    let number = if sheet.vertices.len() > vertices.len() / 4 {
        6
    } else if sheet.triangles.len() > triangles.len() / 3 {
        7
    } else {
        0
    };
    if number == 0 {
        overwrite(vertices, &sheet.records(&lattice).concat());
        overwrite(triangles, &sheet.indexed().concat());
    }
    Built { number, vertices: sheet.vertices.len(), triangles: sheet.triangles.len(), cubes: sheet.visited.len() }
}

/// Puts the new values at the front of a slice that has room for them.
pub(crate) fn overwrite<T: Copy>(slice: &mut [T], new: &[T]) {
    slice[..new.len()].copy_from_slice(new);
}
