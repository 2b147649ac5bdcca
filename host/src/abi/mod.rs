//! The boundary to the proved library: its functions, over slices.
//!
//! The numbers and structs are those of the crate `cabi`; the library itself tests every argument, so these
//! wrappers add nothing but the slices' lengths. A library compiled for this processor is called directly; one
//! for another processor is called in a process of its own under an emulator (see `build.rs`).

#[cfg(not(emulated))]
mod direct;
#[cfg(emulated)]
mod emulated;

#[cfg(not(emulated))]
use direct as library;
#[cfg(emulated)]
use emulated as library;

/// Whether the library runs under an emulator, where times say nothing.
pub const EMULATED: bool = cfg!(emulated);

/// Whether the library is the one compiled for this processor (`library.sh --own`).
pub const OWN: bool = cfg!(feature = "own");

#[repr(C)]
#[derive(Clone, Copy, Debug, Default, PartialEq, Eq)]
pub struct Sizes {
    pub nx: usize,
    pub ny: usize,
    pub nz: usize,
}

#[repr(C)]
#[derive(Clone, Copy, Debug, Default, PartialEq, Eq)]
pub struct Place {
    pub x: usize,
    pub y: usize,
    pub z: usize,
}

#[repr(C)]
#[derive(Clone, Copy, Debug, Default, PartialEq, Eq)]
pub struct Built {
    pub number: usize,
    pub vertices: usize,
    pub triangles: usize,
    pub cubes: usize,
}

#[repr(C)]
#[derive(Clone, Copy, Debug, Default, PartialEq, Eq)]
pub struct Wrote {
    pub number: usize,
    pub place: usize,
    pub bytes: usize,
}

#[repr(C)]
#[derive(Clone, Copy, Debug, Default, PartialEq, Eq)]
pub struct Got {
    pub number: usize,
    pub place: usize,
    pub vertices: usize,
    pub triangles: usize,
    pub sizes: Sizes,
}

#[repr(C)]
#[derive(Clone, Copy, Debug, Default, PartialEq, Eq)]
pub struct Verdict {
    pub number: usize,
    pub place: usize,
}

#[repr(C)]
#[derive(Clone, Copy, Debug, Default, PartialEq, Eq)]
pub struct Loaded {
    pub number: usize,
    pub place: usize,
    pub facets: usize,
}

/// Of a search for pieces (document 02 (v)).
#[repr(C)]
#[derive(Clone, Copy, Debug, Default, PartialEq, Eq)]
pub struct Found {
    pub number: usize,
    pub pieces: usize,
}

/// Where a sheet starts (document 02 (iv)).
#[derive(Clone, Copy, Debug, Default, PartialEq, Eq)]
pub enum Start {
    /// None is named: the lowest crossed cube with none of its six faces in the lattice's bounds.
    #[default]
    Unnamed,
    /// The lowest crossed cube, by name.
    Lowest,
    Cube(Place),
}

impl Start {
    /// As the library takes it: the number that tells the case, and the place of a cube.
    fn told(self) -> (u32, Place) {
        match self {
            Start::Unnamed => (0, Place::default()),
            Start::Lowest => (1, Place::default()),
            Start::Cube(place) => (2, place),
        }
    }
}

/// How t is rounded (document 02 (vi)).
#[derive(Clone, Copy, Debug, Default, PartialEq, Eq)]
pub enum Rule {
    /// Down, as document 01 has it.
    Down,
    /// To the nearest unit, which a build makes.
    #[default]
    Nearest,
}

impl Rule {
    pub const BOTH: [Rule; 2] = [Rule::Down, Rule::Nearest];

    /// As the library takes it.
    fn told(self) -> u32 {
        match self {
            Rule::Down => 0,
            Rule::Nearest => 1,
        }
    }

    pub fn other(self) -> Rule {
        match self {
            Rule::Down => Rule::Nearest,
            Rule::Nearest => Rule::Down,
        }
    }

    /// As a command line and a report name it.
    pub fn name(self) -> &'static str {
        match self {
            Rule::Down => "down",
            Rule::Nearest => "nearest",
        }
    }
}

/// A lattice as a caller gives it: sizes, a start and samples. Nothing is assumed of them.
#[derive(Clone, Copy, Debug)]
pub struct Lattice<'a> {
    pub sizes: Sizes,
    pub start: Start,
    pub samples: &'a [i16],
}

/// How the level of a volume in f32 is given: a grey, or halfway between that of air and that of material.
#[derive(Clone, Copy, Debug, PartialEq)]
pub enum Level {
    Fixed(f32),
    Halfway { air: f32, material: f32 },
}

impl Level {
    /// As the boundary takes it: whether it is halfway, and the two greys.
    fn parts(self) -> (bool, f32, f32) {
        match self {
            Level::Fixed(grey) => (false, grey, 0.0),
            Level::Halfway { air, material } => (true, air, material),
        }
    }
}

/// The lent work room: cube words, waiting list, edge slots.
#[derive(Debug)]
pub struct Work<'a> {
    pub words: &'a mut [u16],
    pub waiting: &'a mut [u32],
    pub slots: &'a mut [u32],
}

pub fn build(lattice: Lattice, vertices: &mut [i32], triangles: &mut [u32], work: Work) -> Built {
    library::build(lattice, vertices, triangles, work)
}

pub fn write(sizes: Sizes, nv: usize, nt: usize, vertices: &[i32], triangles: &[u32], bytes: &mut [u8]) -> Wrote {
    library::write(sizes, nv, nt, vertices, triangles, bytes)
}

pub fn read(bytes: &[u8], vertices: &mut [i32], triangles: &mut [u32]) -> Got {
    library::read(bytes, vertices, triangles)
}

pub fn check(rule: Rule, lattice: Lattice, bytes: &[u8], work: Work) -> Verdict {
    library::check(rule, lattice, bytes, work)
}

pub fn stl_write(nv: usize, nt: usize, vertices: &[i32], triangles: &[u32], bytes: &mut [u8]) -> Wrote {
    library::stl_write(nv, nt, vertices, triangles, bytes)
}

pub fn stl_read(bytes: &[u8], corners: &mut [i32]) -> Loaded {
    library::stl_read(bytes, corners)
}

pub fn convert(level: Level, scale: u32, voxels: &[f32], samples: &mut [i16]) -> Verdict {
    library::convert(level, scale, voxels, samples)
}

pub fn pieces(sizes: Sizes, samples: &[i16], list: &mut [u32], work: Work) -> Found {
    library::pieces(sizes, samples, list, work)
}
