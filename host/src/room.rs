//! Work room and output room, by a lattice's sizes.

use crate::abi::{Place, Sizes, Work};

pub fn fits(sizes: Sizes) -> bool {
    [sizes.nx, sizes.ny, sizes.nz].iter().all(|axis| (2..=64).contains(axis))
}

/// How many samples a lattice has; none where an axis is out of bounds, which the library refuses before it looks at
/// any room.
pub fn samples(sizes: Sizes) -> usize {
    if fits(sizes) {
        sizes.nx * sizes.ny * sizes.nz
    } else {
        0
    }
}

/// How many cubes a lattice has.
pub fn cubes(sizes: Sizes) -> usize {
    if fits(sizes) {
        (sizes.nx - 1) * (sizes.ny - 1) * (sizes.nz - 1)
    } else {
        0
    }
}

/// The cube of a number, in a lattice whose sizes fit.
pub fn cube(sizes: Sizes, number: usize) -> Place {
    let (nx, ny) = (sizes.nx - 1, sizes.ny - 1);
    Place { x: number % nx, y: number / nx % ny, z: number / nx / ny }
}

/// The number of a cube.
pub fn cube_number(sizes: Sizes, cube: Place) -> usize {
    cube.x + (sizes.nx - 1) * (cube.y + (sizes.ny - 1) * cube.z)
}

/// Numbers for as many vertex records as the lattice has edges: refusal 6 cannot come.
pub fn vertex_numbers(sizes: Sizes) -> usize {
    4 * 7 * samples(sizes)
}

/// Numbers for twelve triangles a cube: refusal 7 cannot come.
pub fn triangle_numbers(sizes: Sizes) -> usize {
    3 * 12 * cubes(sizes)
}

/// Work room that serves one lattice after another.
#[derive(Default)]
pub struct Room {
    words: Vec<u16>,
    waiting: Vec<u32>,
    slots: Vec<u32>,
}

impl Room {
    /// As much as the lattice needs: refusal 3 cannot come.
    pub fn lend(&mut self, sizes: Sizes) -> Work<'_> {
        Work {
            words: front(&mut self.words, cubes(sizes)),
            waiting: front(&mut self.waiting, cubes(sizes)),
            slots: front(&mut self.slots, 7 * samples(sizes)),
        }
    }
}

fn front<T: Clone + Default>(room: &mut Vec<T>, need: usize) -> &mut [T] {
    if room.len() < need {
        // A fresh zeroed block costs nothing until it is used.
        *room = vec![T::default(); need];
    }
    &mut room[..need]
}
