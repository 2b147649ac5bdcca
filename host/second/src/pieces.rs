//! Every piece, by a plain scan, written from document 02 (v) alone: cube after cube, no blocks.

use crate::build::{overwrite, Work};
use crate::lattice::{Lattice, Point};
use crate::sheet::reached;
use std::collections::BTreeSet;

#[derive(Clone, Copy, Debug, PartialEq, Eq)]
pub struct Found {
    pub number: usize,
    pub pieces: usize,
}

/// "The lowest cube of each separate piece, by rising number": a crossed cube that is in no piece so far begins one.
pub fn scan(lattice: &Lattice) -> Vec<Point> {
    let mut lowest = Vec::new();
    let mut taken = BTreeSet::new();
    for cube in lattice.cubes() {
        if lattice.crossed(cube) && !taken.contains(&cube) {
            lowest.push(cube);
            taken.extend(reached(lattice, cube));
        }
    }
    lowest
}

/// The number of a cube: one cube fewer than samples on each axis.
fn number(sizes: [usize; 3], cube: Point) -> u32 {
    let [nx, ny, _] = sizes.map(|axis| axis as i64 - 1);
    (cube.x + nx * (cube.y + ny * cube.z)) as u32
}

/// "Refusals: 1, 2, 3, then 5 for no piece, then 20 for more pieces than the list holds, the list untouched."
pub fn pieces(sizes: [usize; 3], samples: &[i16], list: &mut [u32], work: &mut Work) -> Found {
    let refused = |number| Found { number, pieces: 0 };
    let lattice = match Lattice::new(sizes, samples) {
        Ok(lattice) => lattice,
        Err(number) => return refused(number),
    };
    if !work.long_enough(&lattice) {
        return refused(3);
    }
    let lowest = scan(&lattice);
    if lowest.is_empty() {
        return refused(5);
    }
    // "Work room is asked for and left as in building, after 20 as after 6; the number of pieces is returned on success and with 20"
    work.clear(&lattice);
    if lowest.len() > list.len() {
        return Found { number: 20, pieces: lowest.len() };
    }
    overwrite(list, &lowest.iter().map(|cube| number(sizes, *cube)).collect::<Vec<_>>());
    Found { number: 0, pieces: lowest.len() }
}
