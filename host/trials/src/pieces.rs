//! Pieces: random lattices whose surfaces are many, thin or at the borders of blocks, the library's answer, the list and the work room
//! held against the second implementation's plain scan. A difference panics with the case.

use crate::cases::{self, Case, Lent};
use crate::fill;
use crate::random::Random;
use host::abi::Found;
use second::{Lattice, Start};

/// Lengths of axes round the sizes that blocks have, 64, 32 and so on down to 1.
const AXES: [usize; 22] = [2, 2, 3, 3, 4, 5, 5, 6, 7, 8, 9, 10, 15, 16, 17, 18, 31, 32, 33, 34, 63, 64];

/// Sizes of a lattice that the plain scan is quick with.
fn sizes(random: &mut Random) -> [usize; 3] {
    loop {
        let sizes = [(); 3].map(|_| random.pick(&AXES));
        if sizes.iter().product::<usize>() <= 3000 {
            return sizes;
        }
    }
}

/// A place on an axis: next to a border of blocks, at an end, or anywhere.
fn near_border(random: &mut Random, axis: usize) -> usize {
    match random.below(6) {
        0 => random.below(axis),
        1 => random.pick(&[0, axis - 1]),
        _ => (random.pick(&[2, 4, 8, 16, 32]) + random.below(3)).saturating_sub(1).min(axis - 1),
    }
}

/// All samples on one side, and those of a test on the other, or all the other way.
fn two_sided(random: &mut Random, sizes: [usize; 3], mut test: impl FnMut(&mut Random, [usize; 3]) -> bool) -> Case {
    let [nx, ny, nz] = sizes;
    let turned = random.once_in(3);
    let mut samples = Vec::new();
    for n in 0..nx * ny * nz {
        let far = 1 + random.below(900) as i16;
        let air = test(random, [n % nx, n / nx % ny, n / nx / ny]) != turned;
        samples.push(if air { far } else { 1 - far });
    }
    Case { sizes, start: Start::Lowest, samples }
}

/// Single samples, mostly next to borders of blocks.
fn specks(random: &mut Random) -> Case {
    let sizes = sizes(random);
    let count = 1 + random.below(6);
    let at: Vec<[usize; 3]> = (0..count).map(|_| sizes.map(|axis| near_border(random, axis))).collect();
    two_sided(random, sizes, |_, place| at.contains(&place))
}

/// Layers of one sample across an axis, whole or with holes.
fn layers(random: &mut Random) -> Case {
    let sizes = sizes(random);
    let axis = random.below(3);
    let at = [near_border(random, sizes[axis]), near_border(random, sizes[axis])];
    let holes = random.pick(&[2, 4, 30, 1000]);
    two_sided(random, sizes, |random, place| at.contains(&place[axis]) && !random.once_in(holes))
}

/// Samples with one between them, of which some are left out: as many pieces as there can be without fill, or nearly.
fn grid(random: &mut Random) -> Case {
    let sizes = sizes(random);
    let (step, first) = ([(); 3].map(|_| 2 + random.below(2)), [(); 3].map(|_| random.below(2)));
    let rare = random.pick(&[2, 5, 1000]);
    two_sided(random, sizes, |random, place| {
        (0..3).all(|axis| place[axis] % step[axis] == first[axis]) && !random.once_in(rare)
    })
}

/// Rows of samples along an axis, which reach from one end to the other or break off at a border.
fn rods(random: &mut Random) -> Case {
    let sizes = sizes(random);
    let rods: Vec<_> = (0..1 + random.below(4))
        .map(|_| (random.below(3), sizes.map(|axis| near_border(random, axis)), random.once_in(2)))
        .collect();
    two_sided(random, sizes, |_, place| {
        rods.iter().any(|(along, at, whole)| {
            (0..3).all(|axis| if axis == *along { *whole || place[axis] <= at[axis] } else { place[axis] == at[axis] })
        })
    })
}

/// Boxes of air one in another with solid between, from corner to corner.
fn boxes(random: &mut Random) -> Case {
    let sizes = sizes(random);
    let (low, high) = (sizes.map(|axis| near_border(random, axis)), sizes.map(|axis| near_border(random, axis)));
    two_sided(random, sizes, |_, place| {
        let depth = |axis: usize| {
            let (low, high) = (low[axis].min(high[axis]), low[axis].max(high[axis]));
            (place[axis] as i64 - low as i64).min(high as i64 - place[axis] as i64)
        };
        (0..3).map(depth).min().is_some_and(|depth| depth >= 0 && depth % 2 == 0)
    })
}

/// A lattice in one of many manners; now and then with grains of fill, or a ring.
pub fn case(random: &mut Random) -> Case {
    let mut case = match random.below(16) {
        0 | 1 => cases::case(random),
        2..=4 => return fill::case(random),
        5..=8 => specks(random),
        9 | 10 => layers(random),
        11 | 12 => grid(random),
        13 | 14 => rods(random),
        _ => boxes(random),
    };
    match random.below(8) {
        0 | 1 => {
            let rare = 5 + random.below(200);
            fill::grains(random, &mut case, rare);
        }
        2 => {
            let widest = case.sizes.iter().copied().max().unwrap_or(2).min(64) as f64;
            fill::ring(&mut case, random.below(3), (0.2 + 0.4 * random.unit()) * widest);
        }
        _ => {}
    }
    case
}

/// How many pieces there are, by the plain scan; none where there is no lattice.
fn count(case: &Case) -> usize {
    Lattice::new(case.sizes, &case.samples).map_or(0, |lattice| second::scan(&lattice).len())
}

/// Holds one call against the other, with a list of so many numbers. Answers what both gave.
pub fn held(random: &mut Random, case: &Case, list: usize) -> Found {
    // the list is lent as the slice of u32 that a build has for triangles
    let mut ours = Lent::doubtful(random, case.sizes, [0, list]);
    let mut theirs = ours.clone();
    let answer = ours.library_pieces(case);
    let second::Found { number, pieces } = theirs.second_pieces(case);
    assert_eq!(answer, Found { number, pieces }, "{case:?} {list}");
    assert!(ours == theirs, "memory differs after {answer:?}: {case:?} {list}");
    answer
}

/// The number that both gave is returned, for counting.
pub fn find(random: &mut Random) -> usize {
    let case = case(random);
    let exact = count(&case);
    let list = match random.below(8) {
        0 => exact.saturating_sub(1),
        1 => 0,
        2 => random.below(exact + 1),
        3 | 4 => exact + random.below(5),
        5 => exact + random.below(100),
        _ => exact,
    };
    held(random, &case, list).number
}
