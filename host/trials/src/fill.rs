//! Lattices with the scanner's fill, -32768, at some samples: rings, grains, walls, lumps, and fill that parts pieces.

use crate::cases::{self, random_samples, random_sizes, random_start, Case};
use crate::random::Random;
use second::{Lattice, Point, Start};

/// What the scanner writes where it sees nothing.
pub const FILL: i16 = i16::MIN;

/// The place of a sample; sizes that no lattice has give some place.
fn place(sizes: [usize; 3], n: usize) -> [usize; 3] {
    let [nx, ny, _] = sizes.map(|axis| axis.max(1));
    [n % nx, n / nx % ny, n / nx / ny]
}

/// Puts the fill wherever a test of the place says so.
pub fn fill_where(case: &mut Case, mut test: impl FnMut([usize; 3]) -> bool) {
    let sizes = case.sizes;
    let samples = case.samples.iter_mut().enumerate();
    samples.filter(|(n, _)| test(place(sizes, *n))).for_each(|(_, sample)| *sample = FILL);
}

/// How far a place is from the middle on the axes that count, in sample steps.
fn far(sizes: [usize; 3], at: [usize; 3], counts: impl Fn(usize) -> bool) -> f64 {
    let along = |axis: usize| at[axis] as f64 - (sizes[axis] as f64 - 1.0) / 2.0;
    (0..3).filter(|axis| counts(*axis)).map(|axis| along(axis).powi(2)).sum::<f64>().sqrt()
}

/// All outside a round field of view: a ring round an axis.
pub fn ring(case: &mut Case, axis: usize, radius: f64) {
    let sizes = case.sizes;
    fill_where(case, |at| far(sizes, at, |other| other != axis) > radius);
}

/// All outside a ball.
fn shell(case: &mut Case, radius: f64) {
    let sizes = case.sizes;
    fill_where(case, |at| far(sizes, at, |_| true) > radius);
}

/// One in so many samples, wherever they are.
pub fn grains(random: &mut Random, case: &mut Case, rare: usize) {
    fill_where(case, |_| random.once_in(rare));
}

/// A layer across an axis, perhaps with holes.
fn wall(random: &mut Random, case: &mut Case) {
    let axis = random.below(3);
    let at = random.below(case.sizes[axis].clamp(1, 64));
    let whole = random.once_in(2);
    fill_where(case, |place| place[axis] == at && (whole || !random.once_in(6)));
}

/// A layer that runs aslant across two axes: beside it cubes touch in an edge or a corner alone.
fn aslant(random: &mut Random, case: &mut Case) {
    let (axis, down) = (random.below(3), random.once_in(2));
    let at = random.below(10);
    fill_where(case, |place| {
        let (a, b) = (place[(axis + 1) % 3], place[(axis + 2) % 3]);
        if down {
            a + b == at
        } else {
            a + 4 == b + at
        }
    });
}

/// A box of at most three samples on an axis.
fn lump(random: &mut Random, case: &mut Case) {
    let from = case.sizes.map(|axis| random.below(axis.clamp(1, 64)));
    let long = [(); 3].map(|_| 1 + random.below(3));
    fill_where(case, |place| (0..3).all(|axis| (from[axis]..from[axis] + long[axis]).contains(&place[axis])));
}

/// Two samples across a corner from each other, beside one that is air: pieces that are parted there may share a lattice edge.
fn parting(random: &mut Random, case: &mut Case) {
    let air: Vec<usize> = (0..case.samples.len()).filter(|n| case.samples[*n] > 0).collect();
    if air.is_empty() {
        return;
    }
    let middle = place(case.sizes, random.pick(&air)).map(|v| v as i64);
    let mut step = [(); 3].map(|_| random.pick(&[-1, 1]));
    if random.once_in(2) {
        step[random.below(3)] = 0;
    }
    let ends = [1, -1].map(|way| [0, 1, 2].map(|axis| middle[axis] + way * step[axis]));
    fill_where(case, |place| ends.contains(&place.map(|v| v as i64)));
}

/// Fill in one of many manners.
fn paint(random: &mut Random, case: &mut Case) {
    let widest = case.sizes.iter().copied().max().unwrap_or(2).min(64) as f64;
    match random.below(20) {
        0..=3 => ring(case, random.below(3), (0.3 + 0.5 * random.unit()) * widest),
        4 => shell(case, (0.4 + 0.4 * random.unit()) * widest),
        5..=8 => {
            let rare = 3 + random.below(40);
            grains(random, case, rare);
        }
        9..=11 => wall(random, case),
        12..=13 => aslant(random, case),
        14..=15 => lump(random, case),
        16..=18 => (0..1 + random.below(4)).for_each(|_| parting(random, case)),
        _ => fill_where(case, |_| true),
    }
}

/// A cube that has a sample of fill at a corner, where there is one.
fn filled_cube(random: &mut Random, case: &Case) -> Option<[usize; 3]> {
    let filled: Vec<usize> = (0..case.samples.len()).filter(|n| case.samples[*n] == FILL).collect();
    if filled.is_empty() {
        return None;
    }
    let at = place(case.sizes, random.pick(&filled));
    Some([0, 1, 2].map(|axis| {
        let last = case.sizes[axis].saturating_sub(2);
        at[axis].saturating_sub(random.below(2)).min(last)
    }))
}

/// The cubes that a surface passes through; nothing where there is no lattice.
fn crossed(case: &Case) -> Option<Vec<Point>> {
    let lattice = Lattice::new(case.sizes, &case.samples).ok()?;
    Some(lattice.cubes().filter(|cube| lattice.crossed(*cube)).collect())
}

/// A cube that a surface passes through, where there is one.
fn crossed_cube(random: &mut Random, case: &Case) -> Option<[usize; 3]> {
    let crossed = crossed(case).filter(|cubes| !cubes.is_empty())?;
    let Point { x, y, z } = random.pick(&crossed);
    Some([x, y, z].map(|v| v as usize))
}

/// Sizes and samples, with fill at one at least.
fn volume(random: &mut Random) -> Case {
    let mut sizes = random_sizes(random);
    if sizes.iter().all(|axis| (2..6).contains(axis)) {
        sizes = sizes.map(|axis| axis + random.below(3));
    }
    let samples = random_samples(random, sizes);
    let mut case = Case { sizes, start: Start::Lowest, samples };
    for _ in 0..1 + random.below(2) {
        paint(random, &mut case);
    }
    if !case.samples.is_empty() && !case.samples.contains(&FILL) {
        let grain = random.below(case.samples.len());
        case.samples[grain] = FILL;
    }
    case
}

/// A lattice with fill, as a caller might give it. Its start is not named, or the lowest, or crossed, or holds the fill, or
/// is any.
pub fn case(random: &mut Random) -> Case {
    let mut case = volume(random);
    // fill often leaves nothing that is crossed, which is refusal 5; so a few are drawn
    for _ in 0..3 {
        if !crossed(&case).is_some_and(|cubes| cubes.is_empty()) {
            break;
        }
        case = volume(random);
    }
    case.start = match random.below(12) {
        0 | 1 => filled_cube(random, &case).map_or(Start::Lowest, Start::Cube),
        2 | 3 => random_start(random, case.sizes),
        4 | 5 => Start::Unnamed,
        6 | 7 => Start::Lowest,
        _ => crossed_cube(random, &case).map_or(Start::Lowest, Start::Cube),
    };
    case
}

/// A lattice with or without fill.
pub fn any_case(random: &mut Random) -> Case {
    if random.once_in(3) {
        case(random)
    } else {
        cases::case(random)
    }
}

/// The same lattice with its fill read as samples: as dense solid, which is what was done before, or as air.
pub fn unfilled(case: &Case, value: i16) -> Case {
    let samples = case.samples.iter().map(|sample| if *sample == FILL { value } else { *sample }).collect();
    Case { samples, ..case.clone() }
}
