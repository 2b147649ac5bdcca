//! Random lattices, starts and lent room.

use crate::random::Random;
use host::abi::{self, Lattice, Place, Rule, Sizes, Work};
use second::{Start, Volume};

/// A lattice as a caller might give it.
#[derive(Clone, Debug)]
pub struct Case {
    pub sizes: [usize; 3],
    pub start: Start,
    pub samples: Vec<i16>,
}

impl Case {
    /// As the library takes it.
    pub fn lattice(&self) -> Lattice<'_> {
        Lattice { sizes: sizes(self.sizes), start: given(self.start), samples: &self.samples }
    }

    /// As the second mesher takes it.
    pub fn volume(&self) -> Volume<'_> {
        Volume { sizes: self.sizes, start: self.start, samples: &self.samples }
    }

    /// As a volume file; sizes that do not fit 16 bits are cut.
    pub fn file(&self) -> Vec<u8> {
        let head = self.sizes.iter().flat_map(|axis| (*axis as u16).to_le_bytes());
        head.chain(self.samples.iter().flat_map(|sample| sample.to_le_bytes())).collect()
    }
}

pub fn sizes([nx, ny, nz]: [usize; 3]) -> Sizes {
    Sizes { nx, ny, nz }
}

/// A start as the library takes it.
pub fn given(start: Start) -> abi::Start {
    match start {
        Start::Unnamed => abi::Start::Unnamed,
        Start::Lowest => abi::Start::Lowest,
        Start::Cube(cube) => abi::Start::Cube(place(cube)),
    }
}

/// A start as second.c takes it.
pub fn in_c(start: Start) -> baseline::Start {
    match start {
        Start::Unnamed => baseline::Start::Unnamed,
        Start::Lowest => baseline::Start::Lowest,
        Start::Cube(cube) => baseline::Start::Cube(cube.map(|v| v as u16)),
    }
}

pub fn place([x, y, z]: [usize; 3]) -> Place {
    Place { x, y, z }
}

/// Whether sizes pass test 1; then the counts below are those of the lattice.
fn in_bounds(sizes: [usize; 3]) -> bool {
    sizes.iter().all(|axis| (2..=64).contains(axis))
}

pub fn sample_count(sizes: [usize; 3]) -> usize {
    if in_bounds(sizes) {
        sizes.iter().product()
    } else {
        8
    }
}

pub fn cube_count(sizes: [usize; 3]) -> usize {
    if in_bounds(sizes) {
        sizes.iter().map(|axis| axis - 1).product()
    } else {
        1
    }
}

pub fn random_sizes(random: &mut Random) -> [usize; 3] {
    let mut sizes = [(); 3].map(|_| 2 + random.below(4));
    match random.below(40) {
        // a bad axis
        0 => sizes[random.below(3)] = random.pick(&[0, 1, 65, 66, 1 << 16, usize::MAX, usize::MAX / 2 + 1]),
        // long and thin
        1..=4 => {
            sizes = [2, 2, 3];
            random.shuffle(&mut sizes);
            sizes[random.below(3)] = random.pick(&[17, 33, 63, 64]);
        }
        // larger
        5..=6 => sizes = [(); 3].map(|_| 4 + random.below(7)),
        _ => {}
    }
    sizes
}

/// Samples in several manners: sparse, dense, extreme, near zero, smooth, all on one side.
pub fn random_samples(random: &mut Random, sizes: [usize; 3]) -> Vec<i16> {
    const EXTREMES: [i16; 8] = [i16::MIN, i16::MIN + 1, -1, 0, 1, 2, i16::MAX - 1, i16::MAX];
    let count = sample_count(sizes);
    let manner = random.below(20);
    let rare = 2 + random.below(20);
    let centre = [(); 3].map(|_| random.unit() * 6.0);
    let radius = 0.5 + random.unit() * 3.0;
    let mut samples: Vec<i16> = (0..count)
        .map(|n| match manner {
            0..=3 => random.bits() as i16,
            4..=6 => random.pick(&EXTREMES),
            7..=9 => random.below(5) as i16 - 2,
            10..=12 => {
                if random.once_in(rare) {
                    1 + random.below(100) as i16
                } else {
                    -(random.below(100) as i16)
                }
            }
            13..=15 => {
                if random.once_in(rare) {
                    -(random.below(100) as i16)
                } else {
                    1 + random.below(100) as i16
                }
            }
            16..=18 => {
                let [nx, ny, _] = sizes.map(|axis| axis.max(1));
                let at = [n % nx, n / nx % ny, n / nx / ny];
                let far = (0..3).map(|i| (at[i] as f64 - centre[i]).powi(2)).sum::<f64>().sqrt();
                (1000.0 * (radius - far)) as i16
            }
            _ => {
                if rare < 12 {
                    0
                } else {
                    1
                }
            }
        })
        .collect();
    if random.once_in(40) {
        // a wrong count
        match random.below(3) {
            0 => drop(samples.pop()),
            1 => samples.push(5),
            _ => samples.truncate(random.below(count + 1)),
        }
    }
    samples
}

pub fn random_start(random: &mut Random, sizes: [usize; 3]) -> Start {
    match random.below(20) {
        0..=3 => Start::Unnamed,
        4..=7 => Start::Lowest,
        8 => Start::Cube([(); 3].map(|_| random.pick(&[0, 1, 62, 63, 64, usize::MAX, usize::MAX - 1, 1 << 32]))),
        9 => Start::Cube(sizes.map(|axis| axis.saturating_sub(1 + random.below(2)))),
        _ => Start::Cube(sizes.map(|axis| random.below(axis.clamp(2, 64) - 1))),
    }
}

pub fn case(random: &mut Random) -> Case {
    let sizes = random_sizes(random);
    // A start drawn blindly is often not crossed, which is refusal 5; so a few are drawn and a good one is kept.
    let samples = random_samples(random, sizes);
    let mut case = Case { sizes, start: Start::Lowest, samples };
    for _ in 0..4 {
        case.start = random_start(random, sizes);
        if case.start == Start::Lowest || sheet_counts(&case).number == 0 {
            break;
        }
    }
    case
}

/// A lattice whose start is not named, of axes that have a cube or two off the bounds, or none; now and then with fill.
pub fn unnamed_case(random: &mut Random) -> Case {
    let sizes = [(); 3].map(|_| 3 + random.below(5));
    let samples = random_samples(random, sizes);
    let mut case = Case { sizes, start: Start::Unnamed, samples };
    if random.once_in(3) {
        crate::fill::grains(random, &mut case, 30);
    }
    case
}

/// A rule as the second mesher takes it.
pub fn second_rule(rule: Rule) -> second::Rule {
    match rule {
        Rule::Down => second::Rule::Down,
        Rule::Nearest => second::Rule::Nearest,
    }
}

/// The second mesher's answer with all the room there could be.
pub fn sheet_counts(case: &Case) -> second::Built {
    let mut lent = Lent::clean(case.sizes, [28 * sample_count(case.sizes), 36 * cube_count(case.sizes)]);
    lent.second_build(case)
}

/// A slice that is lent, between guard words that nobody is.
#[derive(Clone, Debug, PartialEq, Eq)]
pub struct Guarded<T> {
    all: Vec<T>,
    guard: usize,
}

impl<T: Copy> Guarded<T> {
    pub fn new(random: &mut Random, length: usize, mut word: impl FnMut(&mut Random) -> T) -> Guarded<T> {
        let guard = 1 + random.below(9);
        Guarded { all: (0..length + 2 * guard).map(|_| word(random)).collect(), guard }
    }

    pub fn lend(&mut self) -> &mut [T] {
        let end = self.all.len() - self.guard;
        &mut self.all[self.guard..end]
    }
}

/// All that a build is lent.
#[derive(Clone, Debug, PartialEq, Eq)]
pub struct Lent {
    pub vertices: Guarded<i32>,
    pub triangles: Guarded<u32>,
    pub words: Guarded<u16>,
    pub waiting: Guarded<u32>,
    pub slots: Guarded<u32>,
}

impl Lent {
    /// Exact work room, zeroed, and so many numbers of output.
    pub fn clean(sizes: [usize; 3], output: [usize; 2]) -> Lent {
        let mut random = Random::new(0);
        let cubes = cube_count(sizes);
        Lent {
            vertices: Guarded::new(&mut random, output[0], |_| 0),
            triangles: Guarded::new(&mut random, output[1], |_| 0),
            words: Guarded::new(&mut random, cubes, |_| 0),
            waiting: Guarded::new(&mut random, cubes, |_| 0),
            slots: Guarded::new(&mut random, 7 * sample_count(sizes), |_| 0),
        }
    }

    /// Dirty room: work slices of the needed length or longer, and so many numbers of output.
    pub fn dirty(random: &mut Random, sizes: [usize; 3], output: [usize; 2]) -> Lent {
        let mut length = |need: usize| if random.once_in(3) { need + random.below(20) } else { need };
        let cubes = cube_count(sizes);
        let lengths = [cubes, cubes, 7 * sample_count(sizes)].map(&mut length);
        Lent::with_lengths(random, lengths, output)
    }

    /// Dirty room, now and then with a work slice that is too short.
    pub fn doubtful(random: &mut Random, sizes: [usize; 3], output: [usize; 2]) -> Lent {
        if !random.once_in(12) {
            return Lent::dirty(random, sizes, output);
        }
        let cubes = cube_count(sizes);
        let mut lengths = [cubes, cubes, 7 * sample_count(sizes)];
        let short = &mut lengths[random.below(3)];
        *short = if random.once_in(3) { random.below(*short) } else { *short - 1 };
        Lent::with_lengths(random, lengths, output)
    }

    fn with_lengths(random: &mut Random, work: [usize; 3], output: [usize; 2]) -> Lent {
        Lent {
            vertices: Guarded::new(random, output[0], |r| r.bits() as i32),
            triangles: Guarded::new(random, output[1], |r| r.bits() as u32),
            words: Guarded::new(random, work[0], |r| r.bits() as u16),
            waiting: Guarded::new(random, work[1], |r| r.bits() as u32),
            slots: Guarded::new(random, work[2], |r| r.bits() as u32),
        }
    }

    pub fn library_build(&mut self, case: &Case) -> host::abi::Built {
        let Lent { vertices, triangles, words, waiting, slots } = self;
        let work = Work { words: words.lend(), waiting: waiting.lend(), slots: slots.lend() };
        host::abi::build(case.lattice(), vertices.lend(), triangles.lend(), work)
    }

    pub fn second_build(&mut self, case: &Case) -> second::Built {
        self.second_build_under(Rule::Nearest, case)
    }

    pub fn second_build_under(&mut self, rule: Rule, case: &Case) -> second::Built {
        let Lent { vertices, triangles, words, waiting, slots } = self;
        let mut work = second::Work { words: words.lend(), waiting: waiting.lend(), slots: slots.lend() };
        second::build_under(second_rule(rule), case.volume(), vertices.lend(), triangles.lend(), &mut work)
    }

    /// What a build has left, as a file's content.
    pub fn content(&mut self, case: &Case, built: &second::Built) -> second::Content {
        let records = self.vertices.lend().chunks_exact(4).take(built.vertices).map(|r| [r[0], r[1], r[2], r[3]]);
        let triangles = self.triangles.lend().chunks_exact(3).take(built.triangles).map(|t| [t[0], t[1], t[2]]);
        second::Content { sizes: case.sizes, records: records.collect(), triangles: triangles.collect() }
    }

    /// The list of pieces is the slice of triangles.
    pub fn library_pieces(&mut self, case: &Case) -> host::abi::Found {
        let Lent { triangles, words, waiting, slots, .. } = self;
        let work = Work { words: words.lend(), waiting: waiting.lend(), slots: slots.lend() };
        host::abi::pieces(sizes(case.sizes), &case.samples, triangles.lend(), work)
    }

    pub fn second_pieces(&mut self, case: &Case) -> second::Found {
        let Lent { triangles, words, waiting, slots, .. } = self;
        let mut work = second::Work { words: words.lend(), waiting: waiting.lend(), slots: slots.lend() };
        second::pieces(case.sizes, &case.samples, triangles.lend(), &mut work)
    }

    pub fn library_check(&mut self, rule: Rule, case: &Case, file: &[u8]) -> host::abi::Verdict {
        let Lent { words, waiting, slots, .. } = self;
        let work = Work { words: words.lend(), waiting: waiting.lend(), slots: slots.lend() };
        host::abi::check(rule, case.lattice(), file, work)
    }

    pub fn second_check(&mut self, rule: Rule, case: &Case, file: &[u8]) -> second::Verdict {
        let Lent { words, waiting, slots, .. } = self;
        let mut work = second::Work { words: words.lend(), waiting: waiting.lend(), slots: slots.lend() };
        second::check(second_rule(rule), case.volume(), file, &mut work)
    }
}

/// Output room for a sheet with these counts: enough, exact, a little short, odd lengths, or none.
pub fn output_room(random: &mut Random, vertices: usize, triangles: usize) -> [usize; 2] {
    let mut room = [4 * vertices, 3 * triangles].map(|exact| match random.below(4) {
        0 => exact + random.below(30),
        _ => exact,
    });
    if random.once_in(5) {
        let short = random.below(2);
        room[short] = match random.below(3) {
            0 => random.below(room[short] + 1),
            1 => room[short].saturating_sub(1),
            _ => 0,
        };
    }
    room
}

/// The sheet of a case as a file's content, where it has one.
pub fn content(case: &Case) -> Option<second::Content> {
    content_under(Rule::Nearest, case)
}

/// The same of the sheet of a rule.
pub fn content_under(rule: Rule, case: &Case) -> Option<second::Content> {
    let mut lent = Lent::clean(case.sizes, [28 * sample_count(case.sizes), 36 * cube_count(case.sizes)]);
    let built = lent.second_build_under(rule, case);
    (built.number == 0).then(|| lent.content(case, &built))
}
