//! The second mesher beside the hand-written C mesher, on random lattices.

use second::{build, Start, Volume, Work};

/// A small generator of numbers (xorshift).
struct Numbers(u64);

impl Numbers {
    fn next(&mut self) -> u64 {
        self.0 ^= self.0 << 13;
        self.0 ^= self.0 >> 7;
        self.0 ^= self.0 << 17;
        self.0
    }

    fn below(&mut self, n: u64) -> u64 {
        self.next() % n
    }
}

fn both(sizes: [u16; 3], start: baseline::Start, samples: &[i16], room: [usize; 2]) {
    let wide = |triple: [u16; 3]| triple.map(usize::from);
    let count: usize = wide(sizes).iter().product();
    let lend = || {
        (vec![1i32; room[0]], vec![2u32; room[1]], vec![3u16; count + 2], vec![4u32; count], vec![5u32; 7 * count + 1])
    };
    let mut c = lend();
    let lent =
        baseline::Lent { vertices: &mut c.0, triangles: &mut c.1, words: &mut c.2, waiting: &mut c.3, slots: &mut c.4 };
    let by_c = baseline::build(sizes, start, samples, lent);
    let mut r = lend();
    let mut work = Work { words: &mut r.2, waiting: &mut r.3, slots: &mut r.4 };
    let named = match start {
        baseline::Start::Unnamed => Start::Unnamed,
        baseline::Start::Lowest => Start::Lowest,
        baseline::Start::Cube(cube) => Start::Cube(wide(cube)),
    };
    let built = build(Volume { sizes: wide(sizes), start: named, samples }, &mut r.0, &mut r.1, &mut work);
    assert_eq!([built.number, built.vertices, built.triangles, built.cubes], by_c, "{sizes:?} {start:?}");
    assert!(r == c, "slices differ: {sizes:?} {start:?} {samples:?}");
}

fn any_start(n: &mut Numbers, sizes: [u16; 3]) -> baseline::Start {
    match n.below(4) {
        0 => baseline::Start::Unnamed,
        1 => baseline::Start::Lowest,
        _ => baseline::Start::Cube(sizes.map(|axis| n.below(u64::from(axis)) as u16)),
    }
}

#[test]
fn small_lattices() {
    let mut n = Numbers(0x9e3779b97f4a7c15);
    for _ in 0..10_000 {
        let sizes = [(); 3].map(|_| 2 + n.below(5) as u16);
        let count: usize = sizes.iter().map(|&axis| usize::from(axis)).product();
        let spread = [3, 5, 200, 65_536][n.below(4) as usize];
        let samples: Vec<i16> =
            (0..count).map(|_| (n.below(spread) as i64 - spread as i64 / 2).clamp(-32768, 32767) as i16).collect();
        let start = any_start(&mut n, sizes);
        let room =
            if n.below(8) == 0 { [n.below(400) as usize, n.below(800) as usize] } else { [28 * count, 36 * count] };
        both(sizes, start, &samples, room);
    }
}

/// The same with fill: grains, a wall, or all beyond a distance from the middle.
#[test]
fn small_lattices_with_fill() {
    let mut n = Numbers(0x2545f4914f6cdd1d);
    for _ in 0..10_000 {
        let sizes = [(); 3].map(|_| 2 + n.below(6) as u16);
        let [nx, ny, nz] = sizes.map(usize::from);
        let (manner, rare) = (n.below(3), 2 + n.below(30));
        let (axis, at) = (n.below(3) as usize, n.below(8) as usize);
        let far = 1 + n.below(60);
        let mut sample = |i: usize| {
            let place = [i % nx, i / nx % ny, i / nx / ny];
            let filled = match manner {
                0 => n.below(rare) == 0,
                1 => place[axis] == at && n.below(8) != 0,
                _ => (0..3).map(|k| (2 * place[k] as i64 + 1 - i64::from(sizes[k])).pow(2)).sum::<i64>() > far as i64,
            };
            if filled {
                i16::MIN
            } else {
                n.below(7) as i16 - 3
            }
        };
        let samples: Vec<i16> = (0..nx * ny * nz).map(&mut sample).collect();
        let start = any_start(&mut n, sizes);
        both(sizes, start, &samples, [28 * samples.len(), 36 * samples.len()]);
    }
}

#[test]
fn a_full_lattice_of_noise_in_a_ring() {
    let mut n = Numbers(78);
    let far = |i: usize| (2 * (i % 64) as i64 - 63).pow(2) + (2 * (i / 64 % 64) as i64 - 63).pow(2) > 62 * 62;
    let sample = |i: usize| if far(i) { i16::MIN } else { n.next() as i16 };
    let samples: Vec<i16> = (0..64 * 64 * 64).map(sample).collect();
    for start in [baseline::Start::Unnamed, baseline::Start::Lowest] {
        both([64, 64, 64], start, &samples, [4 * 7 * 64 * 64 * 64, 3 * 12 * 63 * 63 * 63]);
    }
}

#[test]
fn a_full_lattice_of_noise() {
    let mut n = Numbers(77);
    let samples: Vec<i16> = (0..64 * 64 * 64).map(|_| n.next() as i16).collect();
    for start in [baseline::Start::Unnamed, baseline::Start::Lowest] {
        both([64, 64, 64], start, &samples, [4 * 7 * 64 * 64 * 64, 3 * 12 * 63 * 63 * 63]);
    }
}
