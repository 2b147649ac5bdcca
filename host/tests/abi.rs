//! Every function of the library with every argument distinct, so that two in each other's place are noticed.

use host::abi::{self, Built, Found, Got, Lattice, Level, Loaded, Place, Rule, Sizes, Start, Verdict, Work, Wrote};

const SIZES: [usize; 3] = [2, 3, 4];
const START: [usize; 3] = [0, 1, 2];
const CUBES: usize = 6;
const SLOTS: usize = 7 * 24;

/// Air at two samples apart: two pieces, of which the start is in the second.
fn samples() -> Vec<i16> {
    let mut samples: Vec<i16> = (0..24).map(|n| -10 - 3 * n).collect();
    samples[0] = 100;
    samples[14] = 77;
    samples
}

fn lattice(samples: &[i16]) -> Lattice<'_> {
    let ([nx, ny, nz], [x, y, z]) = (SIZES, START);
    Lattice { sizes: Sizes { nx, ny, nz }, start: Start::Cube(Place { x, y, z }), samples }
}

/// All that a build is lent, each slice of another length and with other contents.
#[derive(Clone, Debug, PartialEq, Eq)]
struct Lent {
    vertices: Vec<i32>,
    triangles: Vec<u32>,
    words: Vec<u16>,
    waiting: Vec<u32>,
    slots: Vec<u32>,
}

impl Lent {
    fn new() -> Lent {
        Lent {
            vertices: (0..101).map(|n| 1000 + n).collect(),
            triangles: (0..62).map(|n| 2000 + n).collect(),
            words: (0..CUBES as u16 + 1).map(|n| 3000 + n).collect(),
            waiting: (0..CUBES as u32 + 3).map(|n| 4000 + n).collect(),
            slots: (0..SLOTS as u32 + 5).map(|n| 5000 + n).collect(),
        }
    }

    fn build(&mut self, lattice: Lattice) -> Built {
        let work = Work { words: &mut self.words, waiting: &mut self.waiting, slots: &mut self.slots };
        abi::build(lattice, &mut self.vertices, &mut self.triangles, work)
    }

    fn check(&mut self, lattice: Lattice, bytes: &[u8]) -> Verdict {
        self.check_under(Rule::Nearest, lattice, bytes)
    }

    fn check_under(&mut self, rule: Rule, lattice: Lattice, bytes: &[u8]) -> Verdict {
        let work = Work { words: &mut self.words, waiting: &mut self.waiting, slots: &mut self.slots };
        abi::check(rule, lattice, bytes, work)
    }

    fn second_build(&mut self, volume: second::Volume) -> [usize; 4] {
        let mut work = second::Work { words: &mut self.words, waiting: &mut self.waiting, slots: &mut self.slots };
        let built = second::build(volume, &mut self.vertices, &mut self.triangles, &mut work);
        [built.number, built.vertices, built.triangles, built.cubes]
    }
}

#[test]
fn build() {
    let samples = samples();
    for start in [second::Start::Cube(START), second::Start::Lowest] {
        let (mut ours, mut theirs) = (Lent::new(), Lent::new());
        let lowest = start == second::Start::Lowest;
        let own = if lowest { Lattice { start: Start::Lowest, ..lattice(&samples) } } else { lattice(&samples) };
        let built = ours.build(own);
        let [number, vertices, triangles, cubes] =
            theirs.second_build(second::Volume { sizes: SIZES, start, samples: &samples });
        assert_eq!(built, Built { number, vertices, triangles, cubes });
        assert_eq!(number, 0);
        assert!(lowest || vertices != triangles && triangles != cubes && vertices != cubes);
        assert_eq!(ours, theirs);
    }
    // no cube of two samples an axis is off the bounds, so where none is named there is no start
    let mut lent = Lent::new();
    assert_eq!(lent.build(Lattice { start: Start::Unnamed, ..lattice(&samples) }).number, 5);
    assert_eq!(lent, Lent::new());
}

/// A change to what is lent.
type Shorter = fn(&mut Lent);

#[test]
fn build_with_one_thing_short() {
    let samples = samples();
    let short: [(usize, Shorter); 5] = [
        (3, |lent| lent.words.truncate(CUBES - 1)),
        (3, |lent| lent.waiting.truncate(CUBES - 1)),
        (3, |lent| lent.slots.truncate(SLOTS - 1)),
        (6, |lent| lent.vertices.truncate(3)),
        (7, |lent| lent.triangles.truncate(2)),
    ];
    for (number, shorten) in short {
        let mut lent = Lent::new();
        shorten(&mut lent);
        assert_eq!(lent.build(lattice(&samples)).number, number);
    }
    assert_eq!(Lent::new().build(lattice(&samples[1..])).number, 2);
    for (axis, number) in [(0, 4), (1, 4), (2, 4)] {
        let mut start = START;
        start[axis] = SIZES[axis] - 1;
        let [x, y, z] = start;
        assert_eq!(
            Lent::new().build(Lattice { start: Start::Cube(Place { x, y, z }), ..lattice(&samples) }).number,
            number
        );
    }
}

fn content() -> second::Content {
    second::Content {
        sizes: SIZES,
        records: (0..5).map(|n| [-7 * n, 8 + n, 1 << (20 + n), i32::MIN + n]).collect(),
        triangles: vec![[0, 4, 2], [3, 1, 4]],
    }
}

#[test]
fn write() {
    let content = content();
    let mut vertices = content.records.concat();
    vertices.extend([91, 92, 93]);
    let mut triangles = content.triangles.concat();
    triangles.extend([94, 95]);
    let file = second::serialize(&content);
    let mut bytes = vec![0xaa; file.len() + 9];
    let [nx, ny, nz] = SIZES;
    let mut write =
        |nv, nt, length| abi::write(Sizes { nx, ny, nz }, nv, nt, &vertices, &triangles, &mut bytes[..length]);
    assert_eq!(write(6, 2, 128), Wrote { number: 9, place: 0, bytes: 0 });
    assert_eq!(write(5, 3, 128), Wrote { number: 9, place: 0, bytes: 0 });
    assert_eq!(write(4, 2, 128), Wrote { number: 15, place: 0, bytes: 0 });
    assert_eq!(write(5, 2, 127), Wrote { number: 8, place: 0, bytes: 0 });
    assert_eq!(write(5, 2, 137), Wrote { number: 0, place: 0, bytes: 128 });
    assert_eq!(bytes[..128], file);
    assert_eq!(bytes[128..], [0xaa; 9]);
}

#[test]
fn read() {
    let content = content();
    let file = second::serialize(&content);
    let (mut vertices, mut triangles) = (vec![50; 23], vec![60; 8]);
    let got = abi::read(&file, &mut vertices, &mut triangles);
    let [nx, ny, nz] = SIZES;
    assert_eq!(got, Got { number: 0, place: 0, vertices: 5, triangles: 2, sizes: Sizes { nx, ny, nz } });
    assert_eq!(vertices, [content.records.concat(), vec![50; 3]].concat());
    assert_eq!(triangles, [content.triangles.concat(), vec![60; 2]].concat());
    assert_eq!(abi::read(&file, &mut vertices[..19], &mut triangles).number, 6);
    assert_eq!(abi::read(&file, &mut vertices, &mut triangles[..5]).number, 7);
    let mut stray = content;
    stray.triangles[1][2] = 5;
    let got = abi::read(&second::serialize(&stray), &mut vertices, &mut triangles);
    assert_eq!(got, Got { number: 15, place: 1, ..Got::default() });
}

#[test]
fn check() {
    let samples = samples();
    let mut lent = Lent::new();
    let built = lent.build(lattice(&samples));
    let sheet = second::Content {
        sizes: SIZES,
        records: lent.vertices.chunks_exact(4).take(built.vertices).map(|r| [r[0], r[1], r[2], r[3]]).collect(),
        triangles: lent.triangles.chunks_exact(3).take(built.triangles).map(|t| [t[0], t[1], t[2]]).collect(),
    };
    let mut verdict = |sheet: &second::Content| lent.check(lattice(&samples), &second::serialize(sheet));
    assert_eq!(verdict(&sheet), Verdict { number: 0, place: 0 });
    let mut moved = sheet.clone();
    moved.records[3][1] += 1;
    assert_eq!(verdict(&moved), Verdict { number: 17, place: 3 });
    let mut mirrored = sheet.clone();
    mirrored.triangles[1].swap(0, 1);
    assert_eq!(verdict(&mirrored), Verdict { number: 18, place: 1 });
    let mut turned = sheet.clone();
    turned.sizes.reverse();
    assert_eq!(verdict(&turned), Verdict { number: 16, place: 0 });

    let file = second::serialize(&sheet);
    let other = Lattice { start: Start::Lowest, ..lattice(&samples) };
    assert_ne!(Lent::new().check(other, &file).number, 0);
    let unnamed = Lattice { start: Start::Unnamed, ..lattice(&samples) };
    assert_eq!(Lent::new().check(unnamed, &file), Verdict { number: 5, place: 0 });
    let short: [Shorter; 3] = [
        |lent| lent.words.truncate(CUBES - 1),
        |lent| lent.waiting.truncate(CUBES - 1),
        |lent| lent.slots.truncate(SLOTS - 1),
    ];
    for shorten in short {
        let mut lent = Lent::new();
        shorten(&mut lent);
        assert_eq!(lent.check(lattice(&samples), &file).number, 3);
    }
}

/// A file of each rule, under each: t for -2 and 1 is 43690 down and 43691 to nearest, and a build makes the second.
#[test]
fn check_under_each_rule() {
    let samples = [1, -2, -2, -2, -2, -2, -2, -2];
    let lattice = Lattice { sizes: Sizes { nx: 2, ny: 2, nz: 2 }, start: Start::Lowest, samples: &samples };
    let mut lent = Lent::new();
    assert_eq!(lent.build(lattice).number, 0);
    assert_eq!(lent.vertices[..4], [0, 65_536 - 43_691, 0, 0]);
    for (made, t) in [(Rule::Down, 43_690), (Rule::Nearest, 43_691)] {
        let u = 65_536 - t;
        let records = vec![[0, u, 0, 0], [1, 0, u, 0], [2, 0, 0, u]];
        let file = second::serialize(&second::Content { sizes: [2; 3], records, triangles: vec![[1, 2, 0]] });
        for rule in Rule::BOTH {
            let number = if rule == made { 0 } else { 17 };
            assert_eq!(Lent::new().check_under(rule, lattice, &file), Verdict { number, place: 0 });
        }
    }
}

/// Four vertices whose coordinates are all different, and more numbers behind; two triangles, and more behind.
fn facets() -> (Vec<i32>, Vec<u32>) {
    let mut vertices: Vec<i32> = (0..4).flat_map(|v| [-v, 10 + v, 2000 + v, 4_128_768 - v]).collect();
    vertices.extend([-91, -92, -93]);
    (vertices, vec![0, 1, 2, 3, 2, 0, 94, 95])
}

#[test]
fn stl_write() {
    let (vertices, triangles) = facets();
    let file = second::stl::write(4, 2, &vertices, &triangles, 184).expect("a file");
    let mut bytes = vec![0xaa; 191];
    let mut write = |nv, nt, length| abi::stl_write(nv, nt, &vertices, &triangles, &mut bytes[..length]);
    assert_eq!(write(5, 2, 184), Wrote { number: 9, place: 0, bytes: 0 });
    assert_eq!(write(4, 3, 184), Wrote { number: 9, place: 0, bytes: 0 });
    assert_eq!(write(3, 2, 184), Wrote { number: 15, place: 1, bytes: 0 });
    assert_eq!(write(4, 2, 183), Wrote { number: 8, place: 0, bytes: 0 });
    assert_eq!(write(4, 2, 191), Wrote { number: 0, place: 0, bytes: 184 });
    assert_eq!(bytes[..184], file);
    assert_eq!(bytes[184..], [0xaa; 7]);
    let mut outside = vertices.clone();
    outside[13] = -1;
    let wrote = abi::stl_write(4, 2, &outside, &triangles, &mut bytes);
    assert_eq!(wrote, Wrote { number: 25, place: 1, bytes: 0 });
    assert_eq!(bytes[..184], file);
}

#[test]
fn stl_read() {
    let (vertices, triangles) = facets();
    let file = second::stl::write(4, 2, &vertices, &triangles, 184).expect("a file");
    let mut corners = vec![70; 23];
    assert_eq!(abi::stl_read(&file, &mut corners), Loaded { number: 0, place: 0, facets: 2 });
    let position = |v: &u32| vertices[4 * *v as usize + 1..][..3].to_vec();
    assert_eq!(corners, [triangles[..6].iter().flat_map(position).collect(), vec![70; 5]].concat());
    assert_eq!(abi::stl_read(&file, &mut corners[..17]), Loaded { number: 7, place: 0, facets: 0 });
    assert_eq!(abi::stl_read(&file[..183], &mut corners), Loaded { number: 14, place: 0, facets: 0 });
    let mut minus = file;
    minus[84 + 50 + 12 + 3] ^= 0x80;
    assert_eq!(abi::stl_read(&minus, &mut corners), Loaded { number: 25, place: 1, facets: 0 });
}

#[test]
fn convert() {
    let voxels = [1.5, 3.25, -2.0, 7.75, 2.0];
    let mut samples = vec![80; 6];
    let mut convert = |level, scale, count: usize| {
        let verdict = abi::convert(level, scale, &voxels, &mut samples[..count]);
        (verdict.number, verdict.place, samples.clone())
    };
    let halfway = Level::Halfway { air: -3.0, material: 9.0 };
    assert_eq!(convert(halfway, 4, 5), (0, 0, vec![6, -1, 20, -19, 4, 80]));
    let kept = vec![6, -1, 20, -19, 4, 80];
    assert_eq!(convert(Level::Halfway { air: 9.0, material: -3.0 }, 4, 5), (22, 0, kept.clone()));
    assert_eq!(convert(Level::Halfway { air: f32::NAN, material: 9.0 }, 4, 5), (21, 0, kept.clone()));
    assert_eq!(convert(Level::Halfway { air: -3.0, material: 65_536.01 }, 4, 5), (21, 0, kept.clone()));
    for count in [4, 6] {
        assert_eq!(convert(halfway, 4, count), (2, 0, kept.clone()));
    }
    assert_eq!(convert(halfway, 5, 5), (26, 0, kept));
    assert_eq!(convert(Level::Fixed(2.0), 256, 5), (0, 0, vec![128, -320, 1024, -1472, 0, 80]));
    let wrong = [1.5, 3.25, f32::NAN, 7.75, f32::INFINITY];
    assert_eq!(abi::convert(halfway, 1, &wrong, &mut samples), Verdict { number: 21, place: 2 });
}

#[test]
fn pieces() {
    let samples = samples();
    let [nx, ny, nz] = SIZES;
    let sizes = Sizes { nx, ny, nz };
    // the list is lent as the slice of triangles, of another length than the work room
    let pieces = |sizes: Sizes, samples: &[i16], lent: &mut Lent, list: usize| {
        let work = Work { words: &mut lent.words, waiting: &mut lent.waiting, slots: &mut lent.slots };
        abi::pieces(sizes, samples, &mut lent.triangles[..list], work)
    };
    let cleared = || {
        let mut lent = Lent::new();
        lent.words[..CUBES].fill(0);
        lent.waiting[..CUBES].fill(0);
        lent.slots[..SLOTS].fill(0);
        lent
    };
    let (mut lent, mut wanted) = (Lent::new(), cleared());
    // air at (0,0,0) and at (0,1,2), whose lowest cube is (0,0,1): one cube on x, two on y, three on z
    assert_eq!(pieces(sizes, &samples, &mut lent, 4), Found { number: 0, pieces: 2 });
    (wanted.triangles[0], wanted.triangles[1]) = (0, 2);
    assert_eq!(lent, wanted);
    for list in [0, 1] {
        let mut lent = Lent::new();
        assert_eq!(pieces(sizes, &samples, &mut lent, list), Found { number: 20, pieces: 2 });
        assert_eq!(lent, cleared());
    }
    let short: [Shorter; 3] = [
        |lent| lent.words.truncate(CUBES - 1),
        |lent| lent.waiting.truncate(CUBES - 1),
        |lent| lent.slots.truncate(SLOTS - 1),
    ];
    for shorten in short {
        let mut lent = Lent::new();
        shorten(&mut lent);
        let before = lent.clone();
        assert_eq!(pieces(sizes, &samples, &mut lent, 0), Found { number: 3, pieces: 0 });
        assert_eq!(lent, before);
    }
    let turned = Sizes { nx: 4, ny: 6, nz: 1 };
    let refusals: [(Sizes, &[i16], usize); 3] =
        [(turned, &samples, 1), (sizes, &samples[1..], 2), (sizes, &[0; 24], 5)];
    for (sizes, samples, number) in refusals {
        let mut lent = Lent::new();
        assert_eq!(pieces(sizes, samples, &mut lent, 9), Found { number, pieces: 0 });
        assert_eq!(lent, Lent::new());
    }
}
