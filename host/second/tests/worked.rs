//! Document 01's sheets worked by hand, and those of document 02 (iii), (iv) and (vi), and the pieces of (v), on the second mesher. Those
//! of document 01 that give no start, and of (iii) that start at the lowest cube, name the lowest.

use second::{
    build, check, crossing, listing, parse, pieces, read, serialize, write, Built, Content, Found, Rule, Start, Verdict,
    Volume, Work, FILL,
};

const ROOM: usize = 64 * 64 * 64;

/// Room for any lattice.
struct Room {
    words: Vec<u16>,
    waiting: Vec<u32>,
    slots: Vec<u32>,
}

impl Room {
    fn new() -> Room {
        Room { words: vec![7; ROOM], waiting: vec![8; ROOM], slots: vec![9; 7 * ROOM] }
    }

    fn lend(&mut self) -> Work<'_> {
        Work { words: &mut self.words, waiting: &mut self.waiting, slots: &mut self.slots }
    }
}

/// Counts with room for so many vertices and triangles.
fn counts(sizes: [usize; 3], samples: &[i16], start: Start, room: [usize; 2]) -> [usize; 4] {
    let (mut vertices, mut triangles) = (vec![0; 4 * room[0]], vec![0; 3 * room[1]]);
    let volume = Volume { sizes, start, samples };
    let Built { number, vertices, triangles, cubes } =
        build(volume, &mut vertices, &mut triangles, &mut Room::new().lend());
    [number, vertices, triangles, cubes]
}

/// Of a file, which is the same under both rules where every t is a whole number of units.
fn verdict(sizes: [usize; 3], samples: &[i16], bytes: &[u8]) -> [usize; 2] {
    let [down, nearest] = [Rule::Down, Rule::Nearest].map(|rule| verdict_under(rule, sizes, samples, bytes));
    assert_eq!(down, nearest);
    nearest
}

fn verdict_under(rule: Rule, sizes: [usize; 3], samples: &[i16], bytes: &[u8]) -> [usize; 2] {
    let Verdict { number, place } =
        check(rule, Volume { sizes, start: Start::Lowest, samples }, bytes, &mut Room::new().lend());
    [number, place]
}

/// A volume of solid with air at some samples.
fn with_air(sizes: [usize; 3], air: &[[usize; 3]]) -> Vec<i16> {
    let mut samples = vec![-1; sizes.iter().product()];
    for [x, y, z] in air {
        samples[x + sizes[0] * (y + sizes[1] * z)] = 1;
    }
    samples
}

/// The same with the fill at some samples.
fn with_fill(sizes: [usize; 3], air: &[[usize; 3]], fill: &[[usize; 3]]) -> Vec<i16> {
    let mut samples = with_air(sizes, air);
    for [x, y, z] in fill {
        samples[x + sizes[0] * (y + sizes[1] * z)] = FILL as i16;
    }
    samples
}

/// The edges of the vertices from a start.
fn edges(sizes: [usize; 3], samples: &[i16], start: [usize; 3]) -> Vec<i32> {
    let (mut vertices, mut triangles) = (vec![0; 4 * ROOM], vec![0; 12 * ROOM]);
    let volume = Volume { sizes, start: Start::Cube(start), samples };
    let built = build(volume, &mut vertices, &mut triangles, &mut Room::new().lend());
    vertices.chunks_exact(4).take(built.vertices).map(|record| record[0]).collect()
}

const LISTED: [i16; 8] = [3, -1, -1, -1, -1, -1, -1, -1];

fn listed_content() -> Content {
    Content {
        sizes: [2, 2, 2],
        records: vec![[0, 49152, 0, 0], [1, 0, 49152, 0], [2, 0, 0, 49152]],
        triangles: vec![[1, 2, 0]],
    }
}

#[test]
fn the_listing() {
    let mut file: Vec<u8> = [2u16, 2, 2].iter().flat_map(|axis| axis.to_le_bytes()).collect();
    file.extend(LISTED.iter().flat_map(|sample| sample.to_le_bytes()));
    assert_eq!(listing(&file, Start::Lowest), "3 1 1\nv 0 49152 0 0\nv 1 0 49152 0\nv 2 0 0 49152\nt 1 2 0\n");
    assert_eq!(listing(&file[..5], Start::Lowest), "refused 1\n");
    assert_eq!(listing(&file[..21], Start::Lowest), "refused 2\n");
    file.push(0);
    assert_eq!(listing(&file, Start::Lowest), "refused 2\n");
}

#[test]
fn its_file() {
    let content = listed_content();
    let bytes = serialize(&content);
    assert_eq!(bytes.len(), 84);
    let trailer: Vec<u8> = [60u32, 3, 12, 1]
        .iter()
        .flat_map(|word| word.to_le_bytes())
        .chain([2u16, 2, 2, 21331].iter().flat_map(|word| word.to_le_bytes()))
        .collect();
    assert_eq!(bytes[60..], trailer);
    assert_eq!(parse(&bytes), Ok(content.clone()));

    let (records, triangles) = (content.records.concat(), content.triangles.concat());
    let mut out = [0xee; 90];
    assert_eq!(write([2, 2, 2], 3, 1, &records, &triangles, &mut out).bytes, 84);
    assert_eq!(out[..84], bytes);
    assert_eq!(out[84..], [0xee; 6]);
    let refusals = [
        write([2, 2, 1], 3, 1, &records, &triangles, &mut out),
        write([2, 2, 2], 4, 1, &records, &triangles, &mut out),
        write([2, 2, 2], 2, 1, &records, &triangles, &mut out),
        write([2, 2, 2], 3, 1, &records, &triangles, &mut out[..83]),
    ];
    assert_eq!(refusals.map(|wrote| (wrote.number, wrote.bytes)), [(1, 0), (9, 0), (15, 0), (8, 0)]);

    let (mut vertices, mut back) = ([5; 13], [6; 4]);
    let got = read(&bytes, &mut vertices, &mut back);
    assert_eq!((got.number, got.vertices, got.triangles, got.sizes), (0, 3, 1, [2, 2, 2]));
    assert_eq!((&vertices[..12], vertices[12], &back[..3], back[3]), (&records[..], 5, &triangles[..], 6));
    assert_eq!(read(&bytes, &mut vertices[..11], &mut back).number, 6);
    assert_eq!(read(&bytes, &mut vertices, &mut back[..2]).number, 7);
    assert_eq!(read(&bytes[..23], &mut vertices, &mut back).number, 11);
}

#[test]
fn its_checks() {
    let of = |content: &Content| verdict([2, 2, 2], &LISTED, &serialize(content));
    let mut content = listed_content();
    assert_eq!(of(&content), [0, 0]);
    content.triangles = vec![[2, 0, 1]];
    assert_eq!(of(&content), [0, 0]);
    content.triangles = vec![[1, 0, 2]];
    assert_eq!(of(&content), [18, 0]);
    content.triangles = vec![[1, 2, 0], [1, 2, 0]];
    assert_eq!(of(&content), [18, 1]);
    content.triangles = vec![];
    assert_eq!(of(&content), [19, 0]);
    content = listed_content();
    content.records[1][2] += 1;
    assert_eq!(of(&content), [17, 1]);
    content = listed_content();
    content.sizes = [2, 2, 3];
    assert_eq!(of(&content), [16, 0]);
    assert_eq!(verdict([2, 2, 2], &LISTED, &[0; 23]), [11, 0]);
}

#[test]
fn counts_by_hand() {
    assert_eq!(counts([2, 2, 2], &with_air([2, 2, 2], &[[1, 1, 0]]), Start::Lowest, [9, 9]), [0, 6, 5, 1]);

    let single = with_air([3, 3, 3], &[[1, 1, 1]]);
    for n in 0..8 {
        let start = Start::Cube([n % 2, n / 2 % 2, n / 4]);
        assert_eq!(counts([3, 3, 3], &single, start, [14, 24]), [0, 14, 24, 8]);
    }
    assert_eq!(counts([3, 3, 3], &single, Start::Lowest, [13, 24]), [6, 14, 24, 8]);
    assert_eq!(counts([3, 3, 3], &single, Start::Lowest, [14, 23]), [7, 14, 24, 8]);

    let pair = with_air([5, 2, 2], &[[0, 0, 0], [4, 0, 0]]);
    assert_eq!(counts([5, 2, 2], &pair, Start::Cube([0, 0, 0]), [9, 9]), [0, 3, 1, 1]);
    assert_eq!(counts([5, 2, 2], &pair, Start::Cube([3, 0, 0]), [9, 9]), [0, 5, 3, 1]);
    assert_eq!(counts([5, 2, 2], &pair, Start::Cube([1, 0, 0]), [9, 9]), [5, 0, 0, 0]);
    assert_eq!(counts([5, 2, 2], &pair, Start::Cube([4, 0, 0]), [9, 9]), [4, 0, 0, 0]);
    assert_eq!(counts([5, 2, 2], &pair, Start::Cube([usize::MAX, 0, 0]), [9, 9]), [4, 0, 0, 0]);

    assert_eq!(counts([2, 2, 2], &[0; 8], Start::Lowest, [9, 9]), [5, 0, 0, 0]);
    assert_eq!(counts([1, 2, 2], &[0; 4], Start::Lowest, [9, 9]), [1, 0, 0, 0]);
    assert_eq!(counts([2, 65, 2], &[0; 260], Start::Lowest, [9, 9]), [1, 0, 0, 0]);
    assert_eq!(counts([2, 64, 2], &[0; 256], Start::Lowest, [9, 9]), [5, 0, 0, 0]);
    assert_eq!(counts([2, 2, 2], &[0; 9], Start::Lowest, [9, 9]), [2, 0, 0, 0]);
}

#[test]
fn fill_at_a_corner() {
    let sizes = [3, 3, 3];
    let samples = with_fill(sizes, &[[1, 1, 1]], &[[0, 0, 0]]);
    assert_eq!(counts(sizes, &samples, Start::Cube([0, 0, 0]), [14, 24]), [5, 0, 0, 0]);
    for n in 1..8 {
        assert_eq!(counts(sizes, &samples, Start::Cube([n % 2, n / 2 % 2, n / 4]), [14, 23]), [0, 14, 23, 7]);
    }
    assert_eq!(counts(sizes, &samples, Start::Lowest, [14, 23]), [0, 14, 23, 7]);
    assert_eq!(counts(sizes, &samples, Start::Lowest, [13, 23]), [6, 14, 23, 7]);
    assert_eq!(counts(sizes, &samples, Start::Lowest, [14, 22]), [7, 14, 23, 7]);
    // the fill in place of the air: nothing is crossed
    assert_eq!(counts(sizes, &with_fill(sizes, &[], &[[1, 1, 1]]), Start::Lowest, [14, 24]), [5, 0, 0, 0]);
    assert_eq!(counts(sizes, &samples, Start::Cube([2, 0, 0]), [14, 23]), [4, 0, 0, 0]);
}

#[test]
fn pieces_parted_by_fill_share_an_edge() {
    let sizes = [3, 3, 2];
    let samples = with_fill(sizes, &[[1, 1, 0]], &[[0, 0, 0], [2, 2, 0]]);
    for start in [[1, 0, 0], [0, 1, 0]] {
        assert_eq!(counts(sizes, &samples, Start::Cube(start), [5, 3]), [0, 5, 3, 1]);
        assert!(edges(sizes, &samples, start).contains(&30));
    }
    assert_eq!(edges(sizes, &samples, [1, 0, 0]), [8, 10, 12, 28, 30]);
    assert_eq!(edges(sizes, &samples, [0, 1, 0]), [21, 25, 26, 29, 30]);
    for start in [[0, 0, 0], [1, 1, 0]] {
        assert_eq!(counts(sizes, &samples, Start::Cube(start), [5, 3]), [5, 0, 0, 0]);
    }
    assert_eq!(counts(sizes, &samples, Start::Lowest, [5, 3]), [0, 5, 3, 1]);
}

#[test]
fn every_corner_of_a_cube_is_looked_at() {
    let air = |corner: usize| [corner % 2, corner / 2 % 2, corner / 4];
    for filled in 0..8 {
        for aired in (0..8).filter(|corner| *corner != filled) {
            let samples = with_fill([2, 2, 2], &[air(aired)], &[air(filled)]);
            for start in [Start::Unnamed, Start::Lowest, Start::Cube([0, 0, 0])] {
                assert_eq!(counts([2, 2, 2], &samples, start, [9, 9]), [5, 0, 0, 0]);
            }
        }
    }
    assert_eq!(counts([2, 2, 2], &[FILL as i16; 8], Start::Lowest, [9, 9]), [5, 0, 0, 0]);
}

/// Document 02 (iv): the lowest crossed cube with none of its six faces in the bounds.
#[test]
fn starts_that_nobody_names() {
    let of = |sizes: [usize; 3], air: &[[usize; 3]], start| counts(sizes, &with_air(sizes, air), start, [99, 99]);
    for start in [Start::Unnamed, Start::Lowest, Start::Cube([1, 1, 1])] {
        assert_eq!(of([4; 3], &[[1; 3]], start), [0, 14, 24, 8]);
    }
    assert_eq!(of([3; 3], &[[1; 3]], Start::Unnamed), [5, 0, 0, 0]);
    assert_eq!(of([3; 3], &[[1; 3]], Start::Lowest), [0, 14, 24, 8]);
    assert_eq!(of([4; 3], &[[0; 3]], Start::Unnamed), [5, 0, 0, 0]);
    assert_eq!(of([4; 3], &[[0; 3]], Start::Lowest), [0, 3, 1, 1]);
    let tray = [[0, 0, 0], [4, 2, 2]];
    assert_eq!(of([6, 4, 4], &tray, Start::Unnamed), [0, 14, 24, 8]);
    assert_eq!(of([6, 4, 4], &tray, Start::Cube([3, 1, 1])), [0, 14, 24, 8]);
    assert_eq!(of([6, 4, 4], &tray, Start::Lowest), [0, 3, 1, 1]);
    // a cube with a face in the bounds on one axis alone, at its low or its high end
    for axis in 0..3 {
        for end in [0, 3] {
            let mut air = [1; 3];
            air[axis] = end;
            assert_eq!(of([4; 3], &[air], Start::Unnamed), [5, 0, 0, 0]);
        }
        let mut thin = [4; 3];
        thin[axis] = 3;
        assert_eq!(of(thin, &[[1; 3]], Start::Unnamed), [5, 0, 0, 0]);
    }
    // the cube inside holds the fill
    assert_eq!(counts([4; 3], &with_fill([4; 3], &[[1; 3]], &[[2; 3]]), Start::Unnamed, [99, 99]), [5, 0, 0, 0]);
}

#[test]
fn one_above_the_fill_is_a_sample() {
    let mut samples = [-32_767; 8];
    samples[0] = 1;
    assert_eq!(counts([2, 2, 2], &samples, Start::Lowest, [3, 1]), [0, 3, 1, 1]);
}

/// Those with p = -32768 are true of the formula only: no such sample is an end of a sheet's edge.
#[test]
fn values_of_t() {
    let worked = [(0, 1, 0), (-1, 32767, 2), (-2, 1, 43690), (-32768, 32767, 32768), (-32768, 1, 65534)];
    for (p, q, t) in worked {
        assert_eq!(crossing(Rule::Down, p, q), t);
    }
    // document 02 (vi)
    let both = [
        (0, 1, 0, 0),
        (-2, 1, 43690, 43691),
        (-3, 2, 39321, 39322),
        (-1, 5, 10922, 10923),
        (-1, 2, 21845, 21845),
        (-32767, 1, 65534, 65534),
        (-1, 32767, 2, 2),
    ];
    for (p, q, down, nearest) in both {
        assert_eq!([crossing(Rule::Down, p, q), crossing(Rule::Nearest, p, q)], [down, nearest], "{p} {q}");
    }
    // a tie, which no 16-bit values have, goes to the solid end
    assert_eq!(crossing(Rule::Nearest, -1, 131_071), 0);
}

/// A file under the rule that it was made under, and under the other.
#[test]
fn files_under_both_rules() {
    let samples = [1, -2, -2, -2, -2, -2, -2, -2];
    for made in [Rule::Down, Rule::Nearest] {
        let t = 65_536 - crossing(made, -2, 1) as i32;
        let content = Content {
            sizes: [2, 2, 2],
            records: vec![[0, t, 0, 0], [1, 0, t, 0], [2, 0, 0, t]],
            triangles: vec![[1, 2, 0]],
        };
        for rule in [Rule::Down, Rule::Nearest] {
            let wanted = if rule == made { [0, 0] } else { [17, 0] };
            assert_eq!(verdict_under(rule, [2, 2, 2], &samples, &serialize(&content)), wanted);
        }
    }
}

/// The numbers of the lowest cubes in a list with room for them and one more.
fn lowest_cubes(sizes: [usize; 3], samples: &[i16]) -> Vec<u32> {
    let mut room = Room::new();
    let Found { number, pieces: count } = pieces(sizes, samples, &mut [], &mut room.lend());
    assert_eq!(number, 20);
    let mut list = vec![77; count + 1];
    assert_eq!(pieces(sizes, samples, &mut list[..count - 1], &mut room.lend()), Found { number: 20, pieces: count });
    assert_eq!(list, vec![77; count + 1]);
    assert_eq!(pieces(sizes, samples, &mut list, &mut room.lend()), Found { number: 0, pieces: count });
    assert_eq!(list.pop(), Some(77));
    list
}

/// Document 02 (v).
#[test]
fn pieces_by_hand() {
    let of = |sizes: [usize; 3], air: &[[usize; 3]]| lowest_cubes(sizes, &with_air(sizes, air));
    assert_eq!(of([5, 2, 2], &[[0, 0, 0], [4, 0, 0]]), [0, 3]);
    assert_eq!(of([5; 3], &[[1; 3], [3; 3]]), [0, 42]);
    assert_eq!(of([5; 3], &[[1; 3], [2; 3], [3; 3]]), [0]);
    assert_eq!(of([6, 4, 4], &[[0; 3], [4, 2, 2]]), [0, 23]);
    let parted = with_fill([3, 3, 2], &[[1, 1, 0]], &[[0, 0, 0], [2, 2, 0]]);
    assert_eq!(lowest_cubes([3, 3, 2], &parted), [1, 2]);
}

/// What each refusal leaves: the list always, the work room but for 20, as they were.
#[test]
fn pieces_refused() {
    let (sizes, samples) = ([3, 3, 2], with_air([3, 3, 2], &[[1, 1, 0]]));
    let call = |sizes: [usize; 3], samples: &[i16], list: usize, [words, waiting, slots]: [usize; 3]| {
        let (mut list, mut room) = (vec![1; list], Room::new());
        let mut work = room.lend();
        work = Work {
            words: &mut work.words[..words],
            waiting: &mut work.waiting[..waiting],
            slots: &mut work.slots[..slots],
        };
        let Found { number, pieces } = pieces(sizes, samples, &mut list, &mut work);
        assert!(list.iter().all(|entry| *entry == 1) || number == 0);
        let cleared = work.words.first() == Some(&0);
        assert_eq!(cleared, [0, 20].contains(&number));
        (number, pieces)
    };
    assert_eq!(call(sizes, &samples, 1, [4, 4, 126]), (0, 1));
    assert_eq!(call(sizes, &samples, 0, [4, 4, 126]), (20, 1));
    assert_eq!(call(sizes, &[-1; 18], 0, [4, 4, 126]), (5, 0));
    assert_eq!(call(sizes, &[0; 18], 1, [4, 4, 126]), (5, 0));
    assert_eq!(call(sizes, &samples, 0, [3, 4, 126]), (3, 0));
    assert_eq!(call(sizes, &samples, 1, [4, 3, 126]), (3, 0));
    assert_eq!(call(sizes, &samples, 1, [4, 4, 125]), (3, 0));
    assert_eq!(call(sizes, &samples[1..], 0, [3, 3, 125]), (2, 0));
    assert_eq!(call([3, 65, 2], &samples, 0, [0, 0, 0]), (1, 0));
}
