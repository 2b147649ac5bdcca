//! One random case of each function, the library's answer and all lent memory held against the second mesher's.
//! A difference panics with the case.

use crate::cases::{case, content, content_under, output_room, sheet_counts, sizes, unnamed_case, Case, Guarded, Lent};
use crate::random::Random;
use crate::{damage, fill, pairing};
use host::abi::{self, Built, Got, Rule, Verdict, Wrote};
use second::{Content, Start};

fn built(b: second::Built) -> Built {
    Built { number: b.number, vertices: b.vertices, triangles: b.triangles, cubes: b.cubes }
}

/// The number that both gave is returned, for counting. Triangles of a sheet pair up.
fn build_of(random: &mut Random, case: &Case) -> usize {
    let counts = sheet_counts(case);
    let room = output_room(random, counts.vertices, counts.triangles);
    let mut ours = Lent::doubtful(random, case.sizes, room);
    let mut theirs = ours.clone();
    let answer = ours.library_build(case);
    let expected = theirs.second_build(case);
    assert_eq!(answer, built(expected), "{case:?} {room:?}");
    assert!(ours == theirs, "memory differs after {answer:?}: {case:?} {room:?}");
    if answer.number == 0 {
        pairing::hold(case, &theirs.content(case, &expected));
    }
    answer.number
}

pub fn build(random: &mut Random) -> usize {
    let case = case(random);
    build_of(random, &case)
}

pub fn build_filled(random: &mut Random) -> usize {
    let case = fill::case(random);
    build_of(random, &case)
}

pub fn build_unnamed(random: &mut Random) -> usize {
    let case = unnamed_case(random);
    build_of(random, &case)
}

/// The rule that a file is checked under, and that which it was made under: mostly the same.
fn rules(random: &mut Random) -> (Rule, Rule) {
    let rule = random.pick(&Rule::BOTH);
    (rule, if random.once_in(4) { rule.other() } else { rule })
}

/// The number that both gave is returned, for counting. Triangles of an accepted sheet pair up.
fn check_of(random: &mut Random, rule: Rule, about: &Case, file: &[u8]) -> usize {
    let mut ours = Lent::doubtful(random, about.sizes, [0, 0]);
    let mut theirs = ours.clone();
    let answer = ours.library_check(rule, about, file);
    let second::Verdict { number, place } = theirs.second_check(rule, about, file);
    assert_eq!(answer, Verdict { number, place }, "{rule:?} {about:?} {file:?}");
    assert!(ours == theirs, "memory differs after {answer:?}: {rule:?} {about:?} {file:?}");
    if let (0, Ok(content)) = (answer.number, second::parse(file)) {
        pairing::hold(about, &content);
    }
    answer.number
}

pub fn check(random: &mut Random) -> usize {
    let mut about = case(random);
    let (rule, made) = rules(random);
    let sheet = content_under(made, &about).unwrap_or_else(|| damage::free_content(random));
    let file = damage::file(random, &sheet);
    if random.once_in(10) {
        // the sheet of other samples, or of another start
        let other = case(random);
        if other.sizes == about.sizes || random.once_in(4) {
            about = other;
        } else {
            about.start = other.start;
        }
    }
    check_of(random, rule, &about, &file)
}

/// A volume with fill, and the volume that a file of it was made from: itself, from another start, its fill read as solid or as
/// air, or with a grain of fill more.
pub fn check_filled(random: &mut Random) -> usize {
    let about = fill::case(random);
    let mut made = match random.below(8) {
        0 => fill::unfilled(&about, -32_767),
        1 => fill::unfilled(&about, random.pick(&[1, 32_767])),
        2 => {
            let mut grain = about.clone();
            let rare = grain.samples.len().max(1);
            fill::grains(random, &mut grain, rare);
            grain
        }
        3 => Case { start: random.pick(&[Start::Unnamed, Start::Lowest]), ..about.clone() },
        _ => about.clone(),
    };
    if content(&made).is_none() {
        // no sheet is there to be made: what was made before the fill was known
        made = fill::unfilled(&about, -32_767);
    }
    let (rule, under) = rules(random);
    let sheet = content_under(under, &made).unwrap_or_else(|| damage::free_content(random));
    let file = damage::file(random, &sheet);
    check_of(random, rule, &about, &file)
}

/// A volume whose start is not named, and a file of the sheet from there, or from the lowest crossed cube.
pub fn check_unnamed(random: &mut Random) -> usize {
    let about = unnamed_case(random);
    let made = if random.once_in(3) { Case { start: Start::Lowest, ..about.clone() } } else { about.clone() };
    let (rule, under) = rules(random);
    let sheet = content_under(under, &made).unwrap_or_else(|| damage::free_content(random));
    let file = damage::file(random, &sheet);
    check_of(random, rule, &about, &file)
}

/// Contents of files, some of them sheets.
fn any_content(random: &mut Random) -> Content {
    if random.once_in(3) {
        content(&case(random)).unwrap_or_else(|| damage::free_content(random))
    } else {
        damage::free_content(random)
    }
}

pub fn read(random: &mut Random) -> usize {
    let sheet = any_content(random);
    let file = if random.once_in(2) { second::serialize(&sheet) } else { damage::file(random, &sheet) };
    let room = output_room(random, sheet.records.len(), sheet.triangles.len());
    let mut vertices = Guarded::new(random, room[0], |r| r.bits() as i32);
    let mut triangles = Guarded::new(random, room[1], |r| r.bits() as u32);
    let mut theirs = (vertices.clone(), triangles.clone());
    let answer = abi::read(&file, vertices.lend(), triangles.lend());
    let expected = second::read(&file, theirs.0.lend(), theirs.1.lend());
    let expected = Got {
        number: expected.number,
        place: expected.place,
        vertices: expected.vertices,
        triangles: expected.triangles,
        sizes: sizes(expected.sizes),
    };
    assert_eq!(answer, expected, "{file:?} {room:?}");
    assert!((vertices, triangles) == theirs, "memory differs after {answer:?}: {file:?} {room:?}");
    answer.number
}

pub fn write(random: &mut Random) -> usize {
    let sheet = any_content(random);
    let (mut vertices, mut triangles) = (sheet.records.concat(), sheet.triangles.concat());
    vertices.extend((0..random.below(6)).map(|n| n as i32));
    triangles.extend((0..random.below(5)).map(|n| n as u32));
    let (v, t) = (sheet.records.len(), sheet.triangles.len());
    let [nv, nt] = [v, t].map(|count| match random.below(12) {
        0 => count + 1 + random.below(3),
        1 => count.saturating_sub(1 + random.below(2)),
        2 => random.pick(&[2_000_000, 2_000_001, 4_000_000, 4_000_001, usize::MAX, usize::MAX / 4 + 1]),
        _ => count,
    });
    let exact = 16 * v + 12 * t + 24;
    let length = match random.below(6) {
        0 => exact - 1,
        1 => random.below(exact),
        2 => exact + random.below(50),
        _ => exact,
    };
    let mut bytes = Guarded::new(random, length, |r| r.bits() as u8);
    let mut theirs = bytes.clone();
    let answer = abi::write(sizes(sheet.sizes), nv, nt, &vertices, &triangles, bytes.lend());
    let second::Wrote { number, place, bytes: count } =
        second::write(sheet.sizes, nv, nt, &vertices, &triangles, theirs.lend());
    assert_eq!(answer, Wrote { number, place, bytes: count }, "{sheet:?} {nv} {nt} {length}");
    assert!(bytes == theirs, "memory differs after {answer:?}: {sheet:?} {nv} {nt} {length}");
    answer.number
}
