//! The proved library held against the second mesher: answers, outputs, work room and guard words.

use host::abi::Rule;
use host::cubes::{Cubes, Piece};
use host::sheet::Sheet;
use host::volume::Volume;
use second::Start;
use std::collections::{BTreeMap, BTreeSet};
use trials::cases::{self, Case, Lent};
use trials::fill::{self, FILL};
use trials::random::Random;
use trials::{damage, floats, hold, pairing, pieces, stl, volumes};

/// Runs so many cases and says that each of the numbers came up.
fn hold(cases: u64, seed: u64, trial: fn(&mut Random) -> usize, numbers: &[usize]) {
    let mut counts = BTreeMap::new();
    for n in 0..cases {
        *counts.entry(trial(&mut Random::new(seed + n))).or_insert(0) += 1;
    }
    println!("{cases} cases, numbers and how often: {counts:?}");
    assert_eq!(counts.keys().copied().collect::<Vec<_>>(), numbers);
}

#[test]
fn build_8000() {
    hold(8000, 1_000_000, hold::build, &[0, 1, 2, 3, 4, 5, 6, 7]);
}

#[test]
fn check_10000() {
    hold(10_000, 2_000_000, hold::check, &[0, 1, 2, 3, 4, 5, 11, 12, 14, 15, 16, 17, 18, 19]);
}

/// With those of the next test, 20,000 cases have fill.
#[test]
fn build_with_fill_8000() {
    hold(8000, 9_000_000, hold::build_filled, &[0, 1, 2, 3, 4, 5, 6, 7]);
}

#[test]
fn check_with_fill_12000() {
    hold(12_000, 10_000_000, hold::check_filled, &[0, 1, 2, 3, 4, 5, 11, 12, 14, 15, 16, 17, 18, 19]);
}

/// Solid, with air and fill at some samples.
fn worked(sizes: [usize; 3], air: &[[usize; 3]], fill: &[[usize; 3]], start: Start) -> Case {
    let mut samples = vec![-1; sizes.iter().product()];
    let number = |[x, y, z]: &[usize; 3]| x + sizes[0] * (y + sizes[1] * z);
    air.iter().for_each(|place| samples[number(place)] = 1);
    fill.iter().for_each(|place| samples[number(place)] = FILL);
    Case { sizes, start, samples }
}

/// Number, vertices, triangles and cubes, by the second mesher, the C mesher and the library; their memory is the same.
fn by_all(case: &Case) -> [usize; 4] {
    let sizes = case.sizes.map(|axis| axis as u16);
    let mut theirs = Lent::clean(case.sizes, [400, 400]);
    let (mut c, mut ours) = (theirs.clone(), theirs.clone());
    let second::Built { number, vertices, triangles, cubes } = theirs.second_build(case);
    let wanted = [number, vertices, triangles, cubes];
    let lent = baseline::Lent {
        vertices: c.vertices.lend(),
        triangles: c.triangles.lend(),
        words: c.words.lend(),
        waiting: c.waiting.lend(),
        slots: c.slots.lend(),
    };
    assert_eq!(baseline::build(sizes, cases::in_c(case.start), &case.samples, lent), wanted, "{case:?}");
    assert!(c == theirs, "second.c leaves other memory: {case:?}");
    let built = ours.library_build(case);
    assert_eq!([built.number, built.vertices, built.triangles, built.cubes], wanted, "{case:?}");
    assert!(ours == theirs, "memory differs: {case:?}");
    wanted
}

/// A start that nobody names has no face in the bounds; half of these lattices have no such cube that is crossed.
#[test]
fn build_without_a_start_8000() {
    hold(8000, 13_000_000, hold::build_unnamed, &[0, 2, 3, 5, 6, 7]);
}

#[test]
fn check_without_a_start_8000() {
    hold(8000, 14_000_000, hold::check_unnamed, &[0, 1, 2, 3, 5, 11, 12, 14, 15, 16, 17, 18, 19]);
}

/// Worked sheets of document 02 (iv), by all three.
#[test]
fn worked_starts() {
    let of = |sizes: [usize; 3], air: &[[usize; 3]], start| by_all(&worked(sizes, air, &[], start));
    assert_eq!(of([4; 3], &[[1; 3]], Start::Unnamed), [0, 14, 24, 8]);
    assert_eq!(of([3; 3], &[[1; 3]], Start::Unnamed), [5, 0, 0, 0]);
    assert_eq!(of([3; 3], &[[1; 3]], Start::Lowest), [0, 14, 24, 8]);
    assert_eq!(of([4; 3], &[[0; 3]], Start::Unnamed), [5, 0, 0, 0]);
    assert_eq!(of([4; 3], &[[0; 3]], Start::Lowest), [0, 3, 1, 1]);
    let tray = [[0, 0, 0], [4, 2, 2]];
    assert_eq!(of([6, 4, 4], &tray, Start::Unnamed), [0, 14, 24, 8]);
    assert_eq!(of([6, 4, 4], &tray, Start::Lowest), [0, 3, 1, 1]);
    for cube in [[3, 1, 1], [4, 2, 2]] {
        assert_eq!(of([6, 4, 4], &tray, Start::Cube(cube)), [0, 14, 24, 8]);
    }
}

/// One sample of air at each place of lattices of up to five samples an axis: where no start is named, it is the lowest of the cubes
/// round it that have a cube beyond each face.
#[test]
fn every_place_of_small_lattices() {
    let mut found = 0;
    for number in 0..64 {
        let sizes: [usize; 3] = [2 + number % 4, 2 + number / 4 % 4, 2 + number / 16];
        for sample in 0..sizes.iter().product::<usize>() {
            let at: [usize; 3] = [sample % sizes[0], sample / sizes[0] % sizes[1], sample / sizes[0] / sizes[1]];
            // the lowest cube on an axis is one below, but not the first; it must end before the last sample
            let low = at.map(|v| v.saturating_sub(1).max(1));
            let fits = (0..3).all(|axis| low[axis] <= at[axis] && low[axis] + 2 < sizes[axis]);
            let case = worked(sizes, &[at], &[], Start::Unnamed);
            let all = by_all(&case);
            assert_eq!(all[0], if fits { 0 } else { 5 }, "{case:?}");
            if fits {
                assert_eq!(all, by_all(&Case { start: Start::Cube(low), ..case }));
            }
            found += usize::from(fits);
        }
    }
    assert_eq!(found, 125);
}

/// Worked sheets of document 02 (iii).
#[test]
fn worked_sheets_with_fill() {
    let single = |start| worked([3; 3], &[[1; 3]], &[[0; 3]], start);
    assert_eq!(by_all(&single(Start::Cube([0, 0, 0]))), [5, 0, 0, 0]);
    assert_eq!(by_all(&single(Start::Lowest)), [0, 14, 23, 7]);
    for n in 1..8 {
        assert_eq!(by_all(&single(Start::Cube([n % 2, n / 2 % 2, n / 4]))), [0, 14, 23, 7]);
    }
    let parted = |start| worked([3, 3, 2], &[[1, 1, 0]], &[[0, 0, 0], [2, 2, 0]], Start::Cube(start));
    let pieces = [[1, 0, 0], [0, 1, 0]].map(parted);
    let sheets = pieces.clone().map(|piece| {
        assert_eq!(by_all(&piece), [0, 5, 3, 1]);
        cases::content(&piece).expect("the start is crossed")
    });
    // each has a vertex of its own on edge 30, at the same place, and each is right from its own start alone
    let vertex = |sheet: &second::Content| sheet.records.iter().find(|record| record[0] == 30).copied();
    assert_eq!(sheets.each_ref().map(vertex), [Some([30, 65_536, 65_536, 32_768]); 2]);
    for (of, sheet) in sheets.iter().enumerate() {
        for (from, piece) in pieces.iter().enumerate() {
            let file = second::serialize(sheet);
            let mut lent = Lent::clean(piece.sizes, [0, 0]);
            let (ours, theirs) = (lent.library_check(Rule::Nearest, piece, &file), lent.second_check(Rule::Nearest, piece, &file));
            assert_eq!((ours.number, ours.place), (theirs.number, theirs.place));
            assert_eq!((theirs.number, theirs.place), if of == from { (0, 0) } else { (17, 0) });
        }
        pairing::hold(&pieces[of], sheet);
    }
    for start in [[0, 0, 0], [1, 1, 0]] {
        assert_eq!(by_all(&parted(start)), [5, 0, 0, 0]);
    }
    assert_eq!(by_all(&worked([2; 3], &[], &[[0; 3]], Start::Lowest)), [5, 0, 0, 0]);
    // a start outside is 4 before all that
    assert_eq!(by_all(&single(Start::Cube([2, 0, 0]))), [4, 0, 0, 0]);
}

/// Each corner of a cube air, solid or fill: its start is crossed exactly where it is free of the fill and not on one side.
#[test]
fn every_cube_of_air_solid_and_fill() {
    let mut crossed = 0;
    for number in 0..usize::pow(3, 8) {
        let samples: Vec<i16> = (0..8).map(|corner| [1, -1, FILL][number / usize::pow(3, corner) % 3]).collect();
        for start in [Start::Lowest, Start::Cube([0; 3])] {
            let case = Case { sizes: [2; 3], start, samples: samples.clone() };
            let mut ours = Lent::clean(case.sizes, [4 * 19, 3 * 12]);
            let mut theirs = ours.clone();
            let (answer, expected) = (ours.library_build(&case), theirs.second_build(&case));
            assert_eq!(
                [answer.number, answer.vertices, answer.triangles, answer.cubes],
                [expected.number, expected.vertices, expected.triangles, expected.cubes],
                "{case:?}"
            );
            assert!(ours == theirs, "memory differs: {case:?}");
            crossed += usize::from(answer.number == 0);
        }
    }
    assert_eq!(crossed, 2 * 254);
}

/// Demand 3 with the fill, on the second mesher's sheets: every piece of volumes with rings, grains and walls. Pieces that fill
/// parts may share a lattice edge, and each has a vertex there.
#[test]
fn pairing_with_fill_3000() {
    let (mut sheets, mut single, mut shared) = (0, 0, 0);
    for seed in 0..3000 {
        let mut case = fill::case(&mut Random::new(11_000_000 + seed));
        let Ok(lattice) = second::Lattice::new(case.sizes, &case.samples) else { continue };
        let starts: Vec<second::Point> = lattice.cubes().filter(|cube| lattice.crossed(*cube)).collect();
        let mut seen = BTreeSet::new();
        let mut edges = BTreeSet::new();
        for start in starts {
            if seen.contains(&start) {
                continue;
            }
            seen.extend(second::Sheet::of(second::Rule::Nearest, &lattice, start).visited);
            case.start = Start::Cube([start.x, start.y, start.z].map(|v| v as usize));
            let content = cases::content(&case).expect("the start is crossed");
            single += pairing::hold(&case, &content);
            shared += content.records.iter().filter(|record| !edges.insert(record[0])).count();
            sheets += 1;
        }
    }
    println!(
        "{sheets} sheets, {single} directed edges without a reverse, {shared} lattice edges with a further vertex"
    );
    assert!(sheets > 5000 && single > 10_000 && shared > 100);
}

#[test]
fn read_4000() {
    hold(4000, 3_000_000, hold::read, &[0, 1, 6, 7, 11, 12, 14, 15]);
}

#[test]
fn write_4000() {
    hold(4000, 4_000_000, hold::write, &[0, 1, 8, 9, 15]);
}

#[test]
fn stl_write_8000() {
    hold(8000, 6_000_000, stl::write, &[0, 8, 9, 15, 25]);
}

#[test]
fn convert_20000() {
    hold(20_000, 9_000_000, floats::convert, &[0, 2, 21, 22, 26]);
}

#[test]
fn stl_read_8000() {
    hold(8000, 7_000_000, stl::read, &[0, 7, 14, 25]);
}

#[test]
fn pieces_10000() {
    hold(10_000, 15_000_000, pieces::find, &[0, 1, 2, 3, 5, 20]);
}

/// The list of the lowest cubes, by the library and by the plain scan, with dirty memory.
fn lowest_cubes(case: &Case) -> Vec<u32> {
    let mut ours = Lent::dirty(&mut Random::new(17), case.sizes, [0, cases::cube_count(case.sizes)]);
    let mut theirs = ours.clone();
    let (answer, expected) = (ours.library_pieces(case), theirs.second_pieces(case));
    assert_eq!((answer.number, answer.pieces), (expected.number, expected.pieces), "{case:?}");
    assert!(ours == theirs, "memory differs: {:?}", case.sizes);
    ours.triangles.lend()[..answer.pieces].to_vec()
}

/// Worked values of document 02 (v), by both.
#[test]
fn worked_pieces() {
    let of = |sizes: [usize; 3], air: &[[usize; 3]], fill: &[[usize; 3]]| {
        lowest_cubes(&worked(sizes, air, fill, Start::Lowest))
    };
    assert_eq!(of([5, 2, 2], &[[0, 0, 0], [4, 0, 0]], &[]), [0, 3]);
    assert_eq!(of([5; 3], &[[1; 3], [3; 3]], &[]), [0, 42]);
    assert_eq!(of([5; 3], &[[1; 3], [2; 3], [3; 3]], &[]), [0]);
    assert_eq!(of([6, 4, 4], &[[0; 3], [4, 2, 2]], &[]), [0, 23]);
    assert_eq!(of([3, 3, 2], &[[1, 1, 0]], &[[0, 0, 0], [2, 2, 0]]), [1, 2]);
    assert_eq!(of([2; 3], &[], &[]), []);
}

/// One sample of air at each place of lattices whose axes are round the sizes of blocks.
#[test]
fn a_speck_at_each_place() {
    for sizes in [[2, 3, 4], [5, 5, 5], [9, 8, 7], [17, 3, 2], [2, 33, 3], [3, 2, 64], [16, 9, 2]] {
        for n in 0..sizes.iter().product::<usize>() {
            let at = [n % sizes[0], n / sizes[0] % sizes[1], n / sizes[0] / sizes[1]];
            let low = at.map(|v| v.saturating_sub(1));
            let number = low[0] + (sizes[0] - 1) * (low[1] + (sizes[1] - 1) * low[2]);
            assert_eq!(lowest_cubes(&worked(sizes, &[at], &[], Start::Lowest)), [number as u32]);
        }
    }
}

/// Lattices of 64 samples an axis: the benchmark's volumes, the same with fill, specks wherever blocks meet, and 32,768 pieces.
#[test]
fn pieces_of_full_lattices() {
    let full = |air: fn([usize; 3]) -> bool| {
        let air = |n: usize| if air([n % 64, n / 64 % 64, n / 4096]) { 1 } else { -1 };
        Case { sizes: [64; 3], start: Start::Lowest, samples: (0..64 * 64 * 64).map(air).collect() }
    };
    let borders = full(|at| at.iter().all(|v| [0, 2, 8, 15, 17, 31, 33, 48, 63].contains(v)));
    assert_eq!(lowest_cubes(&borders).len(), 9 * 9 * 9);
    assert_eq!(lowest_cubes(&full(|at| at.iter().all(|v| v % 2 == 0))).len(), 32 * 32 * 32);
    assert_eq!(lowest_cubes(&full(|at| at == [32; 3])), [31 * (1 + 63 + 63 * 63)]);
    assert_eq!(lowest_cubes(&full(|at| at == [63; 3])), [62 * (1 + 63 + 63 * 63)]);
    assert_eq!(lowest_cubes(&chequered()), [0]);
    for (name, case) in volumes::all().into_iter().chain(volumes::filled()).chain(volumes::small()) {
        println!("{name}: {} pieces", lowest_cubes(&case).len());
    }
}

/// Each crossed cube is in exactly one piece: the sheets from the listed cubes have between them every crossed cube once.
#[test]
fn sheets_of_all_pieces_2000() {
    let mut most = 0;
    for seed in 0..2000 {
        let mut case = pieces::case(&mut Random::new(16_000_000 + seed));
        let Ok(lattice) = second::Lattice::new(case.sizes, &case.samples) else { continue };
        let crossed = lattice.cubes().filter(|cube| lattice.crossed(*cube)).count();
        let list = lowest_cubes(&case);
        most = most.max(list.len());
        if list.len() > 40 {
            continue;
        }
        let mut visited = 0;
        for number in &list {
            let cube = host::room::cube(cases::sizes(case.sizes), *number as usize);
            case.start = Start::Cube([cube.x, cube.y, cube.z]);
            visited += Lent::clean(case.sizes, [0, 0]).library_build(&case).cubes;
        }
        assert_eq!(visited, crossed, "{case:?}");
    }
    assert!(most > 100);
}

/// Every coordinate that a float is written for, in one file: nine to a facet, what is left over at 0.
#[test]
fn every_coordinate_to_stl_and_back() {
    const COORDINATES: i32 = 4_128_769;
    let facets = COORDINATES as usize / 9 + 1;
    let all: Vec<i32> = (0..9 * facets as i32).map(|n| if n < COORDINATES { n } else { 0 }).collect();
    let vertices: Vec<i32> =
        all.chunks_exact(3).flat_map(|position| [-1, position[0], position[1], position[2]]).collect();
    let triangles: Vec<u32> = (0..3 * facets as u32).collect();
    let mut bytes = vec![9; 84 + 50 * facets];
    let wrote = host::abi::stl_write(3 * facets, facets, &vertices, &triangles, &mut bytes);
    assert_eq!((wrote.number, wrote.bytes), (0, bytes.len()));
    let written = second::stl::write(3 * facets, facets, &vertices, &triangles, bytes.len());
    assert!(Ok(&bytes) == written.as_ref(), "written bytes differ");
    let mut back = vec![-1; all.len()];
    let loaded = host::abi::stl_read(&bytes, &mut back);
    assert_eq!((loaded.number, loaded.facets), (0, facets));
    assert!(back == all, "what was read differs");
}

/// The facets of no area that the tool tells of are, in a sheet, those with two corners in one place.
#[test]
fn flat_facets_2000() {
    let mut all = 0;
    for seed in 0..2000 {
        let case = cases::case(&mut Random::new(8_000_000 + seed));
        let Some(content) = cases::content(&case) else { continue };
        let (vertices, triangles) = (content.records.concat(), content.triangles.concat());
        let sheet = Sheet { sizes: cases::sizes(case.sizes), vertices, triangles };
        let position = |index: u32| &content.records[index as usize][1..];
        let touch = |[a, b, c]: [u32; 3]| [(a, b), (b, c), (c, a)].iter().any(|(a, b)| position(*a) == position(*b));
        let flats = content.triangles.iter().filter(|triangle| touch(**triangle)).count();
        assert_eq!(host::stl::flats(&sheet), flats, "{case:?}");
        all += flats;
    }
    assert!(all > 1000);
}

/// The surfaces that the tool tells of are those that the second mesher visits, by their lowest cubes.
fn surfaces(seed: u64, case: fn(&mut Random) -> Case) {
    let mut most = 0;
    for round in 0..2000 {
        let case = case(&mut Random::new(seed + round));
        let volume = Volume::parse(&case.file());
        let Some(cubes) = Cubes::of(&volume) else { continue };
        let lattice = second::Lattice::new(case.sizes, &case.samples).expect("sizes and samples fit");
        let mut left: BTreeSet<second::Point> = lattice.cubes().filter(|cube| lattice.crossed(*cube)).collect();
        let mut wanted = Vec::new();
        while let Some(first) = left.first().copied() {
            let visited = second::Sheet::of(second::Rule::Nearest, &lattice, first).visited;
            visited.iter().for_each(|cube| assert!(left.remove(cube)));
            let start = cases::place([first.x, first.y, first.z].map(|v| v as usize));
            wanted.push(Piece { start, cubes: visited.len() });
        }
        most = most.max(wanted.len());
        assert_eq!(cubes.pieces(), wanted, "{case:?}");
    }
    assert!(most > 5);
}

#[test]
fn surfaces_2000() {
    surfaces(5_000_000, cases::case);
}

#[test]
fn surfaces_with_fill_2000() {
    surfaces(12_000_000, fill::case);
}

/// Builds, writes, reads and checks one large lattice on both sides.
fn whole(mut case: Case, random: &mut Random) {
    let mut ours = Lent::dirty(random, case.sizes, [4 * 7 * 64 * 64 * 64, 3 * 12 * 63 * 63 * 63]);
    let mut theirs = ours.clone();
    let built = ours.library_build(&case);
    let expected = theirs.second_build(&case);
    assert_eq!(
        [built.number, built.vertices, built.triangles, built.cubes],
        [0, expected.vertices, expected.triangles, expected.cubes]
    );
    assert!(ours == theirs, "memory differs after a build");
    let sheet = theirs.content(&case, &expected);
    let (nv, nt) = (sheet.records.len(), sheet.triangles.len());

    let (vertices, triangles) = (sheet.records.concat(), sheet.triangles.concat());
    let file = second::serialize(&sheet);
    let mut bytes = vec![9; file.len() + 3];
    let wrote = host::abi::write(trials::cases::sizes(case.sizes), nv, nt, &vertices, &triangles, &mut bytes);
    assert_eq!((wrote.number, wrote.bytes), (0, file.len()));
    assert!(bytes[..file.len()] == file && bytes[file.len()..] == [9; 3], "written bytes differ");

    let (mut read_vertices, mut read_triangles) = (vec![0; 4 * nv], vec![0; 3 * nt]);
    let got = host::abi::read(&file, &mut read_vertices, &mut read_triangles);
    assert_eq!((got.number, got.vertices, got.triangles), (0, nv, nt));
    assert!(read_vertices == vertices && read_triangles == triangles, "what was read differs");

    let mut lent = Lent::clean(case.sizes, [0, 0]);
    assert_eq!(lent.library_check(Rule::Nearest, &case, &file).number, 0);
    let mut other = sheet.clone();
    damage::shuffle(random, &mut other);
    assert_eq!(lent.library_check(Rule::Nearest, &case, &second::serialize(&other)).number, 0);
    let last = other.triangles.len() - 1;
    other.triangles[last].swap(1, 2);
    let verdict = lent.library_check(Rule::Nearest, &case, &second::serialize(&other));
    assert_eq!((verdict.number, verdict.place), (18, last));

    // other samples, on the sheets that the second checker is quick with
    if nt > 100_000 {
        return;
    }
    case.samples[0] ^= 1;
    let (ours, theirs) = (lent.library_check(Rule::Nearest, &case, &file), lent.second_check(Rule::Nearest, &case, &file));
    assert_eq!((ours.number, ours.place), (theirs.number, theirs.place));
}

/// Air and solid in turn on every axis, at extreme values: nearly the most vertices and triangles.
fn chequered() -> Case {
    let value = |n: usize| [i16::MAX, i16::MIN + 1][(n % 64 + n / 64 % 64 + n / 4096) % 2];
    Case { sizes: [64; 3], start: Start::Lowest, samples: (0..64 * 64 * 64).map(value).collect() }
}

#[test]
fn full_lattices() {
    let mut random = Random::new(5);
    for case in volumes::all().map(|(_, case)| case).into_iter().chain([chequered()]) {
        whole(case, &mut random);
    }
}

/// The same volumes in a ring of fill, as scanners leave it, and with grains.
#[test]
fn full_lattices_with_fill() {
    let mut random = Random::new(6);
    for (name, case) in volumes::filled() {
        println!("{name}");
        whole(case, &mut random);
    }
}

#[test]
fn the_limits_of_a_file() {
    // counts at and above V's and T's limit, with slices that have room for them
    let (vertices, triangles) = (vec![-1; 4 * 2_000_001], vec![1_999_999; 3 * 4_000_001]);
    let mut bytes = vec![0; 80_000_060];
    let sizes = trials::cases::sizes([64, 2, 33]);
    let mut write = |nv, nt, room| {
        let wrote = host::abi::write(sizes, nv, nt, &vertices, &triangles, &mut bytes[..room]);
        [wrote.number, wrote.place, wrote.bytes]
    };
    assert_eq!(write(2_000_001, 4_000_000, 80_000_060), [9, 0, 0]);
    assert_eq!(write(2_000_000, 4_000_001, 80_000_060), [9, 0, 0]);
    assert_eq!(write(1_999_999, 4_000_000, 80_000_060), [15, 0, 0]);
    assert_eq!(write(2_000_000, 4_000_000, 80_000_023), [8, 0, 0]);
    assert_eq!(write(2_000_000, 4_000_000, 80_000_024), [0, 0, 80_000_024]);
    let (mut read_vertices, mut read_triangles) = (vec![0; 4 * 2_000_000], vec![0; 3 * 4_000_000]);
    let got = host::abi::read(&bytes[..80_000_024], &mut read_vertices, &mut read_triangles);
    assert_eq!((got.number, got.vertices, got.triangles, got.sizes), (0, 2_000_000, 4_000_000, sizes));
    assert!(read_vertices == vertices[..8_000_000] && read_triangles == triangles[..12_000_000]);
}

#[test]
fn the_limits_of_stl() {
    // counts at and above V's and T's limit in writing; in reading there is none
    let (vertices, triangles) = (vec![-1; 4 * 2_000_001], vec![1_999_999; 3 * 4_000_001]);
    let write = |nv, nt| {
        let wrote = host::abi::stl_write(nv, nt, &vertices, &triangles, &mut []);
        [wrote.number, wrote.place, wrote.bytes]
    };
    assert_eq!(write(2_000_001, 4_000_000), [9, 0, 0]);
    assert_eq!(write(2_000_000, 4_000_001), [9, 0, 0]);
    assert_eq!(write(1_999_999, 4_000_000), [15, 0, 0]);
    assert_eq!(write(2_000_000, 4_000_000), [25, 0, 0]);
    let count = 4_000_001;
    let mut bytes = vec![0; 84 + 50 * count];
    bytes[80..84].copy_from_slice(&(count as u32).to_le_bytes());
    let mut corners = vec![1; 9 * count + 1];
    let loaded = host::abi::stl_read(&bytes, &mut corners);
    assert_eq!((loaded.number, loaded.facets), (0, count));
    assert!(corners[..9 * count].iter().all(|number| *number == 0) && corners[9 * count] == 1);
}
