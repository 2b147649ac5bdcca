//! Binary STL: random sheets and files, the library's answer and all lent memory held against the second writer and reader.
//! So are the plain C loops that the library is measured against. A difference panics with the case.

use crate::cases::{case, content, Guarded};
use crate::damage;
use crate::random::Random;
use host::abi::{self, Loaded, Wrote};
use second::stl::{self, Refused};
use second::Content;

/// The greatest coordinate that a float is written for.
const FARTHEST: i32 = 4_128_768;

/// A coordinate from 0 to the farthest: mostly at random, often at an end or whole.
fn inside(random: &mut Random) -> i32 {
    match random.below(6) {
        0 => random.pick(&[0, 1, 2, FARTHEST - 2, FARTHEST - 1, FARTHEST]),
        1 => 65_536 * random.below(64) as i32,
        2 => 1 << random.below(22),
        _ => random.below(FARTHEST as usize + 1) as i32,
    }
}

/// A coordinate below 0 or beyond the farthest.
fn outside(random: &mut Random) -> i32 {
    match random.below(3) {
        0 => random.pick(&[-1, -2, FARTHEST + 1, FARTHEST + 2, 1 << 22, 1 << 23, 1 << 24, i32::MIN, i32::MAX]),
        1 => -1 - random.below(1 << 31) as i32,
        _ => FARTHEST + 1 + random.below((i32::MAX - FARTHEST) as usize) as i32,
    }
}

/// What a writer may be given: a sheet, or records that no lattice stands behind, all inside or with some outside.
fn any_sheet(random: &mut Random) -> Content {
    if random.once_in(4) {
        return content(&case(random)).unwrap_or_else(|| damage::free_content(random));
    }
    let mut sheet = damage::free_content(random);
    let positions = sheet.records.iter_mut().flat_map(|record| &mut record[1..]);
    positions.for_each(|coordinate| *coordinate = inside(random));
    if !sheet.records.is_empty() && random.once_in(3) {
        for _ in 0..1 + random.below(2) {
            let record = random.below(sheet.records.len());
            sheet.records[record][1 + random.below(3)] = outside(random);
        }
    }
    sheet
}

/// So many numbers, one fewer, fewer or more.
fn room(random: &mut Random, exact: usize) -> usize {
    match random.below(8) {
        0 => exact.saturating_sub(1),
        1 => random.below(exact + 1),
        2 => 0,
        3 | 4 => exact + random.below(60),
        _ => exact,
    }
}

/// The number that both gave is returned, for counting.
pub fn write(random: &mut Random) -> usize {
    let sheet = any_sheet(random);
    let (mut vertices, mut triangles) = (sheet.records.concat(), sheet.triangles.concat());
    vertices.extend((0..random.below(9)).map(|_| random.bits() as i32));
    triangles.extend((0..random.below(7)).map(|_| random.bits() as u32));
    let [nv, nt] = [sheet.records.len(), sheet.triangles.len()].map(|count| match random.below(16) {
        0 => count + 1 + random.below(3),
        1 | 2 => count.saturating_sub(1 + random.below(2)),
        3 => random.pick(&[2_000_000, 2_000_001, 4_000_000, 4_000_001, usize::MAX, usize::MAX / 3 + 1]),
        _ => count,
    });
    let length = room(random, 84 + 50 * nt.min(100_000));
    let mut bytes = Guarded::new(random, length, |r| r.bits() as u8);
    let (mut theirs, mut plain) = (bytes.clone(), bytes.clone());
    let answer = abi::stl_write(nv, nt, &vertices, &triangles, bytes.lend());
    let expected = match stl::write(nv, nt, &vertices, &triangles, length) {
        Ok(file) => {
            theirs.lend()[..file.len()].copy_from_slice(&file);
            Wrote { number: 0, place: 0, bytes: file.len() }
        }
        Err(Refused { number, place }) => Wrote { number, place, bytes: 0 },
    };
    assert_eq!(answer, expected, "{sheet:?} {nv} {nt} {length}");
    assert!(bytes == theirs, "memory differs after {answer:?}: {sheet:?} {nv} {nt} {length}");
    let by_c = baseline::stl_write(nv, nt, &vertices, &triangles, plain.lend());
    assert_eq!(
        [by_c.number, by_c.place, by_c.count],
        [answer.number, answer.place, answer.bytes],
        "{sheet:?} {nv} {nt}"
    );
    assert!(plain == theirs, "stl.c leaves other memory: {sheet:?} {nv} {nt} {length}");
    answer.number
}

/// The bits of a float of every class: zeros, subnormals, infinities, quiet and signalling NaNs, powers of two, negative ones,
/// next to a coordinate's, between two coordinates', beyond the farthest, any bits.
fn odd_bits(random: &mut Random) -> u32 {
    let sign = random.pick(&[0, 1 << 31]);
    let near = stl::float(inside(random)).to_bits();
    match random.below(9) {
        0 => sign | random.pick(&[0, 1, 0x007f_ffff, 0x0080_0000]),
        1 => sign | random.below(1 << 23) as u32,
        2 => sign | random.pick(&[0x7f80_0000, 0x7fc0_0000, 0x7f80_0001, 0x7fff_ffff, 0x7f7f_ffff]),
        3 => sign | 0x7f80_0000 | random.below(1 << 23) as u32,
        4 => sign | (random.below(256) as u32) << 23,
        5 => sign | near,
        6 => near.wrapping_add(random.pick(&[1, 2, 3, u32::MAX, u32::MAX - 1])),
        7 => (f32::from_bits(near) + random.pick(&[0.5, 0.25, 64.0 * 65_536.0, 65_536.0]) / 65_536.0).to_bits(),
        _ => random.bits() as u32,
    }
}

/// A file of some facets: header, normals and attributes anything, floats those of coordinates, or some of them odd.
fn any_file(random: &mut Random) -> Vec<u8> {
    let count = random.below(9);
    let odd = random.pick(&[0, 0, 0, 1, 1, 2, 9 * count]);
    let mut floats: Vec<u32> = (0..9 * count).map(|_| stl::float(inside(random)).to_bits()).collect();
    if count > 0 {
        (0..odd).for_each(|_| floats[random.below(9 * count)] = odd_bits(random));
    }
    let mut file: Vec<u8> = (0..80).map(|_| random.bits() as u8).collect();
    file.extend((count as u32).to_le_bytes());
    for facet in floats.chunks_exact(9) {
        file.extend((0..12).map(|_| random.bits() as u8));
        file.extend(facet.iter().flat_map(|bits| bits.to_le_bytes()));
        file.extend((random.bits() as u16).to_le_bytes());
    }
    file
}

/// A file with its length or its count damaged. Some counts are such that 50 times as much does not fit 32 bits.
fn misfit(random: &mut Random, file: &mut Vec<u8>) {
    const COUNTS: [u32; 8] = [0, 1, 85_899_345, 85_899_346, 85_899_347, 1 << 31, u32::MAX - 1, u32::MAX];
    match random.below(6) {
        0 => file.truncate(random.below(85)),
        1 => file.truncate(random.below(file.len() + 1)),
        2 => file.truncate(file.len() - random.pick(&[1, 2, 4, 49, 50, 51, 84]).min(file.len())),
        3 => file.extend((0..random.pick(&[1, 2, 49, 50, 51, 100])).map(|_| random.bits() as u8)),
        4 => file[80..84].copy_from_slice(&random.pick(&COUNTS).to_le_bytes()),
        _ => file[80] = file[80].wrapping_add(random.pick(&[1, 2, 255])),
    }
}

/// A file as it might be, for a reader.
pub fn file(random: &mut Random) -> Vec<u8> {
    let mut file = any_file(random);
    if random.once_in(5) {
        misfit(random, &mut file);
    }
    file
}

/// The number that both gave is returned, for counting.
pub fn read(random: &mut Random) -> usize {
    let file = file(random);
    let length = room(random, file.len().saturating_sub(84) / 50 * 9);
    let mut corners = Guarded::new(random, length, |r| r.bits() as i32);
    let (mut theirs, mut plain) = (corners.clone(), corners.clone());
    let answer = abi::stl_read(&file, corners.lend());
    let expected = match stl::read(&file, length) {
        Ok(facets) => {
            theirs.lend()[..9 * facets.len()].copy_from_slice(&facets.concat());
            Loaded { number: 0, place: 0, facets: facets.len() }
        }
        Err(Refused { number, place }) => Loaded { number, place, facets: 0 },
    };
    assert_eq!(answer, expected, "{file:?} {length}");
    assert!(corners == theirs, "memory differs after {answer:?}: {file:?} {length}");
    let by_c = baseline::stl_read(&file, plain.lend());
    assert_eq!([by_c.number, by_c.place, by_c.count], [answer.number, answer.place, answer.facets], "{file:?}");
    assert!(plain == theirs, "stl.c leaves other memory: {file:?} {length}");
    answer.number
}
