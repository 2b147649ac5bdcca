//! Checking a sheet file against its samples.

use crate::build::{begin, Volume, Work};
use crate::file::{parse, Content};
use crate::lattice::Lattice;
use crate::sheet::{Rule, Sheet};
use std::collections::{BTreeMap, BTreeSet, HashSet};

#[derive(Clone, Copy, Debug, PartialEq, Eq)]
pub struct Verdict {
    pub number: usize,
    pub place: usize,
}

/// Of a file that was made under a rule.
pub fn check(rule: Rule, volume: Volume, bytes: &[u8], work: &mut Work) -> Verdict {
    let (lattice, start) = match begin(volume, work) {
        Ok(begun) => begun,
        Err(number) => return Verdict { number, place: 0 },
    };
    let content = match parse(bytes) {
        Ok(content) => content,
        Err((number, place)) => return Verdict { number, place },
    };
    if content.sizes != volume.sizes {
        return Verdict { number: 16, place: 0 };
    }
    work.clear(&lattice);
    compare(&lattice, &Sheet::of(rule, &lattice, start), &content)
}

/// A triangle by edges, from the corner with the lowest: all turns of it are then one value.
fn turned<T: Ord + Copy>([a, b, c]: [T; 3]) -> [T; 3] {
    [[a, b, c], [b, c, a], [c, a, b]].into_iter().min().unwrap_or([a, b, c])
}

/// Tests 17, 18 and 19.
fn compare(lattice: &Lattice, sheet: &Sheet, content: &Content) -> Verdict {
    let mut records: BTreeSet<[i32; 4]> = sheet.records(lattice).into_iter().collect();
    for (place, record) in content.records.iter().enumerate() {
        if !records.remove(record) {
            return Verdict { number: 17, place };
        }
    }
    let names: BTreeMap<u32, i32> = (0..).zip(content.records.iter().map(|record| record[0])).collect();
    let by_number = |triangle: &[crate::Edge; 3]| turned(triangle.map(|edge| edge.number(lattice) as i32));
    let mut triangles: HashSet<[i32; 3]> = sheet.triangles.iter().map(by_number).collect();
    for (place, triangle) in content.triangles.iter().enumerate() {
        if !triangles.remove(&turned(triangle.map(|index| names[&index]))) {
            return Verdict { number: 18, place };
        }
    }
    let complete = records.is_empty() && triangles.is_empty();
    Verdict { number: if complete { 0 } else { 19 }, place: 0 }
}
