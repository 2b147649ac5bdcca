//! The listing's lines.

use crate::build::{begin, Start, Volume, Work};
use crate::sheet::{Rule, Sheet};
use std::fmt::Write;

/// What the listing prints for a volume file, with room for any lattice to 64, from a start.
pub fn listing(file: &[u8], start: Start) -> String {
    lines(file, start).unwrap_or_else(|number| format!("refused {number}\n"))
}

/// The sizes and samples of a volume file: "Under six bytes is refusal 1; any wrong byte count after is refusal 2."
pub fn volume(file: &[u8]) -> Result<([usize; 3], Vec<i16>), usize> {
    let (head, body) = file.split_at_checked(6).ok_or(1usize)?;
    let sizes: [usize; 3] = std::array::from_fn(|i| usize::from(u16::from_le_bytes([head[2 * i], head[2 * i + 1]])));
    if sizes.iter().any(|axis| !(2..=64).contains(axis)) {
        return Err(1);
    }
    if body.len() != 2 * sizes.iter().product::<usize>() {
        return Err(2);
    }
    Ok((sizes, body.chunks_exact(2).map(|b| i16::from_le_bytes([b[0], b[1]])).collect()))
}

fn lines(file: &[u8], start: Start) -> Result<String, usize> {
    let (sizes, samples) = volume(file)?;
    let (mut words, mut waiting, mut slots) = (vec![0; 64 * 64 * 64], vec![0; 64 * 64 * 64], vec![0; 7 * 64 * 64 * 64]);
    let work = Work { words: &mut words, waiting: &mut waiting, slots: &mut slots };
    let (lattice, first) = begin(Volume { sizes, start, samples: &samples }, &work)?;
    let sheet = Sheet::of(Rule::Nearest, &lattice, first);
    let mut text = format!("{} {} {}\n", sheet.vertices.len(), sheet.triangles.len(), sheet.visited.len());
    for [edge, x, y, z] in sheet.records(&lattice) {
        let _ = writeln!(text, "v {edge} {x} {y} {z}");
    }
    for [a, b, c] in sheet.indexed() {
        let _ = writeln!(text, "t {a} {b} {c}");
    }
    Ok(text)
}
