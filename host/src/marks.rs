//! Which triangles of a file are wrong, one by one. The sheet to compare with is the library's own, with its positions rounded
//! down here where a file was made under that rule, since the library builds to nearest alone.

use crate::abi::{Place, Rule, Start};
use crate::cubes::Cubes;
use crate::room::Room;
use crate::sheet::Sheet;
use crate::volume::Volume;
use std::collections::{HashMap, HashSet};

#[derive(Clone, Copy, Debug, PartialEq, Eq)]
pub enum Mark {
    Right,
    /// Test 17 would refuse the record of a corner, while the triangle by its edges is right.
    Vertex,
    /// Test 18 would refuse it: by its edges it is not in the sheet, or repeats an earlier one.
    Triangle,
}

/// A triangle from its lowest corner: all turns of it are then one value.
fn turned([a, b, c]: [i32; 3]) -> [i32; 3] {
    [[a, b, c], [b, c, a], [c, a, b]].into_iter().min().unwrap_or([a, b, c])
}

/// A file held against the sheet.
#[derive(Clone, Debug, Default, PartialEq, Eq)]
pub struct Marks {
    /// For each triangle of the file.
    pub of: Vec<Mark>,
    /// The sheet's triangles that the file does not hold, by the positions of their corners.
    pub missing: Vec<[[i32; 3]; 3]>,
}

impl Marks {
    /// How many triangles test 18 would refuse.
    pub fn wrong(&self) -> usize {
        self.of.iter().filter(|mark| **mark == Mark::Triangle).count()
    }
}

/// The record of the vertex on an edge of a volume, its position rounded down.
fn rounded_down(edge: i32, cubes: &Cubes) -> Option<[i32; 4]> {
    let [from, to] = cubes.ends(edge)?;
    let (solid, air) = if cubes.is_air(from) { (to, from) } else { (from, to) };
    let [p, q] = [solid, air].map(|end| i64::from(cubes.sample(end)));
    let t = 65_536 * -p / (q - p);
    let on = |axis: usize| (65_536 * solid[axis] as i64 + (air[axis] as i64 - solid[axis] as i64) * t) as i32;
    Some([edge, on(0), on(1), on(2)])
}

/// The sheet to compare a file with that was made under a rule.
fn sheet_under(rule: Rule, volume: &Volume, start: Start, room: &mut Room) -> Option<Sheet> {
    let (built, mut sheet) = Sheet::build(volume, start, room);
    if built.number != 0 {
        return None;
    }
    if rule == Rule::Down {
        let cubes = Cubes::of(volume)?;
        let records: Option<Vec<[i32; 4]>> = sheet.records().map(|record| rounded_down(record[0], &cubes)).collect();
        sheet.vertices = records?.concat();
    }
    Some(sheet)
}

/// The marks of a file, made under a rule, against the sheet from a cube, or from the lowest crossed one; none where there is no
/// sheet to compare with.
pub fn marks(file: &Sheet, volume: &Volume, start: Option<Place>, rule: Rule, room: &mut Room) -> Option<Marks> {
    let sheet = sheet_under(rule, volume, start.map_or(Start::Lowest, Start::Cube), room)?;
    if file.sizes != sheet.sizes {
        return None;
    }
    let mut positions: HashMap<i32, [i32; 4]> = sheet.records().map(|record| (record[0], record)).collect();
    let right: Vec<bool> = file.records().map(|record| positions.remove(&record[0]) == Some(record)).collect();
    let mut unmet: HashSet<[i32; 3]> = sheet.by_edges().map(turned).collect();
    let mark = |(corners, edges): ([u32; 3], [i32; 3])| {
        if !unmet.remove(&turned(edges)) {
            Mark::Triangle
        } else if corners.iter().any(|&vertex| !right[vertex as usize]) {
            Mark::Vertex
        } else {
            Mark::Right
        }
    };
    let of = file.corners().zip(file.by_edges()).map(mark).collect();
    let place = |vertex: u32| {
        let [_, x, y, z] = sheet.record(vertex);
        [x, y, z]
    };
    let absent = sheet.corners().zip(sheet.by_edges()).filter(|(_, edges)| unmet.contains(&turned(*edges)));
    Some(Marks { of, missing: absent.map(|(corners, _)| corners.map(place)).collect() })
}
