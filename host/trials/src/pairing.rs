//! Demand 3 on a sheet: each directed edge of a triangle, named by lattice edges, is there once; its reverse is there once, or
//! never, and never exactly where both lattice edges lie in one outer face: a cube face that is not shared by two visitable
//! cubes, where visitable means free of the fill (document 02 (iii)).

use crate::cases::Case;
use crate::fill::FILL;
use second::Content;
use std::collections::{BTreeSet, HashMap};

type Place = [i64; 3];

/// The ends of an edge by its number, by document 01's table of kinds.
fn ends(sizes: [usize; 3], edge: i32) -> [Place; 2] {
    let (anchor, kind) = (i64::from(edge / 7), edge % 7);
    let [nx, ny, _] = sizes.map(|axis| axis as i64);
    let [x, y, z] = [anchor % nx, anchor / nx % ny, anchor / nx / ny];
    let (from, to) = match kind {
        0 => ([0, 0, 0], [1, 0, 0]),
        1 => ([0, 0, 0], [0, 1, 0]),
        2 => ([0, 0, 0], [0, 0, 1]),
        3 => ([0, 1, 0], [0, 0, 1]),
        4 => ([1, 0, 0], [0, 0, 1]),
        5 => ([0, 1, 0], [1, 0, 0]),
        _ => ([1, 1, 0], [0, 0, 1]),
    };
    [from, to].map(|[dx, dy, dz]| [x + dx, y + dy, z + dz])
}

/// Whether a place is a cube of the lattice without the fill at any corner.
fn visitable(case: &Case, [x, y, z]: Place) -> bool {
    let [nx, ny, nz] = case.sizes.map(|axis| axis as i64);
    let free = |n: i64| {
        let sample = (x + n % 2) + nx * ((y + n / 2 % 2) + ny * (z + n / 4));
        case.samples[sample as usize] != FILL
    };
    let within = |v: i64, axis: i64| (0..axis - 1).contains(&v);
    within(x, nx) && within(y, ny) && within(z, nz) && (0..8).all(free)
}

/// Whether two lattice edges lie in one cube face that is not shared by two visitable cubes. Two edges of a cube face have at
/// least three of its corners between them, so the face is the box round their ends.
pub fn apart(case: &Case, edges: [i32; 2]) -> bool {
    let corners: Vec<Place> = edges.iter().flat_map(|edge| ends(case.sizes, *edge)).collect();
    let least = [0, 1, 2].map(|axis| corners.iter().map(|corner| corner[axis]).min().unwrap_or(0));
    let span = [0, 1, 2].map(|axis| corners.iter().map(|corner| corner[axis] - least[axis]).max().unwrap_or(0));
    let flat: Vec<usize> = (0..3).filter(|axis| span[*axis] == 0).collect();
    let [flat] = flat[..] else { return false };
    if span.iter().any(|long| *long > 1) {
        return false;
    }
    let mut below = least;
    below[flat] -= 1;
    !(visitable(case, least) && visitable(case, below))
}

/// Panics where the triangles of a sheet do not pair up. Answers how many directed edges are without a reverse.
pub fn hold(case: &Case, content: &Content) -> usize {
    let names: BTreeSet<i32> = content.records.iter().map(|record| record[0]).collect();
    assert_eq!(names.len(), content.records.len(), "an edge has two vertices: {case:?}");
    let mut count: HashMap<[i32; 2], usize> = HashMap::new();
    for triangle in &content.triangles {
        let [a, b, c] = triangle.map(|vertex| content.records[vertex as usize][0]);
        for edge in [[a, b], [b, c], [c, a]] {
            *count.entry(edge).or_default() += 1;
        }
    }
    let mut single = 0;
    for (&[from, to], times) in &count {
        assert_eq!(*times, 1, "{from} to {to} is there {times} times: {case:?}");
        let back = count.contains_key(&[to, from]);
        assert_eq!(back, !apart(case, [from, to]), "{from} to {to}, reverse {back}: {case:?}");
        single += usize::from(!back);
    }
    single
}

#[cfg(test)]
mod tests {
    use super::*;

    /// 3x3x3, only the middle air.
    fn middle() -> Case {
        let mut samples = vec![-1; 27];
        samples[13] = 1;
        Case { sizes: [3; 3], start: second::Start::Lowest, samples }
    }

    #[test]
    fn faces_that_two_visitable_cubes_do_not_share() {
        let mut case = middle();
        // in the face x = 0 of the lattice; in the face x = 1 between cubes (0,0,0) and (1,0,0); in no one face
        let (outer, inner, none) = ([1, 2], [7 + 1, 7 + 2], [1, 7 * 13]);
        assert!(apart(&case, outer) && !apart(&case, inner) && !apart(&case, none));
        case.samples[0] = FILL;
        assert!(apart(&case, outer) && apart(&case, inner) && !apart(&case, none));
        case.samples[0] = -1;
        case.samples[26] = FILL;
        assert!(!apart(&case, inner));
    }

    #[test]
    fn a_closed_sheet_and_one_that_fill_opens() {
        let mut case = middle();
        let sheet = |case: &Case| crate::cases::content(case).expect("a sheet");
        assert_eq!(hold(&case, &sheet(&case)), 0);
        case.samples[0] = FILL;
        assert_eq!(hold(&case, &sheet(&case)), 3);
    }

    #[test]
    #[should_panic(expected = "reverse")]
    fn a_triangle_left_out_is_noticed() {
        let case = middle();
        let mut sheet = crate::cases::content(&case).expect("a sheet");
        sheet.triangles.pop();
        hold(&case, &sheet);
    }
}
