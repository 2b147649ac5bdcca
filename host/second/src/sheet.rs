//! The sheet of a lattice and a start cube: visited cubes, vertices by edge, triangles by edges.

use crate::lattice::{Lattice, Point, STEPS};
use std::collections::{BTreeMap, BTreeSet, HashMap};

/// Corners a, b, c, d of each tetrahedron.
const TETRAHEDRA: [[&str; 4]; 6] = [
    ["LBN", "LTN", "RBN", "LBF"],
    ["RTN", "LTN", "LBF", "RBN"],
    ["RTN", "LTN", "LTF", "LBF"],
    ["RTN", "RBN", "LBF", "RBF"],
    ["RTN", "LBF", "LTF", "RBF"],
    ["RTN", "LTF", "RTF", "RBF"],
];

/// The triangles of each row, by edges 1 to 6.
const ROWS: [&[[usize; 3]]; 16] = [
    &[],
    &[[5, 6, 3]],
    &[[2, 6, 4]],
    &[[3, 5, 4], [3, 4, 2]],
    &[[1, 4, 5]],
    &[[3, 1, 4], [3, 4, 6]],
    &[[1, 2, 6], [1, 6, 5]],
    &[[1, 2, 3]],
    &[[1, 3, 2]],
    &[[1, 5, 6], [1, 6, 2]],
    &[[1, 3, 6], [1, 6, 4]],
    &[[1, 5, 4]],
    &[[3, 2, 4], [3, 4, 5]],
    &[[6, 2, 4]],
    &[[5, 3, 6]],
    &[],
];

/// Edges 1 to 6 of a tetrahedron, by its corners.
const EDGES: [&str; 6] = ["ab", "ac", "ad", "bc", "bd", "cd"];

/// The ends of each kind of edge, from its anchor, as (x, y, z).
const KINDS: [[(i64, i64, i64); 2]; 7] = [
    [(0, 0, 0), (1, 0, 0)],
    [(0, 0, 0), (0, 1, 0)],
    [(0, 0, 0), (0, 0, 1)],
    [(0, 1, 0), (0, 0, 1)],
    [(1, 0, 0), (0, 0, 1)],
    [(0, 1, 0), (1, 0, 0)],
    [(1, 1, 0), (0, 0, 1)],
];

/// An edge of the lattice; edges compare as their numbers do.
#[derive(Clone, Copy, Debug, PartialEq, Eq, PartialOrd, Ord, Hash)]
pub struct Edge {
    pub anchor: Point,
    pub kind: i64,
}

impl Edge {
    fn between(p: Point, q: Point) -> Edge {
        let anchor = p.lowest(q);
        let [from, to] = [p, q].map(|end| end.minus(anchor)).map(|d| (d.x, d.y, d.z));
        let kind = KINDS.iter().position(|ends| *ends == [from, to] || *ends == [to, from]);
        Edge { anchor, kind: kind.expect("an edge of a tetrahedron is of one of the seven kinds") as i64 }
    }

    pub fn number(self, lattice: &Lattice) -> i64 {
        7 * lattice.number(self.anchor) + self.kind
    }
}

/// How t is rounded (document 02 (vi)).
#[derive(Clone, Copy, Debug, Default, PartialEq, Eq)]
pub enum Rule {
    /// Down, as document 01 has it.
    Down,
    /// To the nearest unit, ties towards the solid end: what a build makes.
    #[default]
    Nearest,
}

/// t for a solid end value and an air end value: of all units the last that is not beyond the exact crossing, or the first of
/// those that no other is nearer than.
pub fn crossing(rule: Rule, solid: i64, air: i64) -> i64 {
    let exact = 65_536 * -solid;
    let below = exact.div_euclid(air - solid);
    let away = |t: i64| (t * (air - solid) - exact).abs();
    match rule {
        Rule::Down => below,
        Rule::Nearest if away(below + 1) < away(below) => below + 1,
        Rule::Nearest => below,
    }
}

/// Where the sheet crosses an edge whose ends are on different sides.
fn position(rule: Rule, lattice: &Lattice, edge: Edge) -> [i64; 3] {
    let [p, q] = KINDS[edge.kind as usize].map(|(x, y, z)| edge.anchor.plus(Point::new(x, y, z)));
    let (solid, air) = if lattice.air(p) { (q, p) } else { (p, q) };
    let t = crossing(rule, lattice.sample(solid), lattice.sample(air));
    let towards = air.minus(solid);
    [(solid.x, towards.x), (solid.y, towards.y), (solid.z, towards.z)].map(|(from, step)| 65_536 * from + t * step)
}

/// A cube's corner by its three letters.
fn corner(name: &str) -> Point {
    Point::new(name.contains('R').into(), name.contains('T').into(), name.contains('F').into())
}

/// The two ends of an edge 1 to 6 of a tetrahedron.
fn ends(tetrahedron: &[Point; 4], edge: usize) -> (Point, Point) {
    let mut named = EDGES[edge - 1].bytes().map(|letter| tetrahedron[usize::from(letter - b'a')]);
    match (named.next(), named.next()) {
        (Some(p), Some(q)) => (p, q),
        _ => unreachable!("an edge has two letters"),
    }
}

/// The edges of a tetrahedron whose ends are on different sides.
fn crossed_edges(lattice: &Lattice, tetrahedron: &[Point; 4]) -> Vec<Edge> {
    let both = (1..=6).map(|edge| ends(tetrahedron, edge));
    both.filter(|(p, q)| lattice.air(*p) != lattice.air(*q)).map(|(p, q)| Edge::between(p, q)).collect()
}

/// The triangles of a tetrahedron, by edges.
fn cut(lattice: &Lattice, tetrahedron: &[Point; 4]) -> Vec<[Edge; 3]> {
    let row = tetrahedron.iter().fold(0, |row, &c| 2 * row + usize::from(lattice.air(c)));
    let edge = |edge| {
        let (p, q) = ends(tetrahedron, edge);
        Edge::between(p, q)
    };
    ROWS[row].iter().map(|triangle| triangle.map(edge)).collect()
}

pub struct Sheet {
    pub visited: BTreeSet<Point>,
    /// Each vertex's position by its edge, by rising edge number.
    pub vertices: BTreeMap<Edge, [i64; 3]>,
    /// In the order of the listing.
    pub triangles: Vec<[Edge; 3]>,
}

impl Sheet {
    pub fn of(rule: Rule, lattice: &Lattice, start: Point) -> Sheet {
        let tetrahedra = TETRAHEDRA.map(|names| names.map(corner));
        let visited = reached(lattice, start);
        let mut edges = Vec::new();
        let mut triangles = Vec::new();
        for cube in &visited {
            let mut own = BTreeSet::new();
            for tetrahedron in &tetrahedra {
                let tetrahedron = tetrahedron.map(|c| cube.plus(c));
                own.extend(crossed_edges(lattice, &tetrahedron));
                triangles.extend(cut(lattice, &tetrahedron));
            }
            edges.extend(own);
        }
        edges.sort_unstable();
        edges.dedup();
        let vertices = edges.into_iter().map(|edge| (edge, position(rule, lattice, edge))).collect();
        Sheet { visited, vertices, triangles }
    }

    /// The vertex records: edge, x, y, z.
    pub fn records(&self, lattice: &Lattice) -> Vec<[i32; 4]> {
        let record = |(edge, [x, y, z]): (&Edge, &[i64; 3])| [edge.number(lattice), *x, *y, *z].map(narrow);
        self.vertices.iter().map(record).collect()
    }

    /// The triangles by vertex numbers.
    pub fn indexed(&self) -> Vec<[u32; 3]> {
        let numbers: HashMap<Edge, u32> = self.vertices.keys().copied().zip(0..).collect();
        self.triangles.iter().map(|triangle| triangle.map(|edge| numbers[&edge])).collect()
    }
}

fn narrow(value: i64) -> i32 {
    i32::try_from(value).expect("edge numbers and coordinates of a lattice to 64 fit 32 bits")
}

/// The start cube and every visitable cube reached from it across mixed faces.
pub(crate) fn reached(lattice: &Lattice, start: Point) -> BTreeSet<Point> {
    let mut seen = BTreeSet::from([start]);
    let mut border = vec![start];
    while let Some(cube) = border.pop() {
        for step in STEPS {
            let next = cube.plus(step);
            if lattice.visitable(next) && lattice.mixed_face(cube, step) && seen.insert(next) {
                border.push(next);
            }
        }
    }
    seen
}
