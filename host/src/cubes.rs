//! Cubes of a lattice: which are crossed, in which piece, and round which edge. The tool tells of them beside the library's
//! answers; no verdict hangs on them.

use crate::abi::{Place, Sizes, Start};
use crate::room;
use crate::sheet::Sheet;
use crate::volume::{Volume, FILL};

/// The ends of each kind of edge, from its anchor (document 01).
const ENDS: [[[usize; 3]; 2]; 7] = [
    [[0, 0, 0], [1, 0, 0]],
    [[0, 0, 0], [0, 1, 0]],
    [[0, 0, 0], [0, 0, 1]],
    [[0, 1, 0], [0, 0, 1]],
    [[1, 0, 0], [0, 0, 1]],
    [[0, 1, 0], [1, 0, 0]],
    [[1, 1, 0], [0, 0, 1]],
];

/// The corners of a cube: bit 0 is x, bit 1 y, bit 2 z. A face has the corners with one bit set, or not set.
const FACES: [[usize; 4]; 6] = [[0, 2, 4, 6], [1, 3, 5, 7], [0, 1, 4, 5], [2, 3, 6, 7], [0, 1, 2, 3], [4, 5, 6, 7]];

/// The cubes of a volume that passes tests 1 and 2.
pub struct Cubes<'a> {
    volume: &'a Volume,
    sizes: [usize; 3],
}

/// One surface of a volume: its lowest cube, and how many cubes it passes through.
#[derive(Clone, Copy, Debug, PartialEq, Eq)]
pub struct Piece {
    pub start: Place,
    pub cubes: usize,
}

fn place([x, y, z]: [usize; 3]) -> Place {
    Place { x, y, z }
}

impl Cubes<'_> {
    /// Nothing for a volume that fails test 1 or 2.
    pub fn of(volume: &Volume) -> Option<Cubes<'_>> {
        let Sizes { nx, ny, nz } = volume.sizes;
        volume.is_whole().then_some(Cubes { volume, sizes: [nx, ny, nz] })
    }

    pub fn count(&self) -> usize {
        self.sizes.iter().map(|axis| axis - 1).product()
    }

    fn at(&self, number: usize) -> [usize; 3] {
        let Place { x, y, z } = room::cube(self.volume.sizes, number);
        [x, y, z]
    }

    fn number(&self, cube: [usize; 3]) -> usize {
        room::cube_number(self.volume.sizes, place(cube))
    }

    pub fn sample(&self, [x, y, z]: [usize; 3]) -> i16 {
        self.volume.samples[x + self.sizes[0] * (y + self.sizes[1] * z)]
    }

    pub fn is_air(&self, at: [usize; 3]) -> bool {
        self.sample(at) > 0
    }

    /// The samples at a cube's corners.
    pub fn corners(&self, cube: Place) -> [i16; 8] {
        let corner = |bit: usize| [cube.x + (bit & 1), cube.y + (bit >> 1 & 1), cube.z + (bit >> 2)];
        std::array::from_fn(|bit| self.sample(corner(bit)))
    }

    /// Whether no corner is the fill.
    fn is_visitable(&self, cube: [usize; 3]) -> bool {
        !self.corners(place(cube)).contains(&FILL)
    }

    /// A bit for each corner that is air.
    fn pattern(&self, cube: [usize; 3]) -> u8 {
        let corners = self.corners(place(cube));
        (0..8).fold(0, |pattern, bit| pattern | u8::from(corners[bit] > 0) << bit)
    }

    pub fn is_crossed(&self, number: usize) -> bool {
        let cube = self.at(number);
        self.is_visitable(cube) && !matches!(self.pattern(cube), 0 | 255)
    }

    /// How many cubes are crossed.
    pub fn crossed(&self) -> usize {
        (0..self.count()).filter(|&number| self.is_crossed(number)).count()
    }

    /// How many cubes have the fill at a corner.
    pub fn filled(&self) -> usize {
        (0..self.count()).filter(|&number| !self.is_visitable(self.at(number))).count()
    }

    pub fn lowest_crossed(&self) -> Option<Place> {
        (0..self.count()).find(|&number| self.is_crossed(number)).map(|number| place(self.at(number)))
    }

    /// Whether none of a cube's six faces is in the lattice's bounds.
    fn is_inside(&self, cube: [usize; 3]) -> bool {
        (0..3).all(|axis| 0 < cube[axis] && cube[axis] + 2 < self.sizes[axis])
    }

    /// The start where none is named: the lowest crossed cube with none of its faces in the bounds.
    fn lowest_inside(&self) -> Option<Place> {
        let fit = |number: &usize| self.is_inside(self.at(*number)) && self.is_crossed(*number);
        (0..self.count()).find(fit).map(|number| place(self.at(number)))
    }

    /// The start cube that the library takes, where it takes one; a cube that is named may be none.
    pub fn start(&self, start: Start) -> Option<Place> {
        match start {
            Start::Unnamed => self.lowest_inside(),
            Start::Lowest => self.lowest_crossed(),
            Start::Cube(place) => Some(place),
        }
    }

    /// The visitable cubes across the mixed faces of a cube.
    fn neighbours(&self, cube: [usize; 3]) -> impl Iterator<Item = [usize; 3]> + '_ {
        let pattern = self.pattern(cube);
        let mixed = move |face: usize| {
            let air = FACES[face].iter().filter(|&&corner| pattern >> corner & 1 == 1).count();
            0 < air && air < 4
        };
        (0..6).filter(move |&face| mixed(face)).filter_map(move |face| {
            let mut next = cube;
            let axis = face / 2;
            next[axis] = if face % 2 == 0 { cube[axis].checked_sub(1)? } else { cube[axis] + 1 };
            (next[axis] < self.sizes[axis] - 1 && self.is_visitable(next)).then_some(next)
        })
    }

    /// Every surface, by its lowest cube.
    pub fn pieces(&self) -> Vec<Piece> {
        let mut pieces: Vec<Piece> = Vec::new();
        let mut seen = vec![false; self.count()];
        for number in 0..self.count() {
            if seen[number] || !self.is_crossed(number) {
                continue;
            }
            let start = self.at(number);
            let mut waiting = vec![start];
            let mut cubes = 0;
            seen[number] = true;
            while let Some(cube) = waiting.pop() {
                cubes += 1;
                for next in self.neighbours(cube) {
                    let seen = &mut seen[self.number(next)];
                    if !*seen {
                        *seen = true;
                        waiting.push(next);
                    }
                }
            }
            pieces.push(Piece { start: place(start), cubes });
        }
        pieces
    }

    /// The lowest cube of a sheet as the library builds it: that of its first triangle, the one that is round all three edges.
    pub fn lowest_of(&self, sheet: &Sheet) -> Option<Place> {
        let [first, second, third] = sheet.by_edges().next()?.map(|edge| self.round_edge(edge));
        first.into_iter().find(|cube| second.contains(cube) && third.contains(cube))
    }

    /// The ends of an edge by its number; nothing where it is no edge of the lattice.
    pub fn ends(&self, edge: i32) -> Option<[[usize; 3]; 2]> {
        let edge = usize::try_from(edge).ok()?;
        let [nx, ny, _] = self.sizes;
        let anchor = [edge / 7 % nx, edge / 7 / nx % ny, edge / 7 / nx / ny];
        let ends = ENDS[edge % 7].map(|end| [0, 1, 2].map(|axis| anchor[axis] + end[axis]));
        let inside = |end: &[usize; 3]| (0..3).all(|axis| end[axis] < self.sizes[axis]);
        ends.iter().all(inside).then_some(ends)
    }

    /// Whether an edge ends at the fill.
    pub fn ends_at_fill(&self, edge: i32) -> bool {
        self.ends(edge).is_some_and(|ends| ends.iter().any(|end| self.sample(*end) == FILL))
    }

    /// The visitable cubes that have both ends of an edge, by rising number, where the ends are on different sides: a sheet
    /// with a vertex there passes through one of them. Where fill parts them they may be of several surfaces.
    pub fn round_edge(&self, edge: i32) -> Vec<Place> {
        let Some(ends) = self.ends(edge).filter(|ends| self.is_air(ends[0]) != self.is_air(ends[1])) else {
            return Vec::new();
        };
        // on an axis where the ends differ the lower one is the cube's, else the cube lies on either side
        let span = |axis: usize| {
            let (low, high) = (ends[0][axis].min(ends[1][axis]), ends[0][axis].max(ends[1][axis]));
            high.saturating_sub(1)..=low.min(self.sizes[axis] - 2)
        };
        let row = |y, z| span(0).map(move |x| Place { x, y, z });
        let round = span(2).flat_map(|z| span(1).map(move |y| (y, z))).flat_map(|(y, z)| row(y, z));
        round.filter(|cube| self.is_visitable([cube.x, cube.y, cube.z])).collect()
    }
}

#[cfg(test)]
mod tests {
    use super::*;

    fn volume(sizes: [usize; 3], air: &[usize]) -> Volume {
        let [nx, ny, nz] = sizes;
        let mut samples = vec![-1; nx * ny * nz];
        air.iter().for_each(|&n| samples[n] = 1);
        Volume { sizes: Sizes { nx, ny, nz }, samples, bytes: 0 }
    }

    #[test]
    fn pieces_by_their_lowest_cube() {
        let pair = volume([5, 2, 2], &[0, 4]);
        let cubes = Cubes::of(&pair).expect("a whole volume");
        let [first, second] = [0, 3].map(|x| Piece { start: Place { x, y: 0, z: 0 }, cubes: 1 });
        assert_eq!((cubes.pieces(), cubes.crossed()), (vec![first, second], 2));
        assert_eq!(cubes.lowest_crossed(), Some(first.start));
        let single = volume([3, 3, 3], &[13]);
        let pieces = Cubes::of(&single).expect("a whole volume").pieces();
        assert_eq!(pieces, [Piece { start: Place::default(), cubes: 8 }]);
        assert_eq!(Cubes::of(&volume([2, 2, 2], &[])).and_then(|cubes| cubes.lowest_crossed()), None);
        assert!(Cubes::of(&Volume::default()).is_none());
    }

    #[test]
    fn starts() {
        let of = |sizes, air: &[usize], start| Cubes::of(&volume(sizes, air)).and_then(|cubes| cubes.start(start));
        let at = |x, y, z| Some(Place { x, y, z });
        assert_eq!(of([4; 3], &[21], Start::Unnamed), at(1, 1, 1));
        assert_eq!(of([4; 3], &[21], Start::Lowest), at(0, 0, 0));
        assert_eq!((of([3; 3], &[13], Start::Unnamed), of([4; 3], &[0], Start::Unnamed)), (None, None));
        assert_eq!(of([6, 4, 4], &[0, 64], Start::Unnamed), at(3, 1, 1));
        assert_eq!(of([2; 3], &[], Start::Cube(Place { x: 7, y: 0, z: 0 })), at(7, 0, 0));
    }

    #[test]
    fn fill_parts_pieces_and_is_no_part_of_any() {
        let mut single = volume([3, 3, 3], &[13]);
        single.samples[0] = FILL;
        let cubes = Cubes::of(&single).expect("a whole volume");
        let first = Place { x: 1, y: 0, z: 0 };
        assert_eq!(cubes.pieces(), [Piece { start: first, cubes: 7 }]);
        assert_eq!((cubes.lowest_crossed(), cubes.filled(), cubes.crossed()), (Some(first), 1, 7));

        let mut parted = volume([3, 3, 2], &[4]);
        (parted.samples[0], parted.samples[8]) = (FILL, FILL);
        let cubes = Cubes::of(&parted).expect("a whole volume");
        let second = Place { x: 0, y: 1, z: 0 };
        assert_eq!(cubes.pieces(), [first, second].map(|start| Piece { start, cubes: 1 }));
        assert_eq!(cubes.round_edge(30), [first, second]);
        let edges: Vec<i32> = (0..7 * 18).filter(|edge| cubes.ends_at_fill(*edge)).collect();
        assert_eq!(edges, [0, 1, 2, 34, 36, 38, 49, 53, 58]);
        assert!(!cubes.ends_at_fill(-1) && !cubes.ends_at_fill(i32::MAX));
    }

    #[test]
    fn cubes_round_an_edge() {
        let single = volume([3, 3, 3], &[13]);
        let cubes = Cubes::of(&single).expect("a whole volume");
        // from the middle sample along x: four cubes; its body diagonal: one; an edge within the solid: none
        let starts = |edge| cubes.round_edge(edge).iter().map(|cube| [cube.x, cube.y, cube.z]).collect::<Vec<_>>();
        assert_eq!(starts(7 * 13), [[1, 0, 0], [1, 1, 0], [1, 0, 1], [1, 1, 1]]);
        assert_eq!(starts(7 * 9 + 6), [[0, 0, 1]]);
        assert_eq!(starts(0), [[0; 3]; 0]);
        for none in [-1, i32::MIN, i32::MAX, 7 * 27] {
            assert_eq!(starts(none), [[0; 3]; 0]);
        }
    }
}
