//! The lattice: points, samples, sides, visitable and crossed cubes, and mixed faces.

/// What the scanner writes where it sees nothing (document 02 (iii)): no sample.
pub const FILL: i64 = -32_768;

/// A sample, or the cube that has it as its lowest corner.
/// Points compare by z, then y, then x, which is the order of their numbers.
#[derive(Clone, Copy, Debug, PartialEq, Eq, PartialOrd, Ord, Hash)]
pub struct Point {
    pub z: i64,
    pub y: i64,
    pub x: i64,
}

impl Point {
    pub fn new(x: i64, y: i64, z: i64) -> Point {
        Point { z, y, x }
    }

    pub fn plus(self, other: Point) -> Point {
        Point::new(self.x + other.x, self.y + other.y, self.z + other.z)
    }

    pub fn minus(self, other: Point) -> Point {
        Point::new(self.x - other.x, self.y - other.y, self.z - other.z)
    }

    /// The lowest x, y and z of the two.
    pub fn lowest(self, other: Point) -> Point {
        Point::new(self.x.min(other.x), self.y.min(other.y), self.z.min(other.z))
    }
}

/// The eight corners of a cube, from its lowest.
fn corners() -> impl Iterator<Item = Point> {
    (0..8).map(|n| Point::new(n % 2, n / 2 % 2, n / 4))
}

/// The six steps to a neighbour.
pub const STEPS: [Point; 6] = [
    Point { x: -1, y: 0, z: 0 },
    Point { x: 1, y: 0, z: 0 },
    Point { x: 0, y: -1, z: 0 },
    Point { x: 0, y: 1, z: 0 },
    Point { x: 0, y: 0, z: -1 },
    Point { x: 0, y: 0, z: 1 },
];

/// Sizes within 2..64 and as many samples as they say.
pub struct Lattice<'a> {
    sizes: Point,
    samples: &'a [i16],
}

impl<'a> Lattice<'a> {
    /// Refusals 1 and 2.
    pub fn new(sizes: [usize; 3], samples: &'a [i16]) -> Result<Lattice<'a>, usize> {
        if sizes.iter().any(|axis| !(2..=64).contains(axis)) {
            return Err(1);
        }
        if samples.len() != sizes.iter().product::<usize>() {
            return Err(2);
        }
        let [x, y, z] = sizes.map(|axis| axis as i64);
        Ok(Lattice { sizes: Point { x, y, z }, samples })
    }

    pub fn sizes(&self) -> [usize; 3] {
        [self.sizes.x as usize, self.sizes.y as usize, self.sizes.z as usize]
    }

    pub fn cube_count(&self) -> usize {
        self.sizes().iter().map(|axis| axis - 1).product()
    }

    pub fn number(&self, p: Point) -> i64 {
        p.x + self.sizes.x * (p.y + self.sizes.y * p.z)
    }

    pub fn sample(&self, p: Point) -> i64 {
        i64::from(self.samples[self.number(p) as usize])
    }

    pub fn air(&self, p: Point) -> bool {
        self.sample(p) > 0
    }

    pub fn is_cube(&self, p: Point) -> bool {
        let within = |v: i64, axis: i64| 0 <= v && v < axis - 1;
        within(p.x, self.sizes.x) && within(p.y, self.sizes.y) && within(p.z, self.sizes.z)
    }

    /// "With none of its six faces in the lattice's bounds": there is a cube beyond each of them.
    pub fn inside(&self, cube: Point) -> bool {
        STEPS.iter().all(|step| self.is_cube(cube.plus(*step)))
    }

    /// Every cube, by rising number.
    pub fn cubes(&self) -> impl Iterator<Item = Point> {
        let Point { x: nx, y: ny, z: nz } = self.sizes;
        (0..nz - 1).flat_map(move |z| (0..ny - 1).flat_map(move |y| (0..nx - 1).map(move |x| Point::new(x, y, z))))
    }

    fn mixed(&self, mut points: impl Iterator<Item = Point>) -> bool {
        match points.next() {
            Some(first) => points.any(|p| self.air(p) != self.air(first)),
            None => false,
        }
    }

    /// "Visitable means free of the fill": a cube of the lattice that has no corner there.
    pub fn visitable(&self, cube: Point) -> bool {
        self.is_cube(cube) && corners().all(|c| self.sample(cube.plus(c)) != FILL)
    }

    /// "A cube with such a corner counts as not crossed."
    pub fn crossed(&self, cube: Point) -> bool {
        self.visitable(cube) && self.mixed(corners().map(|c| cube.plus(c)))
    }

    /// Whether the face between a cube and its neighbour one step away has corners on both sides:
    /// they are the corners of the one that are corners of the other.
    pub fn mixed_face(&self, cube: Point, step: Point) -> bool {
        let shared = |c: &Point| {
            let d = c.minus(step);
            [d.x, d.y, d.z].iter().all(|v| (0..=1).contains(v))
        };
        self.mixed(corners().filter(shared).map(|c| cube.plus(c)))
    }
}
