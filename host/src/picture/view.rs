//! From lattice to picture: seen from the corner of greatest x, y and z, with z upwards, in left-handed axes.

use crate::sheet::Sheet;

/// A point of the picture: to the right, downwards, and towards the eye; all in pixels.
#[derive(Clone, Copy, Debug)]
pub struct Point {
    pub x: f64,
    pub y: f64,
    pub near: f64,
}

/// Units of a sheet's coordinates in a sample step.
const UNITS: f64 = 65_536.0;

/// A box of the lattice, by its lowest and greatest coordinates in sample steps.
#[derive(Clone, Copy, Debug, PartialEq)]
pub struct Space {
    pub low: [f64; 3],
    pub high: [f64; 3],
}

impl Space {
    /// The whole lattice.
    pub fn lattice(sheet: &Sheet) -> Space {
        let sizes = [sheet.sizes.nx, sheet.sizes.ny, sheet.sizes.nz];
        Space { low: [0.0; 3], high: sizes.map(|axis| axis.saturating_sub(1) as f64) }
    }

    /// The cubes of the lattice that a sheet's vertices lie in.
    pub fn sheet(sheet: &Sheet) -> Space {
        let all = Space::lattice(sheet);
        let mut own = Space { low: all.high, high: all.low };
        for [_, x, y, z] in sheet.records() {
            for (axis, v) in [x, y, z].into_iter().enumerate() {
                let v = f64::from(v) / UNITS;
                own.low[axis] = own.low[axis].min(v.floor()).max(0.0);
                own.high[axis] = own.high[axis].max(v.ceil()).min(all.high[axis]);
            }
        }
        let empty = (0..3).any(|axis| own.low[axis] >= own.high[axis]);
        if empty {
            all
        } else {
            own
        }
    }

    /// Its longest side.
    pub fn longest(&self) -> f64 {
        (0..3).map(|axis| self.high[axis] - self.low[axis]).fold(0.0, f64::max)
    }

    /// A corner: 0 or 1 on each axis.
    fn corner(&self, at: [usize; 3]) -> [f64; 3] {
        [0, 1, 2].map(|axis| if at[axis] == 0 { self.low[axis] } else { self.high[axis] })
    }
}

/// What of the lattice is shown in a square of the picture.
pub struct View {
    shown: Space,
    /// Pixels in a sample step.
    scale: f64,
    /// The middle of the square.
    middle: [f64; 2],
}

/// Right, up and towards the eye, of a place in sample steps.
fn turned([x, y, z]: [f64; 3]) -> [f64; 3] {
    let (half, sixth, third) = (0.5f64.sqrt(), (1.0f64 / 6.0).sqrt(), (1.0f64 / 3.0).sqrt());
    [(x - y) * half, (2.0 * z - x - y) * sixth, (x + y + z) * third]
}

impl View {
    /// Fits a part of the lattice into a square by its middle and its side.
    pub fn new(shown: Space, middle: [f64; 2], side: f64) -> View {
        let [x, y, z] = [0, 1, 2].map(|axis| shown.high[axis] - shown.low[axis]);
        let wide = turned([x, 0.0, 0.0])[0] - turned([0.0, y, 0.0])[0];
        let high = turned([0.0, 0.0, z])[1] - turned([x, y, 0.0])[1];
        View { shown, scale: side / wide.max(high).max(1e-9), middle }
    }

    fn point(&self, place: [f64; 3]) -> Point {
        let middle = [0, 1, 2].map(|axis| (self.shown.low[axis] + self.shown.high[axis]) / 2.0);
        let ([right, up, near], [mid_right, mid_up, _]) = (turned(place), turned(middle));
        Point {
            x: self.middle[0] + self.scale * (right - mid_right),
            y: self.middle[1] - self.scale * (up - mid_up),
            near: self.scale * near,
        }
    }

    /// A vertex's place.
    pub fn seen(&self, at: [i32; 3]) -> Point {
        self.point(at.map(|v| f64::from(v) / UNITS))
    }

    /// The twelve lines round a box.
    pub fn lines(&self, of: &Space) -> Vec<[Point; 2]> {
        let corner = |n: usize| self.point(of.corner([n & 1, n >> 1 & 1, n >> 2]));
        let pairs = (0..8).flat_map(|n| [1, 2, 4].map(|bit| (n, n | bit)));
        pairs.filter(|(n, m)| n != m).map(|(n, m)| [corner(n), corner(m)]).collect()
    }

    /// The middles of the lines that the letters x, y and z stand beside: at the lower left, the lower right and the left.
    pub fn beside(&self) -> [Point; 3] {
        let middle = |a: [usize; 3], b: [usize; 3]| {
            let (a, b) = (self.point(self.shown.corner(a)), self.point(self.shown.corner(b)));
            Point { x: (a.x + b.x) / 2.0, y: (a.y + b.y) / 2.0, near: 0.0 }
        };
        [middle([0, 1, 0], [1, 1, 0]), middle([1, 0, 0], [1, 1, 0]), middle([0, 1, 0], [0, 1, 1])]
    }
}

/// How much a triangle faces the light, 0 to 1, and whether it is seen from the air: there it runs counter-clockwise.
pub fn lit([a, b, c]: [Point; 3]) -> (f64, bool) {
    let (u, v) = ([b.x - a.x, b.y - a.y, b.near - a.near], [c.x - a.x, c.y - a.y, c.near - a.near]);
    let normal = [u[1] * v[2] - u[2] * v[1], u[2] * v[0] - u[0] * v[2], u[0] * v[1] - u[1] * v[0]];
    let length = normal.iter().map(|part| part * part).sum::<f64>().sqrt();
    // y runs downwards, so a positive third part is clockwise
    let from_air = normal[2] < 0.0;
    if length == 0.0 {
        return (0.0, from_air);
    }
    // from the left, above and the eye
    let light = [-0.36, -0.48, 0.8];
    let cosine = (0..3).map(|i| normal[i] * light[i]).sum::<f64>() / length;
    (if from_air { -cosine } else { cosine }.max(0.0), from_air)
}
