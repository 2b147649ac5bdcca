//! Pixels with a depth.

use super::view::Point;

/// Red, green and blue, 0 to 255.
pub type Colour = [f64; 3];

/// Depths that differ by less are one: two sums for one place need not agree to the last bit.
const EVEN: f64 = 1e-6;

pub struct Canvas {
    size: usize,
    colours: Vec<Colour>,
    /// How near the eye what is seen there is.
    near: Vec<f64>,
    /// Whether something was mixed in that lies behind or is not there.
    shines: Vec<bool>,
}

impl Canvas {
    pub fn new(size: usize, paper: Colour) -> Canvas {
        let all = size * size;
        Canvas { size, colours: vec![paper; all], near: vec![f64::NEG_INFINITY; all], shines: vec![false; all] }
    }

    /// Calls for each pixel whose middle is in a triangle, with how near the triangle is there.
    fn each(&mut self, [a, b, c]: [Point; 3], mut pixel: impl FnMut(&mut Canvas, usize, f64)) {
        let area = (b.x - a.x) * (c.y - a.y) - (b.y - a.y) * (c.x - a.x);
        if area == 0.0 {
            return;
        }
        let last = self.size as f64 - 1.0;
        let top = (a.y.min(b.y).min(c.y) - 0.5).ceil().clamp(0.0, last);
        let bottom = (a.y.max(b.y).max(c.y) - 0.5).floor().clamp(0.0, last);
        // the share of each corner grows evenly from pixel to pixel: its value at x = 0 in a row, and its step
        let share = |p: Point, q: Point, y: f64| {
            let (dx, dy) = (q.x - p.x, q.y - p.y);
            ((dx * (y - p.y) + dy * p.x) / area, -dy / area)
        };
        for row in top as usize..=bottom as usize {
            let y = row as f64 + 0.5;
            let shares = [share(b, c, y), share(c, a, y), share(a, b, y)];
            let (mut left, mut right) = (0.5, last + 0.5);
            for (at_zero, step) in shares {
                if step > 0.0 {
                    left = f64::max(left, -at_zero / step);
                } else if step < 0.0 {
                    right = f64::min(right, -at_zero / step);
                } else if at_zero < 0.0 {
                    right = -1.0;
                }
            }
            if left > right {
                continue;
            }
            let near_at = |x: f64| {
                let of = shares.map(|(at_zero, step)| at_zero + step * x);
                of[0] * a.near + of[1] * b.near + of[2] * c.near
            };
            let (first, end) = ((left - 0.5).ceil() as usize, (right - 0.5).floor());
            let (zero, one) = (near_at(0.5), near_at(1.5) - near_at(0.5));
            let mut column = first;
            while column as f64 <= end {
                pixel(self, row * self.size + column, zero + one * column as f64);
                column += 1;
            }
        }
    }

    /// Draws a triangle where nothing nearer stands; of two equally near the later is seen.
    pub fn fill(&mut self, corners: [Point; 3], colour: Colour) {
        self.each(corners, |canvas, at, near| {
            if near >= canvas.near[at] - EVEN {
                canvas.near[at] = near;
                canvas.colours[at] = colour;
            }
        });
    }

    /// Lets a triangle shine through what stands before it.
    pub fn shine(&mut self, corners: [Point; 3], colour: Colour) {
        self.each(corners, |canvas, at, near| {
            if near < canvas.near[at] - EVEN {
                canvas.blend(at, colour);
            }
        });
    }

    /// Lays a triangle over everything, so that what is behind it is still seen.
    pub fn veil(&mut self, corners: [Point; 3], colour: Colour) {
        self.each(corners, |canvas, at, _| canvas.blend(at, colour));
    }

    /// Mixes a colour into a pixel, once.
    fn blend(&mut self, at: usize, colour: Colour) {
        if !self.shines[at] {
            self.shines[at] = true;
            self.colours[at] = [0, 1, 2].map(|i| 0.45 * self.colours[at][i] + 0.55 * colour[i]);
        }
    }

    /// A line two pixels wide, behind everything.
    pub fn line(&mut self, from: Point, to: Point, colour: Colour) {
        let steps = (to.x - from.x).abs().max((to.y - from.y).abs()).ceil().max(1.0);
        for step in 0..=steps as usize {
            let part = step as f64 / steps;
            let (x, y) = (from.x + part * (to.x - from.x), from.y + part * (to.y - from.y));
            for (dx, dy) in [(0.0, 0.0), (1.0, 0.0), (0.0, 1.0), (1.0, 1.0)] {
                let (column, row) = ((x + dx).floor(), (y + dy).floor());
                let within = |v: f64| v >= 0.0 && v < self.size as f64;
                if within(column) && within(row) {
                    self.colours[row as usize * self.size + column as usize] = colour;
                }
            }
        }
    }

    /// A ring before everything.
    pub fn ring(&mut self, middle: Point, radius: f64, colour: Colour) {
        let last = self.size as f64 - 1.0;
        let span =
            |at: f64| (at - radius - 2.0).clamp(0.0, last) as usize..=(at + radius + 2.0).clamp(0.0, last) as usize;
        for row in span(middle.y) {
            for column in span(middle.x) {
                let (dx, dy) = (column as f64 + 0.5 - middle.x, row as f64 + 0.5 - middle.y);
                if ((dx * dx + dy * dy).sqrt() - radius).abs() < 1.5 {
                    self.colours[row * self.size + column] = colour;
                }
            }
        }
    }

    /// Rows of red, green and blue, each pixel the mean of a square of them.
    pub fn reduced(&self, fine: usize) -> Vec<u8> {
        let size = self.size / fine;
        let mut rows = Vec::with_capacity(3 * size * size);
        for row in 0..size {
            for column in 0..size {
                let mut sum = [0.0; 3];
                for at in 0..fine * fine {
                    let pixel = self.colours[(row * fine + at / fine) * self.size + column * fine + at % fine];
                    (0..3).for_each(|i| sum[i] += pixel[i]);
                }
                rows.extend(sum.map(|part| (part / (fine * fine) as f64).round() as u8));
            }
        }
        rows
    }
}
