//! A sheet as a picture. Sums, products, divisions and square roots of f64 are the same on every machine, and nothing else
//! is used: the same sheet gives the same picture.

mod canvas;
mod view;

use crate::marks::{Mark, Marks};
use crate::sheet::Sheet;
use canvas::{Canvas, Colour};
use view::{Point, Space, View};

/// Width and height where nothing else is asked for.
pub const USUAL: usize = 640;

/// Hidden wrong triangles that shine through.
const MOST_SHINING: usize = 4000;

/// So few of a mark get a ring round each, since a triangle may be smaller than a pixel.
const MOST_RINGED: usize = 24;

/// Each pixel is the mean of so many by so many.
const FINE: usize = 2;

const PAPER: Colour = [255.0, 255.0, 255.0];
const OUTLINE: Colour = [196.0, 200.0, 205.0];
const LETTER: Colour = [110.0, 115.0, 120.0];
const FROM_AIR: Colour = [120.0, 158.0, 205.0];
const FROM_SOLID: Colour = [214.0, 190.0, 140.0];
const WRONG: Colour = [224.0, 32.0, 32.0];
const DISPLACED: Colour = [240.0, 150.0, 20.0];
const MISSING: Colour = [200.0, 40.0, 200.0];

/// The picture as a PNG file, square and so many pixels wide.
pub fn png(sheet: &Sheet, marks: Option<&Marks>, size: usize) -> Vec<u8> {
    encode(&draw(sheet, marks, size), size)
}

/// The picture as rows of red, green and blue.
fn draw(sheet: &Sheet, marks: Option<&Marks>, size: usize) -> Vec<u8> {
    let mark = |at: usize| marks.and_then(|marks| marks.of.get(at)).copied().unwrap_or(Mark::Right);
    // thousands of wrong triangles are mostly large, and slow to draw
    let fineness = if marks.is_some_and(|marks| marks.wrong() > MOST_SHINING) { 1 } else { FINE };
    let fine = (size * fineness) as f64;
    let mut canvas = Canvas::new(size * fineness, PAPER);
    let view = frame(sheet, fine, &mut canvas);
    let points: Vec<Point> = sheet.records().map(|[_, x, y, z]| view.seen([x, y, z])).collect();
    let marked = |wanted: Mark| -> Vec<[Point; 3]> {
        let own = sheet.corners().enumerate().filter(|(at, _)| mark(*at) == wanted);
        own.map(|(_, corners)| corners.map(|vertex| points[vertex as usize])).collect()
    };
    // what is wrong comes last, so that it stands before its equals
    for wanted in [Mark::Right, Mark::Vertex, Mark::Triangle] {
        marked(wanted).into_iter().for_each(|corners| canvas.fill(corners, shaded(corners, wanted)));
    }
    let (wrong, displaced) = (marked(Mark::Triangle), marked(Mark::Vertex));
    // a wrong triangle mostly stands for a missing one; where none is wrong, the missing ones are shown
    let missing = marks.filter(|_| wrong.is_empty()).map_or(&[][..], |marks| &marks.missing);
    let missing: Vec<[Point; 3]> = missing.iter().map(|corners| corners.map(|at| view.seen(at))).collect();
    for (corners, colour) in [(&displaced, DISPLACED), (&wrong, WRONG)] {
        corners.iter().take(MOST_SHINING).for_each(|corners| canvas.shine(*corners, colour));
    }
    missing.iter().for_each(|corners| canvas.veil(*corners, MISSING));
    for (corners, colour) in [(&missing, MISSING), (&displaced, DISPLACED), (&wrong, WRONG)] {
        if corners.len() <= MOST_RINGED {
            corners.iter().for_each(|corners| canvas.ring(middle(*corners), fine / 40.0, colour));
        }
    }
    canvas.reduced(fineness)
}

fn middle([a, b, c]: [Point; 3]) -> Point {
    Point { x: (a.x + b.x + c.x) / 3.0, y: (a.y + b.y + c.y) / 3.0, near: 0.0 }
}

/// The view that fits a sheet, with the outline of what is shown and the letters of its axes. Where that is a small part of
/// the lattice, a little lattice in the corner shows which.
fn frame(sheet: &Sheet, fine: f64, canvas: &mut Canvas) -> View {
    let (all, own) = (Space::lattice(sheet), Space::sheet(sheet));
    let small = own.longest() < 0.6 * all.longest();
    let view = View::new(if small { own } else { all }, [fine / 2.0; 2], 0.84 * fine);
    outline(canvas, &view, if small { &own } else { &all }, OUTLINE);
    letters(canvas, &view, fine / 50.0);
    if small {
        let little = View::new(all, [0.88 * fine, 0.12 * fine], 0.2 * fine);
        outline(canvas, &little, &all, OUTLINE);
        outline(canvas, &little, &own, LETTER);
    }
    view
}

/// A triangle's colour: by its mark and the side it is seen from, darker the less it faces the light.
fn shaded(corners: [Point; 3], mark: Mark) -> Colour {
    let (light, from_air) = view::lit(corners);
    let colour = match (mark, from_air) {
        (Mark::Triangle, _) => WRONG,
        (Mark::Vertex, _) => DISPLACED,
        (Mark::Right, true) => FROM_AIR,
        (Mark::Right, false) => FROM_SOLID,
    };
    let bright = 0.4 + 0.6 * light;
    colour.map(|part| part * bright)
}

fn outline(canvas: &mut Canvas, view: &View, of: &Space, colour: Colour) {
    for [from, to] in view.lines(of) {
        canvas.line(from, to, colour);
    }
}

/// The letters x, y and z, of strokes.
fn letters(canvas: &mut Canvas, view: &View, unit: f64) {
    let shapes: [([f64; 2], &[[f64; 4]]); 3] = [
        ([-0.7, 1.0], &[[0.0, 0.0, 1.0, 1.0], [1.0, 0.0, 0.0, 1.0]]),
        ([0.7, 1.0], &[[0.0, 0.0, 0.5, 0.5], [1.0, 0.0, 0.0, 1.0]]),
        ([-1.2, 0.0], &[[0.0, 0.0, 1.0, 0.0], [1.0, 0.0, 0.0, 1.0], [0.0, 1.0, 1.0, 1.0]]),
    ];
    for (beside, (away, strokes)) in view.beside().into_iter().zip(shapes) {
        let (left, top) = (beside.x + unit * (2.0 * away[0] - 0.5), beside.y + unit * (2.0 * away[1] - 0.5));
        let at = |x: f64, y: f64| Point { x: left + unit * x, y: top + unit * y, near: 0.0 };
        for [x0, y0, x1, y1] in strokes {
            canvas.line(at(*x0, *y0), at(*x1, *y1), LETTER);
        }
    }
}

fn encode(rows: &[u8], size: usize) -> Vec<u8> {
    let mut file = Vec::new();
    let mut encoder = png::Encoder::new(&mut file, size as u32, size as u32);
    encoder.set_color(png::ColorType::Rgb);
    encoder.set_depth(png::BitDepth::Eight);
    let written = encoder.write_header().and_then(|mut writer| writer.write_image_data(rows));
    // a vector takes all bytes, and the rows are as long as the sizes say
    written.expect("a picture in memory is written");
    file
}

#[cfg(test)]
mod tests {
    use super::*;
    use crate::abi::Sizes;

    /// A triangle before another, seen from the corner.
    fn pair() -> Sheet {
        let sizes = Sizes { nx: 3, ny: 3, nz: 3 };
        let near = [[131_072, 0, 65_536], [0, 131_072, 65_536], [131_072, 131_072, 0]];
        let far = near.map(|at| at.map(|v: i32| v - 65_536));
        let vertices = near.iter().chain(&far).flat_map(|[x, y, z]| [0, *x, *y, *z]).collect();
        Sheet { sizes, vertices, triangles: vec![0, 1, 2, 3, 4, 5] }
    }

    fn reddish(rows: &[u8]) -> usize {
        let parts = |pixel: &[u8]| [pixel[0], pixel[1], pixel[2]].map(i32::from);
        rows.chunks_exact(3).map(parts).filter(|[r, g, b]| *r > 90 && r - g > 60 && r - b > 60).count()
    }

    #[test]
    fn marked_triangles_are_red_also_behind_others() {
        let sheet = pair();
        let plain = draw(&sheet, None, 100);
        let marked = |of: [Mark; 2]| draw(&sheet, Some(&Marks { of: of.to_vec(), missing: Vec::new() }), 100);
        let near = marked([Mark::Triangle, Mark::Right]);
        let far = marked([Mark::Right, Mark::Triangle]);
        assert_eq!(reddish(&plain), 0);
        assert!(reddish(&near) > 300 && reddish(&far) > 300);
        assert!(plain != near && near != far);
    }

    #[test]
    fn a_picture_is_the_same_each_time_and_takes_any_numbers() {
        let sheet = pair();
        assert_eq!(png(&sheet, None, 80), png(&sheet, None, 80));
        let wild = Sheet {
            vertices: vec![0, i32::MAX, i32::MIN, 0, 1, 0, 0, 0, 2, 7, 7, i32::MAX],
            triangles: vec![0, 1, 2, 1, 1, 1],
            ..sheet
        };
        let missing = vec![[[i32::MIN; 3], [0; 3], [i32::MAX; 3]]];
        assert!(png(&wild, Some(&Marks { of: vec![Mark::Triangle; 2], missing }), 64).starts_with(b"\x89PNG"));
    }
}
