//! The demo's synthetic tray: housings on one lattice, some with pores, and the scanner's fill round its field of view.

use crate::cases::Case;
use crate::fill::{self, FILL};
use crate::random::Random;
use second::Start;

const SIZES: [usize; 3] = [64, 64, 40];

/// A box on the tray's floor with a bore down through it.
struct Housing {
    centre: [f64; 2],
    half: [f64; 2],
    height: f64,
    bore: f64,
    pores: &'static [Pore],
}

/// A bubble of air inside, by its centre and radius.
struct Pore {
    centre: [f64; 3],
    radius: f64,
}

#[rustfmt::skip]
const HOUSINGS: [Housing; 4] = [
    Housing { centre: [20.5, 20.5], half: [9.0, 8.5], height: 30.0, bore: 3.5, pores: &[] },
    Housing { centre: [43.0, 20.5], half: [9.5, 9.0], height: 26.0, bore: 3.0, pores: &[
        Pore { centre: [37.1, 15.4, 13.1], radius: 1.9 },
    ] },
    Housing { centre: [20.5, 43.0], half: [9.5, 9.5], height: 32.0, bore: 3.5, pores: &[
        Pore { centre: [14.2, 43.3, 10.2], radius: 1.4 },
        Pore { centre: [26.2, 48.6, 21.4], radius: 2.2 },
    ] },
    Housing { centre: [43.0, 43.0], half: [8.5, 9.5], height: 28.0, bore: 3.0, pores: &[] },
];

/// How far the scanner sees from the tray's middle, in sample steps; the ring outside is fill.
const VIEW: f64 = 31.2;

/// One surface of the tray: what it is and a cube that it passes through.
pub struct Piece {
    pub name: String,
    pub start: [usize; 3],
}

fn far(at: [f64; 3], from: [f64; 3]) -> f64 {
    (0..3).map(|i| (at[i] - from[i]).powi(2)).sum::<f64>().sqrt()
}

impl Housing {
    /// Below 0 within the casting, above 0 in the air.
    fn distance(&self, at: [f64; 3]) -> f64 {
        let [x, y, z] = at;
        let [cx, cy] = self.centre;
        let outside = ((x - cx).abs() - self.half[0]).max((y - cy).abs() - self.half[1]).max(z - self.height);
        let bore = self.bore - far([x, y, 0.0], [cx, cy, 0.0]);
        let pores = self.pores.iter().map(|pore| pore.radius - far(at, pore.centre));
        pores.fold(outside.max(bore), f64::max)
    }
}

/// The tray's volume.
pub fn volume() -> Case {
    let mut random = Random::new(11);
    let mut samples = Vec::new();
    for z in 0..SIZES[2] {
        for y in 0..SIZES[1] {
            for x in 0..SIZES[0] {
                let at = [x, y, z].map(|v| v as f64);
                let nearest = HOUSINGS.iter().map(|housing| housing.distance(at)).fold(f64::INFINITY, f64::min);
                samples.push((900.0 * nearest.clamp(-20.0, 20.0) + 40.0 * (random.unit() - 0.5)) as i16);
            }
        }
    }
    let mut tray = Case { sizes: SIZES, start: Start::Lowest, samples };
    fill::ring(&mut tray, 2, VIEW);
    tray
}

/// The grey between air and casting in the tray's scan.
pub const LEVEL: i32 = 20_000;

/// The grey of the fill in the tray's scan: brighter than all others.
pub const UNSEEN: u16 = 65_535;

/// The scan as the scanner writes it: greys of 16 bits without a header.
pub fn greys(volume: &Case) -> Vec<u8> {
    let grey = |sample: &i16| if *sample == FILL { UNSEEN } else { (LEVEL - i32::from(*sample)) as u16 };
    volume.samples.iter().flat_map(|sample| grey(sample).to_le_bytes()).collect()
}

/// The scan as the new reconstruction writes it: sizes, then greys divided by 256, in 32-bit floats.
pub fn floats(volume: &Case) -> Vec<u8> {
    let head = volume.sizes.iter().flat_map(|axis| (*axis as u16).to_le_bytes());
    let grey = |sample: &i16| ((LEVEL - i32::from(*sample)) as f32 / 256.0).to_le_bytes();
    head.chain(volume.samples.iter().flat_map(grey)).collect()
}

/// The cube where a walk from an air sample towards lower x meets solid.
fn wall(volume: &Case, from: [f64; 3]) -> Option<[usize; 3]> {
    let [x, y, z] = from.map(|v| v.round() as usize);
    let air = |x: usize| volume.samples[x + SIZES[0] * (y + SIZES[1] * z)] > 0;
    let solid = (0..x).rev().find(|&x| !air(x))?;
    Some([solid, y, z])
}

/// The outer surface of each housing, and each pore.
pub fn pieces(volume: &Case) -> Vec<Piece> {
    let mut pieces = Vec::new();
    for (number, housing) in (1..).zip(&HOUSINGS) {
        let [cx, cy] = housing.centre;
        let outside = [cx + housing.half[0] + 2.0, cy, 5.0];
        let named = |name: String, from| wall(volume, from).map(|start| Piece { name, start });
        pieces.extend(named(format!("housing-{number}"), outside));
        for (count, pore) in (1..).zip(housing.pores) {
            pieces.extend(named(format!("housing-{number}-pore-{count}"), pore.centre));
        }
    }
    pieces
}

#[cfg(test)]
mod tests {
    use super::*;
    use crate::cases::content;
    use std::collections::BTreeSet;

    #[test]
    fn seven_pieces_apart() {
        let mut volume = volume();
        let pieces = pieces(&volume);
        let mut edges = BTreeSet::new();
        let mut all = 0;
        for piece in &pieces {
            volume.start = Start::Cube(piece.start);
            let sheet = content(&volume).expect("the start is crossed");
            edges.extend(sheet.records.iter().map(|record| record[0]));
            all += sheet.records.len();
        }
        assert_eq!((pieces.len(), edges.len()), (7, all));
    }

    #[test]
    fn the_ring_is_fill_and_touches_no_surface() {
        let volume = volume();
        let filled = volume.samples.iter().filter(|sample| **sample == FILL).count();
        assert!(10 * filled > 2 * volume.samples.len() && 10 * filled < 3 * volume.samples.len());
        let case = crate::fill::unfilled(&volume, 1);
        let surfaces = |case: &Case| pieces(case).iter().map(|piece| piece.start).collect::<Vec<_>>();
        assert_eq!(surfaces(&case), surfaces(&volume));
        for start in surfaces(&volume) {
            let from = |case: &Case| content(&Case { start: Start::Cube(start), ..case.clone() });
            assert_eq!(from(&case), from(&volume));
        }
    }
}
