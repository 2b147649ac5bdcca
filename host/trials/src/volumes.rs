//! The volumes of the benchmark. Three of 64x64x64 samples: one pore; a tray with walls at the bounds; noise. The same with fill. Small
//! surfaces in as large a lattice: a speck and balls. Balls and noise on lattices that grow. Each starts at its lowest
//! crossed cube.

use crate::cases::Case;
use crate::fill;
use crate::random::Random;
use second::Start;

const N: usize = 64;

/// A volume of n samples on each axis, rounded, from a function of coordinates.
fn sampled(n: usize, mut grey: impl FnMut(f64, f64, f64) -> f64) -> Case {
    let mut samples = Vec::with_capacity(n * n * n);
    for z in 0..n {
        for y in 0..n {
            for x in 0..n {
                let value = grey(x as f64, y as f64, z as f64).round_ties_even();
                samples.push(value.clamp(-32767.0, 32767.0) as i16);
            }
        }
    }
    Case { sizes: [n; 3], start: Start::Lowest, samples }
}

/// One smooth pore, radius about 21 samples, with three gentle lobes, in solid.
pub fn pore() -> Case {
    sampled(N, |x, y, z| {
        let (dx, dy, dz) = (x - 31.37, y - 32.11, z - 31.73);
        let r = (dx * dx + dy * dy + dz * dz).sqrt() + 1e-9;
        let lobes = 1.5 * (3.0 * dy.atan2(dx)).sin() * (1.0 - (dz / r).powi(2)).max(0.0).powf(1.5);
        700.0 * (21.0 + lobes + (dz / r).powi(3) - r)
    })
}

/// About a normal distribution: the sum of twelve even ones.
fn normal(random: &mut Random) -> f64 {
    (0..12).map(|_| random.unit()).sum::<f64>() - 6.0
}

/// Four by two castings that run through the lower and upper bounds, with wavy walls, a pore in each, and air between.
pub fn tray() -> Case {
    struct Casting {
        centre: [f64; 2],
        phase: [f64; 4],
        pore: [f64; 3],
        radius: f64,
    }
    let mut random = Random::new(20_240_601);
    let mut castings = Vec::new();
    for i in 0..4 {
        for j in 0..2 {
            let centre = [8.0 + 16.0 * f64::from(i), 16.0 + 32.0 * f64::from(j)];
            let phase = [(); 4].map(|_| random.unit() * std::f64::consts::TAU);
            let mut about = |middle: f64, spread: f64| middle + (2.0 * random.unit() - 1.0) * spread;
            let pore = [about(centre[0], 1.0), about(centre[1], 4.0), about(32.0, 10.0)];
            castings.push(Casting { centre, phase, pore, radius: 3.2 + random.unit() * 0.7 });
        }
    }
    sampled(N, |x, y, z| {
        let distance = |c: &Casting| {
            let hx = 6.2 + 0.6 * (0.45 * y + c.phase[0]).sin() + 0.4 * (0.6 * z + c.phase[1]).sin();
            let hy = 13.6 + 0.7 * (0.5 * x + c.phase[2]).sin() + 0.5 * (0.4 * z + c.phase[3]).sin();
            let body = ((x - c.centre[0]).abs() - hx).max((y - c.centre[1]).abs() - hy);
            let [px, py, pz] = c.pore;
            let pore = ((x - px).powi(2) + ((y - py) / 1.6).powi(2) + ((z - pz) / 1.8).powi(2)).sqrt() - c.radius;
            body.max(-pore)
        };
        let nearest = castings.iter().map(distance).fold(f64::INFINITY, f64::min);
        1100.0 * nearest.clamp(-28.0, 28.0) + 60.0 * normal(&mut random)
    })
}

/// White noise.
pub fn noise(n: usize) -> Case {
    let mut random = Random::new(7);
    sampled(n, |_, _, _| random.below(65_535) as f64 - 32_767.0)
}

/// A ball of air amid solid, off the middle by less than a sample.
pub fn ball(n: usize, radius: f64) -> Case {
    let middle = n as f64 / 2.0 - 0.37;
    sampled(n, |x, y, z| {
        let (dx, dy, dz) = (x - middle, y - middle - 0.3, z - middle + 0.2);
        700.0 * (radius - (dx * dx + dy * dy + dz * dz).sqrt())
    })
}

/// One sample of air amid solid.
pub fn speck() -> Case {
    let middle = N as f64 / 2.0;
    sampled(N, |x, y, z| if [x, y, z] == [middle; 3] { 1000.0 } else { -1000.0 })
}

/// The three with fill: the pore and the tray in the ring outside a round field of view, noise with grains.
pub fn filled() -> [(&'static str, Case); 3] {
    let (mut pore, mut tray, mut noise) = (pore(), tray(), noise(N));
    // the pore reaches 23 samples from the middle, so this ring cuts it
    fill::ring(&mut pore, 2, 21.0);
    fill::ring(&mut tray, 2, 31.5);
    fill::grains(&mut Random::new(8), &mut noise, 50);
    [("pore in a ring", pore), ("tray in a ring", tray), ("noise with grains", noise)]
}

/// The three, by name.
pub fn all() -> [(&'static str, Case); 3] {
    [("pore", pore()), ("tray", tray()), ("noise", noise(N))]
}

/// Small surfaces in a large lattice, by name.
pub fn small() -> [(&'static str, Case); 4] {
    [("speck", speck()), ("ball 1", ball(N, 1.0)), ("ball 7", ball(N, 7.0)), ("ball 31", ball(N, 31.0))]
}

/// Lattices that grow: a ball whose radius is a third of the axis, and noise, of which `all` has the largest.
pub fn growing() -> Vec<(&'static str, Case)> {
    let balls = [16, 32, 48, N].map(|n| ("ball", ball(n, 21.0 * n as f64 / 64.0)));
    balls.into_iter().chain([16, 32, 48].map(|n| ("noise", noise(n)))).collect()
}
