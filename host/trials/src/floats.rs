//! Volumes in f32: random voxels, levels and scales, the library's answer and the lent slice held against the second converter, and
//! so are the plain C loops that the library is measured against. A difference panics with the case.

use crate::cases::Guarded;
use crate::random::Random;
use host::abi::{self, Verdict};
use second::floats::{self, Level, Refused};

/// The greatest grey.
const FARTHEST: f32 = 65_536.0;

/// The bits of a float of every class: zeros, subnormals, infinities, quiet and signalling NaNs, powers of two, next to the ends of
/// greys, any bits.
fn odd_bits(random: &mut Random) -> u32 {
    let sign = random.pick(&[0, 1 << 31]);
    match random.below(7) {
        0 => sign | random.pick(&[0, 1, 2, 3, 0x007f_ffff, 0x0080_0000, 0x0080_0001]),
        1 => sign | random.below(1 << 23) as u32,
        2 => sign | random.pick(&[0x7f80_0000, 0x7fc0_0000, 0x7f80_0001, 0x7fff_ffff, 0x7f7f_ffff]),
        3 => sign | 0x7f80_0000 | random.below(1 << 23) as u32,
        4 => sign | (random.below(256) as u32) << 23,
        5 => sign | FARTHEST.to_bits().wrapping_add(random.pick(&[0, 1, 2, u32::MAX, u32::MAX - 1])),
        _ => random.bits() as u32,
    }
}

/// A grey: of every size down to the least, whole, with few digits, at the ends.
fn grey(random: &mut Random) -> f32 {
    let sign = random.pick(&[1.0, -1.0]);
    match random.below(8) {
        0 => sign * random.pick(&[0.0, 1.0, 0.5, FARTHEST, 65_535.996, 32_767.0, 32_768.0, 16_384.0]),
        1 => sign * f32::from_bits(random.below(1 << 23) as u32),
        2 => sign * f32::from_bits(random.below(FARTHEST.to_bits() as usize + 1) as u32),
        3 => sign * random.below(65_537) as f32,
        4 => sign * random.below(65_537 * 4) as f32 / 4.0,
        5 => sign * f32::from_bits((random.below(143) as u32) << 23),
        _ => sign * random.unit() as f32 * FARTHEST,
    }
}

/// A voxel: any grey, one of the level's, next to the level, some steps of the scale from it (so that ties and whole steps come up),
/// so far from it that it is just held.
fn voxel(random: &mut Random, level: f32, scale: u32) -> f32 {
    let sign = random.pick(&[1.0, -1.0]);
    let (step, steps) = (sign / scale as f32, random.below(40) as f32);
    let off = random.pick(&[0, 0, 1, u32::MAX]);
    let near = |x: f32| f32::from_bits(x.to_bits().wrapping_add(off));
    let voxel = match random.below(8) {
        0 => level,
        1 => near(level),
        2 => level + steps * step,
        3 => level + steps * step / 4.0,
        4 => near(level + steps * step),
        5 => near(level + 32_767.0 * step),
        6 => level + sign * f32::from_bits(random.below(8) as u32),
        _ => grey(random),
    };
    if voxel.abs() <= FARTHEST {
        voxel
    } else {
        grey(random)
    }
}

fn level(random: &mut Random) -> Level {
    let mut level = match random.below(3) {
        0 => Level::Fixed(grey(random)),
        _ => Level::Halfway(grey(random), grey(random)),
    };
    if let Level::Halfway(air, material) = level {
        let next = f32::from_bits(air.to_bits().wrapping_add(1));
        level = match random.below(8) {
            0 => Level::Halfway(air, air),
            1 => Level::Halfway(air, next),
            2 => Level::Halfway(next, air),
            3 => Level::Halfway(air, material),
            _ => Level::Halfway(air.min(material), air.max(material)),
        };
    }
    if random.once_in(12) {
        let odd = f32::from_bits(odd_bits(random));
        level = match level {
            Level::Fixed(_) => Level::Fixed(odd),
            Level::Halfway(air, _) if random.once_in(2) => Level::Halfway(air, odd),
            Level::Halfway(_, material) => Level::Halfway(odd, material),
        };
    }
    level
}

/// About where voxels are to lie; the level itself is worked out by both sides.
fn middle(level: Level) -> f32 {
    match level {
        Level::Fixed(grey) => grey,
        Level::Halfway(air, material) => (air + material) / 2.0,
    }
}

fn scale(random: &mut Random) -> u32 {
    match random.below(16) {
        0 => random.pick(&[0, 3, 5, 6, 96, 127, 129, 255, 257, 512, 1 << 31, u32::MAX]),
        1 => random.bits() as u32,
        _ => 1 << random.below(9),
    }
}

/// As the library takes it.
pub fn library(level: Level) -> abi::Level {
    match level {
        Level::Fixed(grey) => abi::Level::Fixed(grey),
        Level::Halfway(air, material) => abi::Level::Halfway { air, material },
    }
}

/// The bytes of a file of floats, and the level and the scale that it is to be converted with.
pub struct Asked {
    pub file: Vec<u8>,
    pub level: Level,
    pub scale: u32,
}

/// A file as it might be, for the tool.
pub fn asked(random: &mut Random) -> Asked {
    let (level, scale) = (level(random), scale(random));
    let sizes: [u16; 3] = [(); 3].map(|_| 2 + random.below(4) as u16);
    let count: usize = sizes.iter().map(|axis| usize::from(*axis)).product();
    let mut file: Vec<u8> = sizes.iter().flat_map(|axis| axis.to_le_bytes()).collect();
    for _ in 0..count {
        let voxel = voxel(random, middle(level), scale.max(1));
        file.extend(voxel.to_le_bytes());
    }
    match random.below(10) {
        0 => file.truncate(random.below(file.len() + 1)),
        1 => file.extend((0..1 + random.below(5)).map(|_| random.bits() as u8)),
        2 => file[2 * random.below(3)] = random.pick(&[0, 1, 65, 2, 3]),
        3 => {
            let at = 6 + 4 * random.below(count);
            file[at..at + 4].copy_from_slice(&odd_bits(random).to_le_bytes());
        }
        _ => {}
    }
    Asked { file, level, scale }
}

/// The number that all gave is returned, for counting.
pub fn convert(random: &mut Random) -> usize {
    let (level, scale) = (level(random), scale(random));
    let count = random.pick(&[0, 1, 2, 3, 4, 5, 7, 8, 9, 15, 16, 17, 33, 64, 100]);
    let mut voxels: Vec<f32> = (0..count).map(|_| voxel(random, middle(level), scale.max(1))).collect();
    if count > 0 && random.once_in(5) {
        for _ in 0..1 + random.below(3) {
            voxels[random.below(count)] = f32::from_bits(odd_bits(random));
        }
    }
    let length = match random.below(12) {
        0 => count + 1 + random.below(3),
        1 => count.saturating_sub(1 + random.below(3)),
        _ => count,
    };
    let mut samples = Guarded::new(random, length, |r| r.bits() as i16);
    let (mut theirs, mut plain) = (samples.clone(), samples.clone());
    let answer = abi::convert(library(level), scale, &voxels, samples.lend());
    let expected = match floats::convert(level, scale, &voxels, length) {
        Ok(converted) => {
            theirs.lend().copy_from_slice(&converted);
            Verdict { number: 0, place: 0 }
        }
        Err(Refused { number, place }) => Verdict { number, place },
    };
    let bits = || voxels.iter().map(|voxel| voxel.to_bits()).collect::<Vec<_>>();
    assert_eq!(answer, expected, "{level:?} {scale} {voxels:?} {:x?} {length}", bits());
    assert!(samples == theirs, "memory differs after {answer:?}: {level:?} {scale} {voxels:?} {:x?} {length}", bits());
    let (halfway, grey, material) = match level {
        Level::Fixed(grey) => (false, grey, f32::NAN),
        Level::Halfway(air, material) => (true, air, material),
    };
    let by_c = baseline::convert(halfway, grey, material, scale, &voxels, plain.lend());
    assert_eq!(by_c, [answer.number, answer.place], "{level:?} {scale} {voxels:?} {:x?}", bits());
    assert!(plain == theirs, "floats.c leaves other memory: {level:?} {scale} {voxels:?} {:x?} {length}", bits());
    answer.number
}
