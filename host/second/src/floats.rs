//! Volumes in f32, written from document 02 (vii) alone.
//!
//! Sums, differences and products go through f64 and are rounded once to f32 where document 02 rounds: of two f32 that is the same
//! as rounding the exact value. The proved code goes by f32 and by bits.

/// Why a call was refused.
#[derive(Clone, Copy, Debug, PartialEq, Eq)]
pub struct Refused {
    pub number: usize,
    pub place: usize,
}

/// "either as a fixed grey or as halfway between an air grey and a material grey"
#[derive(Clone, Copy, Debug, PartialEq)]
pub enum Level {
    Fixed(f32),
    Halfway(f32, f32),
}

impl Level {
    fn greys(self) -> Vec<f32> {
        match self {
            Level::Fixed(grey) => vec![grey],
            Level::Halfway(air, material) => vec![air, material],
        }
    }

    /// "halfway is their sum divided by two"
    fn grey(self) -> f32 {
        match self {
            Level::Fixed(grey) => grey,
            Level::Halfway(air, material) => {
                let sum = (f64::from(air) + f64::from(material)) as f32;
                (f64::from(sum) / 2.0) as f32
            }
        }
    }
}

fn wrong(grey: f32) -> bool {
    grey.is_nan() || f64::from(grey).abs() > 65_536.0
}

/// "d times a power of two .., cut towards zero and held to ±32,767; where d is above 0 the sample is at least 1"
fn sample(level: f32, voxel: f32, scale: u32) -> i16 {
    let d = (f64::from(level) - f64::from(voxel)) as f32;
    let steps = (f64::from(d) * f64::from(scale)).trunc().clamp(-32_767.0, 32_767.0);
    let least: f64 = if d > 0.0 { 1.0 } else { -32_767.0 };
    steps.max(least) as i16
}

/// The samples, where a slice of so many is lent.
pub fn convert(level: Level, scale: u32, voxels: &[f32], room: usize) -> Result<Vec<i16>, Refused> {
    let refused = |number, place| Err(Refused { number, place });
    if !(0..=8).any(|power| scale == 1 << power) {
        return refused(26, 0);
    }
    if level.greys().into_iter().any(wrong) {
        return refused(21, 0);
    }
    if let Some(place) = voxels.iter().position(|voxel| wrong(*voxel)) {
        return refused(21, place);
    }
    if matches!(level, Level::Halfway(air, material) if air >= material) {
        return refused(22, 0);
    }
    if voxels.len() != room {
        return refused(2, 0);
    }
    Ok(voxels.iter().map(|voxel| sample(level.grey(), *voxel, scale)).collect())
}

/// What the tool makes of a file: the sizes are given, or stand before the voxels.
pub fn file(
    bytes: &[u8],
    sizes: Option<[usize; 3]>,
    level: Level,
    scale: u32,
) -> Result<([usize; 3], Vec<i16>), Refused> {
    let refused = |number| Err(Refused { number, place: 0 });
    let (sizes, body) = match sizes {
        Some(sizes) => (sizes, bytes),
        None => {
            let Some((head, body)) = bytes.split_at_checked(6) else { return refused(1) };
            (std::array::from_fn(|i| usize::from(head[2 * i]) + 256 * usize::from(head[2 * i + 1])), body)
        }
    };
    if sizes.iter().any(|axis| !(2..=64).contains(axis)) {
        return refused(1);
    }
    if body.len() != 4 * sizes.iter().product::<usize>() {
        return refused(2);
    }
    let voxels: Vec<f32> = body.chunks_exact(4).map(|b| f32::from_le_bytes([b[0], b[1], b[2], b[3]])).collect();
    convert(level, scale, &voxels, voxels.len()).map(|samples| (sizes, samples))
}
