//! Volumes in f32: nx, ny, nz (u16) and the voxels (f32, by sample number), little-endian; or the voxels alone, with sizes from
//! elsewhere.

use crate::abi::{self, Level, Sizes, Verdict};
use crate::room;
use crate::volume::Volume;

/// Bytes of the sizes.
const HEAD: usize = 6;

/// One byte more than the longest file has; what stands behind is not read.
pub const ENOUGH: u64 = HEAD as u64 + 4 * 64 * 64 * 64 + 1;

/// What a file of floats gives.
#[derive(Clone, Debug, Default, PartialEq)]
pub struct Floats {
    pub sizes: Sizes,
    pub voxels: Vec<f32>,
    /// How many bytes were read, and whether the sizes were among them.
    pub bytes: usize,
    pub headed: bool,
}

impl Floats {
    /// The sizes are those that are given, else they stand in the file.
    pub fn parse(bytes: &[u8], given: Option<Sizes>) -> Floats {
        let (length, headed) = (bytes.len(), given.is_none());
        let (head, body) = bytes.split_at(if headed { HEAD.min(length) } else { 0 });
        let axis =
            |at: usize| head.get(at..at + 2).map_or(0, |pair| usize::from(u16::from_le_bytes([pair[0], pair[1]])));
        let sizes = given.unwrap_or(match head.len() {
            HEAD => Sizes { nx: axis(0), ny: axis(2), nz: axis(4) },
            _ => Sizes::default(),
        });
        let voxels =
            body.chunks_exact(4).map(|word| f32::from_le_bytes([word[0], word[1], word[2], word[3]])).collect();
        Floats { sizes, voxels, bytes: length, headed }
    }

    /// How many bytes the voxels have.
    pub fn body(&self) -> usize {
        self.bytes - if self.headed { HEAD.min(self.bytes) } else { 0 }
    }

    /// Refusal 1 for sizes that are missing or out of bounds, 2 for a wrong byte count behind.
    fn tested(&self) -> Result<(), Verdict> {
        let number = match room::fits(self.sizes) {
            false => 1,
            true if self.body() != 4 * room::samples(self.sizes) => 2,
            true => return Ok(()),
        };
        Err(Verdict { number, place: 0 })
    }

    /// The volume, or a refusal: of the file, then the library's own.
    pub fn convert(&self, level: Level, scale: u32) -> Result<Volume, Verdict> {
        self.tested()?;
        let mut samples = vec![0; self.voxels.len()];
        let verdict = abi::convert(level, scale, &self.voxels, &mut samples);
        match verdict.number {
            0 => Ok(Volume { sizes: self.sizes, samples, bytes: 0 }),
            _ => Err(verdict),
        }
    }
}

#[cfg(test)]
mod tests {
    use super::*;

    const TWO: Sizes = Sizes { nx: 2, ny: 2, nz: 2 };

    fn file(voxels: &[f32]) -> Vec<u8> {
        [2u16; 3].iter().flat_map(|n| n.to_le_bytes()).chain(voxels.iter().flat_map(|v| v.to_le_bytes())).collect()
    }

    #[test]
    fn with_and_without_a_header() {
        let bytes = file(&[1.5; 8]);
        let headed = Floats { sizes: TWO, voxels: vec![1.5; 8], bytes: 38, headed: true };
        assert_eq!(Floats::parse(&bytes, None), headed);
        assert_eq!(Floats::parse(&bytes[6..], Some(TWO)), Floats { bytes: 32, headed: false, ..headed.clone() });
        assert_eq!(headed.convert(Level::Fixed(3.0), 2).map(|volume| volume.samples), Ok(vec![3; 8]));
    }

    #[test]
    fn sizes_before_bytes_before_the_call() {
        let number = |bytes: &[u8], sizes| {
            Floats::parse(bytes, sizes).convert(Level::Fixed(f32::NAN), 3).map_err(|verdict| verdict.number)
        };
        let bytes = file(&[0.0; 8]);
        assert_eq!(number(&bytes[..5], None), Err(1));
        assert_eq!(number(&[], None), Err(1));
        assert_eq!(number(&bytes, Some(Sizes { nz: 65, ..TWO })), Err(1));
        for length in [6, 37] {
            assert_eq!(number(&bytes[..length], None), Err(2));
        }
        assert_eq!(number(&bytes, Some(TWO)), Err(2));
        assert_eq!(number(&bytes, None), Err(26));
    }
}
