//! Volume files: nx, ny, nz (u16) and the samples (i16, by sample number), little-endian.

use crate::abi::{Lattice, Sizes, Start};
use crate::failure::Failure;
use crate::files;
use crate::room;
use crate::streams::Streams;
use std::path::Path;

/// One byte more than the longest volume has; what stands behind is not read.
pub const ENOUGH: u64 = 6 + 2 * 64 * 64 * 64 + 1;

/// What the scanner writes where it sees nothing: no sample (document 02 (iii)). A cube with such a corner is never visited.
pub const FILL: i16 = i16::MIN;

/// What a volume file gives. A wrong one gives something that the library refuses with document 01's number.
#[derive(Clone, Debug, Default, PartialEq, Eq)]
pub struct Volume {
    pub sizes: Sizes,
    pub samples: Vec<i16>,
    /// How many bytes were read, at most `ENOUGH`.
    pub bytes: usize,
}

impl Volume {
    /// Under six bytes there are no sizes, which is refusal 1. Where the rest is not whole samples, no samples are
    /// given, which is refusal 2 for sizes that pass 1.
    pub fn parse(bytes: &[u8]) -> Volume {
        let Some((head, body)) = bytes.split_at_checked(6) else {
            return Volume { bytes: bytes.len(), ..Volume::default() };
        };
        let axis = |at: usize| usize::from(u16::from_le_bytes([head[at], head[at + 1]]));
        let samples = match body.len() % 2 {
            0 => body.chunks_exact(2).map(|pair| i16::from_le_bytes([pair[0], pair[1]])).collect(),
            _ => Vec::new(),
        };
        Volume { sizes: Sizes { nx: axis(0), ny: axis(2), nz: axis(4) }, samples, bytes: bytes.len() }
    }

    /// Reads a volume file, or a volume from standard input.
    pub fn read(path: &Path, streams: &mut Streams) -> Result<Volume, Failure> {
        let bytes = files::read_named(path, ENOUGH, streams).map_err(|error| Failure::reading(path, &error))?;
        Ok(Volume::parse(&bytes))
    }

    /// The bytes of a volume file.
    pub fn file(&self) -> Vec<u8> {
        let Sizes { nx, ny, nz } = self.sizes;
        let head = [nx, ny, nz].into_iter().flat_map(|axis| (axis as u16).to_le_bytes());
        head.chain(self.samples.iter().flat_map(|sample| sample.to_le_bytes())).collect()
    }

    pub fn from(&self, start: Start) -> Lattice<'_> {
        Lattice { sizes: self.sizes, start, samples: &self.samples }
    }

    /// The samples that are not the fill.
    pub fn seen(&self) -> impl Iterator<Item = i16> + '_ {
        self.samples.iter().copied().filter(|sample| *sample != FILL)
    }

    /// The least and the greatest sample; none where there is only fill.
    pub fn range(&self) -> Option<(i16, i16)> {
        Some((self.seen().min()?, self.seen().max()?))
    }

    /// Whether it passes tests 1 and 2.
    pub fn is_whole(&self) -> bool {
        room::fits(self.sizes) && self.samples.len() == room::samples(self.sizes)
    }
}

#[cfg(test)]
mod tests {
    use super::*;

    #[test]
    fn sizes_and_samples() {
        let bytes = [2, 0, 3, 1, 4, 0, 255, 255, 0, 128];
        let volume = Volume::parse(&bytes);
        let sizes = Sizes { nx: 2, ny: 259, nz: 4 };
        assert_eq!(volume, Volume { sizes, samples: vec![-1, -32768], bytes: 10 });
        assert_eq!(volume.file(), bytes);
    }

    #[test]
    fn what_is_seen() {
        let of = |samples: &[i16]| Volume { samples: samples.to_vec(), ..Volume::default() }.range();
        assert_eq!(of(&[FILL, 3, -32_767, FILL]), Some((-32_767, 3)));
        assert_eq!((of(&[FILL]), of(&[])), (None, None));
    }

    #[test]
    fn short_and_odd_files() {
        assert_eq!(Volume::parse(&[2, 0, 2, 0, 2]).sizes, Sizes::default());
        assert_eq!(Volume::parse(&[2, 0, 2, 0, 2, 0, 1]).samples, []);
        assert_eq!(Volume::parse(&[2, 0, 2, 0, 2, 0, 1, 0]).samples, [1]);
    }
}
