//! Volumes in f32: the library's converter beside plain C loops with the same tests (`floats.c`).

use crate::rows::{ms, time};
use host::abi::{self, Level};
use std::time::Duration;
use trials::cases::Case;

/// Voxels about a level, room for their samples, and the shortest time of each call.
pub struct Floats {
    voxels: Vec<f32>,
    samples: Vec<i16>,
    c: Duration,
    library: Duration,
}

const LEVEL: Level = Level::Halfway { air: 120.5, material: 880.25 };
const GREYS: [f32; 2] = [120.5, 880.25];
const SCALE: u32 = 16;

pub const HEADER: &str = "\nfloats     voxels  floats.c ms  library ms  library/floats.c  Mvoxel/s, library";

impl Floats {
    /// Voxels with fractions whose samples are about those of a volume.
    pub fn new(case: &Case) -> Floats {
        let voxel = |(n, sample): (usize, &i16)| 500.375 - f32::from(*sample) / 16.0 + (n % 13) as f32 / 512.0;
        let voxels: Vec<f32> = case.samples.iter().enumerate().map(voxel).collect();
        let samples = vec![1; voxels.len()];
        Floats { voxels, samples, c: Duration::MAX, library: Duration::MAX }
    }

    fn by_c(&mut self) -> [usize; 2] {
        let [air, material] = GREYS;
        baseline::convert(true, air, material, SCALE, &self.voxels, &mut self.samples)
    }

    fn by_library(&mut self) -> [usize; 2] {
        let verdict = abi::convert(LEVEL, SCALE, &self.voxels, &mut self.samples);
        [verdict.number, verdict.place]
    }

    /// Library and C loops must agree before their times mean anything.
    pub fn agree(&mut self) -> bool {
        let c = (self.by_c(), self.samples.clone());
        self.samples.fill(0);
        c == (self.by_library(), self.samples.clone()) && c.0 == [0, 0]
    }

    pub fn measure(&mut self) {
        let (mut c, mut library) = (self.c, self.library);
        self.samples.fill(0);
        time(&mut c, || self.by_c());
        self.samples.fill(0);
        time(&mut library, || self.by_library());
        (self.c, self.library) = (c, library);
    }

    pub fn row(&self, name: &str) -> String {
        let (count, c, library) = (self.voxels.len(), ms(self.c), ms(self.library));
        let (ratio, rate) = (library / c, count as f64 / library / 1e3);
        format!("{name:6} {count:10}  {c:11.3}  {library:10.3}  {ratio:16.2}  {rate:17.0}")
    }
}
