//! A volume that is measured, and the shortest time of each call on it.

use crate::buffers::Buffers;
use std::time::{Duration, Instant};
use trials::cases::Case;
use trials::damage;
use trials::random::Random;

/// The sheet's counts, and its file in the sheet's own order and in another.
pub struct Row {
    pub name: &'static str,
    pub case: Case,
    pub nv: usize,
    pub nt: usize,
    pub pieces: usize,
    file: Vec<u8>,
    shuffled: Vec<u8>,
    pub times: Times,
}

pub struct Times {
    /// The build of `second.c`.
    pub c: Duration,
    pub build: Duration,
    pub write: Duration,
    pub read: Duration,
    pub check: Duration,
    /// The check of the shuffled file.
    pub shuffled: Duration,
    /// The search for every piece.
    pub find: Duration,
    /// The second mesher of the trials.
    pub second_build: Duration,
    pub second_check: Duration,
}

pub fn ms(time: Duration) -> f64 {
    time.as_secs_f64() * 1e3
}

pub fn time<T>(least: &mut Duration, call: impl FnOnce() -> T) {
    let began = Instant::now();
    let _ = std::hint::black_box(call());
    *least = began.elapsed().min(*least);
}

/// How many pieces a volume has, where the library and a plain scan give the same list.
fn agreed_pieces(buffers: &mut Buffers, case: &Case) -> Option<usize> {
    buffers.clear();
    let scanned = (buffers.second_pieces(case), buffers.list.clone());
    buffers.clear();
    let found = (buffers.pieces(case), buffers.list.clone());
    let [number, pieces] = found.0;
    (number == 0 && found == scanned).then_some(pieces)
}

impl Row {
    /// Before times mean anything: both meshers give the same sheet, the check accepts its file in both orders, and the list of pieces
    /// is a plain scan's.
    pub fn new(buffers: &mut Buffers, name: &'static str, case: Case) -> Result<Row, String> {
        buffers.clear();
        let by_c = buffers.c(&case);
        let (vertices, triangles) = (buffers.vertices.clone(), buffers.triangles.clone());
        buffers.clear();
        let by_library = buffers.build(&case);
        let [number, nv, nt, _] = by_c;
        if number != 0 || by_c != by_library || vertices != buffers.vertices || triangles != buffers.triangles {
            return Err(format!("{name}: the library and second.c do not agree"));
        }
        let length = buffers.write(&case, nv, nt);
        let file = buffers.bytes[..length].to_vec();
        let mut content = second::parse(&file).map_err(|(number, _)| format!("{name}: no sheet file, {number}"))?;
        damage::shuffle(&mut Random::new(1), &mut content);
        let shuffled = second::serialize(&content);
        if file == shuffled {
            return Err(format!("{name}: the shuffled file is the file"));
        }
        for (order, bytes) in [("own", &file), ("shuffled", &shuffled)] {
            match buffers.check(&case, bytes) {
                0 => {}
                number => return Err(format!("{name}: the check refuses the file in {order} order, {number}")),
            }
        }
        let pieces =
            agreed_pieces(buffers, &case).ok_or(format!("{name}: the library and a plain scan do not agree"))?;
        let longest = Duration::MAX;
        let times = Times {
            c: longest,
            build: longest,
            write: longest,
            read: longest,
            check: longest,
            shuffled: longest,
            find: longest,
            second_build: longest,
            second_check: longest,
        };
        Ok(Row { name, case, nv, nt, pieces, file, shuffled, times })
    }

    pub fn samples(&self) -> usize {
        self.case.samples.len()
    }

    /// Builds, checks and searches.
    pub fn measure(&mut self, buffers: &mut Buffers) {
        let Row { case, file, shuffled, times, .. } = self;
        buffers.clear();
        time(&mut times.c, || buffers.c(case));
        buffers.clear();
        time(&mut times.build, || buffers.build(case));
        buffers.clear();
        time(&mut times.check, || buffers.check(case, file));
        buffers.clear();
        time(&mut times.shuffled, || buffers.check(case, shuffled));
        buffers.clear();
        time(&mut times.find, || buffers.pieces(case));
    }

    /// Files.
    pub fn measure_files(&mut self, buffers: &mut Buffers) {
        let Row { case, nv, nt, file, times, .. } = self;
        buffers.clear_output();
        buffers.read(file);
        buffers.bytes.fill(0);
        time(&mut times.write, || buffers.write(case, *nv, *nt));
        buffers.clear_output();
        time(&mut times.read, || buffers.read(file));
    }

    /// The second mesher of the trials, which is slow.
    pub fn measure_second(&mut self, buffers: &mut Buffers) {
        let Row { case, file, times, .. } = self;
        buffers.clear();
        time(&mut times.second_build, || buffers.second_build(case));
        buffers.clear();
        time(&mut times.second_check, || buffers.second_check(case, file));
    }
}
