//! The buffers of all calls, as long as the largest lattice may need, and the calls on them.

use baseline::Lent;
use host::abi::{self, Rule, Work};
use trials::cases::{in_c, sizes, Case};

pub struct Buffers {
    pub vertices: Vec<i32>,
    pub triangles: Vec<u32>,
    words: Vec<u16>,
    waiting: Vec<u32>,
    slots: Vec<u32>,
    pub bytes: Vec<u8>,
    /// The lowest cubes of pieces.
    pub list: Vec<u32>,
}

const SAMPLES: usize = 64 * 64 * 64;
const CUBES: usize = 63 * 63 * 63;

impl Buffers {
    pub fn new() -> Buffers {
        Buffers {
            vertices: vec![1; 4 * 7 * SAMPLES],
            triangles: vec![1; 3 * 12 * CUBES],
            words: vec![1; CUBES],
            waiting: vec![1; CUBES],
            slots: vec![1; 7 * SAMPLES],
            bytes: vec![1; 16 * 7 * SAMPLES + 12 * 12 * CUBES + 24],
            list: vec![1; CUBES],
        }
    }

    pub fn clear(&mut self) {
        self.clear_output();
        self.words.fill(0);
        self.waiting.fill(0);
        self.slots.fill(0);
    }

    pub fn clear_output(&mut self) {
        self.vertices.fill(0);
        self.triangles.fill(0);
        self.list.fill(0);
    }

    /// Both answer the number, and the counts of vertices, triangles and cubes.
    pub fn c(&mut self, case: &Case) -> [usize; 4] {
        let lent = Lent {
            vertices: &mut self.vertices,
            triangles: &mut self.triangles,
            words: &mut self.words,
            waiting: &mut self.waiting,
            slots: &mut self.slots,
        };
        baseline::build(case.sizes.map(|axis| axis as u16), in_c(case.start), &case.samples, lent)
    }

    pub fn build(&mut self, case: &Case) -> [usize; 4] {
        let work = Work { words: &mut self.words, waiting: &mut self.waiting, slots: &mut self.slots };
        let built = abi::build(case.lattice(), &mut self.vertices, &mut self.triangles, work);
        [built.number, built.vertices, built.triangles, built.cubes]
    }

    pub fn write(&mut self, case: &Case, nv: usize, nt: usize) -> usize {
        abi::write(sizes(case.sizes), nv, nt, &self.vertices, &self.triangles, &mut self.bytes).bytes
    }

    pub fn read(&mut self, file: &[u8]) -> usize {
        abi::read(file, &mut self.vertices, &mut self.triangles).number
    }

    pub fn check(&mut self, case: &Case, file: &[u8]) -> usize {
        let work = Work { words: &mut self.words, waiting: &mut self.waiting, slots: &mut self.slots };
        abi::check(Rule::Nearest, case.lattice(), file, work).number
    }

    /// Answers the number and how many pieces there are.
    pub fn pieces(&mut self, case: &Case) -> [usize; 2] {
        let work = Work { words: &mut self.words, waiting: &mut self.waiting, slots: &mut self.slots };
        let found = abi::pieces(sizes(case.sizes), &case.samples, &mut self.list, work);
        [found.number, found.pieces]
    }

    /// By a plain scan of cube after cube.
    pub fn second_pieces(&mut self, case: &Case) -> [usize; 2] {
        let mut work = second::Work { words: &mut self.words, waiting: &mut self.waiting, slots: &mut self.slots };
        let found = second::pieces(case.sizes, &case.samples, &mut self.list, &mut work);
        [found.number, found.pieces]
    }

    /// The second mesher of the trials, on coordinates and maps: its build and its check.
    pub fn second_build(&mut self, case: &Case) -> usize {
        let mut work = second::Work { words: &mut self.words, waiting: &mut self.waiting, slots: &mut self.slots };
        second::build(case.volume(), &mut self.vertices, &mut self.triangles, &mut work).number
    }

    pub fn second_check(&mut self, case: &Case, file: &[u8]) -> usize {
        let mut work = second::Work { words: &mut self.words, waiting: &mut self.waiting, slots: &mut self.slots };
        second::check(second::Rule::Nearest, case.volume(), file, &mut work).number
    }
}
