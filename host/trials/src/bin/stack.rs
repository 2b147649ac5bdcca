//! `stack [ROUNDS]`: the most stack that each function of the library took, on the benchmark's volumes and on random cases.

use host::abi::{self, Rule};
use std::collections::BTreeMap;
use std::process::ExitCode;
use trials::cases::{case, content, output_room, sheet_counts, sizes, Case, Lent};
use trials::random::Random;
use trials::stack::{depth, on_thread, NEAR};
use trials::{damage, pieces, volumes};

/// The most bytes of each function, and how many calls there were.
#[derive(Default)]
struct Depths {
    most: BTreeMap<&'static str, usize>,
    calls: usize,
}

impl Depths {
    fn call<T>(&mut self, function: &'static str, mut call: impl FnMut() -> T) -> T {
        let mut answer = None;
        let taken = depth(&mut || answer = Some(call()));
        let most = self.most.entry(function).or_default();
        *most = taken.max(*most);
        self.calls += 1;
        answer.expect("the call was made")
    }

    /// A build in a room, a check of a file, and a search for pieces.
    fn lattice(&mut self, case: &Case, lent: &mut Lent, file: &[u8]) {
        self.call("build", || lent.library_build(case));
        self.call("check", || lent.library_check(Rule::Nearest, case, file));
        self.call("pieces", || lent.library_pieces(case));
    }

    /// A file read, what it holds written again, and to STL and back; room is as long as the file.
    fn file(&mut self, about: [usize; 3], file: &[u8]) {
        let mut vertices = vec![0; file.len() / 4];
        let mut triangles = vec![0; file.len() / 4];
        let got = self.call("read", || abi::read(file, &mut vertices, &mut triangles));
        let (nv, nt) = (got.vertices, got.triangles);
        let mut bytes = vec![0; file.len()];
        self.call("write", || abi::write(sizes(about), nv, nt, &vertices, &triangles, &mut bytes));
        let mut stl = vec![0; 84 + 50 * nt];
        self.call("stl write", || abi::stl_write(nv, nt, &vertices, &triangles, &mut stl));
        let mut corners = vec![0; 9 * nt];
        self.call("stl read", || abi::stl_read(&stl, &mut corners));
    }
}

/// A volume, with its own file in order and shuffled.
fn whole(depths: &mut Depths, random: &mut Random, case: &Case) {
    let counts = sheet_counts(case);
    let room = [4 * counts.vertices, 3 * counts.triangles];
    let Some(mut sheet) = content(case) else { return };
    for shuffled in [false, true] {
        if shuffled {
            damage::shuffle(random, &mut sheet);
        }
        let file = second::serialize(&sheet);
        depths.lattice(case, &mut Lent::clean(case.sizes, room), &file);
        depths.file(case.sizes, &file);
    }
}

/// A random case, its file perhaps damaged, its room perhaps short.
fn round(depths: &mut Depths, random: &mut Random) {
    let case = case(random);
    let counts = sheet_counts(&case);
    let room = output_room(random, counts.vertices, counts.triangles);
    let sheet = content(&case).unwrap_or_else(|| damage::free_content(random));
    let file = damage::file(random, &sheet);
    depths.lattice(&case, &mut Lent::doubtful(random, case.sizes, room), &file);
    depths.file(case.sizes, &file);
}

/// A search in a lattice of many pieces, or of pieces at the borders of blocks.
fn search(depths: &mut Depths, random: &mut Random) {
    let case = pieces::case(random);
    let list = random.below(50);
    let mut lent = Lent::doubtful(random, case.sizes, [0, list]);
    depths.call("pieces", || lent.library_pieces(&case));
}

fn measured(rounds: u64) -> Depths {
    let (mut depths, mut random) = (Depths::default(), Random::new(3));
    let named = volumes::all().into_iter().chain(volumes::small());
    named.for_each(|(_, case)| whole(&mut depths, &mut random, &case));
    (0..rounds).for_each(|_| round(&mut depths, &mut random));
    (0..rounds).for_each(|_| search(&mut depths, &mut random));
    depths
}

fn main() -> ExitCode {
    let Some(rounds) = std::env::args().nth(1).map_or(Some(5000), |arg| arg.parse().ok()) else {
        eprintln!("stack [ROUNDS]: the most stack that each function took, on volumes and so many random cases");
        return ExitCode::from(2);
    };
    if abi::EMULATED {
        eprintln!("the library runs in another process here: its stack cannot be looked at");
        return ExitCode::FAILURE;
    }
    match on_thread(move || measured(rounds)) {
        Ok(Depths { most, calls }) => {
            println!("The most stack that {calls} calls took, from the caller's frame, its arguments counted in:");
            for (name, bytes) in most {
                let least = if bytes == NEAR { "at most" } else { "" };
                println!("{name:9}  {least:7} {bytes:6} bytes");
            }
            ExitCode::SUCCESS
        }
        Err(error) => {
            eprintln!("{error}");
            ExitCode::FAILURE
        }
    }
}
