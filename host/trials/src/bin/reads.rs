//! `reads CALL VOLUME`: one call on a volume file, whose samples stand in a heap block that nothing but the call reads, so that
//! valgrind's dhat counts the call's reads of them (host/reads.sh). CALL is `build` (from the lowest crossed cube), `named` (the same
//! with its place), `check` (of the sheet's own file), `pieces` (every piece), `second` (the build of second.c) or `nothing`.
//!
//! Prints the bytes of that block, the samples, the sheet's vertices and cubes, and the number of the lowest crossed cube.

use host::abi::{self, Lattice, Start};
use host::room::{self, Room};
use host::sheet::Sheet;
use host::volume::Volume;
use std::process::ExitCode;
use trials::cases::place;

/// Samples of room behind the last: the block is as long as no other.
const MORE: usize = 77;

#[inline(never)]
fn block(samples: &[i16]) -> Vec<i16> {
    let mut own = Vec::with_capacity(samples.len() + MORE);
    own.extend(samples.iter().map(|sample| std::hint::black_box(*sample)));
    own
}

/// The lowest crossed cube.
fn lowest(volume: &Volume) -> Option<[usize; 3]> {
    let sizes = [volume.sizes.nx, volume.sizes.ny, volume.sizes.nz];
    let lattice = second::Lattice::new(sizes, &volume.samples).ok()?;
    let cube = lattice.cubes().find(|cube| lattice.crossed(*cube))?;
    Some([cube.x, cube.y, cube.z].map(|v| v as usize))
}

/// The number that the call gives.
fn call(name: &str, own: Lattice, start: [usize; 3], file: &[u8], [nv, nt]: [usize; 2]) -> Option<usize> {
    let (mut vertices, mut triangles, mut room) = (vec![0; 4 * nv], vec![0; 3 * nt], Room::default());
    let work = room.lend(own.sizes);
    let named = Lattice { start: Start::Cube(place(start)), ..own };
    let abi::Sizes { nx, ny, nz } = own.sizes;
    match name {
        "build" => Some(abi::build(own, &mut vertices, &mut triangles, work).number),
        "named" => Some(abi::build(named, &mut vertices, &mut triangles, work).number),
        "check" => Some(abi::check(abi::Rule::Nearest, own, file, work).number),
        "pieces" => Some(abi::pieces(own.sizes, own.samples, &mut vec![0; room::cubes(own.sizes)], work).number),
        "second" => {
            let abi::Work { words, waiting, slots } = work;
            let lent = baseline::Lent { vertices: &mut vertices, triangles: &mut triangles, words, waiting, slots };
            Some(baseline::build([nx, ny, nz].map(|axis| axis as u16), baseline::Start::Lowest, own.samples, lent)[0])
        }
        "nothing" => Some(0),
        _ => None,
    }
}

fn run(name: &str, path: &str) -> Result<String, String> {
    let volume = Volume::parse(&std::fs::read(path).map_err(|error| format!("{path}: {error}"))?);
    let Some(start) = lowest(&volume) else { return Err(format!("{path}: no cube is crossed")) };
    let (built, sheet) = Sheet::build(&volume, Start::Lowest, &mut Room::default());
    let file = sheet.file().map_err(|number| format!("{path}: no file, {number}"))?;
    let samples = block(&volume.samples);
    let own = Lattice { sizes: volume.sizes, start: Start::Lowest, samples: &samples };
    match call(name, own, start, &file, [built.vertices, built.triangles]) {
        Some(0) => {}
        Some(number) => return Err(format!("{path}: {name} is refused, {number}")),
        None => return Err(format!("{name} is none of build, named, check, pieces, second, nothing")),
    }
    let (bytes, count) = (2 * (samples.len() + MORE), room::samples(volume.sizes));
    let [x, y, z] = start;
    let cube = x + (volume.sizes.nx - 1) * (y + (volume.sizes.ny - 1) * z);
    Ok(format!("{bytes} {count} {} {} {cube}", built.vertices, built.cubes))
}

fn main() -> ExitCode {
    let words: Vec<String> = std::env::args().skip(1).collect();
    let said = match &words[..] {
        [name, path] => run(name, path),
        _ => Err("reads CALL VOLUME: build, named, check, pieces, second or nothing on a volume file".to_string()),
    };
    match said {
        Ok(text) => {
            println!("{text}");
            ExitCode::SUCCESS
        }
        Err(text) => {
            eprintln!("{text}");
            ExitCode::from(2)
        }
    }
}
