//! `bench [REPEATS]`: the proved library beside the hand-written C mesher, the second mesher of the trials and plain C loops for
//! STL and for volumes in f32: on three volumes of 64x64x64 samples, on small surfaces in as large a lattice, on lattices that grow.
//!
//! `make bench` builds it so that the library's code is this processor's (see own.sh).

mod buffers;
mod floats;
mod rows;
mod stl;

use buffers::Buffers;
use floats::Floats;
use host::abi;
use rows::{ms, Row};
use std::process::ExitCode;
use std::time::Duration;
use stl::Stl;
use trials::cases::Case;
use trials::volumes;

/// All that is measured.
struct Bench {
    buffers: Buffers,
    full: Vec<(Row, Stl, Floats)>,
    small: Vec<Row>,
    growing: Vec<Row>,
}

/// How often the second mesher of the trials is measured.
const FEW: usize = 2;

impl Bench {
    fn new() -> Result<Bench, String> {
        let mut buffers = Buffers::new();
        let mut full = Vec::new();
        for (name, case) in volumes::all() {
            let row = Row::new(&mut buffers, name, case)?;
            let mut stl = Stl::new(&buffers.vertices[..4 * row.nv], &buffers.triangles[..3 * row.nt]);
            if !stl.agree() {
                return Err(format!("{name}: the library and stl.c do not agree"));
            }
            let mut floats = Floats::new(&row.case);
            if !floats.agree() {
                return Err(format!("{name}: the library and floats.c do not agree"));
            }
            full.push((row, stl, floats));
        }
        let mut rows = |cases: Vec<(&'static str, Case)>| -> Result<Vec<Row>, String> {
            cases.into_iter().map(|(name, case)| Row::new(&mut buffers, name, case)).collect()
        };
        let (small, growing) = (rows(volumes::small().into())?, rows(volumes::growing())?);
        Ok(Bench { buffers, full, small, growing })
    }

    fn measure(&mut self, repeat: usize) {
        let Bench { buffers, full, small, growing } = self;
        for (row, stl, floats) in full {
            row.measure(buffers);
            row.measure_files(buffers);
            stl.measure();
            floats.measure();
            if repeat < FEW {
                row.measure_second(buffers);
            }
        }
        small.iter_mut().chain(growing).for_each(|row| row.measure(buffers));
    }

    /// The three volumes, then the small surfaces.
    fn rows(&self) -> impl Iterator<Item = &Row> {
        self.full.iter().map(|(row, ..)| row).chain(&self.small)
    }

    fn report(&self) {
        println!("\nbuild    triangles  second.c ms  library ms  library/second.c  Mtri/s second.c  Mtri/s library");
        for Row { name, nt, times, .. } in self.rows() {
            let rate = |d: Duration| *nt as f64 / d.as_secs_f64() / 1e6;
            let (c, build) = (ms(times.c), ms(times.build));
            let (ratio, c_rate, rate) = (build / c, rate(times.c), rate(times.build));
            println!("{name:7} {nt:10}  {c:11.3}  {build:10.3}  {ratio:16.2}  {c_rate:15.1}  {rate:14.1}");
        }
        println!("\ncheck    own ms  own/second.c  own/build  shuffled ms  shuffled/second.c  shuffled/own");
        for Row { name, times, .. } in self.rows() {
            let [own, shuffled, c, build] = [times.check, times.shuffled, times.c, times.build].map(ms);
            let (by_c, by_build, apart, by_own) = (own / c, own / build, shuffled / c, shuffled / own);
            println!("{name:7} {own:7.3}  {by_c:12.2}  {by_build:9.2}  {shuffled:11.3}  {apart:17.2}  {by_own:12.2}");
        }
        println!("\nevery piece  pieces  find ms  build ms  find/build");
        for Row { name, pieces, times, .. } in self.rows() {
            let [find, build] = [times.find, times.build].map(ms);
            let ratio = find / build;
            println!("{name:11} {pieces:7}  {find:7.3}  {build:8.3}  {ratio:10.2}");
        }
        println!("\nns a sample   axis  second.c   build   check  shuffled  build/second.c  check/second.c  shuffled/second.c");
        let largest = self.full.iter().map(|(row, ..)| row).filter(|row| row.name == "noise");
        for row in self.growing.iter().chain(largest) {
            let Row { name, times, case, .. } = row;
            let each = |time: Duration| time.as_secs_f64() * 1e9 / row.samples() as f64;
            let [c, build, check, shuffled] = [times.c, times.build, times.check, times.shuffled].map(each);
            let [by_build, by_check, apart] = [build, check, shuffled].map(|time| time / c);
            let axis = case.sizes[0];
            print!("{name:11}  {axis:5}  {c:8.1}  {build:6.1}  {check:6.1}  {shuffled:8.1}");
            println!("  {by_build:14.2}  {by_check:14.2}  {apart:17.2}");
        }
        println!("\nfiles    write ms   read ms  write/build  read/build");
        for (Row { name, times, .. }, ..) in &self.full {
            let [write, read, build] = [times.write, times.read, times.build].map(ms);
            let (by_write, by_read) = (write / build, read / build);
            println!("{name:7}  {write:8.3}  {read:8.3}  {by_write:11.2}  {by_read:10.2}");
        }
        println!("{}", stl::HEADER);
        self.full.iter().for_each(|(row, stl, _)| println!("{}", stl.row(row.name)));
        println!("{}", floats::HEADER);
        self.full.iter().for_each(|(row, _, floats)| println!("{}", floats.row(row.name)));
        println!("\nsecond mesher of the trials  build ms  check ms  library/its build  library/its check");
        for (Row { name, times, .. }, ..) in &self.full {
            let [build, check] = [times.second_build, times.second_check].map(ms);
            let (by_build, by_check) = (ms(times.build) / build, ms(times.check) / check);
            println!("{name:27}  {build:8.1}  {check:8.1}  {by_build:17.4}  {by_check:17.4}");
        }
    }
}

fn main() -> ExitCode {
    let usual = if abi::EMULATED { 2 } else { 40 };
    let repeats = std::env::args().nth(1).map_or(Some(usual), |arg| arg.parse().ok()).filter(|count| *count > 0);
    let Some(repeats) = repeats else {
        eprintln!("bench [REPEATS]");
        return ExitCode::from(2);
    };
    println!(
        "The proved library beside second.c ({}), from the lowest crossed cube; 64 x 64 x 64 samples",
        baseline::COMPILER
    );
    println!("but where an axis is named. Times of second.c are of its build. Least of {repeats} repeats ({FEW} of the second");
    println!("mesher of the trials), all calls interleaved in one run; all buffers were cleared before each call.");
    if abi::OWN {
        println!("The library was compiled for this processor.");
    }
    if abi::EMULATED {
        println!(
            "On this processor the library runs under an emulator, in a process of its own: its times say nothing."
        );
    }
    let mut bench = match Bench::new() {
        Ok(bench) => bench,
        Err(text) => {
            eprintln!("{text}");
            return ExitCode::FAILURE;
        }
    };
    (0..repeats).for_each(|repeat| bench.measure(repeat));
    bench.report();
    ExitCode::SUCCESS
}
