//! The fuzz driver: random and mutated volumes, sheets and command lines, one round after another.

use crate::random::Random;
use crate::{floats, hold, pieces, stl, tooled};
use std::collections::BTreeMap;
use std::fs::File;
use std::os::unix::fs::FileExt;
use std::panic::{catch_unwind, AssertUnwindSafe};
use std::sync::atomic::{AtomicU64, Ordering};
use std::sync::Arc;
use std::time::{Duration, Instant};

/// How long to go on.
pub enum Span {
    Rounds(u64),
    Minutes(u64),
}

impl Span {
    fn goes_on(&self, round: u64, began: Instant) -> bool {
        match self {
            Span::Rounds(rounds) => round < *rounds,
            Span::Minutes(minutes) => began.elapsed() < Duration::from_secs(60 * minutes),
        }
    }
}

/// A round that takes longer than this many seconds hangs.
const PATIENCE: u64 = 60;

/// What a round tries, and how often each answer came.
pub type Counts = BTreeMap<(&'static str, usize), u64>;

type Trial = (&'static str, fn(&mut Random) -> usize);

const TRIALS: [Trial; 18] = [
    ("build", hold::build),
    ("build, fill", hold::build_filled),
    ("check", hold::check),
    ("build, no start", hold::build_unnamed),
    ("check, no start", hold::check_unnamed),
    ("tool", tooled::round),
    ("check, fill", hold::check_filled),
    ("read", hold::read),
    ("check", hold::check),
    ("write", hold::write),
    ("tool", tooled::round),
    ("stl write", stl::write),
    ("stl read", stl::read),
    ("convert", floats::convert),
    ("pieces", pieces::find),
    ("tool", tooled::round),
    ("tool", tooled::round),
    ("tool", tooled::round),
];

/// Ends the process, loudly, where a round does not end.
fn watch(round: Arc<AtomicU64>) {
    std::thread::spawn(move || loop {
        let before = round.load(Ordering::Relaxed);
        for _ in 0..PATIENCE {
            std::thread::sleep(Duration::from_secs(1));
        }
        if round.load(Ordering::Relaxed) == before && before != u64::MAX {
            eprintln!("round {before} hangs");
            std::process::abort();
        }
    });
}

/// Runs rounds in the current folder, whose files it removes; answers how many, and the counts. An error names the round
/// that failed; after a crash the file `round` beside the folder does.
pub fn run(span: Span, seed: u64) -> Result<(u64, Counts), String> {
    let began = Instant::now();
    let now = Arc::new(AtomicU64::new(0));
    watch(now.clone());
    let log = File::create("../round").map_err(|error| error.to_string())?;
    let mut counts = Counts::new();
    let mut round = 0;
    while span.goes_on(round, began) {
        now.store(round, Ordering::Relaxed);
        log.write_all_at(format!("{round:20} of seed {seed}\n").as_bytes(), 0).map_err(|error| error.to_string())?;
        let (name, trial) = TRIALS[(round % TRIALS.len() as u64) as usize];
        let mut random = Random::new(seed.wrapping_add(round));
        match catch_unwind(AssertUnwindSafe(|| trial(&mut random))) {
            Ok(answer) => *counts.entry((name, answer)).or_default() += 1,
            Err(_) => return Err(format!("round {round} of seed {seed} failed: {name}")),
        }
        round += 1;
    }
    now.store(u64::MAX, Ordering::Relaxed);
    Ok((round, counts))
}

/// A new folder with an empty one inside, which is made the current one. The outer is returned.
pub fn enter_new_folder() -> std::io::Result<std::path::PathBuf> {
    let folder = std::env::temp_dir().join(format!("malxuqeed-fuzz-{}", std::process::id()));
    let files = folder.join("files");
    std::fs::create_dir(&folder)?;
    std::fs::create_dir(&files)?;
    std::env::set_current_dir(&files)?;
    Ok(folder)
}
