//! `fuzz SPAN [SEED]`: random and mutated volumes, sheets and command lines against the library and the tool.

use std::process::ExitCode;
use trials::fuzz::{self, Span};

/// A number of rounds, or of minutes, as `10m`.
fn span(word: &str) -> Option<Span> {
    match word.strip_suffix('m') {
        Some(minutes) => minutes.parse().ok().map(Span::Minutes),
        None => word.parse().ok().map(Span::Rounds),
    }
}

/// The span, and the seed: 1 where none is named.
fn asked(words: &[String]) -> Option<(Span, u64)> {
    match words {
        [long] => Some((span(long)?, 1)),
        [long, seed] => Some((span(long)?, seed.parse().ok()?)),
        _ => None,
    }
}

fn main() -> ExitCode {
    let words: Vec<String> = std::env::args().skip(1).collect();
    let Some((span, seed)) = asked(&words) else {
        eprintln!("fuzz ROUNDS [SEED], fuzz MINUTESm [SEED]: runs so long, in a new folder for temporary files");
        return ExitCode::from(2);
    };
    let folder = match fuzz::enter_new_folder() {
        Ok(folder) => folder,
        Err(error) => {
            eprintln!("no new folder for temporary files: {error}");
            return ExitCode::from(2);
        }
    };
    match fuzz::run(span, seed) {
        Ok((rounds, counts)) => {
            println!(
                "{rounds} rounds, seed {seed}: no crash, no hang, no file damaged, no answer but the second mesher's"
            );
            for ((name, number), count) in counts {
                let what = if name == "tool" { "status" } else { "number" };
                println!("{name:11} {what} {number:2}: {count}");
            }
            let _ = std::fs::remove_dir_all(folder);
            ExitCode::SUCCESS
        }
        Err(text) => {
            eprintln!("{text}; its files are in {}", folder.display());
            ExitCode::FAILURE
        }
    }
}
