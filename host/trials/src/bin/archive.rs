//! `archive FOLDER [SHEETS]`: writes an archive of sheets, sound and wrong, and a manifest without starts.

use std::path::Path;
use std::process::ExitCode;
use trials::archive::{kinds, manifest, write};
use trials::random::Random;

fn main() -> ExitCode {
    let words: Vec<_> = std::env::args_os().skip(1).collect();
    let (folder, count) = match &words[..] {
        [folder] => (Path::new(folder), Some(240)),
        [folder, count] => (Path::new(folder), count.to_str().and_then(|count| count.parse().ok())),
        _ => (Path::new(""), None),
    };
    let Some(count) = count else {
        eprintln!("archive FOLDER [SHEETS]: writes volumes, so many sheets (240) and manifest.txt");
        return ExitCode::from(2);
    };
    let mut random = Random::new(15);
    let mut all = Vec::new();
    while all.len() < count {
        all.extend(kinds(&mut random));
    }
    all.truncate(count);
    let written = std::fs::create_dir_all(folder)
        .and_then(|()| write(folder, &mut random, &all))
        .and_then(|archived| std::fs::write(folder.join("manifest.txt"), manifest(&archived)));
    match written {
        Ok(()) => {
            println!("{count} sheets in {}", folder.display());
            ExitCode::SUCCESS
        }
        Err(error) => {
            eprintln!("{} cannot be written: {error}", folder.display());
            ExitCode::from(2)
        }
    }
}
