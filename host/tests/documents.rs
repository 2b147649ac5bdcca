//! The documents say what the tool does: README's commands are run, and the manual's numbers are the tool's.

mod common;

use common::{Folder, TOOL};
use std::path::Path;
use std::process::Command;

const ROOT: &str = concat!(env!("CARGO_MANIFEST_DIR"), "/..");

fn document(name: &str) -> String {
    std::fs::read_to_string(Path::new(ROOT).join(name)).expect("a document")
}

/// The commands of README, each with the lines that it must print: what stands behind `$ ` in its examples, to the next.
fn examples() -> Vec<(String, String)> {
    let mut examples: Vec<(String, String)> = Vec::new();
    let mut within = false;
    for line in document("README.md").lines() {
        match (line.strip_prefix("    $ "), line.strip_prefix("    ")) {
            (Some(command), _) => {
                within = true;
                examples.push((command.to_string(), String::new()));
            }
            (None, Some(printed)) if within => examples.last_mut().expect("a command").1 += &format!("{printed}\n"),
            _ => within = false,
        }
    }
    examples
}

#[test]
fn readme_s_first_sheet() {
    let folder = Folder::new("readme");
    let case = trials::tray::volume();
    folder.put("scan.raw", &trials::tray::greys(&case));
    folder.put("scan.flt", &trials::tray::floats(&case));
    let programs = Path::new(TOOL).parent().expect("a folder");
    let path = format!("{}:{}", programs.display(), std::env::var("PATH").unwrap_or_default());
    let examples = examples();
    assert!(examples.len() >= 7, "{examples:?}");
    for (command, printed) in examples {
        let line = format!("exec 2>&1; {command}");
        let run =
            Command::new("sh").args(["-c", &line]).env("PATH", &path).current_dir(&folder.0).output().expect("a shell");
        assert_eq!(String::from_utf8_lossy(&run.stdout), printed, "{command}");
        assert!(run.status.success(), "{command}");
    }
}

#[test]
fn the_manual_has_every_number_and_every_command() {
    let manual = document("docs/MANUAL.md");
    for row in &host::numbers::NUMBERS {
        let line = format!("| {} | {} | {} |\n", row.number, row.means, row.remedy);
        assert!(manual.contains(&line), "{line}");
        if let Some(words) = row.stl {
            let line = format!("| {}, STL | {} | {} |\n", row.number, words.means, words.remedy);
            assert!(manual.contains(&line), "{line}");
        }
        if let Some(words) = row.floats {
            let line = format!("| {}, floats | {} | {} |\n", row.number, words.means, words.remedy);
            assert!(manual.contains(&line), "{line}");
        }
        if let Some(words) = row.pieces {
            let line = format!("| {}, pieces | {} | {} |\n", row.number, words.means, words.remedy);
            assert!(manual.contains(&line), "{line}");
        }
    }
    for command in [
        "from-raw",
        "convert",
        "info",
        "pieces",
        "build",
        "build-all",
        "check",
        "audit",
        "picture",
        "stl",
        "facets",
        "list",
        "show",
    ] {
        assert!(manual.contains(&format!("`{command}")), "{command}");
    }
    for column in host::audit::csv::COLUMNS.split(',') {
        assert!(manual.contains(&format!("`{column}`")), "{column}");
    }
}
