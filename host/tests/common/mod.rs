//! What the tests of the tool as a process share.
#![allow(dead_code)]

use std::fs;
use std::path::PathBuf;
use std::process::{Command, Output, Stdio};

pub const TOOL: &str = env!("CARGO_BIN_EXE_malxuqeed");

/// A folder of a test, gone when the test ends.
pub struct Folder(pub PathBuf);

impl Folder {
    pub fn new(name: &str) -> Folder {
        let path = std::env::temp_dir().join(format!("malxuqeed-tool-{}-{name}", std::process::id()));
        fs::create_dir(&path).expect("a new folder");
        Folder(path)
    }

    pub fn put(&self, name: &str, bytes: &[u8]) {
        fs::write(self.0.join(name), bytes).expect("a file");
    }

    pub fn get(&self, name: &str) -> Vec<u8> {
        fs::read(self.0.join(name)).expect("a file")
    }

    pub fn names(&self) -> Vec<String> {
        let entries = fs::read_dir(&self.0).expect("the folder");
        let mut names: Vec<String> =
            entries.flatten().map(|entry| entry.file_name().to_string_lossy().into()).collect();
        names.sort();
        names
    }

    /// Runs the tool here, on words parted by spaces and with an empty standard input.
    pub fn run(&self, line: &str) -> Run {
        self.run_words(&line.split(' ').filter(|word| !word.is_empty()).collect::<Vec<_>>())
    }

    pub fn run_words(&self, words: &[&str]) -> Run {
        Run::of(
            Command::new(TOOL).args(words).current_dir(&self.0).stdin(Stdio::null()).output().expect("the tool runs"),
        )
    }

    /// Runs a shell line here, with the tool as $1.
    pub fn shell(&self, line: &str) -> Run {
        let shell = Command::new("sh").args(["-c", line, "sh", TOOL]).current_dir(&self.0).output();
        Run::of(shell.expect("a shell"))
    }
}

impl Drop for Folder {
    fn drop(&mut self) {
        let _ = fs::remove_dir_all(&self.0);
    }
}

#[derive(Debug)]
pub struct Run {
    pub status: Option<i32>,
    pub output: String,
    pub errors: String,
}

impl Run {
    pub fn of(output: Output) -> Run {
        Run {
            status: output.status.code(),
            output: String::from_utf8_lossy(&output.stdout).into(),
            errors: String::from_utf8_lossy(&output.stderr).into(),
        }
    }

    /// Succeeded, printed exactly this and said nothing.
    pub fn well(&self, output: &str) {
        assert_eq!((self.status, self.output.as_str(), self.errors.as_str()), (Some(0), output, ""));
    }

    /// Succeeded, printed exactly this and said a line with these words.
    pub fn told(&self, output: &str, words: &str) {
        assert_eq!((self.status, self.output.as_str()), (Some(0), output), "{self:?}");
        assert!(self.errors.contains(words) && self.errors.lines().count() == 1, "{self:?}");
    }

    /// Refused with exactly this line, and one sentence on standard error.
    pub fn refused(&self, line: &str) {
        assert_eq!((self.status, self.output.trim_end()), (Some(1), line), "{self:?}");
        assert_eq!(self.errors.lines().count(), 1, "{self:?}");
    }

    /// Failed with status 2, printed nothing, and said why.
    pub fn failed(&self) {
        assert_eq!((self.status, self.output.as_str()), (Some(2), ""), "{self:?}");
        assert!(self.errors.starts_with("malxuqeed: "), "{self:?}");
    }

    /// Failed, and these words say why.
    pub fn failed_with(&self, words: &str) {
        self.failed();
        assert!(self.errors.contains(words), "{self:?}");
    }
}

pub fn volume(sizes: [u16; 3], samples: &[i16]) -> Vec<u8> {
    let head = sizes.iter().flat_map(|axis| axis.to_le_bytes());
    head.chain(samples.iter().flat_map(|sample| sample.to_le_bytes())).collect()
}

/// Document 01's listing.
pub fn listed() -> Vec<u8> {
    volume([2, 2, 2], &[3, -1, -1, -1, -1, -1, -1, -1])
}

/// Document 01's 5x2x2 with two air samples.
pub fn pair() -> Vec<u8> {
    let mut samples = [-1; 20];
    (samples[0], samples[4]) = (1, 1);
    volume([5, 2, 2], &samples)
}
