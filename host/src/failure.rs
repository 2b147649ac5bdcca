//! What ends a command with status 2.

use std::fmt;
use std::io;
use std::path::Path;

#[derive(Debug)]
pub enum Failure {
    /// The arguments are wrong; the text says how.
    Usage(String),
    /// A file or a stream cannot be read or written, or is not what it should be.
    File(String),
    /// Whoever read standard output has gone; there is nobody to tell.
    Gone,
}

impl Failure {
    pub fn reading(path: &Path, error: &io::Error) -> Failure {
        Failure::File(format!("{} cannot be read: {}", shown(path), plain(error)))
    }

    pub fn writing(path: &Path, error: &io::Error) -> Failure {
        Failure::File(format!("{} cannot be written: {}", shown(path), plain(error)))
    }

    pub fn output(error: io::Error) -> Failure {
        match error.kind() {
            io::ErrorKind::BrokenPipe => Failure::Gone,
            _ => Failure::File(format!("standard output cannot be written: {}", plain(&error))),
        }
    }
}

/// An error in words, with what to do where that is plain.
fn plain(error: &io::Error) -> String {
    let known = match error.kind() {
        io::ErrorKind::NotFound => "there is no such file or folder; look at the name",
        io::ErrorKind::PermissionDenied => "it is not permitted; look at the file's and the folder's rights",
        io::ErrorKind::IsADirectory => "it is a folder; name a file",
        io::ErrorKind::NotADirectory => "a part of the name is no folder; look at the name",
        io::ErrorKind::StorageFull | io::ErrorKind::QuotaExceeded | io::ErrorKind::FileTooLarge => {
            "there is no room for it; make room and try again"
        }
        io::ErrorKind::ReadOnlyFilesystem => "the disk is write-protected; name another place",
        _ => return error.to_string(),
    };
    known.to_string()
}

/// A name as it can be shown: control characters are escaped, `-` is the stream.
pub fn shown(path: &Path) -> String {
    match path.to_str() {
        Some("-") => "standard input".to_string(),
        _ => escaped(&path.to_string_lossy()),
    }
}

/// A text with its control characters escaped, so that no name can move a terminal's cursor or forge a line.
pub fn escaped(text: &str) -> String {
    let mut clean = String::with_capacity(text.len());
    for c in text.chars() {
        // the marks that turn the direction of writing are as good as control characters
        if c.is_control() || ('\u{2028}'..='\u{202e}').contains(&c) || ('\u{2066}'..='\u{2069}').contains(&c) {
            clean.extend(c.escape_default());
        } else {
            clean.push(c);
        }
    }
    clean
}

impl fmt::Display for Failure {
    fn fmt(&self, f: &mut fmt::Formatter) -> fmt::Result {
        match self {
            Failure::Usage(text) | Failure::File(text) => f.write_str(text),
            Failure::Gone => f.write_str("standard output was closed"),
        }
    }
}

#[cfg(test)]
mod tests {
    use super::*;

    #[test]
    fn control_characters_are_escaped() {
        assert_eq!(shown(Path::new("a b\u{e9}.vol")), "a b\u{e9}.vol");
        assert_eq!(shown(Path::new("a\n\u{1b}[2Jb\u{202e}")), "a\\n\\u{1b}[2Jb\\u{202e}");
    }
}
