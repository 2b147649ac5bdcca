//! What the audit says about one sheet.

use crate::abi::{Place, Rule};
use crate::explain::place_text;
use crate::failure::shown;
use std::path::{Path, PathBuf};

/// What came of a line.
#[derive(Clone, Copy, Debug, PartialEq, Eq)]
pub enum Outcome {
    Accepted,
    Refused { number: usize, place: usize },
    Unread,
}

impl Outcome {
    pub fn word(self) -> &'static str {
        match self {
            Outcome::Accepted => "accepted",
            Outcome::Refused { .. } => "refused",
            Outcome::Unread => "unread",
        }
    }
}

pub struct Row {
    /// The names as the manifest has them; empty for a line that is none.
    pub volume: PathBuf,
    pub sheet: PathBuf,
    pub start: Option<Place>,
    pub outcome: Outcome,
    /// The rule of rounding that it was checked under.
    pub rule: Option<Rule>,
    /// Whether it is refused, and accepted under the other rule.
    pub other: bool,
    /// Why it is not accepted.
    pub why: String,
    /// Vertices and triangles of a file that can be read.
    pub counts: Option<(usize, usize)>,
    /// Triangles that test 18 would refuse one by one; where the sheet can be compared.
    pub wrong: Option<usize>,
    pub volume_sum: Option<String>,
    pub sheet_sum: Option<String>,
    pub picture: Option<Vec<u8>>,
}

/// A value of a report's column.
pub enum Value<'a> {
    Name(&'a Path),
    Text(Option<String>),
    Number(Option<usize>),
}

impl Row {
    /// A row of which nothing more is known.
    pub fn new(volume: &Path, sheet: &Path, start: Option<Place>, outcome: Outcome, why: String) -> Row {
        let (volume, sheet) = (volume.to_path_buf(), sheet.to_path_buf());
        let (counts, wrong, volume_sum, sheet_sum, picture) = (None, None, None, None, None);
        Row { volume, sheet, start, outcome, rule: None, other: false, why, counts, wrong, volume_sum, sheet_sum, picture }
    }

    /// The line that the audit prints.
    pub fn line(&self) -> String {
        let mut line = match self.outcome {
            Outcome::Refused { number, place } => format!("refused {number} {place}"),
            other => other.word().to_string(),
        };
        for name in [&self.volume, &self.sheet].into_iter().filter(|name| !name.as_os_str().is_empty()) {
            line += &format!(" {}", shown(name));
        }
        if let Some(start) = self.start {
            line += &format!(" {}", place_text(start));
        }
        if let (true, Some(rule)) = (self.other, self.rule) {
            line += &format!(", accepted under {}", rule.other().name());
        }
        if self.outcome == Outcome::Unread {
            line += &format!(": {}", self.why);
        }
        line
    }

    /// The columns of the reports, by name.
    pub fn columns(&self) -> [(&'static str, Value<'_>); 12] {
        let (number, place) = match self.outcome {
            Outcome::Accepted => (Some(0), Some(0)),
            Outcome::Refused { number, place } => (Some(number), Some(place)),
            Outcome::Unread => (None, None),
        };
        [
            ("volume", Value::Name(&self.volume)),
            ("sheet", Value::Name(&self.sheet)),
            ("start", Value::Text(self.start.map(|Place { x, y, z }| format!("{x} {y} {z}")))),
            ("verdict", Value::Text(Some(self.outcome.word().to_string()))),
            ("number", Value::Number(number)),
            ("place", Value::Number(place)),
            ("vertices", Value::Number(self.counts.map(|counts| counts.0))),
            ("triangles", Value::Number(self.counts.map(|counts| counts.1))),
            ("wrong_triangles", Value::Number(self.wrong)),
            ("volume_sha256", Value::Text(self.volume_sum.clone())),
            ("sheet_sha256", Value::Text(self.sheet_sum.clone())),
            ("rule", Value::Text(self.rule.map(|rule| rule.name().to_string()))),
        ]
    }
}
