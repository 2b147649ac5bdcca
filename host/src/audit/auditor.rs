//! Judges the lines of a manifest.

use super::manifest::{Entry, Line};
use super::row::{Outcome, Row};
use crate::abi::Rule;
use crate::explain::{found, About};
use crate::failure::Failure;
use crate::files;
use crate::judge::{judge, other_accepts, other_text};
use crate::marks::marks;
use crate::picture;
use crate::room::Room;
use crate::sheet::Sheet;
use crate::volume::{Volume, ENOUGH};
use sha2::{Digest, Sha256};
use std::fs::File;
use std::io;
use std::path::{Path, PathBuf};
use std::rc::Rc;

/// What the reports need besides verdicts.
#[derive(Clone, Copy, Default)]
pub struct Wants {
    /// Counts of what a file holds and of what is wrong, and checksums.
    pub counts: bool,
    pub pictures: bool,
}

pub struct Auditor {
    /// Where names start from.
    folder: PathBuf,
    /// The rule of a line that names none.
    rule: Rule,
    wants: Wants,
    room: Room,
    /// The last volume: sheets of one scan mostly stand together.
    last: Option<Rc<Loaded>>,
}

/// A volume that was read, and its checksum where that is wanted.
struct Loaded {
    name: PathBuf,
    volume: Volume,
    sum: Option<String>,
}

/// Width and height of a page's pictures.
const PICTURE: usize = 360;

impl Auditor {
    pub fn new(folder: PathBuf, rule: Rule, wants: Wants) -> Auditor {
        Auditor { folder, rule, wants, room: Room::default(), last: None }
    }

    /// The row of a line, whatever it is.
    pub fn judge(&mut self, line: &Line) -> Row {
        let entry = match line {
            Ok(entry) => entry,
            Err(why) => return Row::new(Path::new(""), Path::new(""), None, Outcome::Unread, why.clone()),
        };
        self.entry(entry).unwrap_or_else(|failure| {
            let (start, why) = (entry.start.named(), failure.to_string());
            let [volume_sum, sheet_sum] = [&entry.volume, &entry.sheet].map(|name| self.checksum(name, &[], false));
            Row { volume_sum, sheet_sum, ..Row::new(&entry.volume, &entry.sheet, start, Outcome::Unread, why) }
        })
    }

    /// The checksum of a file, where it is wanted: of the bytes that were read, or, where those are a part, of the file.
    fn checksum(&self, name: &Path, bytes: &[u8], whole: bool) -> Option<String> {
        let mut sum = Sha256::new();
        if !self.wants.counts {
            return None;
        }
        if whole {
            sum.update(bytes);
        } else {
            io::copy(&mut File::open(self.folder.join(name)).ok()?, &mut sum).ok()?;
        }
        Some(sum.finalize().iter().map(|byte| format!("{byte:02x}")).collect())
    }

    /// A volume: the last one again, or read anew.
    fn load(&mut self, name: &Path) -> Result<Rc<Loaded>, Failure> {
        if let Some(last) = self.last.as_ref().filter(|last| last.name == name) {
            return Ok(last.clone());
        }
        let read = File::open(self.folder.join(name)).and_then(|file| files::read_front(file, ENOUGH));
        let bytes = read.map_err(|error| Failure::reading(name, &error))?;
        let sum = self.checksum(name, &bytes, (bytes.len() as u64) < ENOUGH);
        let loaded = Rc::new(Loaded { name: name.to_path_buf(), volume: Volume::parse(&bytes), sum });
        self.last = Some(loaded.clone());
        Ok(loaded)
    }

    fn entry(&mut self, entry: &Entry) -> Result<Row, Failure> {
        let loaded = self.load(&entry.volume)?;
        let read = files::read_sheet(&self.folder.join(&entry.sheet));
        let bytes = read.map_err(|error| Failure::reading(&entry.sheet, &error))?;
        let rule = entry.rule.unwrap_or(self.rule);
        let judged = judge(&loaded.volume, &bytes, entry.start, rule, &mut self.room);
        let about = About {
            volume: Some((&entry.volume, &loaded.volume)),
            sheet: Some((&entry.sheet, &bytes)),
            start: judged.start,
            ..About::default()
        };
        let (outcome, why) = match (judged.verdict.number, judged.verdict.place) {
            (0, _) => (Outcome::Accepted, String::new()),
            (number, place) => (Outcome::Refused { number, place }, found(judged.verdict, &about)),
        };
        let mut row = Row::new(&entry.volume, &entry.sheet, judged.start, outcome, why);
        row.rule = Some(rule);
        if other_accepts(judged, &loaded.volume, &bytes, entry.start, rule, &mut self.room) {
            row.why += &format!(". {}", other_text(rule));
            row.other = true;
        }
        if self.wants.counts {
            row.volume_sum = loaded.sum.clone();
            row.sheet_sum = self.checksum(&entry.sheet, &bytes, bytes.len() != files::END);
            self.count(&mut row, &bytes, &loaded.volume, rule);
        }
        Ok(row)
    }

    /// Counts what a file holds and how much of it is wrong, and draws it where it is refused.
    fn count(&mut self, row: &mut Row, bytes: &[u8], volume: &Volume, rule: Rule) {
        let Ok(sheet) = Sheet::read(bytes) else { return };
        row.counts = Some((sheet.vertices.len() / 4, sheet.triangles.len() / 3));
        if row.outcome == Outcome::Accepted {
            row.wrong = Some(0);
            return;
        }
        let marked = row.start.and_then(|start| marks(&sheet, volume, Some(start), rule, &mut self.room));
        row.wrong = marked.as_ref().map(|marks| marks.wrong());
        if self.wants.pictures {
            row.picture = Some(picture::png(&sheet, marked.as_ref(), PICTURE));
        }
    }
}
