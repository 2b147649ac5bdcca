//! Manifests: a line, or a row of a CSV file, for each sheet.

use crate::abi::{Place, Rule};
use crate::args::{rule, triple, Start};
use std::ffi::OsStr;
use std::os::unix::ffi::OsStrExt;
use std::path::{Path, PathBuf};

/// What a line asks for, with the names as it has them.
#[derive(Clone, Debug, PartialEq, Eq)]
pub struct Entry {
    pub volume: PathBuf,
    pub sheet: PathBuf,
    pub start: Start,
    /// The rule that the sheet was made under, where the line names one.
    pub rule: Option<Rule>,
}

/// An entry, or a line that is none with its number and what is wrong.
pub type Line = Result<Entry, String>;

/// What a line should look like.
const SHAPE: &str =
    "is not VOLUME SHEET, with X,Y,Z, auto, lowest or default behind it or not, and with down or nearest behind that or not";

fn name(bytes: &[u8]) -> PathBuf {
    PathBuf::from(OsStr::from_bytes(bytes))
}

/// A start as X,Y,Z or X Y Z; lowest, the lowest crossed cube; default, what a build takes where none is named; nothing, or auto, leaves it
/// to the sheet.
fn start(text: &[u8]) -> Option<Start> {
    let text: Vec<u8> = text.trim_ascii().iter().map(|&byte| if byte == b' ' { b',' } else { byte }).collect();
    match &text[..] {
        b"" | b"auto" => Some(Start::Auto),
        b"lowest" => Some(Start::Lowest),
        b"default" => Some(Start::Unnamed),
        text => triple(text).map(|[x, y, z]| Start::Cube(Place { x, y, z })),
    }
}

/// A rule, or none where nothing stands there.
fn rule_of(text: &[u8]) -> Option<Option<Rule>> {
    match text.trim_ascii() {
        b"" => Some(None),
        text => rule(text).map(Some),
    }
}

/// The lines of a manifest. It is CSV where its name ends so or its first line begins with `volume` and a separator.
pub fn lines(bytes: &[u8], path: &Path) -> Vec<Line> {
    let bytes = bytes.strip_prefix(b"\xef\xbb\xbf").unwrap_or(bytes);
    let named = path.extension().is_some_and(|ending| ending.eq_ignore_ascii_case("csv"));
    let headed = bytes
        .get(..7)
        .is_some_and(|front| front[..6].eq_ignore_ascii_case(b"volume") && matches!(front[6], b',' | b';'));
    if named || headed {
        rows(bytes)
    } else {
        plain(bytes)
    }
}

/// Lines of fields parted by tabs, or by spaces where a line holds no tab. Empty lines and comments are passed over.
fn plain(bytes: &[u8]) -> Vec<Line> {
    let lines = (1..).zip(bytes.split(|&byte| byte == b'\n').map(<[u8]>::trim_ascii));
    lines
        .filter(|(_, line)| !line.is_empty() && !line.starts_with(b"#"))
        .map(|(number, line)| entry(number, line))
        .collect()
}

fn entry(number: usize, line: &[u8]) -> Line {
    let by = if line.contains(&b'\t') { b'\t' } else { b' ' };
    let fields: Vec<&[u8]> = line.split(|&byte| byte == by).filter(|field| !field.is_empty()).collect();
    let wrong = || format!("line {number} {SHAPE}");
    let (volume, sheet, text, by) = match fields[..] {
        [volume, sheet] => (volume, sheet, &b""[..], &b""[..]),
        [volume, sheet, by] if rule(by).is_some() => (volume, sheet, &b""[..], by),
        [volume, sheet, start] => (volume, sheet, start, &b""[..]),
        [volume, sheet, start, by] => (volume, sheet, start, by),
        _ => return Err(wrong()),
    };
    let (start, rule) = (start(text).ok_or_else(wrong)?, rule_of(by).ok_or_else(wrong)?);
    Ok(Entry { volume: name(volume), sheet: name(sheet), start, rule })
}

/// Rows of a CSV file. Where the first one names columns, `volume`, `sheet` and perhaps `start` and `rule` are looked up; else
/// they are the first four.
fn rows(bytes: &[u8]) -> Vec<Line> {
    let records = records(bytes);
    let mut columns = [0, 1, 2, 3];
    let mut body = &records[..];
    if let Some(((_, head), rest)) = records.split_first() {
        let at = |wanted: &[u8]| head.iter().position(|field| field.trim_ascii().eq_ignore_ascii_case(wanted));
        if let (Some(volume), Some(sheet)) = (at(b"volume"), at(b"sheet")) {
            columns = [volume, sheet, at(b"start").unwrap_or(usize::MAX), at(b"rule").unwrap_or(usize::MAX)];
            body = rest;
        }
    }
    let row = |(number, fields): &(usize, Vec<Vec<u8>>)| {
        let field = |column: usize| fields.get(column).map(Vec::as_slice).unwrap_or_default();
        let [volume, sheet, text, by] = columns.map(field);
        let wrong = || {
            format!(
                "row at line {number} has no volume, no sheet, a start that is not X Y Z, auto, lowest or default, or a rule that is \
                 not down or nearest"
            )
        };
        if volume.is_empty() || sheet.is_empty() {
            return Err(wrong());
        }
        let (start, rule) = (start(text).ok_or_else(wrong)?, rule_of(by).ok_or_else(wrong)?);
        Ok(Entry { volume: name(volume), sheet: name(sheet), start, rule })
    };
    body.iter().map(row).collect()
}

/// The records of a CSV file, each with the line that it begins at. A field in quotes may hold separators, line ends and
/// doubled quotes. The separator is what comes first of comma, semicolon and tab.
fn records(bytes: &[u8]) -> Vec<(usize, Vec<Vec<u8>>)> {
    let separator = bytes.iter().copied().find(|byte| matches!(byte, b',' | b';' | b'\t')).unwrap_or(b',');
    let mut records = Vec::new();
    let (mut record, mut field) = (Vec::new(), Vec::new());
    let (mut quoted, mut line, mut begun) = (false, 1, 1);
    let mut rest = bytes.iter().copied().chain([b'\n']).peekable();
    while let Some(byte) = rest.next() {
        line += usize::from(byte == b'\n');
        match byte {
            b'"' if quoted && rest.peek() == Some(&b'"') => field.extend(rest.next()),
            b'"' if quoted || field.is_empty() => quoted = !quoted,
            b'\n' if !quoted => {
                field = field.strip_suffix(b"\r").map(<[u8]>::to_vec).unwrap_or(field);
                record.push(std::mem::take(&mut field));
                let whole: Vec<Vec<u8>> = std::mem::take(&mut record);
                if whole.iter().any(|field| !field.trim_ascii().is_empty()) {
                    records.push((begun, whole));
                }
                begun = line;
            }
            _ if byte == separator && !quoted => record.push(std::mem::take(&mut field)),
            _ => field.push(byte),
        }
    }
    if quoted {
        // a quote that never closes: what stands behind it is no entry
        record.push(field);
        records.push((begun, record));
    }
    records
}

#[cfg(test)]
mod tests {
    use super::*;

    fn found(text: &[u8], name: &str) -> Vec<Option<(String, String, Start)>> {
        let shown =
            |line: Line| line.ok().map(|e| (e.volume.display().to_string(), e.sheet.display().to_string(), e.start));
        lines(text, Path::new(name)).into_iter().map(shown).collect()
    }

    fn some(volume: &str, sheet: &str, start: Start) -> Option<(String, String, Start)> {
        Some((volume.to_string(), sheet.to_string(), start))
    }

    const CUBE: Start = Start::Cube(Place { x: 1, y: 2, z: 3 });

    #[test]
    fn plain_lines() {
        let text = b"\xef\xbb\xbf# tray 7\r\n a.vol a.sheet\r\n\nb c.vol\td d.sheet\t1,2,3\n  \nx\na b auto\na b c\na b 1,2,3 d";
        let wanted = [
            some("a.vol", "a.sheet", Start::Auto),
            some("b c.vol", "d d.sheet", CUBE),
            None,
            some("a", "b", Start::Auto),
        ];
        assert_eq!(found(text, "m.txt"), [&wanted[..], &[None, None]].concat());
        let words = [some("a", "b", Start::Lowest), some("a", "b", Start::Unnamed), None];
        assert_eq!(found(b"a b lowest\na\tb\tdefault\na b highest", "m"), words);
        let ruled = |text: &[u8]| lines(text, Path::new("m")).remove(0).map(|entry| (entry.start, entry.rule)).ok();
        assert_eq!(ruled(b"a b"), Some((Start::Auto, None)));
        assert_eq!(ruled(b"a b down"), Some((Start::Auto, Some(Rule::Down))));
        assert_eq!(ruled(b"a\tb\t1,2,3\tnearest"), Some((CUBE, Some(Rule::Nearest))));
        assert_eq!(ruled(b"a b lowest up"), None);
        assert_eq!(ruled(b"a b down lowest"), None);
        assert_eq!(lines(b"\n\na", Path::new("m")), [Err(format!("line 3 {SHAPE}"))]);
        assert_eq!(found(b"", "m"), []);
    }

    #[test]
    fn csv_rows() {
        let text = b"\xef\xbb\xbfVolume,number,sheet,start\r\n\"a, b.vol\",17,\"say \"\"x\"\".sheet\",1 2 3\r\n\r\nc,0,d,\r\ne,0\r\n";
        let wanted = [some("a, b.vol", "say \"x\".sheet", CUBE), some("c", "d", Start::Auto), None];
        assert_eq!(found(text, "m"), wanted);
        assert_eq!(found(b"a;b;1,2,3\nc;d", "m.CSV"), [some("a", "b", CUBE), some("c", "d", Start::Auto)]);
        assert_eq!(found(b"volume;sheet\na;b", "-"), [some("a", "b", Start::Auto)]);
        assert_eq!(found(b"a,b,\"1,2,3\"\n", "m.csv"), [some("a", "b", CUBE)]);
        assert_eq!(found(b"volume,sheet\n\"a,b\n", "m.csv"), [None]);
        assert_eq!(found(b"volume,sheet\n", "m.csv"), []);
        let ruled = |text: &[u8]| lines(text, Path::new("m.csv")).remove(0).map(|entry| entry.rule).ok();
        assert_eq!(ruled(b"rule,volume,sheet\ndown,a,b\n"), Some(Some(Rule::Down)));
        assert_eq!(ruled(b"volume,sheet,rule\na,b,\n"), Some(None));
        assert_eq!(ruled(b"a,b,,nearest\n"), Some(Some(Rule::Nearest)));
        assert_eq!(ruled(b"a,b,,up\n"), None);
        assert_eq!(
            found(b"a,b, lowest\na,b,default", "m.csv"),
            [Start::Lowest, Start::Unnamed].map(|s| some("a", "b", s))
        );
    }
}
