//! The command line.

use crate::abi::{self, Place, Rule};
use crate::command::{Command, Opt};
use crate::commands::{help, version, COMMANDS};
use crate::failure::{escaped, Failure};
use std::ffi::{OsStr, OsString};
use std::os::unix::ffi::OsStrExt;
use std::path::Path;

/// What stands behind a command.
#[derive(Debug, Default)]
pub struct Given {
    names: Vec<OsString>,
    options: Vec<(&'static str, OsString)>,
}

/// Where a sheet starts.
#[derive(Clone, Copy, Debug, PartialEq, Eq)]
pub enum Start {
    /// None is named: document 02 (iv)'s default.
    Unnamed,
    /// The lowest crossed cube, which was document 01's default.
    Lowest,
    Cube(Place),
    /// By the sheet itself.
    Auto,
}

impl Start {
    /// As the library takes it; `Auto` has to be settled before.
    pub fn given(self) -> abi::Start {
        match self {
            Start::Lowest => abi::Start::Lowest,
            Start::Cube(place) => abi::Start::Cube(place),
            Start::Unnamed | Start::Auto => abi::Start::Unnamed,
        }
    }

    /// The cube that is named by its place.
    pub fn named(self) -> Option<Place> {
        match self {
            Start::Cube(place) => Some(place),
            Start::Unnamed | Start::Lowest | Start::Auto => None,
        }
    }
}

impl Given {
    /// A name that must be there; parsing has seen to that.
    pub fn name(&self, at: usize) -> &Path {
        self.names.get(at).map_or(Path::new(""), Path::new)
    }

    pub fn maybe(&self, at: usize) -> Option<&Path> {
        self.names.get(at).map(Path::new)
    }

    pub fn has(&self, option: &Opt) -> bool {
        self.get(option).is_some()
    }

    pub fn get(&self, option: &Opt) -> Option<&OsStr> {
        self.options.iter().find(|(name, _)| *name == option.name).map(|(_, value)| value.as_os_str())
    }

    /// The start that `--start` names.
    pub fn start(&self, option: &Opt) -> Result<Start, Failure> {
        let Some(value) = self.get(option) else { return Ok(Start::Unnamed) };
        let takes = |word: &str| value == word && option.value.split('|').any(|shape| shape == word);
        match triple(value.as_bytes()) {
            Some([x, y, z]) => Ok(Start::Cube(Place { x, y, z })),
            None if takes("lowest") => Ok(Start::Lowest),
            None if takes("auto") => Ok(Start::Auto),
            None => usage(format!(
                "--start takes {}: X,Y,Z are three whole numbers from 0, parted by commas",
                option.value.replace('|', " or ")
            )),
        }
    }

    /// The rule that `--rule` names.
    pub fn rule(&self, option: &Opt) -> Result<Rule, Failure> {
        let Some(value) = self.get(option) else { return Ok(Rule::default()) };
        rule(value.as_bytes()).map_or_else(|| usage("--rule takes down or nearest"), Ok)
    }
}

/// A rule of rounding by its name.
pub fn rule(text: &[u8]) -> Option<Rule> {
    Rule::BOTH.into_iter().find(|rule| rule.name().as_bytes() == text)
}

/// Three whole numbers from 0, parted by commas. One too large for a word is cut to the largest, which is as far out.
pub fn triple(text: &[u8]) -> Option<[usize; 3]> {
    let mut fields = text.split(|&byte| byte == b',').map(number);
    match (fields.next(), fields.next(), fields.next(), fields.next()) {
        (Some(Some(x)), Some(Some(y)), Some(Some(z)), None) => Some([x, y, z]),
        _ => None,
    }
}

fn number(text: &[u8]) -> Option<usize> {
    if text.is_empty() || !text.iter().all(u8::is_ascii_digit) {
        return None;
    }
    let digit = |value: usize, byte: &u8| value.saturating_mul(10).saturating_add(usize::from(byte - b'0'));
    Some(text.iter().fold(0, digit))
}

pub fn usage<T>(text: impl Into<String>) -> Result<T, Failure> {
    Err(Failure::Usage(text.into()))
}

/// The value of an option: behind its equals sign, or the next word.
fn value<'a>(
    option: &Opt,
    behind: Option<&[u8]>,
    words: &mut impl Iterator<Item = &'a OsString>,
) -> Result<OsString, Failure> {
    match (option.value, behind) {
        ("", None) => Ok(OsString::new()),
        ("", Some(_)) => usage(format!("{} takes no value", option.name)),
        (_, Some(value)) => Ok(OsStr::from_bytes(value).to_os_string()),
        (shape, None) => words.next().cloned().map_or_else(|| usage(format!("{} takes {shape}", option.name)), Ok),
    }
}

/// What stands behind a command's name; nothing where help is asked for.
fn given(command: &Command, words: &[OsString]) -> Result<Option<Given>, Failure> {
    let mut given = Given::default();
    let mut words = words.iter();
    let mut options = true;
    let mut help = false;
    while let Some(word) = words.next() {
        let bytes = word.as_bytes();
        if !options || !bytes.starts_with(b"-") || bytes == b"-" {
            given.names.push(word.clone());
        } else if bytes == b"--" {
            options = false;
        } else if bytes == b"--help" || bytes == b"-h" {
            help = true;
        } else {
            let at = bytes.iter().position(|&byte| byte == b'=');
            let (name, behind) = at.map_or((bytes, None), |at| (&bytes[..at], Some(&bytes[at + 1..])));
            let Some(option) = command.option(name) else {
                return usage(format!("{} has no option {}", command.name, escaped(&word.to_string_lossy())));
            };
            if given.has(option) {
                return usage(format!("{} is given twice", option.name));
            }
            given.options.push((option.name, value(option, behind, &mut words)?));
        }
    }
    if help {
        return Ok(None);
    }
    let (least, most, count) = (command.least(), command.names.len(), given.names.len());
    if count < least || count > most {
        return usage(format!("{count} names are given, wanted is: malxuqeed {}", command.usage()));
    }
    if let Some(option) = command.options.iter().find(|option| option.needed && !given.has(option)) {
        return usage(format!("{} is missing, wanted is: malxuqeed {}", option.shape(), command.usage()));
    }
    Ok(Some(given))
}

/// The command of a command line, and what is given to it.
pub fn parse(args: &[OsString]) -> Result<(&'static Command, Given), Failure> {
    let Some((name, behind)) = args.split_first() else {
        return usage("no command is given");
    };
    let command = match name.to_str() {
        Some("--help" | "-h") => return Ok((&help::COMMAND, Given::default())),
        Some("--version") => return Ok((&version::COMMAND, Given::default())),
        Some(name) => COMMANDS.iter().find(|command| command.name == name),
        None => None,
    };
    let Some(command) = command else {
        return usage(format!("there is no command {}", escaped(&name.to_string_lossy())));
    };
    match given(command, behind)? {
        Some(given) => Ok((command, given)),
        None => Ok((&help::COMMAND, Given { names: vec![command.name.into()], options: Vec::new() })),
    }
}

#[cfg(test)]
mod tests {
    use super::*;
    use crate::command::{RULE, START, START_OR_AUTO};

    fn parsed(line: &str) -> Result<(&'static Command, Given), Failure> {
        parse(&line.split_whitespace().map(OsString::from).collect::<Vec<_>>())
    }

    #[test]
    fn triples() {
        assert_eq!(triple(b"1,20,3"), Some([1, 20, 3]));
        assert_eq!(triple(b"99999999999999999999999,0,0"), Some([usize::MAX, 0, 0]));
        for wrong in ["", ",", "1,2", "1,2,3,4", "1,2,", "-1,2,3", "+1,2,3", "1, 2,3", "a,b,c", "1.0,2,3"] {
            assert_eq!(triple(wrong.as_bytes()), None, "{wrong}");
        }
    }

    #[test]
    fn names_and_options() {
        for line in ["build v s --start 1,2,3", "build --start=1,2,3 v s", "build --start 1,2,3 -- v s"] {
            let (command, given) = parsed(line).expect("a good line");
            assert_eq!((command.name, given.name(0), given.name(1)), ("build", Path::new("v"), Path::new("s")));
            assert_eq!(given.start(&START).ok(), Some(Start::Cube(Place { x: 1, y: 2, z: 3 })));
        }
        let (_, given) = parsed("check v s --start auto").expect("a good line");
        assert_eq!(given.start(&START_OR_AUTO).ok(), Some(Start::Auto));
        assert!(given.start(&START).is_err());
        for line in ["build v s --start lowest", "check v s --start=lowest", "list v --start lowest"] {
            let (_, given) = parsed(line).expect("a good line");
            assert_eq!(given.start(&START).ok(), Some(Start::Lowest));
            assert_eq!(given.start(&START_OR_AUTO).ok(), Some(Start::Lowest));
        }
        for (line, rule) in
            [("check v s", Rule::Nearest), ("check v s --rule nearest", Rule::Nearest), ("audit m --rule=down", Rule::Down)]
        {
            let (_, given) = parsed(line).expect("a good line");
            assert_eq!(given.rule(&RULE).ok(), Some(rule));
        }
        let (_, given) = parsed("check v s --rule up").expect("a good line but for the rule");
        assert!(given.rule(&RULE).is_err());
        assert_eq!(parsed("list").map(|(_, given)| given.maybe(0).is_none()).ok(), Some(true));
        assert_eq!(parsed("show -- --help").map(|(_, given)| given.name(0) == Path::new("--help")).ok(), Some(true));
        let asked =
            parsed("audit x --help").map(|(command, given)| (command.name, given.name(0) == Path::new("audit")));
        assert_eq!(asked.ok(), Some(("help", true)));
    }

    #[test]
    fn wrong_usage() {
        for line in ["", "bild", "build", "build v", "build v s x", "check v s --start", "build v s --force=1"] {
            assert!(matches!(parsed(line), Err(Failure::Usage(_))), "{line}");
        }
        let more =
            ["list a b", "show", "show s --start 1,2,3", "audit", "audit a b", "list --no", "from-raw a b --level 3"];
        for line in more.into_iter().chain(["list --start=1,1,1 --start=1,1,1"]) {
            assert!(matches!(parsed(line), Err(Failure::Usage(_))), "{line}");
        }
    }
}
