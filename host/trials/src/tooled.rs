//! Random command lines for the tool, in the current folder: what it prints, its status and every file afterwards are
//! held against what the second mesher says.

use crate::cases::{content, sheet_counts, Case, Lent};
use crate::damage;
use crate::fill::any_case;
use crate::floats::{self, Asked as Floats};
use crate::random::Random;
use crate::stl;
use host::abi::Rule;
use host::args::{self, Given, Start as Asked};
use host::command::{Command, RULE, START, START_OR_AUTO};
use host::commands::help;
use host::failure::Failure;
use host::streams::Streams;
use host::tool::run;
use second::floats::Level;
use second::Start;
use std::collections::BTreeMap;
use std::ffi::OsString;
use std::fs;
use std::io::Cursor;
use std::os::unix::ffi::OsStringExt;
use std::path::Path;

/// The start cube that an answer tells of.
type Told = Option<[usize; 3]>;

/// What must come of a command.
struct Expected {
    status: u8,
    output: Output,
    /// The files that are written, and their bytes.
    written: Vec<(OsString, Vec<u8>)>,
}

enum Output {
    Exact(String),
    OneOf(Vec<String>),
    /// For each line, how it may begin; what the numbers' own lines say is not looked at.
    Lines(Vec<Vec<String>>),
    Any,
}

fn expected(status: u8, output: impl Into<String>) -> Expected {
    Expected { status, output: Output::Exact(output.into()), written: Vec::new() }
}

/// What a line of a manifest asks for: volume, sheet, and the start, or nothing where it is left to the sheet.
type Entry = (&'static str, &'static str, Option<Start>);

/// A manifest, and its lines with what each asks for; a wrong line asks for nothing. Beside it a file of floats.
struct Manifest {
    text: Vec<u8>,
    lines: Vec<(String, Option<Entry>)>,
    floats: Floats,
}

const VOLUMES: [&str; 3] = ["v.raw", "w.raw", "x y.raw"];
const SHEETS: [&str; 3] = ["s.sheet", "t.sheet", "old.sheet"];
const STLS: [&str; 3] = ["s.stl", "t.stl", "old.sheet"];
const FOLDERS: [&str; 5] = ["folder", "some", "some", "new", "old.sheet"];
const OTHERS: [&str; 6] = ["missing", "folder", "folder/new", "missing/new", "v.raw/new", "new.sheet"];

fn volume_name(random: &mut Random) -> &'static str {
    if random.once_in(16) {
        random.pick(&OTHERS)
    } else {
        random.pick(&VOLUMES)
    }
}

fn sheet_name(random: &mut Random) -> &'static str {
    match random.below(14) {
        0 => random.pick(&OTHERS),
        1 => random.pick(&VOLUMES),
        _ => random.pick(&SHEETS),
    }
}

fn stl_name(random: &mut Random) -> &'static str {
    if random.once_in(8) {
        sheet_name(random)
    } else {
        random.pick(&STLS)
    }
}

fn manifest(random: &mut Random, start: Start) -> Manifest {
    let floats = floats::asked(random);
    let mut manifest = Manifest { text: b"# a manifest\n\n".to_vec(), lines: Vec::new(), floats };
    for _ in 0..random.below(6) {
        let (volume, sheet) = (volume_name(random), sheet_name(random));
        let (line, entry) = match random.below(10) {
            0 => (random.pick(&["one", "a b c d", "a b 1,2", "v.raw s.sheet -1,0,0"]).to_string(), None),
            1..=3 => (format!("{volume}\t{sheet}"), Some((volume, sheet, None))),
            4 => (format!("{volume}\t{sheet}\tlowest"), Some((volume, sheet, Some(Start::Lowest)))),
            5 => (format!("{volume}\t{sheet}\tdefault"), Some((volume, sheet, Some(Start::Unnamed)))),
            _ => match start {
                Start::Cube([x, y, z]) => {
                    (format!("{volume}\t{sheet}\t{x},{y},{z}"), Some((volume, sheet, Some(start))))
                }
                Start::Unnamed | Start::Lowest => ("v.raw s.sheet".to_string(), Some(("v.raw", "s.sheet", None))),
            },
        };
        manifest.text.extend(line.bytes());
        manifest.text.extend(random.pick(&[&b"\n"[..], b"\r\n", b"\n\n# more\n"]));
        manifest.lines.push((line, entry));
    }
    manifest
}

/// The STL file of a sheet, or its refusal.
fn exported(sheet: &second::Content) -> Result<Vec<u8>, second::stl::Refused> {
    let (vertices, triangles) = (sheet.records.concat(), sheet.triangles.concat());
    second::stl::write(sheet.records.len(), sheet.triangles.len(), &vertices, &triangles, usize::MAX)
}

/// A folder of sheets that are there already: right ones, others, and what has nothing to do with them.
fn prepare_some(random: &mut Random, about: &Case) -> std::io::Result<()> {
    fs::create_dir("some")?;
    fs::write("some/note.txt", b"a note")?;
    for (name, _, bytes) in sheets(about) {
        match random.below(12) {
            0..=3 => fs::write(Path::new("some").join(name), bytes)?,
            4 => fs::write(Path::new("some").join(name), b"something else")?,
            _ => {}
        }
    }
    if random.once_in(8) {
        fs::write("some/250046.sheet", b"of another volume")?;
    }
    Ok(())
}

/// Fills the folder anew.
fn prepare(random: &mut Random, about: &Case) -> std::io::Result<Manifest> {
    for entry in fs::read_dir(".")? {
        let entry = entry?;
        if entry.file_type()?.is_dir() {
            fs::remove_dir_all(entry.path())?;
        } else {
            fs::remove_file(entry.path())?;
        }
    }
    fs::create_dir("folder")?;
    prepare_some(random, about)?;
    let sheet = content(about).unwrap_or_else(|| damage::free_content(random));
    fs::write("v.raw", about.file())?;
    fs::write("w.raw", damage::volume_file(random, about.file()))?;
    let other = any_case(random).file();
    fs::write("x y.raw", damage::volume_file(random, other))?;
    fs::write("s.sheet", second::serialize(&sheet))?;
    fs::write("t.sheet", damage::file(random, &sheet))?;
    fs::write("old.sheet", b"an old file")?;
    fs::write("s.stl", exported(&sheet).unwrap_or_default())?;
    fs::write("t.stl", stl::file(random))?;
    let manifest = manifest(random, about.start);
    fs::write("m.txt", &manifest.text)?;
    fs::write("f.flt", &manifest.floats.file)?;
    Ok(manifest)
}

fn random_start_word(random: &mut Random, start: Start) -> String {
    if random.once_in(5) {
        return random.pick(&["auto", "lowest"]).into();
    }
    match start {
        Start::Cube([x, y, z]) if !random.once_in(8) => format!("{x},{y},{z}"),
        Start::Unnamed | Start::Lowest if random.once_in(2) => "0,0,0".into(),
        _ => random
            .pick(&[
                "0,0,0",
                "1,0,0",
                "63,63,63",
                "99999999999999999999999,0,0",
                "1,1",
                "",
                "a,b,c",
                "-1,0,0",
                "default",
            ])
            .into(),
    }
}

/// A file of floats to a volume.
fn converted(random: &mut Random, asked: &Floats) -> Vec<OsString> {
    let from = if random.once_in(12) { volume_name(random) } else { "f.flt" };
    let mut words: Vec<OsString> = vec!["convert".into(), from.into(), volume_name(random).into()];
    let mut option = |name: &str, value: String| words.extend([name.into(), value.into()]);
    match asked.level {
        Level::Fixed(grey) => option("--level", grey.to_string()),
        Level::Halfway(air, material) => {
            option("--material", format!("{material:e}"));
            option("--air", air.to_string());
        }
    }
    if asked.scale != 1 || random.once_in(2) {
        option("--scale", asked.scale.to_string());
    }
    if random.once_in(8) {
        option("--sizes", random.pick(&["2,2,2", "3,2,2", "2,2", "65,2,2", "99999999999999999999,2,2"]).into());
    }
    words
}

/// A command line that means something, or a random row of words.
fn words(random: &mut Random, start: Start, floats: &Floats) -> Vec<OsString> {
    let mut words: Vec<OsString> = match random.below(18) {
        0 => vec!["build".into(), volume_name(random).into(), sheet_name(random).into()],
        1 | 2 => vec!["check".into(), volume_name(random).into(), sheet_name(random).into()],
        3 => vec!["list".into(), volume_name(random).into()],
        4 => vec!["show".into(), sheet_name(random).into()],
        5 => vec!["audit".into(), "m.txt".into()],
        6 => vec!["info".into(), volume_name(random).into()],
        7 => return picture(random, start),
        8 | 9 => vec!["stl".into(), sheet_name(random).into(), stl_name(random).into()],
        10 => vec!["facets".into(), stl_name(random).into()],
        11 | 12 => converted(random, floats),
        13 => vec!["pieces".into(), volume_name(random).into()],
        14..=16 => return all_built(random),
        _ => return (0..random.below(6)).map(|_| any_word(random, start)).collect(),
    };
    if random.once_in(20) && words.len() > 1 {
        words[1] = "-".into();
    }
    let takes_start = ["build", "check", "list"].iter().any(|name| words[0] == *name);
    if random.once_in(if takes_start { 2 } else { 30 }) {
        words.push("--start".into());
        words.push(random_start_word(random, start).into());
    }
    let takes_rule = ["check", "audit"].iter().any(|name| words[0] == *name);
    if random.once_in(if takes_rule { 3 } else { 40 }) {
        words.push("--rule".into());
        words.push(random.pick(&["down", "nearest", "down", "nearest", "down", "up", ""]).into());
    }
    match random.below(12) {
        0 => words.insert(random.below(words.len() + 1), any_word(random, start)),
        1 => drop(words.remove(random.below(words.len()))),
        2 => random.shuffle(&mut words),
        _ => {}
    }
    words
}

/// Every sheet to a folder.
fn all_built(random: &mut Random) -> Vec<OsString> {
    let volume = if random.once_in(2) { "v.raw" } else { volume_name(random) };
    let folder = if random.once_in(8) { random.pick(&OTHERS) } else { random.pick(&FOLDERS) };
    let mut words: Vec<OsString> = ["build-all", volume, folder].map(OsString::from).into();
    if random.once_in(3) {
        words.push("--force".into());
    }
    if random.once_in(20) {
        words[1 + random.below(2)] = "-".into();
    }
    words
}

/// A picture to standard output.
fn picture(random: &mut Random, start: Start) -> Vec<OsString> {
    let mut words: Vec<OsString> = ["picture", sheet_name(random), "-", "--size", "64"].map(OsString::from).into();
    if random.once_in(2) {
        words.extend(["--volume".into(), volume_name(random).into()]);
    }
    if random.once_in(3) {
        words.extend(["--start".into(), random_start_word(random, start).into()]);
    }
    words
}

fn any_word(random: &mut Random, start: Start) -> OsString {
    match random.below(8) {
        0 | 1 => random
            .pick(&[
                "build",
                "check",
                "list",
                "show",
                "audit",
                "stl",
                "facets",
                "convert",
                "pieces",
                "build-all",
                "--level",
                "help",
                "",
            ])
            .into(),
        2 => {
            random.pick(&["--help", "-h", "--", "--start", "--start=", "--start=0,0,0", "--x", "-v", "--force"]).into()
        }
        3 => random_start_word(random, start).into(),
        4 => volume_name(random).into(),
        5 => sheet_name(random).into(),
        6 => OsString::from_vec((0..random.below(6)).map(|_| (1 + random.below(255) as u8).max(b'0')).collect()),
        _ => {
            if random.once_in(2) {
                "m.txt".into()
            } else {
                "n".repeat(300).into()
            }
        }
    }
}

/// Every file below the folder.
fn snapshot(folder: &Path, files: &mut BTreeMap<OsString, Vec<u8>>) -> std::io::Result<()> {
    for entry in fs::read_dir(folder)? {
        let path = entry?.path();
        if path.is_dir() {
            snapshot(&path, files)?;
        } else {
            files.insert(path.clone().into_os_string(), fs::read(&path)?);
        }
    }
    Ok(())
}

fn snapshot_all() -> BTreeMap<OsString, Vec<u8>> {
    let mut files = BTreeMap::new();
    snapshot(Path::new("."), &mut files).expect("the folder can be read");
    files
}

/// The second mesher's view of a volume file: a case, or 1 or 2.
fn parsed(file: &[u8], start: Start) -> Result<Case, usize> {
    second::volume(file).map(|(sizes, samples)| Case { sizes, start, samples })
}

fn verdict(rule: Rule, volume: &[u8], sheet: &[u8], start: Start) -> (usize, usize) {
    match parsed(volume, start) {
        Ok(case) => {
            let second::Verdict { number, place } = Lent::clean(case.sizes, [0, 0]).second_check(rule, &case, sheet);
            (number, place)
        }
        Err(number) => (number, 0),
    }
}

/// The verdict where the start is left to the sheet, and that start: every crossed cube is tried. A file is accepted if it
/// is from one of them; else the refusal is that of reading, or of some start.
fn automatic(rule: Rule, volume: &[u8], sheet: &[u8]) -> Vec<(usize, usize, Told)> {
    let case = match parsed(volume, Start::Lowest) {
        Ok(case) => case,
        Err(number) => return vec![(number, 0, None)],
    };
    if let Err((number, place)) = second::parse(sheet) {
        return vec![(number, place, None)];
    }
    let lattice = second::Lattice::new(case.sizes, &case.samples).expect("sizes and samples fit");
    let starts = lattice.cubes().filter(|cube| lattice.crossed(*cube)).map(|cube| [cube.x, cube.y, cube.z]);
    let starts: Vec<[usize; 3]> = starts.map(|cube| cube.map(|v| v as usize)).collect();
    let of = |start: [usize; 3]| {
        let (number, place) = verdict(rule, volume, sheet, Start::Cube(start));
        (number, place, Some(start))
    };
    let tried: Vec<_> = starts.into_iter().map(of).collect();
    if tried.iter().any(|(number, ..)| *number == 0) {
        return tried.into_iter().filter(|(number, ..)| *number == 0).collect();
    }
    let (number, place) = verdict(rule, volume, sheet, Start::Lowest);
    tried.into_iter().chain([(number, place, None)]).collect()
}

/// Whether a file of that name could be put there. Nothing is left behind.
fn writable(path: &Path) -> bool {
    match fs::metadata(path) {
        Ok(about) => about.is_file(),
        Err(_) => {
            let made = fs::File::options().write(true).create_new(true).open(path).is_ok();
            made && fs::remove_file(path).is_ok()
        }
    }
}

/// The start that is asked for; nothing where the option is wrong.
fn asked(given: &Given, auto: bool) -> Option<Result<Start, ()>> {
    match given.start(if auto { &START_OR_AUTO } else { &START }) {
        Ok(Asked::Unnamed) => Some(Ok(Start::Unnamed)),
        Ok(Asked::Lowest) => Some(Ok(Start::Lowest)),
        Ok(Asked::Cube(place)) => Some(Ok(Start::Cube([place.x, place.y, place.z]))),
        Ok(Asked::Auto) => Some(Err(())),
        Err(_) => None,
    }
}

/// A file, or standard input.
fn bytes_of(path: &Path, input: &[u8]) -> std::io::Result<Vec<u8>> {
    match path == Path::new("-") {
        true => Ok(input.to_vec()),
        false => fs::read(path),
    }
}

/// Whether what is read would be written over.
fn clash(read: &Path, written: &Path) -> bool {
    let stream = read == Path::new("-");
    let same = matches!((read.canonicalize(), written.canonicalize()), (Ok(a), Ok(b)) if a == b);
    !stream && (read == written || same)
}

/// A file that is written, and the answer.
fn expect_written(path: &Path, bytes: Vec<u8>, answer: String) -> Expected {
    if path == Path::new("-") {
        return Expected { status: 0, output: Output::Any, written: Vec::new() };
    }
    if !writable(path) {
        return expected(2, "");
    }
    let written = vec![(Path::new(".").join(path).into_os_string(), bytes)];
    Expected { status: 0, output: Output::Exact(answer), written }
}

fn expect_build(volume: &Path, sheet: &Path, start: Start, input: &[u8]) -> Expected {
    if clash(volume, sheet) {
        return expected(2, "");
    }
    let Ok(file) = bytes_of(volume, input) else { return expected(2, "") };
    let case = match parsed(&file, start) {
        Ok(case) => case,
        Err(number) => return expected(1, format!("refused {number}\n")),
    };
    let counts = sheet_counts(&case);
    if counts.number != 0 {
        return expected(1, format!("refused {}\n", counts.number));
    }
    let bytes = content(&case).map(|content| second::serialize(&content)).unwrap_or_default();
    expect_written(sheet, bytes, format!("{} {} {}\n", counts.vertices, counts.triangles, counts.cubes))
}

/// The number of each piece's lowest cube, and that cube; or the refusal.
fn lowest_cubes(file: &[u8]) -> Result<(Case, Vec<(usize, [usize; 3])>), usize> {
    let case = parsed(file, Start::Lowest)?;
    let lattice = second::Lattice::new(case.sizes, &case.samples)?;
    let cubes = second::scan(&lattice).into_iter().map(|cube| [cube.x, cube.y, cube.z].map(|v| v as usize));
    let [nx, ny, _] = case.sizes.map(|axis| axis - 1);
    let lowest: Vec<_> = cubes.map(|[x, y, z]| (x + nx * (y + ny * z), [x, y, z])).collect();
    if lowest.is_empty() {
        return Err(5);
    }
    Ok((case, lowest))
}

fn expect_pieces(volume: &Path, input: &[u8]) -> Expected {
    let Ok(file) = bytes_of(volume, input) else { return expected(2, "") };
    match lowest_cubes(&file) {
        Ok((_, lowest)) => {
            let line = |(number, [x, y, z]): &(usize, [usize; 3])| format!("{number} {x} {y} {z}\n");
            expected(0, format!("{}\n{}", lowest.len(), lowest.iter().map(line).collect::<String>()))
        }
        Err(number) => expected(1, format!("refused {number}\n")),
    }
}

/// The name of each piece's sheet, its line and its bytes.
fn sheets(about: &Case) -> Vec<(String, String, Vec<u8>)> {
    let Ok((mut case, lowest)) = lowest_cubes(&about.file()) else { return Vec::new() };
    let mut sheets = Vec::new();
    for (number, [x, y, z]) in lowest {
        case.start = Start::Cube([x, y, z]);
        let (counts, name) = (sheet_counts(&case), format!("{number:06}.sheet"));
        let bytes = content(&case).map(|content| second::serialize(&content)).unwrap_or_default();
        let line = format!("accepted {name} {x},{y},{z} {} {} {}\n", counts.vertices, counts.triangles, counts.cubes);
        sheets.push((name, line, bytes));
    }
    sheets
}

/// Whether a folder is there, or could be made there. Nothing is left behind.
fn has_folder(path: &Path) -> bool {
    path.is_dir() || fs::create_dir(path).is_ok() && fs::remove_dir(path).is_ok()
}

/// Whether something in a folder is in the way of sheets: what stands under the name of one and is another, and a sheet of six digits
/// that is none of them.
fn in_the_way(folder: &Path, sheets: &[(String, String, Vec<u8>)]) -> bool {
    let entries = fs::read_dir(folder).into_iter().flatten().flatten();
    entries.map(|entry| entry.file_name().to_string_lossy().into_owned()).any(|there| {
        let own = sheets.iter().find(|(name, ..)| *name == there);
        let like = there.len() == 12 && there.ends_with(".sheet") && there[..6].parse::<usize>().is_ok();
        own.map_or(like, |(.., bytes)| fs::read(folder.join(&there)).ok().as_ref() != Some(bytes))
    })
}

fn expect_build_all(volume: &Path, folder: &Path, force: bool, input: &[u8]) -> Expected {
    if folder == Path::new("-") {
        return expected(2, "");
    }
    let Ok(file) = bytes_of(volume, input) else { return expected(2, "") };
    let case = match lowest_cubes(&file) {
        Ok((case, _)) => case,
        Err(number) => return expected(1, format!("refused {number}\n")),
    };
    let sheets = sheets(&case);
    if !has_folder(folder) || !force && in_the_way(folder, &sheets) {
        return expected(2, "");
    }
    let lines: String = sheets.iter().map(|(_, line, _)| line.as_str()).collect();
    let output = Output::Exact(format!("{}\n{lines}", sheets.len()));
    let path = |name: String| Path::new(".").join(folder).join(name).into_os_string();
    let written = sheets.into_iter().map(|(name, _, bytes)| (path(name), bytes)).collect();
    Expected { status: 0, output, written }
}

fn expect_stl(sheet: &Path, to: &Path, input: &[u8]) -> Expected {
    if clash(sheet, to) {
        return expected(2, "");
    }
    let Ok(file) = bytes_of(sheet, input) else { return expected(2, "") };
    let content = match second::parse(&file) {
        Ok(content) => content,
        Err((number, place)) => return expected(1, format!("refused {number} {place}\n")),
    };
    match exported(&content) {
        Ok(bytes) => expect_written(to, bytes, format!("{}\n", content.triangles.len())),
        Err(refused) => expected(1, format!("refused {} {}\n", refused.number, refused.place)),
    }
}

fn expect_facets(path: &Path, input: &[u8]) -> Expected {
    let Ok(file) = bytes_of(path, input) else { return expected(2, "") };
    match second::stl::read(&file, usize::MAX) {
        Ok(facets) => {
            let line = |nine: &[i32; 9]| format!("f {}\n", nine.map(|number| number.to_string()).join(" "));
            expected(0, format!("{}\n{}", facets.len(), facets.iter().map(line).collect::<String>()))
        }
        Err(refused) => expected(1, format!("refused {} {}\n", refused.number, refused.place)),
    }
}

fn expect_convert(command: &Command, given: &Given, input: &[u8]) -> Expected {
    let (from, to) = (given.name(0), given.name(1));
    let text = |name: &str| {
        let value = command.option(name.as_bytes()).and_then(|option| given.get(option));
        value.map(|value| value.to_string_lossy().into_owned())
    };
    let grey = |name: &str| text(name).map(|grey| grey.parse::<f32>());
    let level = match (grey("--level"), grey("--air"), grey("--material")) {
        (Some(Ok(grey)), None, None) => Level::Fixed(grey),
        (None, Some(Ok(air)), Some(Ok(material))) => Level::Halfway(air, material),
        _ => return expected(2, ""),
    };
    let scale = match text("--scale") {
        None => 1,
        Some(digits) if !digits.is_empty() && digits.bytes().all(|digit| digit.is_ascii_digit()) => {
            digits.parse().unwrap_or(u32::MAX)
        }
        Some(_) => return expected(2, ""),
    };
    let sizes = match text("--sizes").map(|sizes| args::triple(sizes.as_bytes())) {
        Some(None) => return expected(2, ""),
        sizes => sizes.flatten(),
    };
    if clash(from, to) {
        return expected(2, "");
    }
    let Ok(file) = bytes_of(from, input) else { return expected(2, "") };
    match second::floats::file(&file, sizes, level, scale) {
        Ok((sizes, samples)) => {
            let [nx, ny, nz] = sizes;
            expect_written(to, Case { sizes, start: Start::Unnamed, samples }.file(), format!("{nx} {ny} {nz}\n"))
        }
        Err(refused) => expected(1, format!("refused {} {}\n", refused.number, refused.place)),
    }
}

fn expect_show(sheet: &Path, input: &[u8]) -> Expected {
    let Ok(file) = bytes_of(sheet, input) else { return expected(2, "") };
    match second::parse(&file) {
        Ok(content) => {
            let [nx, ny, nz] = content.sizes;
            let mut text = format!("{} {} {nx} {ny} {nz}\n", content.records.len(), content.triangles.len());
            content.records.iter().for_each(|[e, x, y, z]| text += &format!("v {e} {x} {y} {z}\n"));
            content.triangles.iter().for_each(|[a, b, c]| text += &format!("t {a} {b} {c}\n"));
            expected(0, text)
        }
        Err((number, place)) => expected(1, format!("refused {number} {place}\n")),
    }
}

/// A line that the audit may print, by its beginning.
fn audit_line((number, place, start): (usize, usize, Told), volume: &str, sheet: &str) -> String {
    let verdict = if number == 0 { "accepted".to_string() } else { format!("refused {number} {place}") };
    let start = start.map_or(String::new(), |[x, y, z]| format!(" {x},{y},{z}"));
    format!("{verdict} {volume} {sheet}{start}")
}

fn expect_audit(rule: Rule, manifest: &Manifest) -> Expected {
    if manifest.lines.is_empty() {
        return expected(2, "");
    }
    let mut lines = Vec::new();
    let (mut refused, mut unread) = (0, 0);
    for (_, entry) in &manifest.lines {
        let files = entry.map(|(volume, sheet, start)| (fs::read(volume), fs::read(sheet), start, volume, sheet));
        match files {
            Some((Ok(volume), Ok(sheet), start, volume_name, sheet_name)) => {
                let may = match start {
                    Some(start) => {
                        let (number, place) = verdict(rule, &volume, &sheet, start);
                        let told = if let Start::Cube(cube) = start { Some(cube) } else { None };
                        vec![(number, place, told)]
                    }
                    None => automatic(rule, &volume, &sheet),
                };
                refused += usize::from(may[0].0 != 0);
                lines.push(may.into_iter().map(|may| audit_line(may, volume_name, sheet_name)).collect());
            }
            _ => {
                unread += 1;
                lines.push(vec!["unread".to_string()]);
            }
        }
    }
    let all = manifest.lines.len();
    let accepted = all - refused - unread;
    lines.push(vec![format!("sheets {all}, accepted {accepted}, refused {refused}, unread {unread}")]);
    let status = if unread > 0 { 2 } else { u8::from(refused > 0) };
    Expected { status, output: Output::Lines(lines), written: Vec::new() }
}

fn expect_check(rule: Rule, volume: &Path, sheet: &Path, start: Result<Start, ()>, input: &[u8]) -> Expected {
    if volume == Path::new("-") && sheet == volume {
        return expected(2, "");
    }
    let (Ok(volume), Ok(sheet)) = (bytes_of(volume, input), bytes_of(sheet, input)) else { return expected(2, "") };
    let first = |number, place| if number == 0 { "accepted".to_string() } else { format!("refused {number} {place}") };
    match start {
        Ok(start) => {
            let (number, place) = verdict(rule, &volume, &sheet, start);
            expected(u8::from(number != 0), first(number, place) + "\n")
        }
        Err(()) => {
            let may = automatic(rule, &volume, &sheet);
            let status = u8::from(may[0].0 != 0);
            let text = |(number, place, start): (usize, usize, Told)| {
                let start = start.map_or(String::new(), |[x, y, z]| format!("start {x},{y},{z}\n"));
                format!("{}\n{start}", first(number, place))
            };
            Expected { status, output: Output::OneOf(may.into_iter().map(text).collect()), written: Vec::new() }
        }
    }
}

fn expect(parsed: &Result<(&'static Command, Given), Failure>, input: &[u8], manifest: &Manifest) -> Expected {
    let Ok((command, given)) = parsed else { return expected(2, "") };
    match command.name {
        "build" => match asked(given, false) {
            Some(Ok(start)) => expect_build(given.name(0), given.name(1), start, input),
            _ => expected(2, ""),
        },
        "check" => match (asked(given, true), given.rule(&RULE)) {
            (Some(start), Ok(rule)) => expect_check(rule, given.name(0), given.name(1), start, input),
            _ => expected(2, ""),
        },
        "list" => {
            let file = bytes_of(given.maybe(0).unwrap_or(Path::new("-")), input);
            match (asked(given, false), file) {
                (Some(Ok(start)), Ok(file)) => {
                    let start = if start == Start::Unnamed { Start::Lowest } else { start };
                    let text = second::listing(&file, start);
                    expected(u8::from(text.starts_with("refused")), text)
                }
                _ => expected(2, ""),
            }
        }
        "show" => expect_show(given.name(0), input),
        "pieces" => expect_pieces(given.name(0), input),
        "build-all" => {
            let force = command.option(b"--force").is_some_and(|option| given.has(option));
            expect_build_all(given.name(0), given.name(1), force, input)
        }
        "stl" => expect_stl(given.name(0), given.name(1), input),
        "facets" => expect_facets(given.name(0), input),
        "convert" => expect_convert(command, given, input),
        "audit" if given.rule(&RULE).is_err() => expected(2, ""),
        "audit" if given.name(0) == Path::new("m.txt") => {
            expect_audit(given.rule(&RULE).unwrap_or_default(), manifest)
        }
        "audit" if bytes_of(given.name(0), input).is_err() => expected(2, ""),
        "help" if given.maybe(0).is_none() => expected(0, help::tool()),
        // what other commands print is held by tests of their own; here they must end, and leave the folder as it is
        _ => Expected { status: 2, output: Output::Any, written: Vec::new() },
    }
}

/// One command line. A difference panics. The status is returned, for counting.
pub fn round(random: &mut Random) -> usize {
    let about = any_case(random);
    let manifest = prepare(random, &about).expect("the folder can be filled");
    let args = words(random, about.start, &manifest.floats);
    let input = damage::volume_file(random, about.file());
    let command = args::parse(&args);
    let wanted = expect(&command, &input, &manifest);
    let mut files = snapshot_all();

    let (mut output, mut errors) = (Vec::new(), Vec::new());
    let mut streams = Streams {
        input: &mut Cursor::new(&input),
        output: &mut output,
        errors: &mut errors,
        terminal: random.once_in(2),
    };
    let status = run(&args, &mut streams);

    let said = String::from_utf8_lossy(&output);
    match &wanted.output {
        Output::Exact(text) => assert!(said == *text, "{args:?} printed {said:?} and not {text:?}"),
        Output::OneOf(texts) => {
            assert!(texts.iter().any(|text| said == *text), "{args:?} printed {said:?}, not of {texts:?}")
        }
        Output::Lines(starts) => {
            let lines: Vec<&str> = said.lines().filter(|line| !line.starts_with("number ")).collect();
            assert_eq!(lines.len(), starts.len(), "{args:?}: {said} {starts:?}");
            for (line, may) in lines.iter().zip(starts) {
                assert!(may.iter().any(|start| line.starts_with(start)), "{args:?}: {line:?} and not {may:?}");
            }
        }
        Output::Any => {}
    }
    let settled = !matches!(wanted.output, Output::Any);
    assert!(if settled { status == wanted.status } else { status <= 2 }, "{args:?} ended with {status}: {said}");
    // Most commands say something exactly when it is not well; an audit or a build may have something to say on the way.
    let talkers = ["audit", "build", "build-all", "convert", "info", "picture", "stl"];
    let talks = matches!(&command, Ok((command, _)) if talkers.contains(&command.name));
    assert!(talks || errors.is_empty() == (status == 0), "{args:?} ended with {status} and said {errors:?}");
    files.extend(wanted.written);
    assert!(files == snapshot_all(), "{args:?}: the folder is not as it should be");
    usize::from(status)
}
