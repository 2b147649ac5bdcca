use crate::args::Given;
use crate::audit::auditor::{Auditor, Wants};
use crate::audit::manifest::{lines, Line};
use crate::audit::progress::Progress;
use crate::audit::row::Row;
use crate::audit::totals::Totals;
use crate::audit::{csv, date, html, json};
use crate::command::{Command, Opt, FORCE, RULE};
use crate::failure::{shown, Failure};
use crate::files::{self, Pending};
use crate::numbers;
use crate::streams::{Ended, Streams};
use std::fs::File;
use std::path::{Path, PathBuf};

const FROM: Opt =
    Opt::with("--from", "DIR", "the folder that names in the manifest start from; without it, the manifest's own");
const CSV: Opt = Opt::with("--csv", "FILE", "write a table: a row for each sheet");
const JSON: Opt = Opt::with("--json", "FILE", "write the same as JSON");
const HTML: Opt = Opt::with(
    "--html",
    "FILE",
    "write a page to hand on: wrong sheets first, what each number means and what to do, and a picture of each wrong sheet",
);

pub static COMMAND: Command = Command {
    name: "audit",
    brief: "check many sheet files, and write a report",
    names: &["MANIFEST"],
    options: &[FROM, RULE, CSV, JSON, HTML, FORCE],
    text: "\
Checks every sheet file that a manifest names. A line of the manifest has a volume, its sheet and perhaps the start and the rule:

    VOLUME SHEET [X,Y,Z|lowest|default|auto] [down|nearest]

Where a line holds a tab, tabs part its fields, so that names may hold spaces; else spaces do. Empty lines and lines that \
start with # are passed over. A manifest may also be a CSV file: one whose name ends in .csv, or whose first line names the \
columns volume, sheet and perhaps start and rule. Without a start, or with auto, it is taken from the sheet itself (see check --start \
auto); lowest and default stand for check --start lowest and for check without --start. Names are taken from the folder of \
the manifest.

A line without a rule of rounding is checked under that of --rule, or to nearest. An archive of sheets that were built before \
document 02 (vi) is audited with --rule down; one that holds both names the rule in its lines. Where a sheet is refused and \
the other rule accepts it, its line ends in ', accepted under down' or ', accepted under nearest'.

Each line gets a verdict on standard output: 'accepted', 'refused N PLACE' or 'unread', then volume, sheet and the start that \
was taken. A summary with the count of each number follows; what the numbers mean is on standard error. A file that cannot be \
read does not stop the audit. On a terminal a progress line with the time left runs along. A report of - goes to standard \
output, in place of the verdicts.

The columns of --csv and --json are: volume, sheet, start (X Y Z), verdict (accepted, refused or unread), number, place, \
vertices, triangles, wrong_triangles (those that the check would refuse one by one, where there is a sheet to compare with), \
volume_sha256, sheet_sha256, rule.

Exit status: 0 if all are accepted, 1 if some are refused, 2 if a file or a line cannot be read.",
    run,
};

/// Longer manifests are not read.
const LONGEST: u64 = 64 << 20;

fn read(path: &Path, streams: &mut Streams) -> Result<Vec<u8>, Failure> {
    let read = match files::is_stream(path) {
        true => files::read_whole(&mut *streams.input, LONGEST),
        false => File::open(path).and_then(|file| files::read_whole(file, LONGEST)),
    };
    let bytes = read.map_err(|error| Failure::reading(path, &error))?;
    if bytes.starts_with(b"\xff\xfe") || bytes.starts_with(b"\xfe\xff") {
        return Err(Failure::File(format!("{} is in UTF-16: save it as UTF-8, or as CSV in UTF-8", shown(path))));
    }
    Ok(bytes)
}

/// The folder that a manifest's names start from.
fn folder(given: &Given, manifest: &Path) -> PathBuf {
    match given.get(&FROM) {
        Some(folder) => PathBuf::from(folder),
        None if files::is_stream(manifest) => PathBuf::new(),
        None => manifest.parent().map(Path::to_path_buf).unwrap_or_default(),
    }
}

/// The reports that are asked for, and their files.
fn reports(given: &Given) -> Vec<(&'static Opt, &Path)> {
    let named = |option: &'static Opt| given.get(option).map(|path| (option, Path::new(path)));
    [&CSV, &JSON, &HTML].into_iter().filter_map(named).collect()
}

fn run(given: &Given, streams: &mut Streams) -> Result<Ended, Failure> {
    let manifest = given.name(0);
    let reports = reports(given);
    let written: Vec<&Path> = reports.iter().map(|(_, path)| *path).collect();
    files::apart(&[manifest], &written)?;
    let lines = lines(&read(manifest, streams)?, manifest);
    if lines.is_empty() {
        return Err(Failure::File(format!("{} names no sheet: a line is VOLUME SHEET [X,Y,Z] [RULE]", shown(manifest))));
    }
    // begun now, so that an audit of hours does not end in a file that cannot be written
    let begin = |(option, path): &(&'static Opt, &Path)| Ok((*option, Pending::new(path, given.has(&FORCE))?));
    let begun: Vec<(&Opt, Pending)> = reports.iter().map(begin).collect::<Result<_, Failure>>()?;
    let quiet = written.iter().any(|path| files::is_stream(path));
    let wants = Wants { counts: !reports.is_empty(), pictures: given.has(&HTML) };
    let mut auditor = Auditor::new(folder(given, manifest), given.rule(&RULE)?, wants);
    let (rows, totals) = judge_all(&lines, &mut auditor, quiet, streams)?;
    let date = date::now();
    for (option, pending) in begun {
        let bytes = match option.name {
            name if name == CSV.name => csv::file(&rows),
            name if name == JSON.name => json::file(&rows, &totals, &date),
            _ => html::file(&rows, &totals, &shown(manifest), &date),
        };
        pending.finish(&bytes, streams)?;
    }
    summary(&totals, quiet, streams)?;
    Ok(totals.ended())
}

/// Judges line after line, and prints each verdict where nothing else is printed.
fn judge_all(
    lines: &[Line],
    auditor: &mut Auditor,
    quiet: bool,
    streams: &mut Streams,
) -> Result<(Vec<Row>, Totals), Failure> {
    let mut progress = Progress::new(lines.len());
    let (mut rows, mut totals) = (Vec::with_capacity(lines.len()), Totals::default());
    for (done, line) in lines.iter().enumerate() {
        progress.show(done, streams);
        let row = auditor.judge(line);
        totals.add(row.outcome);
        if !quiet {
            progress.wipe(streams);
            streams.print(format_args!("{}", row.line()))?;
            streams.flush()?;
        }
        rows.push(row);
    }
    progress.wipe(streams);
    Ok((rows, totals))
}

/// Totals on standard output, or on standard error where a report has taken that; what the numbers mean on standard error.
fn summary(totals: &Totals, quiet: bool, streams: &mut Streams) -> Result<(), Failure> {
    let (all, accepted, refused, unread) = (totals.all(), totals.accepted, totals.refused, totals.unread);
    let mut text = vec![format!("sheets {all}, accepted {accepted}, refused {refused}, unread {unread}")];
    text.extend(totals.numbers.iter().map(|(number, count)| format!("number {number}: {count}")));
    for line in text {
        match quiet {
            true => streams.say(&line),
            false => streams.print(format_args!("{line}"))?,
        }
    }
    streams.flush()?;
    for number in totals.numbers.keys() {
        let remedy = numbers::number(*number).map_or("", |row| row.remedy);
        streams.say(&format!("number {number}: {}. {remedy}", numbers::meaning(*number)));
    }
    Ok(())
}
