//! Audits, by the tool as a process.

mod common;

use common::{listed, pair, Folder};
use std::collections::{BTreeMap, HashSet};
use std::fs;
use trials::archive::{self, Archived, Kind};
use trials::random::Random;

/// An archive of 240 sheets in a folder, and what is the matter with each.
fn archived(folder: &Folder) -> Vec<Archived> {
    let mut random = Random::new(15);
    let kinds = archive::kinds(&mut random);
    let archived = archive::write(&folder.0, &mut random, &kinds).expect("an archive");
    folder.put("manifest.txt", archive::manifest(&archived).as_bytes());
    archived
}

/// Whether a verdict fits what is the matter with a sheet.
fn fits(kind: Kind, verdict: &str, number: &str) -> bool {
    match kind {
        Kind::Sound => verdict == "accepted" && number == "0",
        Kind::Sorted | Kind::Mirrored | Kind::Doubled => verdict == "refused" && number == "18",
        Kind::Missing => verdict == "refused" && number == "19",
        Kind::Moved | Kind::Strange => verdict == "refused" && number == "17",
        Kind::Cut => verdict == "refused" && ["11", "12", "14"].contains(&number),
        Kind::Gone => verdict == "unread" && number.is_empty(),
    }
}

#[test]
fn an_archive_without_starts_gives_206_33_and_1() {
    let folder = Folder::new("archive");
    let archived = archived(&folder);
    let run = folder.run("audit manifest.txt --csv a.csv --json a.json --html a.html");
    assert_eq!(run.status, Some(2));
    assert!(run.output.contains("\nsheets 240, accepted 206, refused 33, unread 1\n"), "{}", run.output);

    let csv = String::from_utf8(folder.get("a.csv")).expect("text");
    let mut rows = csv.lines();
    let columns =
        "volume,sheet,start,verdict,number,place,vertices,triangles,wrong_triangles,volume_sha256,sheet_sha256,rule";
    assert_eq!(rows.next(), Some(columns));
    let rows: Vec<Vec<&str>> = rows.map(|row| row.split(',').collect()).collect();
    assert_eq!(rows.len(), 240);
    for (row, sheet) in rows.iter().zip(&archived) {
        assert_eq!((row.len(), row[0], row[1]), (12, sheet.volume.as_str(), sheet.sheet.as_str()));
        assert!(fits(sheet.kind, row[3], row[4]), "{row:?} is {:?}", sheet.kind);
        if sheet.kind == Kind::Sound {
            assert_eq!(row[8], "0");
        } else if ["17", "18", "19"].contains(&row[4]) {
            assert_eq!(row[8].parse().ok(), Some(wrong_triangles(&folder, row)), "{row:?}");
        }
    }
    sums(&folder, &rows);
    page(&folder, &archived);
    json(&folder, &rows);
}

/// The triangles of a file that are not in the sheet of the row's start, or are there twice, by the second mesher.
fn wrong_triangles(folder: &Folder, row: &[&str]) -> usize {
    let (sizes, samples) = second::volume(&folder.get(row[0])).expect("a volume");
    let start: Vec<i64> = row[2].split(' ').map(|v| v.parse().expect("a number")).collect();
    let lattice = second::Lattice::new(sizes, &samples).expect("a lattice");
    let sheet = second::Sheet::of(second::Rule::Nearest, &lattice, second::Point::new(start[0], start[1], start[2]));
    let turned = |[a, b, c]: [i64; 3]| [[a, b, c], [b, c, a], [c, a, b]].into_iter().min();
    let mut right: HashSet<_> =
        sheet.triangles.iter().map(|triangle| turned(triangle.map(|edge| edge.number(&lattice)))).collect();
    let file = second::parse(&folder.get(row[1])).expect("a sheet");
    let edges = |triangle: &[u32; 3]| turned(triangle.map(|vertex| i64::from(file.records[vertex as usize][0])));
    file.triangles.iter().filter(|triangle| !right.remove(&edges(triangle))).count()
}

/// Checksums are those that another program gives.
fn sums(folder: &Folder, rows: &[Vec<&str>]) {
    let mut names: BTreeMap<&str, &str> = BTreeMap::new();
    for row in rows {
        names.insert(row[0], row[9]);
        names.insert(row[1], row[10]);
    }
    let list: String =
        names.iter().filter(|(_, sum)| !sum.is_empty()).map(|(name, sum)| format!("{sum}  {name}\n")).collect();
    assert_eq!(list.lines().count(), 12 + 239);
    folder.put("sums", list.as_bytes());
    assert_eq!(folder.shell("sha256sum --quiet -c sums").status, Some(0));
}

/// One page that needs nothing besides itself, with the wrong sheets first and a picture of each that can be drawn.
fn page(folder: &Folder, archived: &[Archived]) {
    let page = String::from_utf8(folder.get("a.html")).expect("text");
    let pictures = archived.iter().filter(|a| !matches!(a.kind, Kind::Sound | Kind::Gone | Kind::Cut)).count();
    assert_eq!(page.matches("<img ").count(), pictures);
    assert_eq!(page.matches("src=\"data:image/png;base64,").count(), pictures);
    for outside in ["http:", "https:", "<script", "<link", "url("] {
        assert!(!page.contains(outside), "{outside}");
    }
    let at = |text: &str| page.find(text).unwrap_or_else(|| panic!("{text} is on the page"));
    assert!(at("What the numbers mean") < at("Wrong sheets") && at("Wrong sheets") < at("Unread"));
    assert!(at("Unread") < at("Sound sheets"));
    for text in ["<b>33</b>refused", "<b>206</b>accepted", "<b>1</b>unread", "without renumbering the triangles", "UTC"]
    {
        at(text);
    }
    at(&format!("malxuqeed {}", env!("CARGO_PKG_VERSION")));
}

/// The rows of the CSV once more.
fn json(folder: &Folder, rows: &[Vec<&str>]) {
    let json = String::from_utf8(folder.get("a.json")).expect("text");
    for row in rows {
        let field = |text: &str| if text.is_empty() { "null".to_string() } else { format!("\"{text}\"") };
        let number = |text: &str| if text.is_empty() { "null".to_string() } else { text.to_string() };
        let object = format!(
            "{{\"volume\": \"{}\", \"sheet\": \"{}\", \"start\": {}, \"verdict\": \"{}\", \"number\": {}, \"place\": {}, \
             \"vertices\": {}, \"triangles\": {}, \"wrong_triangles\": {}, \"volume_sha256\": {}, \"sheet_sha256\": {}, \"rule\": {}}}",
            row[0], row[1], field(row[2]), row[3], number(row[4]), number(row[5]), number(row[6]), number(row[7]),
            number(row[8]), field(row[9]), field(row[10]), field(row[11])
        );
        assert!(json.contains(&object), "{object}");
    }
    assert!(json.contains("\"sheets\": 240, \"accepted\": 206, \"refused\": 33, \"unread\": 1,"));
}

#[test]
fn a_report_is_a_manifest_again() {
    let folder = Folder::new("again");
    archived(&folder);
    folder.run("audit manifest.txt --csv first.csv");
    // the starts are named now, and give the same
    folder.run("audit first.csv --csv second.csv");
    let without_line_ends = |name: &str| String::from_utf8(folder.get(name)).expect("text");
    assert_eq!(without_line_ends("first.csv"), without_line_ends("second.csv"));
}

/// Two good sheets and one that is moved.
fn small(name: &str) -> Folder {
    let folder = Folder::new(name);
    folder.put("l.vol", &listed());
    folder.put("a b.vol", &pair());
    folder.run("build l.vol l.sheet --start lowest").well("3 1 1\n");
    folder.run_words(&["build", "a b.vol", "a b.sheet", "--start", "3,0,0"]).told("5 3 1\n", "--start 0,0,0");
    let mut moved = folder.get("l.sheet");
    moved[4] ^= 1;
    folder.put("moved.sheet", &moved);
    folder
}

#[test]
fn lines_and_status() {
    let folder = small("lines");
    folder.put("good", b"# all good\nl.vol l.sheet\n\na b.vol\ta b.sheet\t3,0,0\r\na b.vol\ta b.sheet\n");
    folder.run("audit good").well(
        "accepted l.vol l.sheet 0,0,0\naccepted a b.vol a b.sheet 3,0,0\naccepted a b.vol a b.sheet 3,0,0\n\
         sheets 3, accepted 3, refused 0, unread 0\n",
    );

    folder.put("mixed", b"l.vol moved.sheet\nl.vol l.sheet auto\nl.vol moved.sheet 0,0,0\nl.vol l.sheet 5,5,5");
    let run = folder.run("audit mixed");
    assert_eq!(run.status, Some(1));
    let lines = [
        "refused 17 0 l.vol moved.sheet 0,0,0",
        "accepted l.vol l.sheet 0,0,0",
        "refused 17 0 l.vol moved.sheet 0,0,0",
        "refused 4 0 l.vol l.sheet 5,5,5",
        "sheets 4, accepted 1, refused 3, unread 0",
        "number 4: 1",
        "number 17: 2",
    ];
    assert_eq!(run.output.lines().collect::<Vec<_>>(), lines);
    assert_eq!(run.errors.lines().count(), 2, "{run:?}");

    folder.put("unread", b"l.vol gone.sheet\nonly-one\nl.vol l.sheet\n. l.sheet\nl.vol moved.sheet\n");
    let run = folder.run("audit unread");
    assert_eq!(run.status, Some(2));
    assert!(run.output.starts_with("unread l.vol gone.sheet: gone.sheet cannot be read"), "{run:?}");
    assert!(run.output.contains("\nunread: line 2 is not VOLUME SHEET"), "{run:?}");
    assert!(run.output.contains("sheets 5, accepted 1, refused 1, unread 3\n"), "{run:?}");
    for empty in [&b""[..], b"# nothing\n\n", b"\xef\xbb\xbf"] {
        folder.put("empty", empty);
        folder.run("audit empty").failed_with("empty names no sheet");
    }
}

#[test]
fn names_are_taken_from_the_manifest_or_from_a_folder() {
    let folder = small("names");
    for name in ["archive", "elsewhere", "elsewhere/lists"] {
        fs::create_dir(folder.0.join(name)).expect("a folder");
    }
    for name in ["l.vol", "l.sheet"] {
        fs::rename(folder.0.join(name), folder.0.join("archive").join(name)).expect("a move");
    }
    let accepted = "accepted l.vol l.sheet 0,0,0\nsheets 1, accepted 1, refused 0, unread 0\n";
    folder.put("archive/m", b"l.vol l.sheet\n");
    folder.run("audit archive/m").well(accepted);
    folder.put("elsewhere/lists/m", b"l.vol l.sheet\n");
    folder.run("audit elsewhere/lists/m --from archive").well(accepted);
    assert_eq!(folder.run("audit elsewhere/lists/m").status, Some(2));
    folder.shell("cd archive && \"$1\" audit - < m").well(accepted);
    folder.shell("\"$1\" audit --from archive - < archive/m").well(accepted);
}

#[test]
fn csv_manifests_and_byte_order_marks() {
    let folder = small("csv");
    let accepted =
        "accepted l.vol l.sheet 0,0,0\naccepted a b.vol a b.sheet 3,0,0\nsheets 2, accepted 2, refused 0, unread 0\n";
    folder.put(
        "head",
        b"\xef\xbb\xbfvolume,remark,sheet,start\r\nl.vol,\"one, two\",l.sheet,0 0 0\r\n\"a b.vol\",,a b.sheet,\r\n",
    );
    folder.run("audit head").well(accepted);
    folder.put("m.csv", b"l.vol;l.sheet\na b.vol;a b.sheet;\"3,0,0\"\n");
    folder.run("audit m.csv").well(accepted);
    folder.put("bom", b"\xef\xbb\xbfl.vol\tl.sheet\na b.vol\ta b.sheet\t3,0,0");
    folder.run("audit bom").well(accepted);
    folder.put("wide", b"\xff\xfel\0.\0v\0");
    folder.run("audit wide").failed_with("wide is in UTF-16: save it as UTF-8");
    folder.put("only.csv", b"volume,sheet\n");
    folder.run("audit only.csv").failed_with("names no sheet");
}

#[test]
fn reports_and_where_they_go() {
    let folder = small("reports");
    folder.put("m", b"l.vol l.sheet\n");
    let row = "l.vol,l.sheet,0 0 0,accepted,0,0,3,1,0,";
    let run = folder.run("audit m --csv -");
    assert_eq!((run.status, run.output.lines().count()), (Some(0), 2), "{run:?}");
    assert!(run.output.lines().nth(1).is_some_and(|line| line.starts_with(row)), "{run:?}");
    assert!(run.errors.contains("sheets 1, accepted 1"), "{run:?}");
    for line in ["audit m --csv m", "audit m --csv x --html ./x", "audit m --csv - --json -", "audit m --csv missing/x"]
    {
        folder.run(line).failed();
    }
    folder.put("names", b"l.vol\t=a,\"b\".sheet\nl.vol\tnew\x1b[2J.sheet\n");
    fs::copy(folder.0.join("l.sheet"), folder.0.join("=a,\"b\".sheet")).expect("a copy");
    let run = folder.run("audit names --csv n.csv --json n.json --html n.html");
    assert!(run.output.contains("new\\u{1b}[2J.sheet") && !run.output.contains('\x1b'), "{run:?}");
    let csv = String::from_utf8(folder.get("n.csv")).expect("text");
    assert!(csv.contains("l.vol,\"=a,\"\"b\"\".sheet\",0 0 0,accepted"), "{csv}");
    let json = String::from_utf8(folder.get("n.json")).expect("text");
    assert!(json.contains("\"=a,\\\"b\\\".sheet\"") && json.contains("new\\u001b[2J.sheet"), "{json}");
    let html = String::from_utf8(folder.get("n.html")).expect("text");
    assert!(html.contains("=a,&quot;b&quot;.sheet") && !html.contains('\x1b'), "{html}");
    let again = |name: &str| {
        folder.shell(&format!("SOURCE_DATE_EPOCH=86400 \"$1\" audit names --html {name} --json {name}.json --force"));
        (folder.get(name), folder.get(&format!("{name}.json")))
    };
    assert_eq!(again("one"), again("two"));
    assert!(String::from_utf8_lossy(&folder.get("one")).contains("1970-01-02 00:00 UTC"));
}

#[test]
fn small_sheets_by_the_thousand() {
    let folder = Folder::new("rate");
    archived(&folder);
    let text = String::from_utf8(folder.get("manifest.txt")).expect("text");
    folder.put("many", text.repeat(10).as_bytes());
    let run = folder.run("audit many --csv many.csv");
    assert!(run.output.contains("sheets 2400, accepted 2060, refused 330, unread 10"));
}

#[test]
fn a_terminal_sees_how_far_it_is() {
    let folder = Folder::new("terminal");
    archived(&folder);
    // script gives the tool a terminal
    let run = folder.shell("script -qec \"$1 audit manifest.txt\" /dev/null </dev/null | tr -d '\\r'");
    assert!(run.output.contains("sheet 1 of 240"), "{run:?}");
    assert!(!folder.run("audit manifest.txt").errors.contains("sheet 1 of 240"));
}
