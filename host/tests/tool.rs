//! The tool as a process: what it prints, its exit status, and the files it leaves.

mod common;

use common::{listed, pair, volume, Folder, Run, TOOL};
use std::fs::{self, File};
use std::io::{Read, Seek, SeekFrom, Write};
use std::path::Path;
use std::process::{Command, Stdio};

const LINES: &str = "v 0 49152 0 0\nv 1 0 49152 0\nv 2 0 0 49152\nt 1 2 0\n";

#[test]
fn listing() {
    let folder = Folder::new("listing");
    folder.put("l.raw", &listed());
    folder.run("list l.raw").well(&format!("3 1 1\n{LINES}"));
    folder.shell("\"$1\" list < l.raw").well(&format!("3 1 1\n{LINES}"));
    folder.shell("cat l.raw | \"$1\" list --start 0,0,0").well(&format!("3 1 1\n{LINES}"));
    folder.run("list").refused("refused 1");
    folder.run("list l.raw --start 1,0,0").refused("refused 4");
}

#[test]
fn build_check_show() {
    let folder = Folder::new("build");
    folder.put("l.raw", &listed());
    folder.run("build l.raw l.sheet --start lowest").well("3 1 1\n");
    let file = folder.get("l.sheet");
    assert_eq!(file.len(), 84);
    folder.run("check l.raw l.sheet --start lowest").well("accepted\n");
    folder.run("check l.raw l.sheet --start=0,0,0").well("accepted\n");
    folder.run("show l.sheet").well(&format!("3 1 2 2 2\n{LINES}"));
    folder.shell("cat l.sheet | \"$1\" check l.raw /dev/stdin --start lowest").well("accepted\n");
    assert_eq!(folder.names(), ["l.raw", "l.sheet"]);

    folder.put("p.raw", &pair());
    folder.run("build p.raw a.sheet --start 0,0,0").told("3 1 1\n", "the next one is built with --start 3,0,0\n");
    folder.run("build p.raw b.sheet --start 3,0,0").told("5 3 1\n", "1 crossed cubes are not on this sheet");
    folder.run("build --start 1,0,0 p.raw b.sheet").refused("refused 5");
    folder.run("build p.raw b.sheet --start 4,0,0").refused("refused 4");
    folder.run("build p.raw b.sheet --start 99999999999999999999,0,0").refused("refused 4");
    folder.run("check p.raw b.sheet --start 3,0,0").well("accepted\n");
    folder.run("check p.raw b.sheet --start lowest").refused("refused 17 0");
    folder.run("check l.raw b.sheet --start lowest").refused("refused 16 0");
}

#[test]
fn refusals() {
    let folder = Folder::new("refusals");
    let good = listed();
    folder.put("short.raw", &good[..5]);
    folder.put("few.raw", &good[..20]);
    folder.put("odd.raw", &good[..21]);
    folder.put("more.raw", &[&good[..], &[0]].concat());
    folder.put("axis.raw", &volume([2, 65, 2], &[0; 260]));
    folder.put("flat.raw", &volume([2, 2, 2], &[0; 8]));
    folder.put("long.raw", &volume([64, 64, 64], &vec![-1; 64 * 64 * 64 + 7]));
    folder.put("full.raw", &volume([64, 64, 64], &vec![-1; 64 * 64 * 64]));
    folder.put("old.sheet", b"old");
    let numbers =
        [("short", 1), ("few", 2), ("odd", 2), ("more", 2), ("axis", 1), ("flat", 5), ("long", 2), ("full", 5)];
    for (name, number) in numbers {
        folder.run(&format!("list {name}.raw")).refused(&format!("refused {number}"));
        folder.run(&format!("build {name}.raw old.sheet --start lowest")).refused(&format!("refused {number}"));
        folder.run(&format!("check {name}.raw old.sheet --start lowest")).refused(&format!("refused {number} 0"));
    }
    assert_eq!(folder.get("old.sheet"), b"old");
    folder.run("show old.sheet").refused("refused 11 0");
    folder.put("zero.sheet", &[0; 24]);
    folder.run("show zero.sheet").refused("refused 12 0");
    folder.put("l.raw", &good);
    folder.run("build l.raw l.sheet --start lowest").well("3 1 1\n");
    let file = folder.get("l.sheet");
    let mut stray = file.clone();
    stray[48] = 3;
    folder.put("stray.sheet", &stray);
    folder.run("show stray.sheet").refused("refused 15 0");
    let mut moved = file.clone();
    moved[16 + 8] ^= 1;
    folder.put("moved.sheet", &moved);
    let run = folder.run("check l.raw moved.sheet --start lowest");
    run.refused("refused 17 1");
    assert!(run.errors.contains("vertex record 1"), "{run:?}");
}

#[test]
fn usage_and_help() {
    let folder = Folder::new("usage");
    for line in [
        "",
        "bild",
        "build",
        "build a",
        "check a b c",
        "list a b",
        "show",
        "audit",
        "list --what",
        "show a --start 0,0,0",
    ] {
        folder.run(line).failed();
    }
    for words in [&["list", "--start", ""][..], &["list", "--start", "1,2"], &["list", "--start=1,-2,3"], &["", ""]] {
        folder.run_words(words).failed();
    }
    for command in ["", "build ", "check ", "list ", "show ", "audit "] {
        let run = folder.run(&format!("{command}--help"));
        assert_eq!((run.status, run.errors.as_str()), (Some(0), ""));
        assert!(run.output.starts_with(&format!("malxuqeed{}{command}", if command.is_empty() { ":" } else { " " })));
        assert!(run.output.lines().all(|line| line.len() <= 120), "{run:?}");
    }
    assert!(folder.names().is_empty());
}

#[test]
fn files_that_cannot_be_read_or_written() {
    let folder = Folder::new("files");
    folder.put("l.raw", &listed());
    fs::create_dir(folder.0.join("folder")).expect("a folder");
    for line in [
        "list missing",
        "list folder",
        "show missing",
        "show folder",
        "check l.raw missing --start lowest",
        "check folder l.raw --start lowest",
    ] {
        folder.run(line).failed();
    }
    for line in [
        "audit missing",
        "audit folder",
        "build missing new --start lowest",
        "build l.raw folder --start lowest",
        "build l.raw folder/ --start lowest",
    ] {
        folder.run(line).failed();
    }
    for line in [
        "build l.raw missing/new --start lowest",
        "build l.raw l.raw/new --start lowest",
        "build l.raw l.raw --start lowest",
        "build l.raw ./folder/../l.raw --start lowest",
    ] {
        folder.run(line).failed();
    }
    folder.run_words(&["build", "l.raw", "", "--start", "lowest"]).failed();
    folder.run_words(&["build", "l.raw", &"n".repeat(300), "--start", "lowest"]).failed();
    assert_eq!(folder.get("l.raw"), listed());
    assert_eq!(folder.names(), ["folder", "l.raw"]);
    assert_eq!(fs::read_dir(folder.0.join("folder")).map(Iterator::count).ok(), Some(0));
    folder.shell("\"$1\" list l.raw > /dev/full").failed();
}

#[test]
fn a_device_is_never_replaced() {
    let folder = Folder::new("device");
    folder.put("l.raw", &listed());
    // a link to a device, so that even a mistake would only replace the link
    std::os::unix::fs::symlink("/dev/null", folder.0.join("null")).expect("a link");
    folder.run("build l.raw null --start lowest").failed();
    assert!(fs::symlink_metadata(folder.0.join("null")).is_ok_and(|about| about.is_symlink()));
}

#[test]
fn a_link_is_followed_and_names_may_be_long() {
    let folder = Folder::new("link");
    folder.put("l.raw", &listed());
    fs::create_dir(folder.0.join("archive")).expect("a folder");
    folder.put("archive/real.sheet", b"old");
    std::os::unix::fs::symlink("archive/real.sheet", folder.0.join("link")).expect("a link");
    folder.run("build l.raw link --start lowest").well("3 1 1\n");
    assert!(fs::symlink_metadata(folder.0.join("link")).is_ok_and(|about| about.is_symlink()));
    assert_eq!(folder.get("archive/real.sheet").len(), 84);
    let long = "n".repeat(255);
    folder.run(&format!("build l.raw {long} --start lowest")).well("3 1 1\n");
    folder.run(&format!("check l.raw {long} --start lowest")).well("accepted\n");
    folder.run("build --start lowest l.raw -- --odd").well("3 1 1\n");
    folder.run("show -- --odd").well(&format!("3 1 2 2 2\n{LINES}"));
}

/// A volume whose sheet is longer than a block or two.
fn larger() -> Vec<u8> {
    let samples: Vec<i16> = (0..1000).map(|n| if n * 7 % 5 == 0 { 9 } else { -9 }).collect();
    volume([10, 10, 10], &samples)
}

#[test]
fn a_full_disk_leaves_the_old_file() {
    let folder = Folder::new("full");
    folder.put("v.raw", &larger());
    folder.put("old.sheet", b"old");
    // a limit on the length of files, with the signal ignored: the write fails as on a full disk
    folder.shell("trap '' XFSZ; ulimit -f 1; \"$1\" build v.raw old.sheet --start lowest").failed();
    folder.shell("trap '' XFSZ; ulimit -f 1; \"$1\" build v.raw new.sheet --start lowest").failed();
    assert_eq!(folder.get("old.sheet"), b"old");
    assert_eq!(folder.names(), ["old.sheet", "v.raw"]);
}

#[test]
fn a_crash_leaves_the_old_file_or_none() {
    let folder = Folder::new("crash");
    folder.put("v.raw", &larger());
    folder.put("old.sheet", b"old");
    // the same limit with its signal, SIGXFSZ: the tool dies in the middle of its write
    for sheet in ["old.sheet", "new.sheet"] {
        let run =
            folder.shell(&format!("ulimit -c 0; ulimit -f 1; \"$1\" build v.raw {sheet} --start lowest; echo $?"));
        assert_eq!(run.output, "153\n", "{run:?}");
    }
    assert_eq!(folder.get("old.sheet"), b"old");
    assert!(!folder.0.join("new.sheet").exists());
}

#[test]
fn files_of_any_length() {
    let folder = Folder::new("length");
    folder.put("l.raw", &listed());
    let sparse = |name: &str, length: u64, end: &[u8]| {
        let mut file = File::create(folder.0.join(name)).expect("a file");
        file.set_len(length - end.len() as u64).expect("a sparse file");
        file.seek(SeekFrom::End(0)).expect("its end");
        file.write_all(end).expect("its end");
    };
    let trailer: Vec<u8> = [2u16, 2, 2, 21_331].iter().flat_map(|word| word.to_le_bytes()).collect();
    sparse("zeros.sheet", 20_000_000_000, &[0]);
    sparse("marked.sheet", 20_000_000_000, &trailer);
    sparse("longest.sheet", 80_000_024, &trailer);
    folder.run("show zeros.sheet").refused("refused 12 0");
    folder.run("check l.raw marked.sheet --start lowest").refused("refused 14 0");
    folder.run("show longest.sheet").refused("refused 14 0");
    folder.run("list zeros.sheet").refused("refused 1");
    folder.run("audit zeros.sheet").failed();
    folder.run("list /dev/zero").refused("refused 1");
    folder.run("show /dev/zero").failed();
}

#[test]
fn a_reader_that_leaves_early() {
    let folder = Folder::new("pipe");
    let samples: Vec<i16> = (0..32 * 32 * 32).map(|n: i32| (n * 7919 % 65_537 - 32_768) as i16).collect();
    folder.put("v.raw", &volume([32, 32, 32], &samples));
    let mut tool = Command::new(TOOL)
        .args([Path::new("list"), &folder.0.join("v.raw")])
        .stdout(Stdio::piped())
        .stderr(Stdio::piped())
        .spawn()
        .expect("the tool runs");
    let mut first = [0; 1];
    tool.stdout.take().expect("a pipe").read_exact(&mut first).expect("a byte");
    let run = Run::of(tool.wait_with_output().expect("it ends"));
    assert_eq!((run.status, run.errors.as_str()), (Some(2), ""));
}

#[test]
fn a_full_lattice() {
    let folder = Folder::new("lattice");
    let samples: Vec<i16> = (0..64 * 64 * 64).map(|n: i64| (n * n * 7919 % 65_537 - 32_768) as i16).collect();
    let file = volume([64, 64, 64], &samples);
    folder.put("v.raw", &file);
    let expected = second::listing(&file, second::Start::Lowest);
    let first = expected.lines().next().unwrap_or_default();
    folder.run("build v.raw v.sheet --start lowest").well(&format!("{first}\n"));
    folder.run("check v.raw v.sheet --start lowest").well("accepted\n");
    let list = folder.run("list v.raw");
    assert!(list.output == expected && list.status == Some(0));
    let show = folder.run("show v.sheet");
    assert!(show.output.split_once('\n').map(|(_, rest)| rest) == expected.split_once('\n').map(|(_, rest)| rest));
}

/// Sheets of both rules of rounding, document 02 (vi): t for -2 and 1 is 43690 down and 43691 to nearest, and build makes the second.
#[test]
fn rules_of_rounding() {
    let folder = Folder::new("rules");
    folder.put("v.raw", &volume([2, 2, 2], &[1, -2, -2, -2, -2, -2, -2, -2]));
    folder.run("build v.raw new.sheet --start lowest").well("3 1 1\n");
    folder.run("show new.sheet").well("3 1 2 2 2\nv 0 21845 0 0\nv 1 0 21845 0\nv 2 0 0 21845\nt 1 2 0\n");
    let records = vec![[0, 21_846, 0, 0], [1, 0, 21_846, 0], [2, 0, 0, 21_846]];
    let old = second::Content { sizes: [2; 3], records, triangles: vec![[1, 2, 0]] };
    folder.put("old.sheet", &second::serialize(&old));
    for (sheet, own, other) in [("new", "nearest", "down"), ("old", "down", "nearest")] {
        folder.run(&format!("check v.raw {sheet}.sheet --start lowest --rule {own}")).well("accepted\n");
        let run = folder.run(&format!("check v.raw {sheet}.sheet --start lowest --rule {other}"));
        assert_eq!((run.status, run.output.as_str()), (Some(1), "refused 17 0\n"), "{run:?}");
        assert!(run.errors.contains(&format!("Under --rule {own} it is accepted")), "{run:?}");
    }
    folder.run("check v.raw new.sheet --start auto").well("accepted\nstart 0,0,0\n");
    folder.run("check v.raw new.sheet --rule up").failed_with("--rule takes down or nearest");
    // a sheet that neither rule accepts is not said to be of the other
    let mut wrong = old.clone();
    wrong.records[1][2] += 5;
    folder.put("wrong.sheet", &second::serialize(&wrong));
    let run = folder.run("check v.raw wrong.sheet --start lowest --rule down");
    assert!(run.status == Some(1) && !run.errors.contains("it is accepted"), "{run:?}");

    folder.put("m", b"v.raw new.sheet\nv.raw old.sheet down\nv.raw old.sheet lowest\n");
    let run = folder.run("audit m --csv a.csv");
    let lines = "accepted v.raw new.sheet 0,0,0\naccepted v.raw old.sheet 0,0,0\n\
                 refused 17 0 v.raw old.sheet 0,0,0, accepted under down\nsheets 3, accepted 2, refused 1, unread 0\n";
    assert!(run.status == Some(1) && run.output.starts_with(lines), "{run:?}");
    let csv = String::from_utf8(folder.get("a.csv")).expect("text");
    let rules: Vec<&str> = csv.lines().skip(1).filter_map(|line| line.rsplit(',').next()).collect();
    assert_eq!(rules, ["nearest", "down", "nearest"]);
    let run = folder.run("audit m --rule down");
    assert!(run.output.contains("refused 17 0 v.raw new.sheet 0,0,0, accepted under nearest\n"), "{run:?}");
    // no triangle of a sheet of the older rule is marked under it
    let run = folder.run("picture old.sheet p.png --volume v.raw --rule down");
    assert!(run.output.contains("accepted start 0,0,0 wrong 0"), "{run:?}");
}
