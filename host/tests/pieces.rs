//! `pieces` and `build-all`, as a process.

mod common;

use common::{listed, pair, volume, Folder, TOOL};
use std::fs;
use std::os::unix::fs::PermissionsExt;
use std::os::unix::process::ExitStatusExt;
use std::process::{Command, Stdio};
use std::time::{Duration, Instant};
use trials::random::Random;

/// Solid, with air and fill at some samples.
fn with(sizes: [u16; 3], air: &[[u16; 3]], fill: &[[u16; 3]]) -> Vec<u8> {
    let number = |[x, y, z]: &[u16; 3]| usize::from(*x + sizes[0] * (*y + sizes[1] * *z));
    let mut samples = vec![-1; sizes.iter().map(|axis| usize::from(*axis)).product()];
    air.iter().for_each(|place| samples[number(place)] = 1);
    fill.iter().for_each(|place| samples[number(place)] = i16::MIN);
    volume(sizes, &samples)
}

/// Document 02 (v)'s worked values.
#[test]
fn pieces_of_a_volume() {
    let folder = Folder::new("pieces");
    let says = |bytes: &[u8], output: &str| {
        folder.put("v.vol", bytes);
        folder.run("pieces v.vol").well(output);
        folder.shell("\"$1\" pieces - < v.vol").well(output);
    };
    says(&listed(), "1\n0 0 0 0\n");
    says(&pair(), "2\n0 0 0 0\n3 3 0 0\n");
    says(&with([5, 5, 5], &[[1; 3], [3; 3]], &[]), "2\n0 0 0 0\n42 2 2 2\n");
    says(&with([5, 5, 5], &[[1; 3], [2; 3], [3; 3]], &[]), "1\n0 0 0 0\n");
    says(&with([6, 4, 4], &[[0; 3], [4, 2, 2]], &[]), "2\n0 0 0 0\n23 3 1 1\n");
    says(&with([3, 3, 2], &[[1, 1, 0]], &[[0, 0, 0], [2, 2, 0]]), "2\n1 1 0 0\n2 0 1 0\n");
    assert_eq!(folder.names(), ["v.vol"]);
}

#[test]
fn pieces_refused() {
    let folder = Folder::new("pieces-refused");
    let says = |name: &str, bytes: &[u8], number: usize, words: &str| {
        folder.put(name, bytes);
        for line in [format!("pieces {name}"), format!("build-all {name} all")] {
            let run = folder.run(&line);
            run.refused(&format!("refused {number}"));
            assert!(run.errors.contains(words), "{run:?}");
        }
        assert!(!folder.0.join("all").exists());
    };
    says("short.vol", &[1, 2, 3], 1, "short.vol has 3 bytes");
    says("axis.vol", &volume([2, 65, 2], &[1; 260]), 1, "axis.vol says 2 x 65 x 2 samples");
    says("few.vol", &listed()[..20], 2, "2 x 2 x 2 asks for 8 samples, few.vol holds 7");
    says("zero.vol", &volume([2, 2, 2], &[0; 8]), 5, "no surface is in zero.vol: its samples are 0 to 0, all solid");
    says("fill.vol", &with([2, 2, 2], &[[0; 3]], &[[1; 3]]), 5, "no cube free of the scanner's fill is crossed");
    assert!(folder.run("pieces zero.vol").errors.contains("The level or the sign of the samples is wrong"));
    folder.run("pieces missing").failed();
    folder.run("pieces").failed();
    folder.run("pieces a b").failed();
    folder.run("build-all zero.vol").failed();
    folder.run("build-all zero.vol -").failed_with("writes to a folder");
}

/// Ten by ten by ten, with a piece at each of eight samples; and its lines.
fn eight() -> (Vec<u8>, String) {
    let air: Vec<[u16; 3]> = (0..8).map(|n| [1 + 5 * (n % 2), 1 + 5 * (n / 2 % 2), 1 + 5 * (n / 4)]).collect();
    let line = |[x, y, z]: &[u16; 3]| {
        let [x, y, z] = [x - 1, y - 1, z - 1];
        format!("accepted {:06}.sheet {x},{y},{z} 14 24 8\n", x + 9 * (y + 9 * z))
    };
    let lines: String = air.iter().map(line).collect();
    (with([10, 10, 10], &air, &[]), format!("8\n{lines}"))
}

#[test]
fn build_all_writes_what_build_writes() {
    let folder = Folder::new("build-all");
    let (bytes, lines) = eight();
    folder.put("v.vol", &bytes);
    folder.run("build-all v.vol all").well(&lines);
    let names: Vec<String> =
        lines.lines().skip(1).filter_map(|line| line.split(' ').nth(1)).map(str::to_string).collect();
    let all = Folder(folder.0.join("all"));
    assert_eq!(all.names(), names);
    for line in lines.lines().skip(1) {
        let words: Vec<&str> = line.split(' ').collect();
        let run = folder.run(&format!("build v.vol one.sheet --start {}", words[2]));
        assert_eq!((run.status, run.output.trim_end()), (Some(0), "14 24 8"));
        assert_eq!(folder.get("one.sheet"), all.get(words[1]));
        folder.run(&format!("check v.vol all/{} --start {}", words[1], words[2])).well("accepted\n");
    }
    // from a stream, and to a folder that is there
    fs::create_dir(folder.0.join("more")).expect("a folder");
    folder.shell("\"$1\" build-all - more < v.vol").well(&lines);
    folder.shell("diff -r all more").well("");
}

#[test]
fn build_all_goes_on_where_it_was_interrupted() {
    let folder = Folder::new("build-all-on");
    let (bytes, lines) = eight();
    folder.put("v.vol", &bytes);
    folder.run("build-all v.vol all").well(&lines);
    let all = Folder(folder.0.join("all"));
    let names = all.names();
    fs::remove_file(all.0.join(&names[2])).expect("it goes");
    let age = |name: &str| all.0.join(name).metadata().and_then(|about| about.modified()).expect("a time");
    let before = age(&names[0]);
    folder.run("build-all v.vol all").told(&lines, "7 sheets were there already, as they should be\n");
    assert_eq!((all.names(), age(&names[0])), (names, before));
}

#[test]
fn build_all_mixes_nothing() {
    let folder = Folder::new("build-all-mix");
    let (bytes, lines) = eight();
    folder.put("v.vol", &bytes);
    folder.put("p.vol", &pair());
    folder.put("file", b"a file");
    for (name, words) in [
        ("file", "it is there and is no folder; name another"),
        ("file/new", "a part of the name is no folder"),
        ("missing/new", "there is no such file or folder"),
    ] {
        folder.run(&format!("build-all v.vol {name}")).failed_with(words);
    }
    fs::create_dir(folder.0.join("all")).expect("a folder");
    let all = Folder(folder.0.join("all"));
    // other names are let alone
    all.put("note.txt", b"a note");
    all.put("12.sheet", b"a sheet of mine");
    folder.run("build-all p.vol all").well("2\naccepted 000000.sheet 0,0,0 3 1 1\naccepted 000003.sheet 3,0,0 5 3 1\n");
    let names = all.names();
    assert_eq!(names, ["000000.sheet", "000003.sheet", "12.sheet", "note.txt"]);
    // a sheet of another volume under a name of this one, and one under none
    let run = folder.run("build-all v.vol all");
    run.failed_with("nothing was written: name another folder, or");
    assert_eq!(all.names(), names);
    fs::remove_file(all.0.join("000000.sheet")).expect("it goes");
    folder
        .run("build-all v.vol all")
        .failed_with("all holds 000003.sheet, which is of no piece of v.vol; nothing was written");
    fs::remove_file(all.0.join("000003.sheet")).expect("it goes");
    all.put("000005.sheet", b"precious");
    folder
        .run("build-all v.vol all")
        .failed_with("all/000005.sheet is there and is not the sheet of v.vol from 5,0,0; nothing was written");
    assert_eq!((all.get("000005.sheet").as_slice(), all.names().len()), (&b"precious"[..], 3));
    // by force, write-protected or not
    fs::set_permissions(all.0.join("000005.sheet"), fs::Permissions::from_mode(0o444)).expect("rights");
    all.put("000003.sheet", b"of another");
    folder.run("build-all v.vol all --force").told(&lines, "1 sheets in all are of no piece of v.vol; they stay\n");
    assert_eq!(all.get("000003.sheet"), b"of another");
    assert_eq!(all.names().len(), 8 + 3);
    // the volume itself is not written over
    fs::copy(folder.0.join("v.vol"), all.0.join("000000.sheet")).expect("a copy");
    folder.run("build-all all/000000.sheet all --force").failed_with("would be written over");
    assert_eq!(all.get("000000.sheet"), bytes);
}

/// Many small pieces, which take a while to write.
fn many() -> Vec<u8> {
    let air = |n: usize| if [n % 17, n / 17 % 17, n / 289].iter().all(|v| v % 4 == 1) { 5 } else { -5 };
    volume([17; 3], &(0..17 * 17 * 17).map(air).collect::<Vec<_>>())
}

#[test]
fn build_all_hit_by_signals_leaves_only_whole_sheets() {
    let folder = Folder::new("build-all-hit");
    folder.put("v.vol", &many());
    let began = Instant::now();
    assert_eq!(folder.run("build-all v.vol whole").status, Some(0));
    let (whole, long) = (Folder(folder.0.join("whole")), began.elapsed());
    let names = whole.names();
    assert_eq!(names.len(), 64);
    let mut random = Random::new(101);
    let (mut hit, mut some) = (0, 0);
    for round in 0..30 {
        let mut child = Command::new(TOOL)
            .args(["build-all", "v.vol", "all"])
            .current_dir(&folder.0)
            .stdout(Stdio::null())
            .stderr(Stdio::null())
            .spawn()
            .expect("the tool runs");
        std::thread::sleep(Duration::from_secs_f64(random.unit() * long.as_secs_f64()));
        let signal = ["INT", "TERM", "HUP"][round % 3];
        let kill = ["-c", "kill -\"$1\" \"$2\"", "sh", signal, &child.id().to_string()].map(str::to_string);
        assert!(Command::new("sh").args(kill).stderr(Stdio::null()).status().is_ok());
        let status = child.wait().expect("it ends");
        hit += usize::from(status.signal().is_some());
        if !folder.0.join("all").exists() {
            continue;
        }
        let all = Folder(folder.0.join("all"));
        let there = all.names();
        some += usize::from(!there.is_empty() && there.len() < names.len());
        for name in &there {
            assert!(names.contains(name), "{name}");
            assert_eq!(all.get(name), whole.get(name));
        }
        // the next run goes on, or begins anew
        if random.once_in(2) {
            std::mem::forget(all);
        }
    }
    println!("{hit} of 30 runs were ended by their signal, {some} left some sheets");
    assert!(hit > 0);
    let run = folder.run("build-all v.vol all");
    assert_eq!(run.status, Some(0), "{run:?}");
    folder.shell("diff -r all whole").well("");
}

#[test]
fn a_full_disk_leaves_only_whole_sheets() {
    let folder = Folder::new("build-all-full");
    let (bytes, _) = eight();
    folder.put("v.vol", &bytes);
    // a limit on the length of files, with the signal ignored: the write of 536 bytes fails as on a full disk
    let run = folder.shell("trap '' XFSZ; ulimit -f 0; \"$1\" build-all v.vol all");
    assert_eq!((run.status, run.output.as_str()), (Some(2), "8\n"));
    assert!(run.errors.contains("all/000000.sheet cannot be written: there is no room for it"), "{run:?}");
    assert_eq!(Folder(folder.0.join("all")).names(), [""; 0]);
}

/// The hints of `build`, and of a start that is none, are the pieces'.
#[test]
fn hints_by_pieces() {
    let folder = Folder::new("hints");
    let (bytes, _) = eight();
    folder.put("v.vol", &bytes);
    folder.run("build v.vol s.sheet --start 5,0,0").told(
        "14 24 8\n",
        "56 crossed cubes are not on this sheet but on 7 other surfaces; the next one is built with --start 0,5,0\n",
    );
    folder.run("build v.vol s.sheet --start 6,6,6").told("14 24 8\n", "the next one is built with --start 0,0,0\n");
    let run = folder.run("build v.vol s.sheet --start 3,3,3");
    run.refused("refused 5");
    assert!(
        run.errors.contains("are solid; its 8 surfaces start at 0,0,0, 5,0,0, 0,5,0 and so on. 'malxuqeed pieces'"),
        "{run:?}"
    );
    folder.put("p.vol", &pair());
    let run = folder.run("build p.vol s.sheet --start 1,0,0");
    assert!(run.errors.contains("are solid; its 2 surfaces start at 0,0,0 and 3,0,0."), "{run:?}");
    folder.put("l.vol", &with([3, 3, 3], &[[0; 3]], &[]));
    let run = folder.run("build l.vol s.sheet --start 1,1,1");
    assert!(run.errors.contains("are solid; the one surface there is starts at 0,0,0."), "{run:?}");
    folder.put("z.vol", &volume([2, 2, 2], &[0; 8]));
    let run = folder.run("build z.vol s.sheet --start 0,0,0");
    assert!(run.errors.contains("are solid; no surface is in the volume."), "{run:?}");
}
