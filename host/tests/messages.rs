//! The sentences on standard error: they name files and values, and say what to do.

mod common;

use common::{listed, pair, volume, Folder};

#[test]
fn each_refusal_names_its_files_and_values() {
    let folder = Folder::new("messages");
    folder.put("l.vol", &listed());
    folder.put("p.vol", &pair());
    folder.run("build l.vol l.sheet --start lowest").well("3 1 1\n");
    let sheet = folder.get("l.sheet");
    let says = |line: &str, refusal: &str, words: &[&str]| {
        let run = folder.run(line);
        assert_eq!((run.status, run.output.lines().next()), (Some(1), Some(refusal)), "{run:?}");
        for words in words {
            assert!(run.errors.contains(words), "{words}: {run:?}");
        }
    };
    folder.put("few.vol", &volume([20, 20, 20], &[1; 2497]));
    says(
        "list few.vol",
        "refused 2",
        &["20 x 20 x 20 asks for 8000 samples, few.vol holds 2497.", "Copy the volume again"],
    );
    folder.put("half.vol", &listed()[..21]);
    says("list half.vol", "refused 2", &["half.vol holds 7 and half of one"]);
    folder.put("much.vol", &volume([2, 2, 2], &vec![1; 300_000]));
    says("list much.vol", "refused 2", &["2 x 2 x 2 asks for 8 samples, much.vol holds more than 262144"]);
    folder.put("long.vol", &volume([2, 65, 2], &[1; 260]));
    says("list long.vol", "refused 1", &["long.vol says 2 x 65 x 2 samples, an axis has 2 to 64", "cut into volumes"]);
    folder.put("tiny.vol", &[1, 2, 3]);
    says("list tiny.vol", "refused 1", &["tiny.vol has 3 bytes"]);
    says(
        "list p.vol --start 4,0,0",
        "refused 4",
        &["start 4,0,0 is no cube of p.vol", "cubes 0,0,0 to 3,0,0", "--start auto"],
    );
    says(
        "list p.vol --start 1,0,0",
        "refused 5",
        &["all eight corners of cube 1,0,0 of p.vol are solid", "start at 0,0,0 and 3,0,0", "malxuqeed pieces"],
    );
    folder.put("air.vol", &volume([2, 2, 2], &[7, 8, 9, 9, 9, 9, 9, 9]));
    says("list air.vol", "refused 5", &["no surface is in air.vol: its samples are 7 to 9, all air"]);

    let put = |name: &str, change: fn(&mut Vec<u8>)| {
        let mut bytes = sheet.clone();
        change(&mut bytes);
        folder.put(name, &bytes);
    };
    put("short.sheet", |bytes| bytes.truncate(20));
    says("show short.sheet", "refused 11 0", &["short.sheet has 20 bytes", "fetch it again"]);
    put("mark.sheet", |bytes| bytes[82] = 0);
    says(
        "check l.vol mark.sheet --start lowest",
        "refused 12 0",
        &["mark.sheet ends in 21248, a sheet file in the mark 21331"],
    );
    put("axis.sheet", |bytes| bytes[76] = 1);
    says("check l.vol axis.sheet --start lowest", "refused 1 0", &["axis.sheet says 1 x 2 x 2 samples"]);
    put("cut.sheet", |bytes| drop(bytes.drain(..16)));
    says(
        "check l.vol cut.sheet --start lowest",
        "refused 14 0",
        &["cut.sheet says 3 vertices and 1 triangles, which makes 84 bytes", "it has 68"],
    );
    put("stray.sheet", |bytes| bytes[52] = 9);
    says(
        "check l.vol stray.sheet --start lowest",
        "refused 15 0",
        &["triangle 0 of stray.sheet", "names vertex 9, where there are 3"],
    );
    says(
        "check p.vol l.sheet --start lowest",
        "refused 16 0",
        &["l.sheet is a sheet of 2 x 2 x 2 samples, p.vol has 5 x 2 x 2"],
    );
    put("moved.sheet", |bytes| bytes[24] ^= 1);
    let causes = ["vertex record 1, counted from 0, says edge 1 at 0 49153 0", "Likely causes", "another grey level"];
    says("check l.vol moved.sheet --start lowest", "refused 17 1", &causes);
    put("turned.sheet", |bytes| bytes.swap(48, 52));
    let causes =
        ["triangle 0, counted from 0, joins vertices 2 1 0", "sorted or joined without renumbering", "mirrored"];
    says("check l.vol turned.sheet --start lowest", "refused 18 0", &causes);
    folder.put(
        "none.sheet",
        &second::serialize(&second::Content { triangles: vec![], ..second::parse(&sheet).expect("a sheet") }),
    );
    says(
        "check l.vol none.sheet --start lowest",
        "refused 19 0",
        &["none.sheet, which holds 3 vertices and 0 triangles", "build the sheet anew"],
    );
}

/// 3x3x3, only the middle air, with fill at some samples.
fn middle(fill: &[usize]) -> Vec<u8> {
    let mut samples = [-4; 27];
    samples[13] = 4;
    fill.iter().for_each(|&n| samples[n] = i16::MIN);
    volume([3, 3, 3], &samples)
}

#[test]
fn refusal_5_tells_of_the_fill() {
    let folder = Folder::new("fill");
    let says = |line: &str, words: &[&str]| {
        let run = folder.run(line);
        assert_eq!((run.status, run.output.lines().next()), (Some(1), Some("refused 5")), "{run:?}");
        for words in words.iter().chain(&["a cube with a corner of -32768, the scanner's fill, is no start"]) {
            assert!(run.errors.contains(words), "{words}: {run:?}");
        }
    };
    folder.put("one.vol", &middle(&[0]));
    let holds = "cube 0,0,0 of one.vol holds the scanner's fill: 1 of its eight corners are -32768, which is no sample";
    says("list one.vol --start 0,0,0", &[holds, "such a cube is never visited"]);
    says("build one.vol one.sheet --start 0,0,0", &[holds]);
    folder.run("build one.vol one.sheet --start lowest").well("14 23 7\n");
    folder.run("build one.vol one.sheet --start 1,1,1").well("14 23 7\n");
    folder.run("check one.vol one.sheet --start 0,0,0").refused("refused 5 0");
    folder.run("check one.vol one.sheet --start auto").well("accepted\nstart 1,0,0\n");
    // a sheet of the time when the fill was solid
    folder.put("old.vol", &middle(&[]));
    folder.run("build old.vol old.sheet --start 0,0,0").well("14 24 8\n");
    let mut old = second::parse(&folder.get("old.sheet")).expect("a sheet");
    let (edge, vertex) = (6, old.records.len() as u32);
    old.records.push([edge, 0, 0, 0]);
    old.triangles.push([vertex, 0, 1]);
    folder.put("old.sheet", &second::serialize(&old));
    let run = folder.run("check one.vol old.sheet --start lowest");
    run.refused(&format!("refused 17 {vertex}"));
    assert!(!run.errors.contains("ends at the scanner's fill"), "{run:?}");
    old.records[vertex as usize][0] = 0;
    folder.put("old.sheet", &second::serialize(&old));
    let run = folder.run("check one.vol old.sheet --start lowest");
    run.refused(&format!("refused 17 {vertex}"));
    assert!(run.errors.contains("says edge 0 at 0 0 0, and that edge ends at the scanner's fill"), "{run:?}");
    // each of the eight cubes has one of these
    folder.put("each.vol", &middle(&[0, 2, 6, 8, 18, 20, 24, 26]));
    says(
        "list each.vol",
        &["no surface is in each.vol: its samples are -4 to 4, but no cube free of the scanner's fill is crossed: 8 samples"],
    );
    folder.put("solid.vol", &middle(&[13]));
    says("list solid.vol", &["its samples are -4 to -4, all solid, beside 1 of -32768, the scanner's fill"]);
    folder.put("air.vol", &volume([2, 2, 2], &[i16::MIN, 3, 4, 5, 6, 7, 8, i16::MIN]));
    says("list air.vol", &["its samples are 3 to 8, all air, beside 2 of -32768, the scanner's fill"]);
    says("list air.vol --start 0,0,0", &["2 of its eight corners are -32768"]);
    folder.put("none.vol", &volume([2, 2, 2], &[i16::MIN; 8]));
    says("list none.vol", &["no surface is in none.vol: all its samples are -32768, the scanner's fill"]);
}

#[test]
fn starts_from_the_sheet_where_fill_parts_pieces() {
    let folder = Folder::new("parted");
    let mut samples = [-1; 18];
    (samples[0], samples[4], samples[8]) = (i16::MIN, 1, i16::MIN);
    folder.put("p.vol", &volume([3, 3, 2], &samples));
    folder.run("build p.vol a.sheet --start lowest").told("5 3 1\n", "the next one is built with --start 0,1,0\n");
    folder.run("build p.vol b.sheet --start 0,1,0").told("5 3 1\n", "the next one is built with --start 1,0,0\n");
    // both surfaces have a vertex on edge 30; where it comes first, the cubes of both are tried
    for (name, start) in [("a.sheet", "1,0,0"), ("b.sheet", "0,1,0")] {
        let mut sheet = second::parse(&folder.get(name)).expect("a sheet");
        let shared = sheet.records.iter().position(|record| record[0] == 30).expect("edge 30");
        sheet.records.swap(0, shared);
        let other = |index: u32| match index as usize {
            0 => shared as u32,
            at if at == shared => 0,
            _ => index,
        };
        sheet.triangles.iter_mut().for_each(|triangle| *triangle = triangle.map(other));
        folder.put("first.sheet", &second::serialize(&sheet));
        folder.run(&format!("check p.vol {name} --start auto")).well(&format!("accepted\nstart {start}\n"));
        folder.run("check p.vol first.sheet --start auto").well(&format!("accepted\nstart {start}\n"));
    }
    folder.put("m.txt", b"p.vol a.sheet\np.vol b.sheet\np.vol b.sheet 0,0,0\n");
    let audit = folder.run("audit m.txt");
    assert_eq!(audit.status, Some(1));
    assert!(audit
        .output
        .contains("accepted p.vol a.sheet 1,0,0\naccepted p.vol b.sheet 0,1,0\nrefused 5 0 p.vol b.sheet 0,0,0"));
}

#[test]
fn starts_from_the_sheet() {
    let folder = Folder::new("auto");
    folder.put("p.vol", &pair());
    folder.run("build p.vol a.sheet --start 0,0,0");
    folder.run("build p.vol b.sheet --start 3,0,0");
    folder.run("check p.vol a.sheet --start auto").well("accepted\nstart 0,0,0\n");
    folder.run("check p.vol b.sheet --start=auto").well("accepted\nstart 3,0,0\n");
    folder.run("check p.vol b.sheet --start lowest").refused("refused 17 0");
    folder.run("check p.vol b.sheet --start 0,0,0").refused("refused 17 0");
    folder.put("short.sheet", &[0; 23]);
    folder.run("check p.vol short.sheet --start auto").refused("refused 11 0");
    folder.put("solid.vol", &volume([5, 2, 2], &[-1; 20]));
    folder.run("check solid.vol short.sheet --start auto").refused("refused 11 0");
    folder.run("check solid.vol short.sheet --start lowest").refused("refused 5 0");
    folder.run("check solid.vol a.sheet --start auto").refused("refused 5 0");
    folder
        .run("build p.vol c.sheet --start auto")
        .failed_with("--start takes X,Y,Z or lowest: X,Y,Z are three whole numbers");
    folder.run("check p.vol a.sheet --start default").failed_with("--start takes X,Y,Z or lowest or auto");
}

/// Document 02 (iv): a start that nobody names has no face in the bounds, and `lowest` names the one that was taken before.
#[test]
fn starts_that_nobody_names() {
    let folder = Folder::new("unnamed");
    let mut samples = [-1; 96];
    (samples[0], samples[64]) = (1, 1);
    folder.put("tray.vol", &volume([6, 4, 4], &samples));
    folder.run("build tray.vol inside.sheet").told("14 24 8\n", "the next one is built with --start 0,0,0\n");
    folder
        .run("build tray.vol lowest.sheet --start lowest")
        .told("3 1 1\n", "the next one is built with --start 3,1,1\n");
    folder.run("check tray.vol inside.sheet").well("accepted\n");
    folder.run("check tray.vol inside.sheet --start 3,1,1").well("accepted\n");
    folder.run("check tray.vol inside.sheet --start lowest").refused("refused 17 0");
    folder.run("check tray.vol lowest.sheet --start=lowest").well("accepted\n");
    folder.run("check tray.vol lowest.sheet").refused("refused 17 0");
    for line in ["list tray.vol", "list tray.vol --start lowest"] {
        assert_eq!(folder.run(line).output.lines().next(), Some("3 1 1"));
    }
    folder.put(
        "m.txt",
        b"tray.vol inside.sheet\ntray.vol inside.sheet default\n\
          tray.vol lowest.sheet lowest\ntray.vol lowest.sheet default\n",
    );
    let audit = folder.run("audit m.txt").output;
    let wanted = "accepted tray.vol inside.sheet 3,1,1\naccepted tray.vol inside.sheet 3,1,1\naccepted tray.vol lowest.sheet 0,0,0\n\
                  refused 17 0 tray.vol lowest.sheet 3,1,1\nsheets 4, accepted 3, refused 1, unread 0\n";
    assert!(audit.starts_with(wanted), "{audit}");
}

/// Refusal 5 says whether no cube is crossed or only cubes at the bounds are, and names the lowest of these.
#[test]
fn refusal_5_tells_of_the_bounds() {
    let folder = Folder::new("bounds");
    folder.put("m.vol", &middle(&[]));
    let words = "each cube of m.vol that a surface crosses has a face in the volume's bounds";
    let lowest = "the lowest of them is 0,0,0, which --start lowest takes";
    folder.run("build m.vol m.sheet --start lowest").well("14 24 8\n");
    for (line, first) in [("build m.vol n.sheet", "refused 5"), ("check m.vol m.sheet", "refused 5 0")] {
        let run = folder.run(line);
        run.refused(first);
        assert!(run.errors.contains(words) && run.errors.contains(lowest), "{run:?}");
    }
    folder.put("m.txt", b"m.vol m.sheet default\n");
    let audit = folder.run("audit m.txt --json -");
    assert!(audit.status == Some(1) && audit.output.contains("\"number\": 5"), "{audit:?}");
    folder.put("solid.vol", &middle(&[13]));
    for line in ["build solid.vol n.sheet", "build solid.vol n.sheet --start lowest"] {
        let run = folder.run(line);
        run.refused("refused 5");
        assert!(run.errors.contains("no surface is in solid.vol") && !run.errors.contains("bounds, and"), "{run:?}");
    }
    // the fill leaves the cubes at the bounds alone
    let mut samples = [-1; 64];
    (samples[21], samples[42]) = (1, i16::MIN);
    folder.put("f.vol", &volume([4, 4, 4], &samples));
    let run = folder.run("build f.vol n.sheet");
    run.refused("refused 5");
    let words = "each cube of f.vol that a surface crosses and that is free of the scanner's fill has a face in the volume's bounds";
    assert!(run.errors.contains(words) && run.errors.contains(lowest), "{run:?}");
}
