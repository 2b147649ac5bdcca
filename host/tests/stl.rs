//! `stl` and `facets` as processes: what they print, their exit status, and the files they leave.

mod common;

use common::{listed, pair, volume, Folder};
use std::fs::File;
use std::os::unix::fs::FileExt;

/// Document 01's listing as facets: its triangle is 1 2 0.
const FACETS: &str = "1\nf 0 49152 0 0 0 49152 49152 0 0\n";

/// A folder with the listing's sheet and its STL file.
fn exported(name: &str) -> Folder {
    let folder = Folder::new(name);
    folder.put("l.vol", &listed());
    folder.run("build l.vol l.sheet --start lowest").well("3 1 1\n");
    folder.run("stl l.sheet l.stl").well("1\n");
    folder
}

/// A file with some bytes replaced.
fn altered(file: &[u8], at: usize, new: &[u8]) -> Vec<u8> {
    let mut file = file.to_vec();
    file[at..at + new.len()].copy_from_slice(new);
    file
}

#[test]
fn there_and_back() {
    let folder = exported("stl");
    let file = folder.get("l.stl");
    let sheet = second::parse(&folder.get("l.sheet")).expect("a sheet");
    let written = second::stl::write(3, 1, &sheet.records.concat(), &sheet.triangles.concat(), 134);
    assert_eq!(Ok(&file), written.as_ref());
    folder.run("facets l.stl").well(FACETS);
    folder.put("noted.stl", &altered(&altered(&file, 0, &[b'x'; 80]), 84, &[1; 12]));
    folder.run("facets noted.stl").well(FACETS);
    assert_eq!(folder.names(), ["l.sheet", "l.stl", "l.vol", "noted.stl"]);
}

#[test]
fn streams_and_file_manners() {
    let folder = exported("stl-streams");
    let run = folder.shell("\"$1\" stl - - < l.sheet > piped.stl");
    assert_eq!((run.status, run.errors.as_str()), (Some(0), "malxuqeed: 1\n"));
    assert_eq!(folder.get("piped.stl"), folder.get("l.stl"));
    folder.shell("\"$1\" facets - < l.stl").well(FACETS);
    folder.shell("cat l.stl | \"$1\" facets /dev/stdin").well(FACETS);
    folder.run("stl l.sheet l.sheet").failed_with("would be written over");
    folder.run("stl l.sheet").failed();
    folder.run("stl missing l.stl").failed_with("there is no such file");
    folder.run("stl l.sheet missing/l.stl").failed();
    folder.run("facets missing").failed();
    folder.run("facets .").failed_with("it is a folder");
    folder.run("facets l.stl l.stl").failed();
    let sheet = folder.get("l.sheet");
    folder.shell("chmod 444 l.stl; \"$1\" stl l.sheet l.stl").failed_with("--force replaces it");
    folder.run("stl --force l.sheet l.stl").well("1\n");
    folder.shell("\"$1\" facets l.stl > /dev/full").failed();
    assert_eq!((folder.get("l.sheet"), folder.get("l.stl")), (sheet, folder.get("piped.stl")));
    assert_eq!(folder.names(), ["l.sheet", "l.stl", "l.vol", "piped.stl"]);
}

#[test]
fn a_full_disk_leaves_the_old_file() {
    let folder = exported("stl-full");
    let samples: Vec<i16> = (0..1000).map(|n| if n * 7 % 5 == 0 { 9 } else { -9 }).collect();
    folder.put("v.vol", &volume([10, 10, 10], &samples));
    assert_eq!(folder.run("build v.vol v.sheet --start lowest").status, Some(0));
    let (names, old) = (folder.names(), folder.get("l.stl"));
    for stl in ["l.stl", "new.stl"] {
        folder.shell(&format!("trap '' XFSZ; ulimit -f 1; \"$1\" stl v.sheet {stl}")).failed_with("there is no room");
    }
    assert_eq!((folder.names(), folder.get("l.stl")), (names, old));
}

#[test]
fn a_refusal_of_writing_leaves_the_old_file() {
    let folder = exported("stl-refused");
    let sheet = folder.get("l.sheet");
    let wrong = [
        ("short", sheet[..20].to_vec(), "refused 11 0", "has 20 bytes"),
        ("cut", sheet[16..].to_vec(), "refused 14 0", "3 vertices and 1 triangles, which makes 84 bytes"),
        ("stray", altered(&sheet, 52, &[9]), "refused 15 0", "names vertex 9, where there are 3"),
        (
            "below",
            altered(&sheet, 4, &(-1i32).to_le_bytes()),
            "refused 25 0",
            "triangle 0 of below, counted from 0, has corners (0 49152 0) (0 0 49152) (-1 0 0)",
        ),
        ("beyond", altered(&sheet, 4, &4_128_769i32.to_le_bytes()), "refused 25 0", "(4128769 0 0)"),
    ];
    let old = folder.get("l.stl");
    for (name, bytes, refusal, words) in wrong {
        folder.put(name, &bytes);
        let run = folder.run(&format!("stl {name} l.stl"));
        run.refused(refusal);
        assert!(run.errors.contains(words), "{run:?}");
        assert_eq!(folder.get("l.stl"), old);
        folder.run(&format!("stl {name} new.stl")).refused(refusal);
    }
    folder.put("last", &altered(&sheet, 4, &4_128_768i32.to_le_bytes()));
    folder.run("stl last l.stl").well("1\n");
    folder.run("facets l.stl").well("1\nf 0 49152 0 0 0 49152 4128768 0 0\n");
    assert!(!folder.0.join("new.stl").exists());
}

#[test]
fn refusals_of_reading_in_the_file_s_terms() {
    let folder = exported("stl-read");
    let file = folder.get("l.stl");
    let wrong = [
        ("short", file[..83].to_vec(), "refused 14 0", "short has 83 bytes, a binary STL file has 84 at least"),
        ("cut", file[..133].to_vec(), "refused 14 0", "says 1 facets, which makes 134 bytes; it has 133"),
        ("long", [file.clone(), vec![0; 9]].concat(), "refused 14 0", "which makes 134 bytes; it has more"),
        ("more", altered(&file, 80, &[2]), "refused 14 0", "says 2 facets, which makes 184 bytes; it has 134"),
        ("text", b"solid a text\n".repeat(20), "refused 14 0", "one that is text begins with the word solid"),
        (
            "minus",
            altered(&file, 99, &[0x80]),
            "refused 25 0",
            "facet 0 of minus, counted from 0, has corners (-0 0.75 0)",
        ),
        ("half", altered(&file, 96, &0x3700_0000u32.to_le_bytes()), "refused 25 0", "take the file as it was exported"),
        ("nan", altered(&file, 96, &f32::NAN.to_le_bytes()), "refused 25 0", "(NaN 0.75 0)"),
        ("far", altered(&file, 96, &63.000_004f32.to_le_bytes()), "refused 25 0", "(63.000004 0.75 0)"),
    ];
    for (name, bytes, refusal, words) in wrong {
        folder.put(name, &bytes);
        let run = folder.run(&format!("facets {name}"));
        run.refused(refusal);
        assert!(run.errors.contains(words), "{run:?}");
    }
    folder.put("none", &[0; 84]);
    folder.run("facets none").well("0\n");
}

#[test]
fn files_of_any_length() {
    let folder = Folder::new("stl-length");
    let sparse = |name: &str, length: u64, count: u32| {
        let file = File::create(folder.0.join(name)).expect("a file");
        file.set_len(length).expect("a sparse file");
        file.write_all_at(&count.to_le_bytes(), 80).expect("its count");
    };
    sparse("zeros", 20_000_000_000, 0);
    folder.run("facets zeros").refused("refused 14 0");
    folder.run("facets /dev/zero").refused("refused 14 0");
    sparse("million", 84 + 50 * 1_000_000, 1_000_000);
    let run = folder.run("facets million");
    assert!(run.status == Some(0) && run.output == format!("1000000\n{}", "f 0 0 0 0 0 0 0 0 0\n".repeat(1_000_000)));
    sparse("less", 84 + 50 * 1_000_000, 1_000_001);
    folder.run("facets less").refused("refused 14 0");
}

#[test]
fn facets_of_no_area_are_told() {
    let folder = Folder::new("stl-flat");
    let exported = |name: &str, samples: &[i16]| {
        folder.put("v.vol", &volume([3, 3, 3], samples));
        folder.run("build v.vol v.sheet --start lowest").well("14 24 8\n");
        folder.run(&format!("stl v.sheet {name}.stl"))
    };
    let mut speck = [1; 27];
    speck[13] = -1;
    exported("some", &speck).well("24\n");
    speck[13] = 0;
    exported("none", &speck).told("24\n", "24 of 24 facets have no area");
    folder
        .run("facets none.stl")
        .well(&format!("24\n{}", "f 65536 65536 65536 65536 65536 65536 65536 65536 65536\n".repeat(24)));
    // one sample of exactly 0 beside a pore of one sample: one vertex lies on it, and no other
    let mut pore = [-1; 27];
    (pore[13], pore[12]) = (1, 0);
    exported("pore", &pore).well("24\n");
    folder.put("p.vol", &pair());
    folder.run("build p.vol p.sheet --start 3,0,0");
    folder.run("stl p.sheet p.stl").well("3\n");
}
