//! `convert` as a process: what it prints, its exit status, and the files it leaves.

mod common;

use common::{volume, Folder};
use std::fs::File;

fn floats(sizes: [u16; 3], voxels: &[f32]) -> Vec<u8> {
    let head = sizes.iter().flat_map(|axis| axis.to_le_bytes());
    head.chain(voxels.iter().flat_map(|voxel| voxel.to_le_bytes())).collect()
}

/// Eight voxels about 1.
const VOXELS: [f32; 8] = [0.5, 1.0, 1.5, 0.75, 2.0, 1.25, 1.0, 0.0];

/// A folder with these voxels, as f.flt and without a header as r.flt.
fn about_one(name: &str) -> Folder {
    let folder = Folder::new(name);
    let file = floats([2; 3], &VOXELS);
    folder.put("f.flt", &file);
    folder.put("r.flt", &file[6..]);
    folder
}

#[test]
fn levels_scales_and_headers() {
    let folder = about_one("floats");
    let made = |line: &str, samples: &[i16]| {
        folder.run(line).well("2 2 2\n");
        assert_eq!(folder.get("v.vol"), volume([2; 3], samples), "{line}");
    };
    made("convert f.flt v.vol --level 1", &[1, 0, 0, 1, -1, 0, 0, 1]);
    made("convert f.flt v.vol --level=1.0 --scale 4", &[2, 0, -2, 1, -4, -1, 0, 4]);
    made("convert f.flt v.vol --air 0 --material 2 --scale 256", &[128, 0, -128, 64, -256, -64, 0, 256]);
    made("convert f.flt v.vol --material 3e0 --air -1 --scale 1", &[1, 0, 0, 1, -1, 0, 0, 1]);
    made("convert r.flt v.vol --sizes 2,2,2 --level 1 --scale 2", &[1, 0, -1, 1, -2, 0, 0, 2]);
    made("convert f.flt v.vol --level 0.25 --scale 2", &[0, -1, -2, -1, -3, -2, -1, 1]);
    assert_eq!(folder.names(), ["f.flt", "r.flt", "v.vol"]);
}

#[test]
fn the_whole_way() {
    let folder = Folder::new("floats-way");
    let mut voxels = [0.75; 27];
    voxels[13] = 0.25;
    folder.put("f.flt", &floats([3; 3], &voxels));
    folder.run("convert f.flt v.vol --air 0 --material 1 --scale 64").well("3 3 3\n");
    folder.run("build v.vol v.sheet --start lowest").well("14 24 8\n");
    folder.run("check v.vol v.sheet --start lowest").well("accepted\n");
    folder.run("stl v.sheet v.stl").well("24\n");
    assert_eq!(folder.run("facets v.stl").output.lines().count(), 25);
}

#[test]
fn refusals_leave_the_old_file() {
    let folder = about_one("floats-refused");
    folder.put("v.vol", b"old");
    let file = folder.get("f.flt");
    let mut voxels = VOXELS;
    (voxels[5], voxels[7]) = (f32::NAN, f32::INFINITY);
    folder.put("nan.flt", &floats([2; 3], &voxels));
    voxels[5] = 65_536.01;
    folder.put("far.flt", &floats([2; 3], &voxels));
    folder.put("five.flt", &file[..5]);
    folder.put("axis.flt", &floats([2, 65, 2], &VOXELS));
    folder.put("cut.flt", &file[..37]);
    folder.put("long.flt", &[file, vec![0]].concat());
    let cases = [
        ("five.flt --level nan --scale 3", "refused 1 0", "five.flt has 5 bytes"),
        ("axis.flt --level nan --scale 3", "refused 1 0", "axis.flt says 2 x 65 x 2 samples, an axis has 2 to 64"),
        ("r.flt --sizes 1,2,4 --level 1", "refused 1 0", "--sizes says 1 x 2 x 4 samples"),
        ("cut.flt --level nan --scale 3", "refused 2 0", "2 x 2 x 2 voxels have 32 bytes, cut.flt holds 31"),
        ("long.flt --level 1", "refused 2 0", "long.flt holds 33"),
        ("f.flt --sizes 2,2,2 --level 1", "refused 2 0", "f.flt holds 38"),
        ("nan.flt --level nan --scale 3", "refused 26 0", "the scale is 3, it is a power of two"),
        ("f.flt --level 1 --scale 0", "refused 26 0", "the scale is 0"),
        ("f.flt --level 1 --scale 99999999999", "refused 26 0", "a power of two from 1 to 256"),
        ("nan.flt --level nan", "refused 21 0", "the level is NaN, a grey is a number from -65536 to 65536"),
        ("nan.flt --air 70000 --material 2", "refused 21 0", "the grey of air is 70000"),
        ("nan.flt --air 1 --material inf", "refused 21 0", "the grey of material is inf"),
        ("nan.flt --air 2 --material 2", "refused 21 5", "voxel 5 of nan.flt, counted from 0, is NaN"),
        ("far.flt --level 1", "refused 21 5", "voxel 5 of far.flt, counted from 0, is 65536.01"),
        ("f.flt --air 2 --material 2", "refused 22 0", "the grey of air, 2, is not below that of material, 2"),
        ("f.flt --air 3 --material 2", "refused 22 0", "--air and --material are exchanged"),
    ];
    for (words, refusal, says) in cases {
        let (name, options) = words.split_once(' ').expect("a name and options");
        let run = folder.run(&format!("convert {name} v.vol {options}"));
        run.refused(refusal);
        assert!(run.errors.contains(says), "{run:?}");
        folder.run(&format!("convert {name} new.vol {options}")).refused(refusal);
        assert_eq!(folder.get("v.vol"), b"old");
    }
    assert!(!folder.0.join("new.vol").exists());
}

#[test]
fn wrong_usage_streams_and_file_manners() {
    let folder = about_one("floats-usage");
    let with = |words: &str| folder.run(&format!("convert f.flt v.vol {words}"));
    with("").failed_with("--level G, or by --air A and --material M");
    with("--level 1 --air 0 --material 2").failed_with("--level G, or by --air A and --material M");
    with("--air 0").failed_with("--level G, or by");
    with("--level one").failed_with("--level G takes a number, not one");
    with("--level 1 --scale 1.5").failed_with("--scale takes a whole number");
    with("--level 1 --scale -1").failed_with("--scale takes a whole number");
    with("--level 1 --sizes 2,2").failed_with("--sizes takes X,Y,Z");
    folder.run("convert f.flt --level 1").failed();
    folder.run("convert missing v.vol --level 1").failed_with("there is no such file");
    folder.run("convert f.flt f.flt --level 1").failed_with("would be written over");
    assert_eq!(folder.names(), ["f.flt", "r.flt"]);
    with("--level 1").well("2 2 2\n");
    folder.shell("\"$1\" convert - - --level 1 < f.flt | cmp - v.vol").told("", "2 2 2");
    folder.shell("cat r.flt | \"$1\" convert /dev/stdin w.vol --sizes 2,2,2 --level 1").well("2 2 2\n");
    assert_eq!(folder.get("w.vol"), folder.get("v.vol"));
    folder.shell("chmod 444 v.vol; \"$1\" convert f.flt v.vol --level 1").failed_with("--force replaces it");
    with("--level 1 --force").well("2 2 2\n");
    with("--level 9 --force").told("2 2 2\n", "all samples are air: no surface is at this level");
    with("--level -9 --force").told("2 2 2\n", "all samples are solid");
    let file = File::create(folder.0.join("sparse")).expect("a file");
    file.set_len(20_000_000_000).expect("a sparse file");
    let run = folder.run("convert sparse v.vol --level 1 --sizes 64,64,64");
    run.refused("refused 2 0");
    assert!(run.errors.contains("64 x 64 x 64 voxels have 1048576 bytes, sparse holds more"), "{run:?}");
    folder.run("convert /dev/zero w.vol --level 1").refused("refused 1 0");
}
