//! Volumes from greys, what a volume holds, and pictures, by the tool as a process.

mod common;

use common::{listed, pair, volume, Folder};

fn samples(folder: &Folder, name: &str) -> Vec<i16> {
    folder.get(name)[6..].chunks_exact(2).map(|pair| i16::from_le_bytes([pair[0], pair[1]])).collect()
}

#[test]
fn greys_of_each_type() {
    let folder = Folder::new("greys");
    folder.put("b.raw", &[0, 10, 99, 100, 101, 200, 254, 255]);
    folder.run("from-raw b.raw b.vol --sizes 2,2,2 --type u8 --level 100").well("2 2 2 samples, 3 of 8 are air\n");
    assert_eq!(folder.get("b.vol")[..6], [2, 0, 2, 0, 2, 0]);
    assert_eq!(samples(&folder, "b.vol"), [100, 90, 1, 0, -1, -100, -154, -155]);

    let greys = [0u16, 1, 999, 1000, 1001, 40_000, 65_534, 65_535];
    folder.put("w.raw", &greys.iter().flat_map(|grey| grey.to_le_bytes()).collect::<Vec<_>>());
    folder.put("wb.raw", &greys.iter().flat_map(|grey| grey.to_be_bytes()).collect::<Vec<_>>());
    folder.run("from-raw w.raw w.vol --sizes 2,2,2 --type u16 --level 1000").well("2 2 2 samples, 3 of 8 are air\n");
    assert_eq!(samples(&folder, "w.vol"), [1000, 999, 1, 0, -1, -32_767, -32_767, -32_767]);
    folder.run("from-raw wb.raw wb.vol --sizes 2,2,2 --type u16 --level 1000 --big-endian");
    assert_eq!(folder.get("wb.vol"), folder.get("w.vol"));

    let greys = [-32_768i16, -5, -4, 0, 7, 100, 32_766, 32_767];
    folder.put("i.raw", &greys.iter().flat_map(|grey| grey.to_le_bytes()).collect::<Vec<_>>());
    folder.run("from-raw i.raw i.vol --sizes 2,2,2 --type i16 --level=-4");
    assert_eq!(samples(&folder, "i.vol"), [32_764, 1, 0, -4, -11, -104, -32_767, -32_767]);
    folder.run("from-raw i.raw i.vol --sizes 2,2,2 --type i16 --level 32767");
    assert_eq!(samples(&folder, "i.vol")[0], 32_767);
    folder
        .shell("\"$1\" from-raw - - --sizes 2,2,2 --type u8 --level 100 < b.raw | cmp - b.vol")
        .told("", "3 of 8 are air");
}

#[test]
fn greys_of_what_the_scanner_does_not_see() {
    let folder = Folder::new("unseen");
    folder.put("b.raw", &[255, 10, 99, 100, 101, 255, 254, 0]);
    let with = |words: &str| folder.run(&format!("from-raw b.raw b.vol --sizes 2,2,2 --type u8 --level 100{words}"));
    with(" --fill 255")
        .told("2 2 2 samples, 3 of 8 are air, 2 are fill\n", "no cube without one of the 2 samples of fill");
    assert_eq!(samples(&folder, "b.vol"), [i16::MIN, 90, 1, 0, -1, i16::MIN, -154, 100]);
    with("").well("2 2 2 samples, 3 of 8 are air\n");
    assert_eq!(samples(&folder, "b.vol")[0], -155);
    with(" --fill 7").well("2 2 2 samples, 3 of 8 are air, 0 are fill\n");
    with(" --fill 256").failed_with("--fill 256 is no grey of this type, which has 0 to 255");
    with(" --fill x").failed_with("--fill takes a grey: a whole number");
    with(" --fill").failed_with("--fill takes G");

    let greys = [-32_768i16, -5, -4, 0, 7, 100, 32_766, 32_767].repeat(2);
    folder.put("i.raw", &greys.iter().flat_map(|grey| grey.to_le_bytes()).collect::<Vec<_>>());
    let line = "from-raw i.raw i.vol --sizes 4,2,2 --type i16 --level 5";
    folder
        .run(line)
        .told("4 2 2 samples, 8 of 16 are air\n", "2 greys are -32768, as scanners fill what they do not see");
    assert_eq!(samples(&folder, "i.vol")[0], 32_767);
    folder.run(&format!("{line} --fill -32768")).well("4 2 2 samples, 6 of 16 are air, 2 are fill\n");
    assert_eq!(samples(&folder, "i.vol")[..3], [i16::MIN, 10, 9]);
    folder.put("z.raw", &[9; 8]);
    let all = folder.run("from-raw z.raw z.vol --sizes 2,2,2 --type u8 --level 100 --fill 9");
    all.told("2 2 2 samples, 0 of 8 are air, 8 are fill\n", "all samples are fill: no surface is at level 100");
}

#[test]
fn a_part_of_a_larger_scan() {
    let folder = Folder::new("box");
    let greys: Vec<u8> = (0..100 * 3 * 4).map(|n| (n % 251) as u8).collect();
    folder.put("s.raw", &greys);
    folder.run("from-raw s.raw s.vol --sizes 100,3,4 --type u8 --level 50").failed_with("--box takes a part");
    folder.run("from-raw s.raw s.vol --sizes 100,3,4 --type u8 --level 50 --box 70,1,2,30,2,2");
    let wanted: Vec<i16> = (0..2 * 2 * 30)
        .map(|n| 50 - i16::from(greys[(70 + n % 30) + 100 * ((1 + n / 30 % 2) + 3 * (2 + n / 60))]))
        .collect();
    assert_eq!(samples(&folder, "s.vol"), wanted);
    folder
        .shell("\"$1\" from-raw - - --sizes 100,3,4 --type u8 --level 50 --box 70,1,2,30,2,2 < s.raw | cmp - s.vol")
        .told("", "30 of 120 are air");
    let over = folder.run("from-raw s.raw s.vol --sizes 100,3,4 --type u8 --level 50 --box 71,1,2,30,2,2");
    over.failed_with("30 greys from 71 on the x axis, where there are 100");
}

/// Every triangle of every surface of a volume, by positions from a place on, lowest corner first.
fn triangles(folder: &Folder, name: &str, from: [i32; 3]) -> Vec<[[i32; 3]; 3]> {
    let mut all = Vec::new();
    let info = folder.run(&format!("info {name}")).output;
    for start in info.lines().filter_map(|line| line.strip_prefix("start ")?.split(' ').next()) {
        assert_eq!(folder.run(&format!("build {name} s.sheet --start {start}")).status, Some(0));
        let sheet = second::parse(&folder.get("s.sheet")).expect("a sheet");
        let at = |vertex: u32| {
            let [_, x, y, z] = sheet.records[vertex as usize];
            [x + 65_536 * from[0], y + 65_536 * from[1], z + 65_536 * from[2]]
        };
        let turned = |[a, b, c]: [[i32; 3]; 3]| [[a, b, c], [b, c, a], [c, a, b]].into_iter().min().expect("three");
        all.extend(sheet.triangles.iter().map(|triangle| turned(triangle.map(at))));
    }
    all
}

#[test]
fn boxes_that_share_a_layer_make_up_the_whole() {
    let folder = Folder::new("boxes");
    let mut random = trials::random::Random::new(8);
    folder.put("s.raw", &(0..12 * 12 * 12).map(|_| random.bits() as u8).collect::<Vec<_>>());
    folder.run("from-raw s.raw whole.vol --sizes 12,12,12 --type u8 --level 60");
    let mut whole = triangles(&folder, "whole.vol", [0; 3]);
    let mut parts = Vec::new();
    for (x, nx) in [(0, 7), (6, 6)] {
        for (y, ny) in [(0, 7), (6, 6)] {
            for (z, nz) in [(0, 7), (6, 6)] {
                let line = "from-raw s.raw part.vol --sizes 12,12,12 --type u8 --level 60 --box";
                assert_eq!(folder.run(&format!("{line} {x},{y},{z},{nx},{ny},{nz}")).status, Some(0));
                parts.extend(triangles(&folder, "part.vol", [x, y, z]));
            }
        }
    }
    whole.sort();
    parts.sort();
    assert!(whole.len() > 4000 && whole == parts);
}

#[test]
fn every_misfit_is_refused_in_words() {
    let folder = Folder::new("misfit");
    folder.put("r.raw", &[7; 20]);
    folder.put("old.vol", b"old");
    let with = |words: &str| folder.run(&format!("from-raw r.raw old.vol {words}"));
    with("--sizes 2,2,6 --type u8 --level 5")
        .failed_with("2 x 2 x 6 greys of 1 byte(s) make 24 bytes, r.raw holds 20, 4 fewer");
    with("--sizes 2,2,4 --type u8 --level 5")
        .failed_with("r.raw holds 20, 4 more: look at --sizes and --type; if that is a header, cut it off with 'tail -c +5 r.raw >NEW'");
    with("--sizes 2,2,5 --type u16 --level 5").failed_with("make 40 bytes");
    with("--sizes 2,2 --type u8 --level 5").failed_with("--sizes takes X,Y,Z");
    with("--sizes 1,4,5 --type u8 --level 5").failed_with("an axis has 2 to 64 samples");
    with("--sizes 99999999999,99999999999,9 --type u8 --level 5 --box 0,0,0,2,2,2").failed_with("larger than any file");
    with("--sizes 2,2,5 --type u32 --level 5").failed_with("--type takes u8, u16 or i16, not u32");
    with("--sizes 2,2,5 --type u8 --level 256").failed_with("--level 256 is no grey of this type, which has 0 to 255");
    with("--sizes 2,2,5 --type u8 --level -1").failed_with("--level -1 is no grey");
    with("--sizes 2,2,5 --type u8 --level 5.5").failed_with("--level takes a grey");
    with("--sizes 2,2,5 --type u8 --level 5 --big-endian").failed_with("--big-endian says nothing about u8");
    with("--sizes 2,2,5 --type u8").failed_with("--level G is missing");
    with("--sizes 2,2,5 --level 5").failed_with("is missing");
    with("--sizes 2,2,5 --type u8 --level 5 --box 0,0,0,2,2").failed_with("--box takes X,Y,Z,NX,NY,NZ");
    folder.run("from-raw missing old.vol --sizes 2,2,5 --type u8 --level 5").failed_with("missing cannot be read");
    folder.run("from-raw r.raw r.raw --sizes 2,2,5 --type u8 --level 5").failed_with("would be written over");
    assert_eq!(folder.get("old.vol"), b"old");
    let flat = with("--sizes 2,2,5 --type u8 --level 7");
    flat.told("2 2 5 samples, 0 of 20 are air\n", "all samples are solid: no surface is at level 7");
}

#[test]
fn what_a_volume_holds() {
    let folder = Folder::new("info");
    folder.put("p.vol", &pair());
    folder.run("info p.vol").well(
        "sizes 5 2 2\nsamples 20, -1 to 1\nair 2 (10.0 %)\nzeros 0\nfill 0 (of -32768)\ncrossed cubes 2 of 4\nsurfaces 2\n\
         start 0,0,0 passes through 1 cubes\nstart 3,0,0 passes through 1 cubes\n",
    );
    let smooth: Vec<i16> =
        (0..1000).map(|n: i32| ((n % 10) * 300 + (n / 10 % 10) * 17 + n / 100 - 1400) as i16).collect();
    folder.put("good.vol", &volume([10, 10, 10], &smooth));
    assert_eq!(folder.run("info good.vol").errors, "");
    let hint = |name: &str, samples: &[i16], words: &str| {
        folder.put(name, &volume([10, 10, 10], samples));
        let run = folder.run(&format!("info {name}"));
        assert_eq!(run.status, Some(0));
        assert!(run.errors.contains(words), "{run:?}");
    };
    let swapped: Vec<i16> = smooth.iter().map(|sample| sample.swap_bytes()).collect();
    hint("swapped.vol", &swapped, "probably big-endian");
    let greys: Vec<i16> = smooth.iter().map(|sample| sample + 1400).collect();
    hint("greys.vol", &greys, "no sample is below 0");
    let inside = |n: i32| [n % 10, n / 10 % 10, n / 100].iter().all(|v| (1..9).contains(v));
    let turned: Vec<i16> = (0..1000).map(|n| if inside(n) { 500 } else { -500 }).collect();
    hint("turned.vol", &turned, "the sign is turned");
    let filled: Vec<i16> = smooth.iter().map(|sample| if *sample < -1300 { i16::MIN } else { *sample }).collect();
    hint("filled.vol", &filled, "are -32768, the scanner's fill; it is no sample");
    hint("unseen.vol", &[i16::MIN; 1000], "hint: all samples are -32768");
    hint("zeros.vol", &smooth.iter().map(|sample| sample / 100).collect::<Vec<_>>(), "0 is solid");
    hint("solid.vol", &[-5; 1000], "no sample is air");

    let refused = |name: &str, bytes: &[u8], number: usize, words: &str| {
        folder.put(name, bytes);
        let run = folder.run(&format!("info {name}"));
        assert_eq!((run.status, run.output), (Some(1), format!("refused {number}\n")));
        assert!(run.errors.contains(words), "{}", run.errors);
    };
    let big: Vec<u8> = folder.get("good.vol").chunks_exact(2).flat_map(|pair| [pair[1], pair[0]]).collect();
    // the fill is left out of least, greatest, shares, the rim and the steps between neighbours
    let ringed: Vec<i16> = (0..1000).map(|n| if inside(n as i32) { smooth[n] } else { i16::MIN }).collect();
    folder.put("ringed.vol", &volume([10, 10, 10], &ringed));
    let run = folder.run("info ringed.vol");
    let wanted = "sizes 10 10 10\nsamples 1000, -1082 to 1144\nair 256 (50.0 %)\nzeros 0\nfill 488 (of -32768)\n\
                  crossed cubes 49 of 729\nsurfaces 1\nstart 4,1,1 passes through 49 cubes\n";
    assert_eq!((run.status, run.output.as_str()), (Some(0), wanted));
    let faces = 9 * 9 * 9 - 7 * 7 * 7;
    assert!(run.errors.contains(&format!("the {faces} cubes that hold it are never visited")), "{run:?}");
    assert_eq!(run.errors.lines().count(), 1);

    refused("big.vol", &big, 1, "read as big-endian it is a volume of 10 x 10 x 10 samples");
    refused("bare.raw", &folder.get("good.vol")[6..], 1, "10 x 10 x 10 greys of u16 or i16 without a header");
    refused("short.vol", &folder.get("good.vol")[..1000], 2, "10 x 10 x 10 asks for 1000 samples, short.vol holds 497");
}

/// The pixels of a picture.
fn pixels(file: &[u8]) -> (u32, Vec<[u8; 3]>) {
    let mut reader = png::Decoder::new(file).read_info().expect("a PNG file");
    let mut rows = vec![0; reader.output_buffer_size()];
    let about = reader.next_frame(&mut rows).expect("a picture");
    assert_eq!((about.color_type, about.width), (png::ColorType::Rgb, about.height));
    (about.width, rows.chunks_exact(3).map(|pixel| [pixel[0], pixel[1], pixel[2]]).collect())
}

fn red(file: &[u8]) -> usize {
    let (_, pixels) = pixels(file);
    pixels.iter().filter(|[r, g, b]| *r > 90 && i32::from(*r) - 60 > (*g).max(*b).into()).count()
}

#[test]
fn pictures() {
    let folder = Folder::new("pictures");
    let case = trials::tray::volume();
    folder.put("tray.vol", &case.file());
    let piece = trials::tray::pieces(&case).into_iter().find(|piece| piece.name == "housing-2-pore-1").expect("a pore");
    let [x, y, z] = piece.start;
    assert_eq!(folder.run(&format!("build tray.vol pore.sheet --start {x},{y},{z}")).status, Some(0));
    folder.run("picture pore.sheet plain.png --size 300").well("186 368\n");
    let run = folder.run("picture pore.sheet good.png --size 300 --volume tray.vol");
    run.well("186 368 accepted start 36,13,11 wrong 0\n");
    assert_eq!(folder.get("plain.png"), folder.get("good.png"));
    assert_eq!((pixels(&folder.get("plain.png")).0, red(&folder.get("plain.png"))), (300, 0));
    let sand = pixels(&folder.get("plain.png")).1.iter().filter(|[r, _, b]| *r > b.saturating_add(20)).count();
    assert!(sand > 5000, "the pore is seen from its solid: {sand}");

    let mut sheet = second::parse(&folder.get("pore.sheet")).expect("a sheet");
    trials::archive::sort(&mut sheet);
    folder.put("sorted.sheet", &second::serialize(&sheet));
    let run = folder.run("picture sorted.sheet sorted.png --size 300 --volume tray.vol");
    assert!(run.output.starts_with("186 368 refused 18 0 start ") && run.output.contains(" wrong 36"), "{run:?}");
    assert!(red(&folder.get("sorted.png")) > 5000);
    folder.run("picture sorted.sheet other.png --size 300");
    assert_eq!(red(&folder.get("other.png")), 0);
    folder.run("picture sorted.sheet again.png --size 300 --volume tray.vol");
    assert_eq!(folder.get("sorted.png"), folder.get("again.png"));

    let mut sheet = second::parse(&folder.get("pore.sheet")).expect("a sheet");
    sheet.triangles.truncate(300);
    folder.put("torn.sheet", &second::serialize(&sheet));
    let run = folder.run("picture torn.sheet torn.png --size 300 --volume tray.vol");
    assert!(run.output.contains(" refused 19 0 ") && run.output.ends_with(" wrong 0\n"), "{run:?}");
    let purple = |[r, g, b]: &[u8; 3]| i32::from(*r.min(b)) - 40 > i32::from(*g);
    let missing = |name: &str| pixels(&folder.get(name)).1.iter().filter(|pixel| purple(pixel)).count();
    assert!(missing("torn.png") > 500 && missing("plain.png") == 0 && missing("sorted.png") == 0);

    folder.put("l.vol", &listed());
    folder.run("picture pore.sheet x.png --volume l.vol").refused("refused 16 0");
    folder.run("picture l.vol x.png").refused("refused 11 0");
    for wrong in
        ["picture pore.sheet x.png --size 5", "picture pore.sheet pore.sheet", "picture pore.sheet x.png --start auto"]
    {
        folder.run(wrong).failed();
    }
    assert!(!folder.names().contains(&"x.png".to_string()));
}
