//! The library for others: installed below a folder of its own, moved, and called from C and from Python.

mod common;

use common::{listed, pair, Folder, Run, TOOL};
use std::path::Path;
use std::process::Command;

const ROOT: &str = concat!(env!("CARGO_MANIFEST_DIR"), "/..");

/// The archive that the tool is made over.
fn library() -> String {
    format!("{ROOT}/target/{}/libcabi.a", if host::abi::OWN { "native" } else { "staticlib" })
}

fn shell(folder: &Folder, line: &str) -> Run {
    let words = ["-euc", line, "sh", ROOT];
    Run::of(Command::new("sh").args(words).current_dir(&folder.0).output().expect("a shell"))
}

/// Three samples of air in 8 x 4 x 4, each on a surface of its own: the lowest of all, the lowest off the bounds, one that is named.
const STARTS: &[u8] = b"#include <malxuqeed.h>\n#include <stdio.h>\n\
    static int16_t samples[128];\nstatic int32_t vertices[4 * 896];\nstatic uint32_t triangles[36 * 63];\n\
    static uint16_t words[63];\nstatic uint32_t waiting[63], slots[896];\n\
    int main(void) {\n\
    malxuqeed_sizes sizes = {8, 4, 4};\nmalxuqeed_place named = {6, 0, 0};\n\
    uint32_t from[] = {MALXUQEED_FROM_DEFAULT, MALXUQEED_FROM_LOWEST, MALXUQEED_FROM_CUBE, 3, 4294967295u};\n\
    for (int n = 0; n < 128; n++) samples[n] = n == 0 || n == 7 || n == 2 + 8 * (2 + 4 * 2) ? 1 : -1;\n\
    for (int i = 0; i < 5; i++) {\n\
    malxuqeed_built b = malxuqeed_build(sizes, from[i], named, samples, 128, vertices, 4 * 896, triangles, 36 * 63,\n\
    words, 63, waiting, 63, slots, 896);\n\
    printf(\"%lu: %zu %zu %zu %zu\\n\", (unsigned long)from[i], b.number, b.vertices, b.triangles, b.cubes);\n\
    }\nreturn 0; }\n";

#[test]
fn installed_moved_and_called_from_c_and_python() {
    if host::abi::EMULATED {
        // Code for another processor cannot be linked here: the tests over the library compiled for this one do this.
        return;
    }
    let folder = Folder::new("install");
    let programs = Path::new(TOOL).parent().expect("a folder");
    let install =
        format!("sh \"$1/host/install.sh\" {} {} {}/first", programs.display(), library(), folder.0.display());
    let run = shell(&folder, &install);
    assert_eq!(run.status, Some(0), "{run:?}");
    shell(&folder, "mv first moved").well("");
    for name in ["bin/malxuqeed", "include/malxuqeed.h", "lib/libmalxuqeed.a", "lib/libmalxuqeed.so"] {
        assert!(folder.0.join("moved").join(name).exists(), "{name}");
    }
    for name in ["share/man/man1/malxuqeed.1", "share/bash-completion/completions/malxuqeed"] {
        assert!(folder.0.join("moved").join(name).metadata().is_ok_and(|about| about.len() > 1000), "{name}");
    }
    folder.put("l.vol", &listed());
    folder.put("p.vol", &pair());
    shell(&folder, "moved/bin/malxuqeed build l.vol l.sheet --start lowest").well("3 1 1\n");

    let flags = "PKG_CONFIG_PATH=moved/lib/pkgconfig pkg-config";
    let compile = "cc -std=c99 -O2 -Wall -Wextra -Wpedantic -Werror \"$1/examples/sheet.c\"";
    shell(&folder, &format!("{compile} $({flags} --cflags --libs malxuqeed) -o sheet")).well("");
    shell(&folder, "LD_LIBRARY_PATH=moved/lib ./sheet l.vol c.sheet").well("3 1 1, 84 bytes, accepted\n");
    shell(&folder, &format!("{compile} $({flags} --cflags malxuqeed) moved/lib/libmalxuqeed.a -o static")).well("");
    shell(&folder, "./static l.vol d.sheet").well("3 1 1, 84 bytes, accepted\n");
    assert_eq!((folder.get("c.sheet"), folder.get("d.sheet")), (folder.get("l.sheet"), folder.get("l.sheet")));
    folder.put("flat.vol", &common::volume([2, 2, 2], &[0; 8]));
    let run = shell(&folder, "./static flat.vol e.sheet");
    assert_eq!((run.status, run.output.as_str()), (Some(1), ""));
    assert!(run.errors.contains("building refused, 5: the surface does not pass"), "{run:?}");

    folder.put("starts.c", STARTS);
    let compile = "cc -std=c99 -Wall -Wextra -Wpedantic -Werror starts.c";
    shell(&folder, &format!("{compile} $({flags} --cflags malxuqeed) moved/lib/libmalxuqeed.a -o starts")).well("");
    shell(&folder, "./starts").well("0: 0 14 24 8\n1: 0 3 1 1\n2: 0 5 3 1\n3: 0 5 3 1\n4294967295: 0 5 3 1\n");

    shell(&folder, "./static p.vol p.sheet").well("3 1 1, 84 bytes, accepted\n");
    let python = "MALXUQEED_SO=moved/lib/libmalxuqeed.so.1 python3 \"$1/examples/check.py\"";
    shell(&folder, &format!("{python} l.vol l.sheet lowest")).well("accepted\n");
    let run = shell(&folder, &format!("{python} l.vol l.sheet"));
    assert_eq!((run.status, run.output.as_str()), (Some(1), "refused 5 0\n"));
    shell(&folder, &format!("{python} p.vol p.sheet 0,0,0")).well("accepted\n");
    let run = shell(&folder, &format!("{python} p.vol p.sheet 3,0,0"));
    assert_eq!((run.status, run.output.as_str()), (Some(1), "refused 17 0\n"));
}

#[test]
fn the_header_says_what_the_tool_says() {
    let header = std::fs::read_to_string(format!("{ROOT}/include/malxuqeed.h")).expect("the header");
    // a sentence of two lines is two strings side by side
    let flat = header.split_whitespace().collect::<Vec<_>>().join(" ").replace("\" \"", "");
    for row in &host::numbers::NUMBERS {
        assert!(flat.contains(&format!("MALXUQEED_{} = {}", row.name, row.number)), "{}", row.name);
        let case = format!("case MALXUQEED_{}: return \"{}\";", row.name, row.means);
        assert!(flat.contains(&case), "{case}");
        for words in [row.stl, row.floats, row.pieces].into_iter().flatten() {
            let own = format!("case MALXUQEED_{}: return \"{}\";", row.name, words.means);
            assert!(words.means == row.means || flat.contains(&own), "{own}");
        }
    }
    let count = header.lines().filter(|line| line.starts_with("    MALXUQEED_")).count();
    assert_eq!(count, 1 + host::numbers::NUMBERS.len());
}

#[test]
fn the_header_s_room_is_the_tool_s() {
    let folder = Folder::new("room");
    folder.put(
        "room.c",
        b"#include <malxuqeed.h>\n#include <stdio.h>\nint main(void) {\n\
          malxuqeed_sizes all[] = {{2, 3, 4}, {64, 64, 64}, {1, 2, 2}, {2, 65, 2}};\n\
          for (int i = 0; i < 4; i++) printf(\"%zu %zu %zu %zu %zu\\n\", malxuqeed_words_room(all[i]),\n\
          malxuqeed_waiting_room(all[i]), malxuqeed_slots_room(all[i]), malxuqeed_vertices_room(all[i]),\n\
          malxuqeed_triangles_room(all[i]));\n\
          printf(\"%zu %zu\\n\", malxuqeed_stl_bytes(3), malxuqeed_stl_bytes(0));\n\
          for (size_t n = 83; n < 236; n += 51) printf(\"%zu\\n\", malxuqeed_corners_room(n));\nreturn 0; }\n",
    );
    let mut wanted = String::new();
    for [nx, ny, nz] in [[2, 3, 4], [64, 64, 64], [1, 2, 2], [2, 65, 2]] {
        let sizes = host::abi::Sizes { nx, ny, nz };
        let (cubes, samples) = (host::room::cubes(sizes), host::room::samples(sizes));
        let (vertices, triangles) = (host::room::vertex_numbers(sizes), host::room::triangle_numbers(sizes));
        wanted += &format!("{cubes} {cubes} {} {vertices} {triangles}\n", 7 * samples);
    }
    wanted += "234 84\n0\n9\n18\n";
    shell(&folder, "cc -std=c99 -Wall -Wextra -Wpedantic -Werror -I \"$1/include\" room.c -o room && ./room")
        .well(&wanted);
}
