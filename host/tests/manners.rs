//! How the tool treats files, streams and signals, as a process.

mod common;

use common::{listed, pair, volume, Folder, Run, TOOL};
use std::fs::{self, File};
use std::io::Write;
use std::os::unix::fs::PermissionsExt;
use std::os::unix::process::ExitStatusExt;
use std::process::{Child, Command, Stdio};
use std::time::{Duration, Instant, SystemTime};
use trials::random::Random;

fn send(signal: &str, child: &Child) {
    let sent = Command::new("sh").args(["-c", "kill -\"$1\" \"$2\"", "sh", signal, &child.id().to_string()]).status();
    assert!(sent.is_ok());
}

/// Noise, whose sheet takes a while to build and to write; under an emulator less of it does.
fn noise() -> Vec<u8> {
    let mut random = Random::new(3);
    let n = if host::abi::EMULATED { 16 } else { 40 };
    let samples: Vec<i16> = (0..usize::pow(n, 3)).map(|_| random.bits() as i16).collect();
    volume([n as u16; 3], &samples)
}

#[test]
fn a_hundred_runs_hit_by_signals_leave_no_torn_and_no_stray_file() {
    let folder = Folder::new("signals");
    folder.put("v.vol", &noise());
    let began = Instant::now();
    assert_eq!(folder.run("build v.vol s.sheet --start lowest").status, Some(0));
    let (whole, long) = (folder.get("s.sheet"), began.elapsed());
    let mut random = Random::new(100);
    let mut hit = 0;
    for round in 0..100 {
        if random.once_in(2) {
            fs::remove_file(folder.0.join("s.sheet")).ok();
        }
        let before = fs::read(folder.0.join("s.sheet")).ok();
        let mut child = Command::new(TOOL)
            .args(["build", "v.vol", "s.sheet", "--start", "lowest"])
            .current_dir(&folder.0)
            .stdout(Stdio::null())
            .stderr(Stdio::null())
            .spawn()
            .expect("the tool runs");
        std::thread::sleep(Duration::from_secs_f64(random.unit() * long.as_secs_f64()));
        send(["INT", "TERM", "HUP"][round % 3], &child);
        let status = child.wait().expect("it ends");
        hit += usize::from(status.signal().is_some());
        assert!(status.signal().is_some() || status.code() == Some(0), "{status:?}");
        let names = folder.names();
        assert!(names.iter().all(|name| ["s.sheet", "v.vol"].contains(&name.as_str())), "{names:?}");
        let after = fs::read(folder.0.join("s.sheet")).ok();
        assert!(after == before || after.as_ref() == Some(&whole), "the sheet is torn");
    }
    println!("{hit} of 100 runs were ended by their signal, the others were through");
    assert!(hit > 0);
}

#[test]
fn audits_hit_by_signals_leave_no_report() {
    let folder = Folder::new("reports");
    folder.put("v.vol", &noise());
    assert_eq!(folder.run("build v.vol s.sheet --start lowest").status, Some(0));
    folder.put("m", "v.vol s.sheet\n".repeat(2000).as_bytes());
    for signal in ["INT", "TERM", "HUP"] {
        let mut child = Command::new(TOOL)
            .args(["audit", "m", "--csv", "a.csv", "--html", "a.html"])
            .current_dir(&folder.0)
            .stdout(Stdio::null())
            .stderr(Stdio::null())
            .spawn()
            .expect("the tool runs");
        // its unfinished reports are there
        let limit = Instant::now() + Duration::from_secs(20);
        while folder.names().iter().filter(|name| name.ends_with(".part")).count() < 2 && Instant::now() < limit {
            std::thread::sleep(Duration::from_millis(2));
        }
        send(signal, &child);
        assert!(child.wait().is_ok_and(|status| status.signal().is_some()));
        assert_eq!(folder.names(), ["m", "s.sheet", "v.vol"]);
    }
}

/// A shell line that becomes the tool, which waits for its standard input; then HUP is sent.
fn hung_up(line: &str) -> Child {
    let shell = Command::new("sh").args(["-c", line, "sh", TOOL]).stdin(Stdio::piped()).stdout(Stdio::piped()).spawn();
    let child = shell.expect("a shell");
    let name = || fs::read_to_string(format!("/proc/{}/comm", child.id())).unwrap_or_default();
    let limit = Instant::now() + Duration::from_secs(20);
    while name() != "malxuqeed\n" && Instant::now() < limit {
        std::thread::sleep(Duration::from_millis(5));
    }
    std::thread::sleep(Duration::from_millis(100));
    send("HUP", &child);
    std::thread::sleep(Duration::from_millis(50));
    child
}

#[test]
fn a_signal_that_was_ignored_stays_ignored() {
    let ended = hung_up("trap '' HUP; exec \"$1\" list 2>/dev/null").wait_with_output().expect("it ends");
    assert_eq!(Run::of(ended).output, "refused 1\n");
    let ended = hung_up("exec \"$1\" list").wait_with_output().expect("it ends");
    assert_eq!(ended.status.signal(), Some(1));
}

#[test]
fn what_dead_processes_left_is_swept() {
    let folder = Folder::new("sweep");
    folder.put("l.vol", &listed());
    let host = fs::read_to_string("/proc/sys/kernel/hostname").expect("a host's name");
    let host: String = host.chars().filter(char::is_ascii_alphanumeric).take(40).collect();
    let mut gone = Command::new("true").spawn().expect("a process");
    gone.wait().expect("it ends");
    let part = |host: &str, id: u32, old: bool| {
        let name = format!(".malxuqeed-{host}-{id}-0.part");
        let file = File::create(folder.0.join(&name)).expect("a file");
        if old {
            file.set_modified(SystemTime::now() - Duration::from_secs(600)).expect("a time");
        }
        name
    };
    part(&host, gone.id(), true);
    let mut stay = vec![
        part(&host, std::process::id(), true),
        part("otherhost", gone.id(), true),
        part(&host, gone.id() + 1_000_000_000, false),
        "l.sheet".to_string(),
        "l.vol".to_string(),
    ];
    folder.run("build l.vol l.sheet --start lowest").well("3 1 1\n");
    stay.sort();
    assert_eq!(folder.names(), stay);
}

#[test]
fn a_write_protected_file_is_replaced_by_force_alone() {
    let folder = Folder::new("protected");
    folder.put("l.vol", &listed());
    folder.put("s.sheet", b"precious");
    let path = folder.0.join("s.sheet");
    fs::set_permissions(&path, fs::Permissions::from_mode(0o444)).expect("rights");
    folder.run("build l.vol s.sheet --start lowest").failed_with("write-protected; --force replaces it");
    assert_eq!(folder.get("s.sheet"), b"precious");
    assert_eq!(folder.names(), ["l.vol", "s.sheet"]);
    folder.run("build l.vol s.sheet --start lowest --force").well("3 1 1\n");
    assert_eq!(folder.get("s.sheet").len(), 84);
    assert_eq!(path.metadata().map(|about| about.permissions().mode() & 0o777).ok(), Some(0o444));
}

#[test]
fn streams_in_place_of_files() {
    let folder = Folder::new("streams");
    folder.put("l.vol", &listed());
    folder.run("build l.vol l.sheet --start lowest").well("3 1 1\n");
    let run = folder.shell("\"$1\" build - - --start lowest < l.vol > piped.sheet");
    assert_eq!((run.status, run.errors.as_str()), (Some(0), "malxuqeed: 3 1 1\n"));
    assert_eq!(folder.get("piped.sheet"), folder.get("l.sheet"));
    folder.shell("\"$1\" check - l.sheet --start lowest < l.vol").well("accepted\n");
    folder.shell("\"$1\" check l.vol - --start lowest < l.sheet").well("accepted\n");
    folder.run("check - - --start lowest").failed_with("read once only");
    folder.shell("\"$1\" show - < l.sheet | head -n 1").well("3 1 2 2 2\n");
    folder.shell("\"$1\" info - < l.vol | head -n 1").well("sizes 2 2 2\n");
    let run =
        folder.shell("\"$1\" picture - - --size 64 < l.sheet > piped.png && \"$1\" picture l.sheet l.png --size 64");
    assert_eq!((run.status, run.output.as_str()), (Some(0), "3 1\n"));
    assert_eq!(folder.get("piped.png"), folder.get("l.png"));
    folder.put("-", &pair());
    folder.run("info ./-").well(
        "sizes 5 2 2\nsamples 20, -1 to 1\nair 2 (10.0 %)\nzeros 0\nfill 0 (of -32768)\ncrossed cubes 2 of 4\nsurfaces 2\n\
         start 0,0,0 passes through 1 cubes\nstart 3,0,0 passes through 1 cubes\n",
    );
}

#[test]
fn closed_standard_output_is_an_error() {
    let folder = Folder::new("closed");
    folder.put("l.vol", &listed());
    for line in ["list l.vol", "build l.vol l.sheet --start lowest", "--version"] {
        folder.shell(&format!("\"$1\" {line} >&-")).failed_with("standard output is closed");
    }
    assert_eq!(folder.names(), ["l.vol"]);
    folder
        .shell("\"$1\" list l.vol > /dev/full")
        .failed_with("standard output cannot be written: there is no room for it");
}

#[test]
fn control_characters_are_shown_escaped() {
    let folder = Folder::new("control");
    let name = "a\x1b[2J\nb.vol";
    let run = folder.run_words(&["info", name]);
    run.failed_with("a\\u{1b}[2J\\nb.vol cannot be read");
    folder.run_words(&["list", "--\x07bell"]).failed_with("--\\u{7}bell");
    folder.run_words(&["\x1b]0;title"]).failed_with("\\u{1b}]0;title");
}

#[test]
fn version_help_manual_and_completion_come_from_one_table() {
    let folder = Folder::new("texts");
    let version = folder.run("--version");
    assert!(version.output.starts_with(concat!("malxuqeed ", env!("CARGO_PKG_VERSION"), " (")), "{version:?}");
    assert_eq!(folder.run("version").output, version.output);
    let (help, manual) = (folder.run("help"), folder.run("manual"));
    let completion = folder.run("completion");
    assert_eq!(folder.run("--help").output, help.output);
    for command in &host::commands::COMMANDS {
        assert!(help.output.contains(&format!("\n  malxuqeed {}", command.name)), "{}", command.name);
        let about = folder.run(&format!("help {}", command.name));
        assert!(about.output.starts_with(&format!("malxuqeed {}", command.name)), "{about:?}");
        assert_eq!(folder.run(&format!("{} --help", command.name)).output, about.output);
        assert!(about.output.lines().chain(help.output.lines()).all(|line| line.chars().count() <= 100));
        let section = format!("\n.SS {}", command.usage().replace('-', "\\-"));
        assert!(manual.output.contains(&section), "{section}");
        for option in command.options {
            assert!(about.output.contains(option.name) && completion.output.contains(option.name), "{}", option.name);
        }
    }
    for row in &host::numbers::NUMBERS {
        assert!(manual.output.contains(&format!(".B {}\n", row.number)), "{}", row.number);
    }
    let asked = |words: &str, at: usize| {
        let line = format!(
            "bash -c 'eval \"$(\"$0\" completion)\"; COMP_WORDS=({words}); COMP_CWORD={at}; _malxuqeed; echo ${{COMPREPLY[*]}}' \"$1\""
        );
        folder.shell(&line).output
    };
    assert_eq!(asked("malxuqeed ch", 1), "check\n");
    assert_eq!(asked("malxuqeed check v s --st", 4), "--start\n");
    assert_eq!(asked("malxuqeed check v s --start a", 5), "auto\n");
    assert_eq!(asked("malxuqeed from-raw --type u", 3), "u8 u16\n");
    assert_eq!(asked("malxuqeed help pic", 2), "picture\n");
    folder.put("some.vol", b"");
    assert_eq!(asked("malxuqeed info so", 2), "some.vol\n");
}

#[test]
fn a_stream_that_ends_early_is_a_short_volume() {
    let mut child = Command::new(TOOL)
        .args(["list", "-"])
        .stdin(Stdio::piped())
        .stdout(Stdio::piped())
        .stderr(Stdio::piped())
        .spawn();
    let child = child.as_mut().expect("the tool runs");
    child.stdin.take().expect("a pipe").write_all(&listed()[..9]).expect("some bytes");
    let mut output = String::new();
    std::io::Read::read_to_string(&mut child.stdout.take().expect("a pipe"), &mut output).expect("text");
    assert_eq!((output.as_str(), child.wait().ok().and_then(|status| status.code())), ("refused 2\n", Some(1)));
}
