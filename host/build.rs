//! Links the proved library, target/staticlib/libcabi.a of the repository. No other one can be named, so what is tested and
//! installed is what was proved.
//!
//! The library is compiled for x86-64. On another processor it cannot be linked into a Rust program: it is then linked
//! with bridge/serve.c into a small x86-64 program, by the compiler of the Rattle kit, and run under an emulator, the
//! `qemu-x86_64` on the path (Debian's qemu-user). With the feature `own` the library that is compiled for this processor
//! (library.sh --own) is linked instead.

use std::path::{Path, PathBuf};
use std::process::{exit, Command, Stdio};

fn main() {
    println!("cargo:rustc-check-cfg=cfg(emulated)");
    println!("cargo:rerun-if-changed=build.rs");
    println!("cargo:rerun-if-changed=bridge/serve.c");
    let own = std::env::var_os("CARGO_FEATURE_OWN").is_some();
    let target = Path::new(env!("CARGO_MANIFEST_DIR")).join("../target");
    let archive = target.join(if own { "native" } else { "staticlib" }).join("libcabi.a");
    println!("cargo:rerun-if-changed={}", archive.display());
    let Ok(bytes) = std::fs::read(&archive) else {
        match own {
            true => stop("target/native/libcabi.a is missing: run `sh host/library.sh --own`"),
            false => stop("target/staticlib/libcabi.a is missing: run `sh host/library.sh`"),
        }
    };
    let here = std::env::var("CARGO_CFG_TARGET_ARCH").unwrap_or_default();
    if machine(&bytes) == Some(here.as_str()) {
        println!("cargo:rustc-link-search=native={}", archive.with_file_name("").display());
        println!("cargo:rustc-link-lib=static=cabi");
    } else {
        emulate(&archive);
    }
}

fn stop(why: &str) -> ! {
    eprintln!("{why}");
    exit(1)
}

/// The processor that an archive's first object is for.
fn machine(archive: &[u8]) -> Option<&'static str> {
    let object = archive.windows(4).position(|bytes| bytes == b"\x7fELF")?;
    match archive.get(object + 18..object + 20)? {
        [62, 0] => Some("x86_64"),
        [183, 0] => Some("aarch64"),
        _ => None,
    }
}

/// A program on the path.
fn on_path(name: &str) -> Option<PathBuf> {
    std::env::split_paths(&std::env::var_os("PATH")?).map(|folder| folder.join(name)).find(|file| file.is_file())
}

/// The kit's compiler and linker stand beside each other; `rt` leads to the kit.
fn kit_tools() -> Option<PathBuf> {
    let rt = on_path("rt")?.canonicalize().ok()?;
    Some(rt.parent()?.parent()?.join("toolchain/bin"))
}

fn emulate(archive: &Path) {
    let (Some(tools), Some(emulator)) = (kit_tools(), on_path("qemu-x86_64")) else {
        stop("the proved library is not for this processor, and `rt` or an emulator, `qemu-x86_64`, is not on the path");
    };
    let out = PathBuf::from(std::env::var_os("OUT_DIR").unwrap_or_default());
    let (object, server) = (out.join("serve.o"), out.join("serve"));
    let compile = Command::new(tools.join("clang"))
        .args(["--target=x86_64-unknown-linux-gnu", "-O2", "-ffreestanding", "-fno-builtin", "-fno-stack-protector"])
        .args(["-fno-pic", "-mno-red-zone", "-Wall", "-Wextra", "-c", "bridge/serve.c", "-o"])
        .arg(&object)
        .stdout(Stdio::null())
        .status();
    let link = |_| {
        let mut linker = Command::new(tools.join("ld.lld"));
        linker.args(["-static", "-o"]).arg(&server).arg(&object).arg(archive).stdout(Stdio::null()).status()
    };
    match compile.and_then(|compiled| if compiled.success() { link(()) } else { Ok(compiled) }) {
        Ok(status) if status.success() => {}
        _ => stop("bridge/serve.c was not compiled and linked with the proved library"),
    }
    println!("cargo:rustc-cfg=emulated");
    println!("cargo:rustc-env=MALXUQEED_EMULATOR={}", emulator.display());
    println!("cargo:rustc-env=MALXUQEED_SERVER={}", server.display());
}
