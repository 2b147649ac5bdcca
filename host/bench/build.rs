//! Compiles the C files: by clang -O3 where there is a clang, else by cc -O3.

use std::path::PathBuf;
use std::process::{exit, Command};

const SOURCES: [&str; 3] = ["second.c", "stl.c", "floats.c"];

fn main() {
    println!("cargo:rerun-if-changed=build.rs");
    SOURCES.iter().for_each(|source| println!("cargo:rerun-if-changed={source}"));
    let out = PathBuf::from(std::env::var_os("OUT_DIR").unwrap_or_default());
    let objects = SOURCES.map(|source| out.join(source).with_extension("o"));
    let archive = out.join("libsecond_c.a");
    let compiler = if runs(Command::new("clang").arg("--version")) { "clang" } else { "cc" };
    let compile = |(source, object): (&&str, &PathBuf)| {
        runs(Command::new(compiler).args(["-O3", "-fPIC", "-c", source, "-o"]).arg(object))
    };
    let compiled = SOURCES.iter().zip(&objects).all(compile);
    let _ = std::fs::remove_file(&archive);
    if !compiled || !runs(Command::new("ar").arg("rcs").arg(&archive).args(&objects)) {
        eprintln!("the C files were not compiled: a C compiler (clang or cc) and ar are needed");
        exit(1);
    }
    println!("cargo:rustc-env=BASELINE_COMPILER={compiler} -O3");
    println!("cargo:rustc-link-search=native={}", out.display());
    println!("cargo:rustc-link-lib=static=second_c");
}

fn runs(command: &mut Command) -> bool {
    // Cargo reads this program's standard output, so the commands get none.
    matches!(command.stdout(std::process::Stdio::null()).status(), Ok(status) if status.success())
}
