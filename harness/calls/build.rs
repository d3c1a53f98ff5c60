//! Builds the sheet program, and the C programs that make calls through the header.

use std::env;
use std::fs;
use std::path::{Path, PathBuf};
use std::process::Command;

/// Runs a command that must succeed.
fn run(command: &mut Command) {
    let output = command.output();
    let output = output.unwrap_or_else(|error| panic!("{command:?}: {error}"));
    let printed = [output.stdout, output.stderr].concat();
    let printed = String::from_utf8_lossy(&printed);
    assert!(output.status.success(), "{command:?} failed:\n{printed}");
}

/// What is in a folder.
fn inside(folder: &Path) -> Vec<PathBuf> {
    let entries = fs::read_dir(folder).unwrap_or_else(|error| panic!("{folder:?}: {error}"));
    entries
        .map(|entry| entry.expect("it is read").path())
        .collect()
}

/// Has this program run again where a source of a crate has changed. The kit writes beside them, to a folder `out` of each crate.
fn watch_sources(top: &Path) {
    let crates = inside(&top.join("crates"));
    for part in crates.iter().flat_map(|folder| inside(folder)) {
        if !part.ends_with("out") {
            println!("cargo:rerun-if-changed={}", part.display());
        }
    }
}

/// The harness tests the library of its own checkout, and no installed one.
fn check_library(top: &Path) {
    let include = env::var_os("DEP_FRAME_BUILDER_INCLUDE").expect("crate frame_builder names it");
    let include = PathBuf::from(include);
    let own = top.join("include");
    let same = include.canonicalize().ok() == own.canonicalize().ok();
    let advice = "run cargo in harness/, or set FRAME_BUILDER_NO_PKG_CONFIG=1";
    assert!(
        same,
        "the library of {include:?} is not tested here: {advice}"
    );
}

/// Compiles C sources of this harness over the static library; the program's path goes to a variable.
fn compile(top: &Path, sources: &[&str], options: &[&str], variable: &str) {
    let archive = env::var_os("DEP_FRAME_BUILDER_ARCHIVE").expect("crate frame_builder names it");
    let folder = PathBuf::from(env::var_os("OUT_DIR").expect("cargo names it"));
    let program = folder.join(variable.to_lowercase());
    let sources = sources.iter().map(|name| top.join("harness/c").join(name));
    let mut gcc = Command::new("gcc");
    gcc.args(["-std=c99", "-O2", "-Wall", "-Wextra", "-Werror"]);
    gcc.arg("-I").arg(top.join("include")).args(sources);
    gcc.arg(archive).args(options).arg("-o").arg(&program);
    run(&mut gcc);
    println!("cargo:rustc-env={variable}={}", program.display());
}

fn main() {
    let top = Path::new(env!("CARGO_MANIFEST_DIR")).join("../..");
    for watched in ["crates.txt", "include", "harness/c"] {
        println!("cargo:rerun-if-changed={}", top.join(watched).display());
    }
    watch_sources(&top);
    check_library(&top);
    run(Command::new(top.join("command/prove")).arg("frame"));
    compile(&top, &["calls.c"], &[], "CALLS_IN_C");
    let broken = ["calls.c", "writes_outside.c"];
    let wrapped = ["-Wl,--wrap=frame_builder_build"];
    compile(&top, &broken, &wrapped, "CALLS_WRITING_OUTSIDE");
}
