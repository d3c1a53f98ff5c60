//! Finds the archive of the proved library and links it: one that is installed, or the one that the Rattle kit proves and writes in a
//! checkout of the frame builder. Where there is none it says what was tried, and what to do.

use std::env;
use std::ffi::OsString;
use std::fs;
use std::io::{Error, ErrorKind};
use std::path::{Path, PathBuf};
use std::process::{self, Command, Output};

/// What the search depends on.
const VARIABLES: [&str; 6] = [
    "FRAME_BUILDER_PREFIX",
    "FRAME_BUILDER_NO_PKG_CONFIG",
    "FRAME_BUILDER_SOURCE",
    "PKG_CONFIG",
    "PKG_CONFIG_PATH",
    "PKG_CONFIG_LIBDIR",
];

/// The first two numbers of the first version that has the calls as this crate makes them. Later ones with the same first number have them.
const CALLS: [u32; 2] = [6, 0];

const ADVICE: &str = "\
What to do, one of these:
  - run `./install --prefix DIR` in a checkout of the frame builder, and set FRAME_BUILDER_PREFIX=DIR
  - where it is installed in DIR, set PKG_CONFIG_PATH=DIR/lib/pkgconfig
  - install the Rattle kit (the command rt), and set FRAME_BUILDER_SOURCE to a checkout of the frame builder";

/// A library to link with.
struct Library {
    archive: PathBuf,
    header: PathBuf,
    version: String,
    /// What makes it another library when it changes.
    watched: Vec<PathBuf>,
}

/// Why a way leads to no library.
enum Miss {
    /// There is nothing, so that the next way is tried.
    Nothing(String),
    /// What is there is not as it has to be, and nothing else is taken in its place.
    Broken(String),
}

type Found = Result<Library, Miss>;
type Way = fn() -> Found;

fn main() {
    match check_target().and_then(|()| find()) {
        Ok(library) => tell(&library),
        Err(why) => {
            eprintln!("frame_builder: {why}");
            process::exit(1);
        }
    }
}

fn check_target() -> Result<(), String> {
    let value = |name| env::var(name).unwrap_or_default();
    let machine = value("CARGO_CFG_TARGET_ARCH");
    let system = value("CARGO_CFG_TARGET_OS");
    if machine == "x86_64" && system == "linux" {
        return Ok(());
    }
    let why = "the library runs on x86-64 Linux only, and this is built for";
    Err(format!("{why} {machine} {system}"))
}

/// The library of the first way that leads to one, or what was tried and what to do.
fn find() -> Result<Library, String> {
    let ways: [(&str, Way); 3] = [
        (
            "FRAME_BUILDER_PREFIX, a folder it is installed in",
            in_prefix,
        ),
        ("pkg-config, package frame_builder", by_pkg_config),
        ("rt lib in crates/exports, in a checkout of it", from_source),
    ];
    let mut tried = String::from("the library is not found. Tried, in this order:\n");
    for (place, (name, way)) in (1..).zip(ways) {
        match way() {
            Ok(library) => return with_these_calls(library),
            Err(Miss::Nothing(why)) => tried.push_str(&format!("  {place}. {name}: {why}\n")),
            Err(Miss::Broken(why)) => return Err(format!("{why}\n{ADVICE}")),
        }
    }
    Err(tried + ADVICE)
}

/// Refuses a library whose calls take other arguments or answer otherwise, which the linker would not notice, and one that has fewer.
fn with_these_calls(library: Library) -> Result<Library, String> {
    let (archive, version) = (library.archive.display(), &library.version);
    let [major, minor] = CALLS;
    let mut numbers = version.split('.').map(str::parse::<u32>);
    if numbers.next() == Some(Ok(major)) && matches!(numbers.next(), Some(Ok(n)) if n >= minor) {
        return Ok(library);
    }
    let needed = format!("this crate makes the calls of {major}.{minor} and later {major}.x");
    let why = format!("{archive} is of version {version}, and {needed}");
    Err(format!("{why}\n{ADVICE}"))
}

/// Way 1: a folder that the library is installed in.
fn in_prefix() -> Found {
    let name = "FRAME_BUILDER_PREFIX";
    let Some(prefix) = folder_in(name)? else {
        return Err(Miss::Nothing("not set".to_string()));
    };
    let library = installed(&prefix.join("lib"), &prefix.join("include"), version_in);
    library.map_err(|why| Miss::Broken(format!("{name} is {}, but {why}", prefix.display())))
}

/// Way 2: an installed library that pkg-config knows. It is not asked where a checkout is named.
fn by_pkg_config() -> Found {
    for name in ["FRAME_BUILDER_NO_PKG_CONFIG", "FRAME_BUILDER_SOURCE"] {
        if variable(name).is_some() {
            return Err(Miss::Nothing(format!("not asked, as {name} is set")));
        }
    }
    let version = pkg_config("--modversion")?;
    let folder = PathBuf::from(pkg_config("--variable=libdir")?);
    let include = PathBuf::from(pkg_config("--variable=includedir")?);
    let described = PathBuf::from(pkg_config("--variable=pcfiledir")?);
    let broken = |why| format!("pkg-config has frame_builder {version}, but {why}");
    let mut library = installed(&folder, &include, |_| Ok(version.clone()))
        .map_err(|why| Miss::Broken(broken(why)))?;
    library.watched.push(described.join("frame_builder.pc"));
    Ok(library)
}

/// Way 3: the library that the Rattle kit proves and writes, in the checkout that a variable names or that the crate stands in.
fn from_source() -> Found {
    let name = "FRAME_BUILDER_SOURCE";
    let named = folder_in(name)?;
    let top = named.clone().unwrap_or_else(above_crate);
    let library = check_checkout(&top).and_then(|()| proved(&top));
    let shown = top.display();
    library.map_err(|why| match named {
        Some(_) => Miss::Broken(format!("{name} is {shown}, but {why}")),
        None => Miss::Nothing(format!(
            "{name} is not set; this crate stands in {shown}, but {why}"
        )),
    })
}

/// The folder that a variable names. Cargo runs this program in the crate's folder, which nobody means by a relative path.
fn folder_in(name: &str) -> Result<Option<PathBuf>, Miss> {
    let Some(folder) = variable(name).map(PathBuf::from) else {
        return Ok(None);
    };
    if folder.is_relative() || folder.to_str().is_none() {
        let why = "but has to be a path that begins with /, in UTF-8";
        let shown = folder.display();
        return Err(Miss::Broken(format!("{name} is {shown}, {why}")));
    }
    Ok(Some(folder))
}

/// A variable's value; an empty one is as one that is not set.
fn variable(name: &str) -> Option<OsString> {
    env::var_os(name).filter(|value| !value.is_empty())
}

/// The library that is installed in these folders. Its version is asked for by its header.
fn installed(
    folder: &Path,
    include: &Path,
    version: impl FnOnce(&Path) -> Result<String, String>,
) -> Result<Library, String> {
    let archive = folder.join("libframe_builder.a");
    let header = include.join("frame_builder.h");
    check_file(&archive)?;
    check_file(&header)?;
    Ok(Library {
        version: version(&header)?,
        watched: vec![archive.clone(), header.clone()],
        archive,
        header,
    })
}

fn check_file(path: &Path) -> Result<(), String> {
    if path.is_file() {
        return Ok(());
    }
    Err(format!("{} is not there", path.display()))
}

/// The version that a header defines.
fn version_in(header: &Path) -> Result<String, String> {
    let shown = header.display();
    let text = fs::read_to_string(header).map_err(|error| format!("{shown}: {error}"))?;
    let define = "#define FRAME_BUILDER_VERSION ";
    let mut values = text.lines().filter_map(|line| line.strip_prefix(define));
    let version = values.find_map(|value| value.split('"').nth(1));
    let version = version.ok_or_else(|| format!("{shown} does not define FRAME_BUILDER_VERSION"));
    version.map(str::to_string)
}

/// What pkg-config says of the package.
fn pkg_config(question: &str) -> Result<String, Miss> {
    let command = variable("PKG_CONFIG").unwrap_or_else(|| "pkg-config".into());
    let shown = command.to_string_lossy();
    let output = Command::new(&command)
        .args([question, "frame_builder"])
        .output()
        .map_err(|error| Miss::Nothing(not_run(&shown, &error)))?;
    if !output.status.success() {
        return Err(Miss::Nothing(format!("{shown} knows no frame_builder")));
    }
    Ok(String::from_utf8_lossy(&output.stdout).trim().to_string())
}

fn not_run(command: &str, error: &Error) -> String {
    match error.kind() {
        ErrorKind::NotFound => format!("{command} is not installed"),
        _ => format!("{command} does not run: {error}"),
    }
}

/// The checkout, where the crate stands in one. Links are followed, so that a link to the crate does as well.
fn above_crate() -> PathBuf {
    let folder = PathBuf::from(env::var_os("CARGO_MANIFEST_DIR").unwrap_or_default());
    let folder = folder.canonicalize().unwrap_or(folder);
    folder.ancestors().nth(2).unwrap_or(&folder).to_path_buf()
}

fn check_checkout(top: &Path) -> Result<(), String> {
    let marks = ["crates.txt", "crates/exports", "include/frame_builder.h"];
    match marks.iter().find(|mark| !top.join(mark).exists()) {
        None => Ok(()),
        Some(mark) => Err(format!("that is no checkout: it has no {mark}")),
    }
}

/// The library of a checkout, which is proved first. The archive is copied, since the kit may take its own away while this one is in use.
fn proved(top: &Path) -> Result<Library, String> {
    let exports = top.join("crates/exports");
    let output = Command::new("rt")
        .arg("lib")
        .current_dir(&exports)
        .output()
        .map_err(|error| not_run("rt, the command of the Rattle kit,", &error))?;
    if !output.status.success() {
        return Err(format!("the proof failed:\n{}", printed(&output)));
    }
    let written = exports.join("out/libexports.a");
    let archive =
        PathBuf::from(env::var_os("OUT_DIR").unwrap_or_default()).join("libframe_builder.a");
    fs::copy(&written, &archive).map_err(|error| format!("{}: {error}", written.display()))?;
    let header = top.join("include/frame_builder.h");
    let mut watched = sources(&top.join("crates"))?;
    watched.extend([top.join("crates.txt"), header.clone()]);
    Ok(Library {
        version: version_in(&header)?,
        watched,
        archive,
        header,
    })
}

/// The sources of the crates in a folder. The kit writes beside them, to a folder `out` of each crate.
fn sources(crates: &Path) -> Result<Vec<PathBuf>, String> {
    let mut found = Vec::new();
    for folder in inside(crates)?.into_iter().filter(|path| path.is_dir()) {
        let parts = inside(&folder)?;
        found.extend(parts.into_iter().filter(|part| !part.ends_with("out")));
    }
    Ok(found)
}

/// What is in a folder.
fn inside(folder: &Path) -> Result<Vec<PathBuf>, String> {
    let entries = fs::read_dir(folder).and_then(Iterator::collect::<Result<Vec<_>, _>>);
    let entries = entries.map_err(|error| format!("{}: {error}", folder.display()))?;
    Ok(entries.into_iter().map(|entry| entry.path()).collect())
}

/// What a command printed, indented.
fn printed(output: &Output) -> String {
    let all = [&output.stdout[..], &output.stderr[..]].concat();
    let text = String::from_utf8_lossy(&all);
    let lines = text.lines().map(|line| format!("       {line}"));
    lines.collect::<Vec<String>>().join("\n")
}

/// Tells cargo, and the build scripts of crates that depend on this one: `DEP_FRAME_BUILDER_ARCHIVE` and so on.
fn tell(library: &Library) {
    let Library {
        archive,
        header,
        version,
        watched,
    } = library;
    for name in VARIABLES {
        println!("cargo:rerun-if-env-changed={name}");
    }
    for path in watched {
        println!("cargo:rerun-if-changed={}", path.display());
    }
    println!("cargo:rustc-link-search=native={}", folder_of(archive));
    println!("cargo:rustc-link-lib=static=frame_builder");
    println!("cargo:rustc-env=FRAME_BUILDER_VERSION={version}");
    println!("cargo:rustc-env=FRAME_BUILDER_HEADER={}", header.display());
    println!("cargo:archive={}", archive.display());
    println!("cargo:include={}", folder_of(header));
    println!("cargo:version={version}");
}

fn folder_of(file: &Path) -> String {
    let folder = file.parent().unwrap_or(file);
    folder.display().to_string()
}
