//! Links the proved archives that the firmware links, and says for reports the hashes of the
//! kernel's, what it says of its own logic, and what the kit at hand says of itself.
//!
//! The archives are crates/NAME/out/libNAME.a of the repository, of balkwizu and
//! balkwizu_turns, or the files that BALKWIZU_ARCHIVE and BALKWIZU_TURNS_ARCHIVE name. The
//! programs then call the kernel by that name, since nobody knows here whether it is the
//! proved one. An archive of the kit shows its exported functions alone, so several can be
//! linked into one program.

#[path = "src/reports/archive_text.rs"]
mod archive_text;
#[path = "src/reports/sha256.rs"]
mod sha256;

use std::env;
use std::error::Error;
use std::fs;
use std::path::{Path, PathBuf};
use std::process::Command;

/// An archive of the kit: the crate that it is made from, the variable that names
/// another archive in its place, and what it exports.
struct Archive {
    name: &'static str,
    variable: &'static str,
    exports: &'static [&'static str],
}

const KERNEL: Archive = Archive {
    name: "balkwizu",
    variable: "BALKWIZU_ARCHIVE",
    exports: &[
        "balkwizu_table_check",
        "balkwizu_run",
        "balkwizu_run_working",
        "balkwizu_run_by_length",
        "balkwizu_component",
        "balkwizu_repair",
        "balkwizu_potential",
        "balkwizu_could_influence",
        "balkwizu_write",
        "balkwizu_who_reaches",
        "balkwizu_version",
    ],
};

const TURNS: Archive = Archive {
    name: "balkwizu_turns",
    variable: "BALKWIZU_TURNS_ARCHIVE",
    exports: &[
        "balkwizu_turns_begin",
        "balkwizu_hand_in",
        "balkwizu_turn",
        "balkwizu_step",
        "balkwizu_turns_version",
    ],
};

/// What an archive for tests has in the names of its functions, and none for the firmware.
const FOR_TESTS: &str = "balkwizu_test_";

/// What is before the logic's name in an archive of the kit.
const LOGIC: &str = "rattle logic=";

fn main() {
    println!("cargo::rerun-if-changed=build.rs");
    println!("cargo::rerun-if-changed=src/reports/archive_text.rs");
    println!("cargo::rerun-if-changed=src/reports/sha256.rs");
    if let Err(wrong) = build() {
        println!("cargo::error={wrong}");
    }
}

fn build() -> Result<(), Box<dyn Error>> {
    let out = PathBuf::from(env::var("OUT_DIR")?);
    say_title();
    println!("cargo::rustc-env=KIT={}", kit().unwrap_or_default());
    say_identity(&link(&out, &KERNEL)?);
    link(&out, &TURNS)?;
    println!("cargo::rustc-link-search=native={}", out.display());
    Ok(())
}

/// Passes on what the kernel's archive is called.
fn say_title() {
    let title = match env::var_os(KERNEL.variable).map(PathBuf::from) {
        None => "proved archive".to_string(),
        Some(named) => {
            let path = fs::canonicalize(&named).unwrap_or(named);
            format!("archive {}", path.display())
        }
    };
    println!("cargo::rustc-env=ARCHIVE_TITLE={title}");
}

/// Passes on what a report says of the kernel's archive.
fn say_identity(archive: &[u8]) {
    println!(
        "cargo::rustc-env=ARCHIVE_SHA256={}",
        sha256::sha256(archive)
    );
    let text = archive_text::text_sha256(archive).unwrap_or_default();
    println!("cargo::rustc-env=ARCHIVE_TEXT={text}");
    println!("cargo::rustc-env=ARCHIVE_LOGIC={}", logic(archive));
}

/// Links an archive that the firmware links too, and returns its bytes: it has every export
/// and no function for tests. It is copied beside the others, so that it has the name to
/// link by wherever it came from.
fn link(out: &Path, wanted: &Archive) -> Result<Vec<u8>, Box<dyn Error>> {
    println!("cargo::rerun-if-env-changed={}", wanted.variable);
    let path = wanted.path()?;
    println!("cargo::rerun-if-changed={}", path.display());
    let (name, shown) = (wanted.name, path.display());
    let bytes = fs::read(&path).map_err(|why| {
        let made = wanted.made();
        format!("no archive {shown} ({why}): `firmware/make-archive {name}` makes {made}")
    })?;
    if has(&bytes, FOR_TESTS) {
        return Err(format!("{shown} has functions for tests: it isn't for the firmware").into());
    }
    if let Some(missing) = wanted.exports.iter().find(|export| !has(&bytes, export)) {
        return Err(format!("{shown} has no function {missing}").into());
    }
    fs::write(out.join(format!("lib{name}.a")), &bytes)?;
    println!("cargo::rustc-link-lib=static={name}");
    Ok(bytes)
}

/// The first line that a program says of itself, where there is one.
fn version(program: &str) -> Option<String> {
    let said = Command::new(program).arg("--version").output().ok()?;
    let text = String::from_utf8(said.stdout).ok()?;
    text.lines().next().map(str::to_string)
}

/// What the kit at hand says of itself, where there is one.
fn kit() -> Option<String> {
    let places = env::var_os("PATH")?;
    let mut programs = env::split_paths(&places).map(|place| place.join("rt"));
    let program = programs.find(|program| program.is_file())?;
    println!("cargo::rerun-if-changed={}", program.display());
    version("rt")
}

/// The logic that an archive says it was checked by, or nothing.
fn logic(archive: &[u8]) -> String {
    let mark = LOGIC.as_bytes();
    let found = archive.windows(mark.len()).position(|part| part == mark);
    let after = found.map_or(&[][..], |place| &archive[place + mark.len()..]);
    let digits = after.iter().take_while(|byte| byte.is_ascii_hexdigit());
    digits.map(|&byte| byte as char).collect()
}

/// Whether a name is in an archive.
fn has(archive: &[u8], name: &str) -> bool {
    archive
        .windows(name.len())
        .any(|part| part == name.as_bytes())
}

impl Archive {
    /// Where it is made in the repository.
    fn made(&self) -> String {
        format!("crates/{0}/out/lib{0}.a", self.name)
    }

    /// The file that is linked: the one that is named, or the repository's own.
    fn path(&self) -> Result<PathBuf, Box<dyn Error>> {
        if let Some(named) = env::var_os(self.variable) {
            return Ok(PathBuf::from(named));
        }
        let package = PathBuf::from(env::var("CARGO_MANIFEST_DIR")?);
        let repository = package.parent().ok_or("the package is in no folder")?;
        Ok(repository.join(self.made()))
    }
}
