//! Compiles the plain C kernel to measure the proved one against: by gcc, and by clang where
//! there is one. Compiles the wrong kernels of bench/c/wrong too, by which the checklist and
//! the bench are tested in their turn. Each compiler's functions get a prefix of their own,
//! so that all of them are in one program.
//!
//! Where they are there, the archives of the crates test_export and test_check_export are
//! linked too: they have the kernel's public step for `bench step`, the queue's functions
//! for `bench queue` and the check of a table's words for `bench speed`, which the
//! firmware's archive hasn't got.

use std::env;
use std::error::Error;
use std::fs;
use std::path::{Path, PathBuf};
use std::process::Command;

/// An archive for tests alone: the crate that it is made from, the variable that names
/// another archive in its place, what it exports, and the flag that the program is compiled
/// with where it is linked.
struct Archive {
    name: &'static str,
    variable: &'static str,
    exports: &'static [&'static str],
    flag: &'static str,
}

const ARCHIVES: [Archive; 2] = [
    Archive {
        name: "test_export",
        variable: "BALKWIZU_TEST_ARCHIVE",
        exports: &[
            "balkwizu_test_step",
            "balkwizu_test_send",
            "balkwizu_test_receive",
            "balkwizu_test_both_ways",
        ],
        flag: "test_export",
    },
    Archive {
        name: "test_check_export",
        variable: "BALKWIZU_CHECK_ARCHIVE",
        exports: &["balkwizu_test_check"],
        flag: "check",
    },
];

const PLAIN_SOURCES: [&str; 2] = ["plain_check", "plain_run"];
const FLAGS: [&str; 6] = [
    "-std=c11",
    "-O3",
    "-Wall",
    "-Wextra",
    "-Werror",
    "-pedantic",
];
/// Quick to compile, and a fault may leave something unused.
const WRONG_FLAGS: [&str; 4] = ["-std=c11", "-O1", "-pedantic-errors", "-w"];

fn main() {
    println!("cargo::rerun-if-changed=build.rs");
    println!("cargo::rerun-if-changed=c");
    println!("cargo::rustc-check-cfg=cfg(clang)");
    if let Err(wrong) = build() {
        println!("cargo::error={wrong}");
    }
}

fn build() -> Result<(), Box<dyn Error>> {
    let out = PathBuf::from(env::var("OUT_DIR")?);
    for archive in &ARCHIVES {
        archive.link(&out)?;
    }
    compile_wrong(&out)?;
    compile_plain("gcc", &out)?;
    let mut compilers = vec![version("gcc").ok_or("no gcc")?];
    if let Some(clang) = version("clang") {
        compile_plain("clang", &out)?;
        println!("cargo::rustc-cfg=clang");
        compilers.push(clang);
    }
    println!("cargo::rustc-env=PLAIN_FLAGS={}", FLAGS.join(" "));
    println!(
        "cargo::rustc-env=PLAIN_COMPILERS={}",
        compilers.join(" and ")
    );
    println!("cargo::rustc-link-search=native={}", out.display());
    Ok(())
}

/// The first line that a compiler says of itself, where there is one.
fn version(compiler: &str) -> Option<String> {
    let said = Command::new(compiler).arg("--version").output().ok()?;
    let text = String::from_utf8(said.stdout).ok()?;
    text.lines().next().map(str::to_string)
}

impl Archive {
    /// Links the archive where there is one, which must have the exports.
    fn link(&self, out: &Path) -> Result<(), Box<dyn Error>> {
        println!("cargo::rerun-if-env-changed={}", self.variable);
        println!("cargo::rustc-check-cfg=cfg({})", self.flag);
        let path = self.path()?;
        // Where there is none the next build looks again.
        println!("cargo::rerun-if-changed={}", path.display());
        let Ok(bytes) = fs::read(&path) else {
            return Ok(());
        };
        let has = |name: &str| {
            bytes
                .windows(name.len())
                .any(|part| part == name.as_bytes())
        };
        if let Some(name) = self.exports.iter().find(|name| !has(name)) {
            return Err(format!("{} has no function {name}", path.display()).into());
        }
        fs::write(out.join(format!("lib{}.a", self.name)), bytes)?;
        println!("cargo::rustc-link-lib=static={}", self.name);
        println!("cargo::rustc-cfg={}", self.flag);
        Ok(())
    }

    /// The file that is linked: the one that is named, or the repository's own.
    fn path(&self) -> Result<PathBuf, Box<dyn Error>> {
        if let Some(named) = env::var_os(self.variable) {
            return Ok(PathBuf::from(named));
        }
        let package = PathBuf::from(env::var("CARGO_MANIFEST_DIR")?);
        let repository = package.parent().ok_or("the package is in no folder")?;
        Ok(repository.join(format!("crates/{0}/out/lib{0}.a", self.name)))
    }
}

/// Compiles bench/c with one compiler into libplain_COMPILER.a, each function
/// `plain_NAME` called `plain_COMPILER_NAME` in it.
fn compile_plain(compiler: &str, out: &Path) -> Result<(), Box<dyn Error>> {
    let library = format!("plain_{compiler}");
    let archive = out.join(format!("lib{library}.a"));
    let mut objects = Vec::new();
    for source in PLAIN_SOURCES {
        let object = out.join(format!("{compiler}_{source}.o"));
        let mut command = Command::new(compiler);
        command.args(FLAGS).arg("-c");
        command.arg(format!("-Dplain_table_check={library}_table_check"));
        command.arg(format!("-Dplain_run={library}_run"));
        command.arg(format!("c/{source}.c")).arg("-o").arg(&object);
        finish(&mut command)?;
        objects.push(object);
    }
    let _ = fs::remove_file(&archive);
    finish(Command::new("ar").arg("crs").arg(&archive).args(&objects))?;
    println!("cargo::rustc-link-lib=static={library}");
    Ok(())
}

/// Compiles the wrong kernels of bench/c/wrong into libwrong.a, the functions
/// `plain_NAME` of each called `wrong_FILE_NAME` in it, and writes the list of them for
/// the program.
fn compile_wrong(out: &Path) -> Result<(), Box<dyn Error>> {
    let mut files: Vec<PathBuf> = fs::read_dir("c/wrong")?
        .map(|entry| Ok(entry?.path()))
        .collect::<Result<_, std::io::Error>>()?;
    files.retain(|file| file.extension().is_some_and(|kind| kind == "edit"));
    files.sort();
    let mut listed = String::from("&[\n");
    let mut objects = Vec::new();
    for file in &files {
        let edit = Edit::read(file).map_err(|why| format!("{}: {why}", file.display()))?;
        objects.extend(compile_edited(&edit, out)?);
        let name = format!("wrong-{}", edit.name);
        let title = format!("kernel {name} ({})", edit.what);
        let (check, run) = (edit.function("table_check"), edit.function("run"));
        listed += &format!("kernel!({name:?}, {title:?}, {check}, {run}),\n");
    }
    let archive = out.join("libwrong.a");
    let _ = fs::remove_file(&archive);
    finish(Command::new("ar").arg("crs").arg(&archive).args(&objects))?;
    println!("cargo::rustc-link-lib=static=wrong");
    fs::write(out.join("wrong.rs"), listed + "]\n")?;
    Ok(())
}

/// A fault in the plain C kernel, as a file of bench/c/wrong has it:
///
///     what: the fault in words
///     file: plain_run.c
///     check: the check of the checklist that must fail for it
///     --- old
///     whole lines that stand in the file just once
///     --- new
///     the lines that take their place, or none
struct Edit {
    name: String,
    what: String,
    source: String,
    text: String,
}

impl Edit {
    fn read(file: &Path) -> Result<Edit, Box<dyn Error>> {
        let edit = fs::read_to_string(file)?;
        let (head, body) = edit.split_once("--- old\n").ok_or("no line `--- old`")?;
        let (old, new) = body.split_once("--- new\n").ok_or("no line `--- new`")?;
        let fields: Vec<(&str, &str)> = head.lines().filter_map(|l| l.split_once(": ")).collect();
        let [("what", what), ("file", source), ("check", "1" | "2" | "3" | "4")] = fields[..]
        else {
            return Err("needs what, file and check, which is 1 to 4, before `--- old`".into());
        };
        let text = fs::read_to_string(format!("c/{source}"))?;
        match text.matches(old).count() {
            1 if !old.is_empty() && old != new => {}
            times => return Err(format!("its old lines stand {times} times in {source}").into()),
        }
        Ok(Edit {
            name: file
                .file_stem()
                .unwrap_or_default()
                .to_string_lossy()
                .into_owned(),
            what: what.to_string(),
            source: source.to_string(),
            text: text.replacen(old, new, 1),
        })
    }

    /// What a function of the plain kernel is called here: the check is the plain one
    /// where the fault is in the run.
    fn function(&self, function: &str) -> String {
        match (self.source.as_str(), function) {
            ("plain_run.c", "table_check") => format!("plain_gcc_{function}"),
            _ => format!("wrong_{}_{function}", self.name.replace('-', "_")),
        }
    }
}

/// Compiles what an edit alters: the check, and the run that calls it.
fn compile_edited(edit: &Edit, out: &Path) -> Result<Vec<PathBuf>, Box<dyn Error>> {
    let edited = out.join(format!("wrong_{}.c", edit.name));
    fs::write(&edited, &edit.text)?;
    let mut sources = vec![edited];
    if edit.source != "plain_run.c" {
        sources.push(PathBuf::from("c/plain_run.c"));
    }
    let mut objects = Vec::new();
    for (number, source) in sources.iter().enumerate() {
        let object = out.join(format!("wrong_{}_{number}.o", edit.name));
        let mut command = Command::new("gcc");
        command.args(WRONG_FLAGS).arg("-c").arg("-Ic");
        for function in ["table_check", "run"] {
            command.arg(format!("-Dplain_{function}={}", edit.function(function)));
        }
        finish(command.arg(source).arg("-o").arg(&object))?;
        objects.push(object);
    }
    Ok(objects)
}

/// Runs a command to its end; its own messages go to cargo's.
fn finish(command: &mut Command) -> Result<(), Box<dyn Error>> {
    let name = command.get_program().to_string_lossy().into_owned();
    let status = command
        .status()
        .map_err(|wrong| format!("cannot start {name}: {wrong}"))?;
    if !status.success() {
        return Err(format!("{name} failed: {command:?}").into());
    }
    Ok(())
}
