//! Finds out which functions the archives define and links them.
//!
//! MEMBLOCK_ARCHIVE names the archive, and PLAN_ARCHIVE, if it is set, that of the
//! placement plans. What belongs to the functions is taken out of each into one object
//! in which only their names can be seen, so that nothing else in it (a panic handler,
//! say) meets a name of this program or of the other. For each function found the crate
//! is built with `has_<name>`.

use std::path::{Path, PathBuf};
use std::process::Command;

const FUNCTIONS: [&str; 19] = [
    "memblock_fresh",
    "memblock_set",
    "memblock_set_image_end",
    "memblock_add",
    "memblock_remove",
    "memblock_mark",
    "memblock_unmark",
    "memblock_reserve",
    "memblock_free",
    "memblock_trim",
    "memblock_next_free",
    "memblock_find",
    "memblock_allocate",
    "memblock_pages",
    "memblock_intake_e820",
    "memblock_intake_tree",
    "memblock_intake_trees",
    "memblock_lookup",
    "memblock_convert",
];

const PLAN_FUNCTIONS: [&str; 2] = ["memblock_plan_numbers", "memblock_plan_lines"];

fn main() {
    for name in FUNCTIONS.into_iter().chain(PLAN_FUNCTIONS) {
        println!("cargo:rustc-check-cfg=cfg(has_{name})");
    }
    let Some(archive) = named("MEMBLOCK_ARCHIVE") else {
        panic!("MEMBLOCK_ARCHIVE must name the static archive to compare with");
    };
    take(&archive, &FUNCTIONS, "memblock_under_test");
    if let Some(archive) = named("PLAN_ARCHIVE") {
        take(&archive, &PLAN_FUNCTIONS, "plan_under_test");
    }
}

/// The archive that a variable names.
fn named(variable: &str) -> Option<PathBuf> {
    println!("cargo:rerun-if-env-changed={variable}");
    let archive = PathBuf::from(std::env::var_os(variable).filter(|path| !path.is_empty())?);
    println!("cargo:rerun-if-changed={}", archive.display());
    assert!(archive.is_file(), "no file {}", archive.display());
    Some(archive)
}

/// Takes those of the functions that an archive defines, and links them as a library.
fn take(archive: &Path, functions: &[&str], library: &str) {
    let listing = run(Command::new("nm")
        .args(["-g", "--defined-only"])
        .arg(archive));
    let found: Vec<&str> = functions
        .iter()
        .copied()
        .filter(|name| {
            listing.lines().any(|line| {
                let mut words = line.split_whitespace().rev();
                words.next() == Some(name) && matches!(words.next(), Some("T" | "W"))
            })
        })
        .collect();
    assert!(
        !found.is_empty(),
        "{} defines none of the functions",
        archive.display()
    );
    for name in &found {
        println!("cargo:rustc-cfg=has_{name}");
    }

    let out = PathBuf::from(std::env::var_os("OUT_DIR").expect("set by cargo"));
    let (joined, alone) = (
        out.join(format!("{library}-joined.o")),
        out.join(format!("{library}-alone.o")),
    );
    let file = out.join(format!("lib{library}.a"));
    for old in [&joined, &alone, &file] {
        let _ = std::fs::remove_file(old);
    }
    // What both may have is not one for both: each keeps its own.
    run(Command::new("ld")
        .args(["-r", "--force-group-allocation", "-o"])
        .arg(&joined)
        .args(found.iter().flat_map(|name| ["-u", name]))
        .arg(archive));
    // Compilers may leave their own notes in these sections; joined they are void.
    run(Command::new("objcopy")
        .args(["-R", ".llvmbc", "-R", ".llvmcmd"])
        .args(found.iter().flat_map(|name| ["--keep-global-symbol", name]))
        .args([&joined, &alone]));
    run(Command::new("ar").arg("crs").arg(&file).arg(&alone));
    println!("cargo:rustc-link-search=native={}", out.display());
    println!("cargo:rustc-link-lib=static={library}");
}

/// Runs a program and gives what it printed; it must not fail.
fn run(command: &mut Command) -> String {
    let output = command
        .output()
        .unwrap_or_else(|e| panic!("cannot run {command:?}: {e}"));
    let errors = String::from_utf8_lossy(&output.stderr);
    assert!(output.status.success(), "{command:?} failed:\n{errors}");
    String::from_utf8_lossy(&output.stdout).into_owned()
}
