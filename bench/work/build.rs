//! Links the archive that MEMBLOCK_ARCHIVE names, and beside it the one that
//! BENCH_BEFORE names, with other names of its functions; if that is not set, the
//! same archive again. The functions of each are taken out of it into one object
//! in which only their names can be seen, so that nothing else in it (a panic
//! handler, say) meets a name of this program.
//!
//! Where a loop lies within a cache line can change its time. BENCH_PLACE says
//! how many bytes past the start of a line the functions begin, so that this is
//! a choice and not an accident of linking.

use std::path::{Path, PathBuf};
use std::process::Command;

const FUNCTIONS: [&str; 18] = [
    "memblock_fresh",
    "memblock_set",
    SET_IMAGE_END,
    "memblock_add",
    "memblock_remove",
    "memblock_mark",
    "memblock_unmark",
    "memblock_reserve",
    "memblock_free",
    "memblock_trim",
    "memblock_next_free",
    "memblock_find",
    "memblock_allocate",
    PAGES,
    "memblock_intake_e820",
    INTAKE_TREE,
    INTAKE_TREES,
    LOOKUP,
];

/// The function that an archive from before request E7 does not have.
const SET_IMAGE_END: &str = "memblock_set_image_end";

/// The function that an archive from before request E8 does not have.
const INTAKE_TREE: &str = "memblock_intake_tree";

/// The functions that an archive from before request E9 does not have.
const INTAKE_TREES: &str = "memblock_intake_trees";
const LOOKUP: &str = "memblock_lookup";

/// The function that an archive from before request E14 does not have.
const PAGES: &str = "memblock_pages";

/// Before the names of the functions of the archive that BENCH_BEFORE names.
const BEFORE: &str = "before_";

fn main() {
    println!("cargo:rerun-if-env-changed=BENCH_PLACE");
    let place: u32 = std::env::var("BENCH_PLACE").map_or(0, |word| {
        word.parse().expect("BENCH_PLACE is a number of bytes")
    });
    println!("cargo:rustc-env=BENCH_PLACE={place}");

    let Some(archive) = archive_of("MEMBLOCK_ARCHIVE") else {
        panic!("MEMBLOCK_ARCHIVE must name the static archive to measure");
    };
    let before = archive_of("BENCH_BEFORE").unwrap_or_else(|| archive.clone());
    let out = PathBuf::from(std::env::var_os("OUT_DIR").expect("set by cargo"));
    println!("cargo:rustc-link-search=native={}", out.display());
    link(&archive, "", place, &out);
    link(&before, BEFORE, place, &out);

    let library = "src/library.rs";
    println!("cargo:rerun-if-changed={library}");
    let mut text = std::fs::read_to_string(library).expect("it stands beside build.rs");
    if !defines(&before, SET_IMAGE_END) {
        text = without_image_end(&text);
    }
    if !defines(&before, PAGES) {
        text = without_pages(&text);
    }
    if !defines(&before, INTAKE_TREES) || !defines(&before, LOOKUP) {
        text = without_pairs(&text);
    }
    if !defines(&before, INTAKE_TREE) {
        text = without_tree(&text);
    }
    let text = text
        .replace("memblock_", &format!("{BEFORE}memblock_"))
        .replace("\"library\"", "\"before\"");
    for (file, text) in [
        ("before.rs", &text),
        ("before_e6.rs", &without_words(&text)),
    ] {
        std::fs::write(out.join(file), text).expect("the output folder can be written");
    }
}

/// The text without the flag of marks and the wish of searches: where a call's own
/// numbers are named they stay, unnamed.
fn without_words(text: &str) -> String {
    let mut text = text.to_string();
    for word in ["flag", "wish"] {
        text = text
            .replace(&format!(", {word}: u32"), "")
            .replace(&format!(", {word}) =>"), ", _) =>")
            .replace(&format!(", {word})"), ")")
            .replace(&format!(", {word}, s, m)"), ", s, m)");
    }
    text
}

/// The text without the function that sets the image end: nothing calls it.
fn without_image_end(text: &str) -> String {
    text.replace(
        &format!("fn {SET_IMAGE_END}(block: *mut u8, len: usize, end: u64) -> u32;"),
        "",
    )
    .replace(
        &format!("{SET_IMAGE_END}(b, n, end)"),
        "unreachable!(\"no function for an image end of {end}\")",
    )
}

/// The text without the function that takes a tree in: nothing calls it.
fn without_tree(text: &str) -> String {
    text.replace(
        &format!(
            "fn {INTAKE_TREE}(block: *mut u8, len: usize, board: *const u8, board_len: usize) -> u32;"
        ),
        "",
    )
    .replace(
        &format!("{INTAKE_TREE}(b, n, board.as_ptr(), board.len())"),
        "unreachable!(\"no function for a tree of {} bytes\", board.len())",
    )
    .replace("TREES: bool = true", "TREES: bool = false")
}

/// The text without the functions for a pair of trees: nothing calls them.
fn without_pairs(text: &str) -> String {
    without(text, &[INTAKE_TREES, LOOKUP])
        .replace("PAIRS: bool = true", "PAIRS: bool = false")
        .replace("Call::IntakeTrees(board, service)", "Call::IntakeTrees(..)")
        .replace(
            "Call::Lookup(service, board, path, name)",
            "Call::Lookup(..)",
        )
}

/// The text without the function for pages: nothing calls it.
fn without_pages(text: &str) -> String {
    without(text, &[PAGES]).replace("PAGES: bool = true", "PAGES: bool = false")
}

/// The text without functions: neither declared nor called.
fn without(text: &str, names: &[&str]) -> String {
    let mut text = text.to_string();
    for name in names {
        let declared = text.find(&format!("fn {name}(")).expect("it is declared");
        let end = text[declared..].find(';').expect("it ends");
        text.replace_range(declared..=declared + end, "");
        let called = text.find(&format!("{name}(")).expect("it is called");
        // Up to the parenthesis that closes the first.
        let mut open = 0;
        let close = text[called..].find(|letter| {
            open += i32::from(letter == '(') - i32::from(letter == ')');
            letter == ')' && open == 0
        });
        let close = called + close.expect("it closes");
        text.replace_range(called..=close, "unreachable!(\"no such function\")");
    }
    text
}

/// Whether an archive defines a function.
fn defines(archive: &Path, name: &str) -> bool {
    let listing = run(Command::new("nm")
        .args(["-g", "--defined-only"])
        .arg(archive));
    listing
        .lines()
        .any(|line| line.ends_with(&format!(" T {name}")))
}

/// The archive that a variable names, if it is set.
fn archive_of(variable: &str) -> Option<PathBuf> {
    println!("cargo:rerun-if-env-changed={variable}");
    let archive = PathBuf::from(std::env::var_os(variable)?);
    println!("cargo:rerun-if-changed={}", archive.display());
    assert!(archive.is_file(), "no file {}", archive.display());
    Some(archive)
}

/// Links the functions of an archive with `prefix` before their names.
fn link(archive: &Path, prefix: &str, place: u32, out: &Path) {
    let name = format!("{prefix}memblock_measured");
    let file = |end: &str| out.join(format!("{name}{end}"));
    let (joined, alone, script) = (file(".joined.o"), file(".o"), file(".ld"));
    let library = out.join(format!("lib{name}.a"));
    let text = format!("SECTIONS {{ .text : {{ . += {place}; *(.text .text.*) }} }}\n");
    std::fs::write(&script, text).expect("the output folder can be written");
    for old in [&joined, &alone, &library] {
        let _ = std::fs::remove_file(old);
    }
    run(Command::new("ld")
        .args(["-r", "-o"])
        .arg(&joined)
        .arg("-T")
        .arg(&script)
        .args(FUNCTIONS.iter().flat_map(|name| ["-u", name]))
        .arg(archive));
    // Compilers may leave their own notes in these sections; joined they are void.
    run(Command::new("objcopy")
        .args(["-R", ".llvmbc", "-R", ".llvmcmd"])
        .args(["--set-section-alignment", ".text=64"])
        .args(FUNCTIONS.iter().flat_map(|name| {
            let named = format!("{prefix}{name}");
            let redefined = format!("{name}={named}");
            [
                "--redefine-sym".into(),
                redefined,
                "--keep-global-symbol".into(),
                named,
            ]
        }))
        .args([&joined, &alone]));
    run(Command::new("ar").arg("crs").arg(&library).arg(&alone));
    println!("cargo:rustc-link-lib=static={name}");
}

/// Runs a program and gives what it printed; it must not fail.
fn run(command: &mut Command) -> String {
    let output = command
        .output()
        .unwrap_or_else(|e| panic!("cannot run {command:?}: {e}"));
    let errors = String::from_utf8_lossy(&output.stderr);
    assert!(output.status.success(), "{command:?} failed:\n{errors}");
    String::from_utf8_lossy(&output.stdout).into_owned()
}
