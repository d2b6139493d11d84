//! What the programs on files should print, by the second program.
//!
//! `report FILE` takes the report file in on a fresh block and prints the number
//! and every record of both tables. `report --tree FILE` does so with a device tree,
//! `report --commands TEXT` with commands as tests/trees/expected has them, of which
//! none may be refused.
//!
//! `report --bytes TEXT` writes the bytes of a report kept as text: an entry a line,
//! `base length kind`, each decimal or with 0x; `raw` and hexadecimal bytes for any
//! others; `#` begins a comment. `report --text FILE` writes a report's entries as
//! such text. `report --crowded MEMORY TAKEN` writes a tree of so many ranges of memory
//! and so many reservations, each apart from the others.

use model::layout::{BLOCK_LEN, NO_MAP, REPORT_ENTRY_LEN};
use model::Board;
use std::io::Write;
use std::process::ExitCode;
use trees::node::reg;
use trees::{Node, Sketch, Tree};

fn main() -> ExitCode {
    let arguments: Vec<String> = std::env::args().skip(1).collect();
    let arguments: Vec<&str> = arguments.iter().map(String::as_str).collect();
    let (name, made) = match arguments[..] {
        ["--bytes", name] => (name, read(name).and_then(|text| bytes(&text))),
        ["--text", name] => (name, read(name).and_then(|report| text(&report))),
        ["--crowded", memory, taken] => ("--crowded", crowded(memory, taken)),
        ["--commands", name] => (name, read(name).and_then(|text| commanded(&text))),
        ["--tree", name] => (name, taken_in(name, model::intake_tree)),
        [name] => (name, taken_in(name, model::intake_e820)),
        _ => {
            eprintln!("usage: report FILE");
            return ExitCode::from(2);
        }
    };
    let written = made.and_then(|made| {
        let written = std::io::stdout().write_all(&made);
        written.map_err(|e| e.to_string())
    });
    if let Err(wrong) = written {
        eprintln!("report: {name}: {wrong}");
        return ExitCode::FAILURE;
    }
    ExitCode::SUCCESS
}

fn read(name: &str) -> Result<Vec<u8>, String> {
    std::fs::read(name).map_err(|e| e.to_string())
}

fn fresh() -> Vec<u8> {
    let mut block = vec![0; BLOCK_LEN];
    model::fresh(&mut block);
    block
}

/// What is printed of a file that is taken in on a fresh block.
fn taken_in(name: &str, intake: fn(&mut [u8], &[u8]) -> u32) -> Result<Vec<u8>, String> {
    let bytes = read(name)?;
    let mut block = fresh();
    let number = intake(&mut block, &bytes);
    Ok(printed(number, &block))
}

/// What is printed of commands made on a fresh block, a line each.
fn commanded(text: &[u8]) -> Result<Vec<u8>, String> {
    let text = std::str::from_utf8(text).map_err(|e| e.to_string())?;
    let mut block = fresh();
    for line in text.lines() {
        let wrong = || line.to_string();
        let (command, numbers) = line.split_once(' ').ok_or_else(wrong)?;
        let numbers: Option<Vec<u64>> = numbers.split(' ').map(number).collect();
        let answer = match (command, &numbers.ok_or_else(wrong)?[..]) {
            ("add", &[base, size, node]) => model::add(&mut block, base, size, 0, node as u32),
            ("reserve", &[base, size]) => model::reserve(&mut block, base, size),
            ("mark", &[base, size]) => model::mark(&mut block, base, size, NO_MAP),
            _ => return Err(wrong()),
        };
        if answer != 0 {
            return Err(format!("{line}: {answer}"));
        }
    }
    Ok(printed(0, &block))
}

/// The number on a line, then the records of memory, then those taken.
fn printed(number: u32, block: &[u8]) -> Vec<u8> {
    let board = Board::read(block).expect("a good block");
    let mut lines = vec![number.to_string()];
    for (lo, hi, tag) in board.memory.stretches() {
        if let Some(tag) = tag {
            let (flags, node) = tag.words();
            lines.push(format!("{lo} {} {flags} {node}", hi - lo));
        }
    }
    for (lo, hi, taken) in board.taken.stretches() {
        if taken {
            lines.push(format!("{lo} {} 0 0", hi - lo));
        }
    }
    (lines.join("\n") + "\n").into()
}

/// A tree of so many ranges of memory, by cells 2 and 1, and so many reservations.
fn crowded(memory: &str, taken: &str) -> Result<Vec<u8>, String> {
    let ranges = |count: &str| -> Result<Vec<(u64, u64)>, String> {
        let count = number(count).ok_or("no number")?;
        Ok((1..=count).map(|i| (0x2000 * i, 0x1000)).collect())
    };
    let memory = Node::memory("memory", reg((2, 1), &ranges(memory)?));
    let root = Node::new("").holding(memory);
    let list = ranges(taken)?;
    Ok(Sketch::of(&Tree { list, root }).bytes())
}

/// The bytes of a report kept as text.
fn bytes(text: &[u8]) -> Result<Vec<u8>, String> {
    let text = std::str::from_utf8(text).map_err(|e| e.to_string())?;
    let mut bytes = Vec::new();
    for (at, line) in text.lines().enumerate() {
        let words: Vec<&str> = line
            .split('#')
            .next()
            .unwrap_or_default()
            .split_whitespace()
            .collect();
        let wrong = || format!("line {}: {line}", at + 1);
        match words[..] {
            [] => {}
            ["raw", ..] => {
                for word in &words[1..] {
                    bytes.push(u8::from_str_radix(word, 16).map_err(|_| wrong())?);
                }
            }
            [base, length, kind] => {
                let kind = number(kind).and_then(|kind| u32::try_from(kind).ok());
                bytes.extend(number(base).ok_or_else(wrong)?.to_le_bytes());
                bytes.extend(number(length).ok_or_else(wrong)?.to_le_bytes());
                bytes.extend(kind.ok_or_else(wrong)?.to_le_bytes());
            }
            _ => return Err(wrong()),
        }
    }
    Ok(bytes)
}

fn number(word: &str) -> Option<u64> {
    match word.strip_prefix("0x") {
        Some(digits) => u64::from_str_radix(digits, 16).ok(),
        None => word.parse().ok(),
    }
}

/// A report's entries as text.
fn text(report: &[u8]) -> Result<Vec<u8>, String> {
    let entries = report.chunks_exact(REPORT_ENTRY_LEN);
    if !entries.remainder().is_empty() {
        return Err("not whole entries".into());
    }
    let mut text = String::new();
    for entry in entries {
        let base = u64::from_le_bytes(entry[..8].try_into().expect("8 bytes"));
        let length = u64::from_le_bytes(entry[8..16].try_into().expect("8 bytes"));
        let kind = u32::from_le_bytes(entry[16..].try_into().expect("4 bytes"));
        text += &format!("{base:#x} {length:#x} {kind}\n");
    }
    Ok(text.into())
}
