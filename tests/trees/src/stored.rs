//! The trees that are kept as files; see README.md.

pub struct Stored {
    pub name: &'static str,
    pub bytes: &'static [u8],
    /// The commands it asks for, a line each.
    pub expected: &'static str,
}

macro_rules! stored {
    ($folder:literal: $($name:literal)*) => {
        &[$(Stored {
            name: $name,
            bytes: include_bytes!(concat!("../", $folder, "/", $name, ".dtb")),
            expected: include_str!(concat!("../expected/", $name, ".txt")),
        },)*]
    };
}

/// Of QEMU's boards.
pub const REAL: &[Stored] = stored!("../../crates/treereport/data":
    "arm-virt" "arm-virt-numa" "arm32-virt" "riscv-virt" "riscv-virt-numa" "sifive-u");

/// Written for these tests.
pub const MADE: &[Stored] = stored!("made":
    "cells-1-1" "cells-1-2" "cells-2-2" "cells-absent" "deep" "memreserve" "numa" "two-reserved");

pub fn all() -> impl Iterator<Item = &'static Stored> {
    REAL.iter().chain(MADE)
}
