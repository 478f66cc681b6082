#!/usr/bin/env python3
"""Crate rows: the eight rows of CRC32C's tables as one static. Its proof works the whole table out.

    tools/crc_rows.py            says whether crates/rows/src/lib.rt is what is written here
    tools/crc_rows.py --write    writes it; `rt fmt` has nothing to change
"""
import pathlib
import sys

ROOT = pathlib.Path(__file__).resolve().parent.parent
SOURCE = ROOT / "crates/rows/src/lib.rt"

POLYNOMIAL = 0x82F63B78
ROWS = 8
BYTES = 256
A_LINE = 7

HEAD = """\
// The tables of CRC32C, eight rows of 256 numbers: row k, entry n is the register n after 8 * (k + 1) steps.
// tools/crc_rows.py writes this file.
//
// A static, which the compiler lays down once, in read-only memory; a const array it would store anew at every call.
#![tactic(auto)]

ghost use Rattle.std.specs.Prelude.{◌≡◌};
ghost use Rattle.rows.specs.Steps.{rows};

static ROWS: [[u32; 256]; 8] = [
"""

TAIL = """\
];

pub fn rows() -> &'static [[u32; 256]; 8]
    ensures { result.now ≡ rows }
{
    &ROWS
}
"""


def stepped(count, register):
    for _ in range(count):
        register = (register >> 1) ^ (POLYNOMIAL if register & 1 else 0)
    return register


def row(k):
    entries = [f"0x{stepped(8 * (k + 1), n):08X}" for n in range(BYTES)]
    lines = "".join(f"        {', '.join(entries[at:at + A_LINE])},\n" for at in range(0, BYTES, A_LINE))
    return f"    [\n{lines}    ],\n"


def source():
    return HEAD + "".join(row(k) for k in range(ROWS)) + TAIL


if __name__ == "__main__":
    if sys.argv[1:] not in ([], ["--write"]):
        sys.exit("usage: tools/crc_rows.py [--write]")
    if sys.argv[1:] == ["--write"]:
        SOURCE.write_text(source())
    elif not SOURCE.exists() or SOURCE.read_text() != source():
        sys.exit(f"{SOURCE.relative_to(ROOT)} is not what tools/crc_rows.py writes: run tools/crc_rows.py --write")
