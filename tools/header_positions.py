#!/usr/bin/env python3
"""The positions of include/featherloom.h, from what the program layoutsheet prints.

    tools/header_positions.py            says whether the header has them
    tools/header_positions.py --write    puts them there
"""
import pathlib
import re
import sys

ROOT = pathlib.Path(__file__).resolve().parent.parent
HEADER = ROOT / "include/featherloom.h"
TYPES = ("HEARTBEAT", "TEST_REQUEST", "RESEND_REQUEST", "REJECT", "SEQUENCE_RESET", "LOGON", "LOGOUT", "LOOKUP_REQUEST",
         "LOOKUP_RESPONSE", "BUSINESS_REJECT", "EXECUTION_REPORT")
BEGIN, END = "/* positions: begin */\n", "/* positions: end */\n"


def constants(sheet):
    lines = []
    for messagetype, position, name in re.findall(r"^type=(\d+) position=(\d+) name=(.*) sort=", sheet, re.M):
        word = re.sub(r"[^A-Z0-9]+", "_", name.upper()).strip("_")
        lines.append(f"#define FEATHERLOOM_{TYPES[int(messagetype)]}_{word} {position}\n")
    return "".join(lines)


def expected():
    text = HEADER.read_text()
    before, rest = text.split(BEGIN)
    sheet = (ROOT / "crates/layoutsheet/stdout").read_text()
    return before + BEGIN + constants(sheet) + END + rest.split(END)[1]


if __name__ == "__main__":
    if sys.argv[1:] not in ([], ["--write"]):
        sys.exit("usage: tools/header_positions.py [--write]")
    if sys.argv[1:] == ["--write"]:
        HEADER.write_text(expected())
    elif HEADER.read_text() != expected():
        sys.exit("include/featherloom.h has other positions than layoutsheet prints: run tools/header_positions.py --write")
