#!/usr/bin/env python3
"""Turns the sheet that the program layoutsheet prints into docs/LAYOUT.md: a table for each message type,
and one for each of the nine tables of an Execution Report.

    tools/layout_page.py > docs/LAYOUT.md
"""
import pathlib
import re
import sys

TYPES = {
    0: ("Heartbeat", "7.7.3"),
    1: ("Test Request", "7.7.4"),
    2: ("Resend Request", "7.7.5"),
    3: ("Reject", "7.7.6"),
    4: ("Sequence Reset", "7.7.7"),
    5: ("Logon", "7.7.1"),
    6: ("Logout", "7.7.2"),
    7: ("Lookup Request", "7.6.1"),
    8: ("Lookup Response", "7.6.2"),
    9: ("Business Message Reject", "7.11.1"),
    10: ("Execution Report", "7.8, the nine tables together"),
}
REPORTS = {
    "7.8.1": "Order Accepted",
    "7.8.2": "Order Cancelled",
    "7.8.3": "Order Cancelled, Unsolicited",
    "7.8.4": "Order Expired",
    "7.8.5": "Order Amended",
    "7.8.6": "Auto-matched Trade",
    "7.8.7": "Auto-matched Trade Cancel",
    "7.8.8": "Trade (Odd lot/Special lot Order Executed)",
    "7.8.9": "Trade (Semi-auto-matched Trade Cancelled)",
}
LINE = re.compile(r"(type|table)=([\d.]+) position=(\d+) name=(.*) sort=(\w+) width=(\d+) characters=([\w-]+) required=([YN])")
LONGEST = re.compile(r"type=(\d+) longest=(\d+)")

HEAD = """# The layout sheet

What the proved tables say of each message type, to be laid beside 004. The program `layoutsheet` prints the same
lines from the tables themselves, and the gate holds this page to what it prints. Names and widths are those of 004
section 8.2; the width of a variable text is the most that its length may say, null counted. The characters that a
text is allowed are those from 32 to 126 (ascii), or those from 128 to 255 too (accented). A report's position is
required where all nine tables of section 7.8 require it; the nine follow at the end, one by one, each with its own
positions and required marks. The longest message of a type, frame and all, has every position of its tables and each
text full: no good message of the type is longer, and one of that very length exists. The longest that can be written
is a Logon.
"""


def page(sheet):
    longest, types, tables = {}, {}, {}
    for line in sheet.splitlines():
        if found := LONGEST.fullmatch(line):
            longest[int(found[1])] = found[2]
            continue
        word, which, position, name, sort, width, characters, required = LINE.fullmatch(line).groups()
        row = f"| {position} | {name} | {sort} | {width} | {characters} | {required} |\n"
        if word == "type":
            types.setdefault(int(which), []).append(row)
        else:
            tables.setdefault(which, []).append(row)
    head = "\n\n| Position | Name | Sort | Width | Characters | Required |\n|---|---|---|---|---|---|\n"
    text = HEAD
    for messagetype, rows in sorted(types.items()):
        title, section = TYPES[messagetype]
        text += f"\n## {messagetype}: {title} (004 section {section})\n\n"
        text += f"Longest message: {longest[messagetype]} bytes." + head + "".join(rows)
    for section, rows in sorted(tables.items()):
        text += f"\n## 10, {section}: {REPORTS[section]}" + head + "".join(rows)
    return text


if __name__ == "__main__":
    if sys.argv[1:]:
        sys.exit("usage: tools/layout_page.py")
    here = pathlib.Path(__file__).resolve().parent.parent
    sys.stdout.write(page((here / "crates/layoutsheet/stdout").read_text()))
