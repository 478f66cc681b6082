#!/usr/bin/env python3
"""The sample day of examples/day.txt and the lists of runs/lists.txt, as bytes.

    tools/sample_day.py            says whether examples/day-1.bin and day-2.bin and the runs of the lists are those bytes
    tools/sample_day.py --write    writes them
"""
import pathlib
import sys

from worked_hand import blocks, join, must

ROOT = pathlib.Path(__file__).resolve().parent.parent
BY_NAME = {lines[0][1]: lines for _, lines in blocks("messages.txt")}


WORDS = {"spoil", "resend", "cut"}


def message(name, number, dup, *changes):
    must(name in BY_NAME, f"{name} {number}")
    lines = [list(line) for line in BY_NAME[name]]
    change = dict(c.split("=") for c in changes if "=" in c)
    for word in change.keys() | {c for c in changes if "=" not in c}:
        must(word in WORDS or word in {line[0] for line in lines}, f"{name} {number}: {word}")
    for line in lines:
        if line[0] == "number":
            line[1] = number
        if line[0] == "flags":
            line[1] = f"{dup} {int('resend' in changes)}"
        if line[0] in change:
            line[1] = change[line[0]]
    data = bytearray(join([tuple(line) for line in lines])[0])
    if "spoil" in changes:
        data[60] ^= 1
    return bytes(data[:int(change.get("cut", len(data)))])


def lines_of(name):
    """The words of each line of a file, and its text, without remarks."""
    for line in (ROOT / name).read_text().splitlines():
        if line.split() and not line.startswith("#"):
            yield line.split(), line


def connections():
    made = {}
    for words, _ in lines_of("examples/day.txt"):
        if words[0] == "connection":
            part = f"examples/day-{words[1]}.bin"
            made[part] = b""
        else:
            made[part] += message(*words)
    return made


def lists():
    """The bench's input and output of each list. What stands on standard error is marked as tools/runs marks it."""
    made = {}
    for words, line in lines_of("runs/lists.txt"):
        if words[0] == "list":
            part, answer = (f"runs/bench/{words[1]}.{end}" for end in ("in", "out"))
            made[part], made[answer] = " ".join(words[2:]).encode() + b"\n", b""
        elif words[0] == "sends":
            part = answer
        elif words[0] == "says":
            made[answer] = f"on standard error: {line.removeprefix('says ')}\n".encode()
        else:
            made[part] += message(*words)
    for name, data in made.items():
        must(data, f"{name}: neither sends nor says")
    return made


if __name__ == "__main__":
    if sys.argv[1:] not in ([], ["--write"]):
        sys.exit("usage: tools/sample_day.py [--write]")
    for source, made in (("examples/day.txt", connections()), ("runs/lists.txt", lists())):
        for name, data in made.items():
            file = ROOT / name
            if sys.argv[1:] == ["--write"]:
                file.write_bytes(data)
            elif not file.exists() or file.read_bytes() != data:
                sys.exit(f"{name} is not what {source} says: run tools/sample_day.py --write")
