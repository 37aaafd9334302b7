#!/usr/bin/env python3
"""Changes inputs at random, and sees that `explain` foretells what sending each is answered, in UTF-8, and leaves each byte of the file (every open begins the
log beside it anew). Build the program first (`rt run` in crates/wh).

usage: foretold_inputs.py [NUMBER] [PROGRAM]

NUMBER inputs (300) are made of a policy and of batches of each kind: bytes, pieces of other exports and of the input itself are put in, taken out or exchanged,
and some become UTF-16 or Latin-1. Half of them are for a file of format 1, half for one of format 2.
"""

import random
import sys

from lib.program import program
from lib.worked import FILES, Count, copy, make_worked, own_folder, run, said, write_files

NUMBER = int(sys.argv[1]) if len(sys.argv) > 1 else 300
PROGRAM = program(2)
INPUTS = [("product", "p3"), ("product", "p10"), ("customer", "c2"), ("sales", "s2"), ("sales", "d5"), ("void", "v1"), ("migrate", "m1")]
PIECES = [b'"', b",", b";", b"\t", b"\n", b"\r\n", b"\xef\xbb\xbf", b"\xfc", b"\xff", b"\x00", b"(none)", b"0", b"-", b".", b"a" * 70, b"2024-02-30", b"01.02.2024", b"1,50"]
# A header that is wrong takes two lines more.
MOST_LINES = 24


def changed(rng, content):
    """The content after one change."""
    at = rng.randrange(len(content) + 1)
    kind = rng.randrange(5)
    if kind == 0:
        return content[:at] + rng.choice(PIECES) + content[at:]
    if kind == 1:
        return content[:at] + content[at + rng.randrange(1, 6) :]
    if kind == 2:
        lines = content.split(b"\n")
        rng.shuffle(lines)
        return b"\n".join(lines)
    if kind == 3:
        return content + content[at:]
    text = content.decode("latin-1")
    return text.encode(rng.choice(["utf-16", "latin-1", "utf-8"]))


def bytes_of(path):
    with open(path, "rb") as file:
        return file.read()


def foretold(answer):
    """What `explain` has to say first where sending is answered so."""
    line = answer.line()
    return f"would be accepted: {line.partition(': ')[2]}" if line.startswith("accepted ") else line


def faults_of(folder, before, kind, name):
    """What is wrong with the explanation of an input, and with what it leaves."""
    file = f"{folder}/w"
    copy(f"{folder}/{before}", file)
    stood = bytes_of(file)
    told = run(PROGRAM, folder, f"explain w {kind} changed")
    faults = [] if bytes_of(file) == stood else [f"{name}: explain wrote to the file"]
    sent = run(PROGRAM, folder, "migrate w new changed" if kind == "migrate" else f"load w {kind} new changed")
    try:
        lines = told.text.decode().split("\n")
    except UnicodeDecodeError:
        return [*faults, f"{name}: {told} is no UTF-8"]
    if lines[0] != foretold(sent) or told.status != said(sent.line()).status:
        faults.append(f"{name}: {told}, and then {sent}")
    if len(lines) > MOST_LINES:
        faults.append(f"{name}: {len(lines)} lines")
    return faults


def main():
    count, rng = Count(), random.Random(NUMBER)
    with own_folder() as folder:
        write_files(folder)
        make_worked(PROGRAM, folder, 10)
        copy(f"{folder}/w", f"{folder}/first")
        make_worked(PROGRAM, folder, 17, since=11)
        copy(f"{folder}/w", f"{folder}/second")
        for turn in range(NUMBER):
            kind, id = rng.choice(INPUTS)
            content = FILES[id]
            for _ in range(rng.choice([0, 1, 1, 1, 2, 4])):
                content = changed(rng, content)
            with open(f"{folder}/changed", "wb") as out:
                out.write(content)
            before = "first" if turn % 2 else "second"
            count.case(faults_of(folder, before, kind, f"input {turn}, of {id}, {content[:60]!r} .."))
    count.end()


main()
