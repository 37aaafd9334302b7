#!/usr/bin/env python3
"""Cuts inputs at each place, and compares what the program says of each beginning with what docs/policies.md and docs/batches.md say, by the readers of
tests/lib/readers.py. Build the program first (`rt run` in crates/wh).

usage: cut_inputs.py [PROGRAM]

A policy (by a trial, and a making of those that are good), a policy that is a byte too long, a customer's batch, one of sales in each format and one of
voids (each loaded where it is due, and looked at in the file), a manifest (delivered to a warehouse that was just made).
"""

import os
import sqlite3
import tempfile

from lib import readers
from lib.program import program
from lib.worked import FILES, Answer, Count, Text, copy, expected, make_worked, rows_of, run, said, same, write_files

PROGRAM = program(1)
count = Count()
work = tempfile.TemporaryDirectory()
folder = work.name
write_files(folder)


def write(name, content):
    with open(f"{folder}/{name}", "wb") as file:
        file.write(content)


def says(name, answer, lines):
    count.case([] if answer == said(lines) else f"{name}: {answer}, and not {lines!r}")


def beginnings(content):
    return [content[:length] for length in range(len(content) + 1)]


# ---- policies

POLICY = FILES["policy"]
write("stores", b"id,day,city\n")
DUMP = expected("dump w store", "").text.rstrip(b"\n") + b"\n"
good = []
for cut in beginnings(POLICY):
    write("cut", cut)
    fault = readers.policy_fault(cut)
    answer = run(PROGRAM, folder, "trial store stores --policy cut")
    name = f"the policy's first {len(cut)} bytes"
    if fault:
        says(name, answer, f"refused: E4 policy, {fault}")
    else:
        count.case([] if answer == Answer(DUMP, 0) else f"{name}: {answer}")
        good.append(len(cut))
        says(f"init, {name}", run(PROGRAM, folder, f"init made{len(cut)} cut"), "accepted 1 init: 0 records, 0 placeholders")
ENDS = [b'name = "tier"\ntype = 2', b'name = "age_band"\ntype = 5', b'name = "spend_band"\ntype = 5', b'name = "Christmas Day"']
wanted = [POLICY.index(end) + len(end) + more for end in ENDS for more in (0, 1)]
count.case([] if good == wanted else f"the beginnings that are policies: {good}, and not {wanted}")
for length, lines in ((65_536, None), (65_537, "refused: E4 policy, P1 not toml")):
    for name, content in (("comment", POLICY + b"#" * (length - len(POLICY))), ("line ends", POLICY + b"\n" * (length - len(POLICY)))):
        write("cut", content)
        answer = run(PROGRAM, folder, "trial store stores --policy cut")
        name = f"a policy of {length} bytes with {name}"
        if lines:
            says(name, answer, lines)
        else:
            count.case([] if answer == Answer(DUMP, 0) else f"{name}: {answer}")
for content in (b"\x00" * 65_537, b"[" * 65_537):
    write("cut", content)
    says("a policy of 65,537 bytes", run(PROGRAM, folder, "trial store stores --policy cut"), "refused: E4 policy, P1 not toml")

# ---- batches

make_worked(PROGRAM, folder, 2)
copy(f"{folder}/w", f"{folder}/after2")
for end in ("", "-wal"):
    if os.path.exists(f"{folder}/w{end}"):
        os.remove(f"{folder}/w{end}")
make_worked(PROGRAM, folder, 10)
copy(f"{folder}/w", f"{folder}/after10")
make_worked(PROGRAM, folder, 17, since=11)
copy(f"{folder}/w", f"{folder}/after17")
NAMES = ["tier", "age_band", "spend_band"]


def stored_facts(base, form):
    """What the facts have of their sales, but for those that an upgrade carried over."""
    if form == 1:
        return base.execute("SELECT ticket, line, day, quantity, amount, cost FROM fact ORDER BY ticket").fetchall()
    return base.execute("SELECT ticket, line, day, quantity, amount, cost, discount FROM fact2 WHERE ticket > 'T4' ORDER BY ticket").fetchall()


def hundredths(text):
    whole, _, parts = text.lstrip(b"-").partition(b".")
    value = int(whole) * 100 + int(parts.ljust(2, b"0"))
    return -value if text.startswith(b"-") else value


def as_stored(kind, records):
    if kind == "customer":
        return [[day.replace(b"-", b""), *(value or b"(none)" for value in values)] for _, day, *values in records]
    return sorted((row[0].decode(), int(row[1]), int(row[2].replace(b"-", b"")), int(row[6]), *map(hundredths, row[7:])) for row in records)


def load_beginnings(kind, id, number, before, names, more, form=1):
    """Loads each beginning of a batch into a copy of a file of a format; `more` adds to what is accepted how many placeholders there are by it."""
    rows = rows_of(f"{folder}/{before}")
    for cut in beginnings(FILES[id]):
        write("cut", cut)
        copy(f"{folder}/{before}", f"{folder}/w")
        records, fault = readers.read_batch(kind, names, (2023, 2026), cut, form)
        answer = run(PROGRAM, folder, f"load w {kind} {id} cut")
        name = f"the first {len(cut)} bytes of {id}"
        if fault:
            says(name, answer, f"refused: E3 batch, {fault}")
            count.case([] if same(rows_of(f"{folder}/w"), rows) else f"{name}: the rows are others now")
            continue
        says(name, answer, f"accepted {number} {id}: {len(records)} records, {more(records)} placeholders")
        base = sqlite3.connect(f"{folder}/w")
        if kind == "customer":
            base.text_factory = bytes
        found = stored_facts(base, form) if kind == "sales" else [[str(row[0]).encode(), *row[1:]] for row in stored_day_values(base, number)]
        base.close()
        count.case([] if found == as_stored(kind, records) else f"{name}: {found} is stored")


def stored_day_values(base, number):
    return base.execute("SELECT day, v1, v2, v3 FROM change WHERE command = ? ORDER BY record", [number]).fetchall()


# every name is known but for the sales' store, which comes with the first record, and a customer that a cut may leave
load_beginnings("customer", "c2", 15, "after10", NAMES, lambda records: 0)
load_beginnings("sales", "s1", 5, "after2", [], lambda records: 1 if records else 0)
load_beginnings("sales", "d5", 22, "after17", [], lambda records: 0, form=2)


def load_voids(id, number, before, form):
    """Loads each beginning of a batch of voids into a copy of a file of a format. Those that are batches are accepted where each line has a fact."""
    rows = rows_of(f"{folder}/{before}")
    for cut in beginnings(FILES[id]):
        write("cut", cut)
        copy(f"{folder}/{before}", f"{folder}/w")
        records, fault = readers.read_batch("void", [], (2023, 2026), cut, form)
        answer = run(PROGRAM, folder, f"load w void {id} cut")
        name = f"the first {len(cut)} bytes of {id} in format {form}"
        lines = [] if fault else [(ticket, int(line)) for ticket, line in records]
        there = {(bytes(row[0]), row[1]): row for row in rows.get("fact2", [])}
        missing = next((place for place, line in enumerate(lines, 1) if line not in there), None)
        if fault or missing:
            says(name, answer, f"refused: E3 batch, {fault}" if fault else f"refused: E6 no line, record {missing}")
            count.case([] if same(rows_of(f"{folder}/w"), rows) else f"{name}: the rows are others now")
            continue
        says(name, answer, f"accepted {number} {id}: {len(records)} records, 0 placeholders")
        found = rows_of(f"{folder}/w")
        facts = [row for line, row in there.items() if line not in lines]
        voids = [(Text(ticket), line, number) for ticket, line in sorted(lines)]
        count.case([] if same(found["fact2"], facts) and same(found["void"], voids) else f"{name}: {found['fact2']} and {found['void']} are stored")


load_voids("v3", 0, "after2", form=1)
load_voids("v3", 22, "after17", form=2)

# ---- manifests

run(PROGRAM, folder, "init made policy")
MADE = rows_of(f"{folder}/made")
MANIFEST = b"product,p1,p1\nsales,s1,s1\nsales,s1,s1\nstore,bad id,p1\nmigrate,m1,m1\nupgrade,u1,none\nproduct,p2,p2\nvoid,v1,v1\n"
LINES = [
    "accepted 2 p1: 1 records, 0 placeholders",
    "accepted 3 s1: 2 records, 1 placeholders",
    "already 3 s1: 2 records, 1 placeholders",
    "refused: E1 bad id",
    "accepted 4 m1: 0 records, 0 placeholders",
    "accepted 5 u1: 0 records, 0 placeholders",
    "accepted 6 p2: 1 records, 0 placeholders",
    "accepted 7 v1: 1 records, 0 placeholders",
]
for cut in beginnings(MANIFEST):
    write("cut", cut)
    copy(f"{folder}/made", f"{folder}/w")
    entries, bad = readers.read_manifest(cut)
    answer = run(PROGRAM, folder, "deliver w cut")
    name = f"the manifest's first {len(cut)} bytes"
    # the last field of an upgrade names no file
    missing = bad or next((path for kind, _, path in entries if kind != "upgrade" and path not in FILES), None)
    if missing is None:
        text = "".join(line + "\n" for line in LINES[: len(entries)]).encode()
        count.case([] if answer == Answer(text, 2 if len(entries) > 3 else 0) else f"{name}: {answer}")
        base = sqlite3.connect(f"{folder}/w")
        kept = base.execute("SELECT count(*) FROM command").fetchone()[0]
        base.close()
        accepted = 1 + sum(line.startswith("accepted") for line in LINES[: len(entries)])
        count.case([] if kept == accepted else f"{name}: {kept} commands are kept")
    else:
        says(name, answer, f"refused: M1 bad manifest, record {bad}" if bad else f"failed: F1 file, {missing}")
        count.case([] if same(rows_of(f"{folder}/w"), MADE) else f"{name}: the rows are others now")

work.cleanup()
count.end()
