#!/usr/bin/env python3
"""Ends the built program at each call that writes, cuts or syncs the warehouse's file or its log, and looks at what is found then. Build the program
first (`rt run` in crates/wh); a C compiler makes the library tests/lib/stop_file.c that is loaded in front of it.

usage: stopped_files.py [STEP] [PROGRAM] [NAME]

Every such call of a making, of a load of a late record, of one of a void, of a delivery of three commands, and of a session of these with a check and a
migration, or one in STEP of them, until a run ends without a stop; of an upgrade of the sixteen worked rows, and of a delivery of an upgrade, a late record and a
migration, one in four times STEP; with NAME (making, load, void, delivery, session, upgrade, carrying, open, again) of that one alone. Each stop is tried three
times: with nothing of that call done; with the first half of the bytes of that write done; and with all taken back that was written since its file was last
synced. `open` stops a `status` that opens what the stopped delivery left, and `again` stops that delivery when it comes again, each after one in four times
STEP of the delivery's stops.

After each stop the file is opened, or it is no warehouse where the making was stopped, which is then made again. It is clean, and the rows of its tables, ten or
twelve of them, are those that the commands leave where each is sent alone: all whose lines went out, and perhaps the next one. The same commands again end with
their receipts, and all twelve dumps are those of a run without a stop. A command is one transaction: the log never holds more than one commit ahead of the
lines that went out, or two where the file is new, whose empty database is the first.
"""

import os
import subprocess
import sys
import tempfile

from lib.program import program
from lib.worked import TABLES, Answer, Count, copy, make_worked, rows_of, run, said, same, without_file, write_files

HERE = os.path.dirname(os.path.realpath(__file__))
ARGUMENTS = dict(enumerate(sys.argv))
STEP = int(ARGUMENTS.get(1, 1))
PROGRAM = program(2)
ALONE = ARGUMENTS.get(3)
STOPPED = 137
NO_WAREHOUSE = said("failed: N1 not a warehouse")
CLEAN = said("clean")

count = Count()
work = tempfile.TemporaryDirectory()
folder = work.name
subprocess.run(["cc", "-O1", "-shared", "-fPIC", "-o", f"{folder}/stop.so", f"{HERE}/lib/stop_file.c", "-ldl"], check=True)
write_files(folder)
with open(f"{folder}/night", "w") as file:
    file.write("product,p3,p3\nsales,s2,s2\ncustomer,c1,c1\n")
with open(f"{folder}/carrying", "w") as file:
    file.write("upgrade,u1,none\nproduct,p3,p3\nmigrate,m1,m1\n")
make_worked(PROGRAM, folder, 3)
copy(f"{folder}/w", f"{folder}/made")
make_worked(PROGRAM, folder, since=4)
copy(f"{folder}/w", f"{folder}/worked")
make_worked(PROGRAM, folder, 18, since=17)
copy(f"{folder}/w", f"{folder}/upgraded")

MADE = ["accepted 1 init: 0 records, 0 placeholders"]
LOADED = ["accepted 6 p3: 1 records, 0 placeholders"]
DELIVERED = [*LOADED, "accepted 7 s2: 1 records, 2 placeholders", "accepted 8 c1: 1 records, 0 placeholders"]
ASKED = ["load w product p3 p3", "load w sales s2 s2", "check w", "load w customer c1 c1", "migrate w m1 m1"]
IN_SESSION = [*DELIVERED[:2], "clean", DELIVERED[2], "accepted 9 m1: 0 records, 0 placeholders"]
WITHDRAWN = ["accepted 23 v1: 1 records, 0 placeholders"]
UPGRADED = ["accepted 21 u1: 0 records, 0 placeholders"]
CARRIED = ["accepted 6 u1: 0 records, 0 placeholders", "accepted 7 p3: 1 records, 0 placeholders", "accepted 8 m1: 0 records, 0 placeholders"]


class Work:
    """Words that are stopped: the file before them or None, the lines that they print, what they do step by step, and at one in how many calls. A session's
    lines are its steps."""

    def __init__(self, name, before, words, lines, steps, step=STEP):
        self.name, self.before, self.words, self.lines, self.step = name, before, words, lines, step
        self.transactions = 1 if before else 2
        self.told = "".join(f"{without_file(it)}\n" for it in steps if words == "session w").encode()
        self.states = [self.start() and rows_of(f"{folder}/w")]
        for it in steps:
            if run(PROGRAM, folder, it).text.startswith(b"accepted "):
                self.states.append(rows_of(f"{folder}/w"))
        self.start()
        answer = run(PROGRAM, folder, words, self.told)
        if answer != Answer("".join(line + "\n" for line in lines).encode(), 0) or not same(rows_of(f"{folder}/w"), self.states[-1]):
            sys.exit(f"{name} without a stop: {answer}")
        self.dumps = dumps()

    def start(self):
        for end in ("", "-wal", "-shm"):
            if os.path.exists(f"{folder}/w{end}"):
                os.remove(f"{folder}/w{end}")
        if self.before:
            copy(f"{folder}/{self.before}", f"{folder}/w")
        return self.before


def dumps():
    return [run(PROGRAM, folder, f"dump w {table}") for table in TABLES]


def stopped(words, told, number, how):
    return run(PROGRAM, folder, words, told, LD_PRELOAD=f"{folder}/stop.so", STOPPED_FILE=f"{folder}/w", STOPPED_CALL=str(number), STOPPED_HOW=how, STOPPED_NOTE=f"{folder}/note")


def done(out):
    """How many commands are told by whole lines."""
    return out[: out.rfind(b"\n") + 1].count(b"accepted ")


def commits():
    """How many transactions the log has kept since it began anew."""
    if not os.path.exists(f"{folder}/w-wal"):
        return 0
    with open(f"{folder}/w-wal", "rb") as file:
        log = file.read()
    frame = 24 + int.from_bytes(log[8:12], "big")
    frames = [log[at : at + 16] for at in range(32, len(log) - frame + 1, frame)]
    return sum(1 for it in frames if it[4:8] != bytes(4) and it[8:16] == log[16:24])


def told_again(lines, kept):
    """The lines where so many of the commands are kept."""
    for line in lines:
        if line.startswith("accepted ") and kept:
            kept, line = kept - 1, line.replace("accepted", "already")
        yield line


def faults_after(work, name, out, least):
    """What is wrong after a stop that let these bytes out, where so many commands at least are kept; and how many are."""
    whole = "".join(line + "\n" for line in work.lines).encode()
    faults = [] if whole.startswith(out) else [f"{name}: {out!r} went out"]
    status = run(PROGRAM, folder, "status w")
    check = run(PROGRAM, folder, "check w")
    if work.before is None and status == NO_WAREHOUSE and check == NO_WAREHOUSE and not out:
        return faults, 0
    if status.status or check != CLEAN:
        return [*faults, f"{name}: status {status}, check {check}"], 0
    rows = rows_of(f"{folder}/w")
    kept = next((number for number, state in enumerate(work.states) if state and same(rows, state)), None)
    least = max(least, done(out))
    if kept not in (least, least + 1):
        return [*faults, f"{name}: {out!r} went out, and the rows are those after {kept} commands"], 0
    return faults, kept


def faults_again(work, name, kept):
    """What is wrong where the same words come again, so many of the commands being kept."""
    answer = run(PROGRAM, folder, work.words, work.told)
    wanted = Answer("".join(line + "\n" for line in told_again(work.lines, kept)).encode(), 0)
    if work.before is None and kept:
        wanted = said("refused: E11 not empty")
    faults = [] if answer == wanted else [f"{name}: again it says {answer}"]
    if not same(rows_of(f"{folder}/w"), work.states[-1]):
        faults.append(f"{name}: the rows are others in the end")
    if dumps() != work.dumps:
        faults.append(f"{name}: the dumps are others in the end")
    return faults


def stop_each(work, words, start, least, name):
    """Stops the words at each of their calls, from where `start` leads, and judges; how many stops that were, and of what."""
    calls, ahead = {}, 0
    for how in ("", "half", "lost"):
        number = 1
        while True:
            start()
            answer = stopped(words, work.told, number, how)
            if answer.status != STOPPED:
                break
            with open(f"{folder}/note") as file:
                call = file.read()
            where = f"{name}, stopped at call {number} ({call} {how})"
            out = answer.text if words == work.words else b""
            ahead = max(ahead, commits() - done(out))
            # where a stop was before, what it left is there already
            out = out if start == work.start else out.replace(b"already ", b"accepted ")
            faults, kept = faults_after(work, where, out, least)
            count.case(faults or faults_again(work, where, kept))
            calls[call] = calls.get(call, 0) + 1
            number += work.step
    if start == work.start and ahead > work.transactions:
        count.case([f"{name}: {ahead} transactions ahead of the lines"])
    return calls


def tell(name, calls):
    print(f"{name}: {sum(calls.values())} stops, " + ", ".join(f"{number} at {call}" for call, number in sorted(calls.items())), flush=True)


def is_wanted(name):
    return ALONE in (None, name)


making = Work("making", None, "init w policy", MADE, ["init w policy"])
load = Work("load", "made", "load w product p3 p3", LOADED, ["load w product p3 p3"])
void = Work("void", "upgraded", "load w void v1 v1", WITHDRAWN, ["load w void v1 v1"])
delivery = Work("delivery", "made", "deliver w night", DELIVERED, ["load w product p3 p3", "load w sales s2 s2", "load w customer c1 c1"])
session = Work("session", "made", "session w", [line for it in IN_SESSION for line in (it, "status 0")], ASKED)
upgrade = Work("upgrade", "worked", "upgrade w u1", UPGRADED, ["upgrade w u1"], 4 * STEP)
carrying = Work("carrying", "made", "deliver w carrying", CARRIED, ["upgrade w u1", "load w product p3 p3", "migrate w m1 m1"], 4 * STEP)
for it in (making, load, void, delivery, session, upgrade, carrying):
    if is_wanted(it.name):
        calls = stop_each(it, it.words, it.start, 0, it.name)
        tell(it.name, calls)
        count.case([] if calls else f"{it.name}: no call was stopped")

# once more where a stop was before
for name, words in (("open", "status w"), ("again", delivery.words)):
    if not is_wanted(name):
        continue
    calls, first = {}, 1
    while True:
        delivery.start()
        answer = stopped(delivery.words, delivery.told, first, "")
        if answer.status != STOPPED:
            break
        copy(f"{folder}/w", f"{folder}/left")
        for call, number in stop_each(delivery, words, lambda: copy(f"{folder}/left", f"{folder}/w"), done(answer.text), f"{name} after call {first}").items():
            calls[call] = calls.get(call, 0) + number
        first += 4 * STEP
    tell(name, calls)

work.cleanup()
count.end()
