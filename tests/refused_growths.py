#!/usr/bin/env python3
"""Refuses each growth of memory of each of the worked rows in turn, one at a time, in the built program, and looks at its answer and at its file.
Build the program first (`rt run` in crates/wh); a C compiler makes the library tests/lib/refuse_each.c that is loaded in front of it.

usage: refused_growths.py [STEP] [PROGRAM] [ROW]

Every growth of each of the words in tests/lib/worked.py, from the making to what comes after the upgrade and a void, or one in STEP of them; with ROW those of
that row, and of its session, alone. An answer is the worked one, or `failed: E8 memory` with the rows as they were, or `failed: E9 store, memory` with the rows
as they were or as they are with the command; of a dump some of its lines may stand before. No other answer changes. The same words again end as they do without a
refusal.

A run that is refused a growth parts from one that isn't, so that what is before the growth is done once for all growths of some words. Where two of them
leave the same file, byte for byte, what is found in it is looked at once.

Then every growth, or one in STEP, of six sessions whose lines are these words, some rows each. One line is answered with E8 or E9 as above, and each behind it as
its words alone are over what was left; or memory ran out where a line was read: behind the answers before it stands `failed: E8 memory`, and the session ends.
The check is clean, and the same lines in another session are answered as their words alone.
"""

import os
import subprocess
import sys

from lib.program import program
from lib.worked import WORDS, Answer, Count, answers_in, copy, expected, make_worked, own_folder, rows_of, run, said, without_file, write_files

HERE = os.path.dirname(os.path.realpath(__file__))
ARGUMENTS = dict(enumerate(sys.argv))
STEP = int(ARGUMENTS.get(1, 1))
PROGRAM = program(2)
ROW = int(ARGUMENTS.get(3, 0))
SHORT, STOPPED = b"failed: E8 memory\n", b"failed: E9 store, memory\n"
# a log that is shorter has no page in it
PAGE = 4096
# the first and the last row of each session
SESSIONS = [(1, 3), (4, 8), (9, 11), (12, 16), (17, 18), (19, 20)]

count = Count()
work = own_folder()
folder = work.name
for library in ("refuse_each", "refuse_allocation"):
    subprocess.run(["cc", "-O1", "-shared", "-fPIC", "-o", f"{folder}/{library}.so", f"{HERE}/lib/{library}.c", "-ldl"], check=True)
write_files(folder)


def content(path):
    with open(path, "rb") as file:
        return file.read()


def held():
    """What the file and its log hold."""
    found = [content(f"{folder}/w{end}") if os.path.exists(f"{folder}/w{end}") else None for end in ("", "-wal")]
    return found[0], found[1] if found[1] and len(found[1]) >= PAGE else None


def rows(name):
    """The rows of all tables as a text, or None where there is no warehouse."""
    return repr(rows_of(f"{folder}/{name}")) if run(PROGRAM, folder, f"status {name}").status == 0 else None


def fault_of(answer, words, whole):
    """The line of a lack of memory that is the answer to words, if it is one; of a dump some lines of the whole one may stand before."""
    for line in (SHORT, STOPPED):
        if answer.status == 3 and answer.text.endswith(line):
            lines = answer.text.removesuffix(line)
            is_begun = words.startswith("dump ") and whole.text.startswith(lines) and lines.endswith(b"\n")
            return line if is_begun or not lines else None
    return None


class Growths:
    """The growths of some words, what they print, and the rows before and after them."""

    def __init__(self, words, lines):
        self.words, self.whole = words, expected(words, lines)
        self.tried = self.short = self.stopped = 0
        self.seen = {}
        self.before = rows("w")
        copy(f"{folder}/w", f"{folder}/before")
        answer = run(PROGRAM, folder, words)
        self.after = rows("w")
        count.case([] if answer == self.whole else f"{words}: {answer}")

    def refuse_each(self, first):
        """Refuses growths one at a time, and judges each run; in the end that in which none was."""
        copy(f"{folder}/before", f"{folder}/w")
        (told, ask), (go, goes_on) = os.pipe(), os.pipe()
        kept = {"REFUSED_FIRST": first, "REFUSED_STEP": STEP, "REFUSED_FILE": f"{folder}/w", "REFUSED_OUT": f"{folder}/out", "REFUSED_ASK": ask, "REFUSED_GO": go}
        environment = {**os.environ, "LD_PRELOAD": f"{folder}/refuse_each.so", **{name: str(value) for name, value in kept.items()}}
        with subprocess.Popen([PROGRAM, *self.words.split()], cwd=folder, stdin=subprocess.DEVNULL, stdout=subprocess.PIPE, pass_fds=(ask, go), env=environment) as process:
            os.close(ask)
            os.close(go)
            with os.fdopen(told) as lines:
                for line in lines:
                    number, status = map(int, line.split())
                    faults = self.faults(Answer(content(f"{folder}/out"), status))
                    count.case([f"{self.words}, growth {number} refused: {fault}" for fault in faults])
                    os.write(goes_on, b"\n")
            answer = Answer(process.stdout.read(), process.wait())
        os.close(goes_on)
        count.case([] if answer == self.whole and rows("w") == self.after else f"{self.words} behind refused growths: {answer}")

    def faults(self, answer):
        self.tried += 1
        fault, allowed = fault_of(answer, self.words, self.whole), [self.after]
        if fault:
            allowed = [self.before] if fault == SHORT else [self.before, self.after]
            self.short += fault == SHORT
            self.stopped += fault == STOPPED
        elif answer != self.whole:
            return [answer]
        found, again, end = self.look()
        if found not in allowed:
            return [f"{answer}, and the rows are others"]
        if again != self.whole and not (found == self.after and again == self.said_again()):
            return [f"{answer}, and again {again}"]
        return [] if end == self.after else [f"{answer}, and again the rows are others"]

    def look(self):
        """The rows of the file, what the same words say again, and the rows then."""
        now = held()
        if now not in self.seen:
            copy(f"{folder}/w", f"{folder}/x")
            self.seen[now] = rows("x"), run(PROGRAM, folder, self.words.replace(" w ", " x ") if " w " in self.words else self.words[:-1] + "x"), rows("x")
        return self.seen[now]

    def said_again(self):
        """What is answered to words whose work is done."""
        if self.words.startswith("init "):
            return said("refused: E11 not empty")
        return Answer(self.whole.text.replace(b"accepted", b"already"), self.whole.status)


class Session:
    """A session whose lines are the words of some worked rows."""

    def __init__(self, first, last):
        self.asked = [(words, expected(words, lines)) for row, words, lines in WORDS if first <= row <= last]
        self.told = "".join(f"{without_file(words)}\n" for words, _ in self.asked).encode()
        self.name = f"rows {first} to {last} in a session"
        self.alone, self.rows, self.seen = {}, {}, {}
        self.tried = self.short = self.stopped = self.ended = 0
        copy(f"{folder}/none", f"{folder}/w")
        make_worked(PROGRAM, folder, first - 1)
        copy(f"{folder}/w", f"{folder}/{first}")
        self.start = str(first)
        count.case([f"{words} alone: {found}" for (words, whole), found in zip(self.asked, self.tail(self.start, 0)[0]) if found != whole])

    def words_alone(self, state, place):
        """What the words of a line alone answer over the file of a state, and the state then."""
        if (state, place) not in self.alone:
            copy(f"{folder}/{state}", f"{folder}/w")
            answer, after = run(PROGRAM, folder, self.asked[place][0]), state
            if answer.text.startswith(b"accepted "):
                after = f"{state}-{place}"
                copy(f"{folder}/w", f"{folder}/{after}")
            self.alone[state, place] = answer, after
        return self.alone[state, place]

    def tail(self, state, place):
        """What all lines from one on are answered, and the state in the end."""
        answers = []
        for it in range(place, len(self.asked)):
            answer, state = self.words_alone(state, it)
            answers.append(answer)
        return answers, state

    def rows_at(self, state):
        if state not in self.rows:
            self.rows[state] = rows(state)
        return self.rows[state]

    def refuse_each(self, first):
        """Refuses growths one at a time, and judges each session; in the end that in which none was."""
        note, number = f"{folder}/note", first
        while True:
            copy(f"{folder}/{self.start}", f"{folder}/w")
            refused = {"LD_PRELOAD": f"{folder}/refuse_allocation.so", "REFUSED_ALLOCATION": str(number), "REFUSED_NOTE": note}
            answer = run(PROGRAM, folder, "session w", self.told, **refused)
            faults = [f"{self.name}, growth {number} refused: {fault}" for fault in self.faults(answer)]
            if not os.path.exists(note):
                break
            os.remove(note)
            self.tried += 1
            count.case(faults)
            number += STEP
        count.case(faults or ([] if answers_in(answer.text) == (self.tail(self.start, 0)[0], b"") else f"{self.name}, no growth refused: {answer}"))

    def ends(self, answer):
        """The states that may be left where so much was printed; none where it can't be."""
        told, rest = answers_in(answer.text)
        state, place = self.start, 0
        if answer.status != max([3 * bool(rest), *(it.status for it in told)]) or rest not in (b"", SHORT):
            return []
        while place < len(told) and told[place] == self.words_alone(state, place)[0]:
            state, place = self.words_alone(state, place)[1], place + 1
        if place == len(told):
            self.ended += bool(rest)
            return [state] if rest or place == len(self.asked) else []
        whole, kept = self.words_alone(state, place)
        fault = fault_of(told[place], self.asked[place][0], whole)
        self.short += fault == SHORT
        self.stopped += fault == STOPPED
        tails = [self.tail(it, place + 1) for it in ([state] if fault == SHORT else [state, kept] if fault else [])]
        return [end for answers, end in tails if told[place + 1 :] == answers and not rest]

    def faults(self, answer):
        found, checked, again, last = self.look()
        ends = self.ends(answer)
        end = next((it for it in ends if self.rows_at(it) == found), None)
        if end is None:
            return [f"{answer}, and the rows are not those after it" if ends else answer]
        answers, state = self.tail(end, 0)
        faults = [] if checked == said("failed: N1 not a warehouse" if found is None else "clean") else [f"{answer}, and the check says {checked}"]
        return faults + ([] if answers_in(again.text) == (answers, b"") and last == self.rows_at(state) else [f"{answer}, and again {again}"])

    def look(self):
        """The rows of the file, what a check says, what the same lines say again, and the rows then."""
        now = held()
        if now not in self.seen:
            copy(f"{folder}/w", f"{folder}/x")
            self.seen[now] = rows("x"), run(PROGRAM, folder, "check w"), run(PROGRAM, folder, "session w", self.told), rows("w")
        return self.seen[now]


def add(sums, tried):
    """The sums with what was tried."""
    return [one + more for one, more in zip(sums, (tried.tried, tried.short, tried.stopped))]


sums = [0, 0, 0]
for place, (row, words, lines) in enumerate(WORDS):
    growths = Growths(words, lines)
    if ROW in (0, row):
        # where only some are tried, they are others of each of the words
        growths.refuse_each(1 + place * 7919 % STEP)
        print(f"row {row}, {words}: {growths.tried} growths refused, {growths.short} answered with E8, {growths.stopped} with E9", flush=True)
        sums = add(sums, growths)
for place, (first, last) in enumerate(SESSIONS):
    if ROW == 0 or first <= ROW <= last:
        session = Session(first, last)
        session.refuse_each(1 + place * 7919 % STEP)
        print(f"{session.name}: {session.tried} growths refused, {session.short} answered with E8, {session.stopped} with E9, {session.ended} ended it", flush=True)
        sums = add(sums, session)
print("{} growths refused, {} answered with E8, {} with E9, the others as with ample memory".format(*sums))
work.cleanup()
count.end()
