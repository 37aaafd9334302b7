#!/usr/bin/env python3
"""Warehouses in which somebody made more by SQLite: a table of two rows, a view, an index on the facts and what ANALYZE leaves; or indexes of the facts by
store, product and customer; or all of it. And files that an earlier program made, which gave the facts these indexes (tests/older): as they are, and without
the indexes, dropped as docs/schema.md says. Build the program first (`rt run` in crates/wh); a C compiler makes the library tests/lib/stop_file.c that is
loaded in front of it.

usage: files_with_more.py [TRIES] [PROGRAM]: 12 tries, or so many, and those of the older files.

A twin without these things is asked the worked rows (tests/lib/worked.py) and the words below: loads of each kind, late records, migrations, an upgrade, voids,
a delivery, plans, reports, a query and checks, each with the answer that was worked out by hand. A try takes the twin as it was when it was made, or after some
of these words, makes the things there, and asks the others: all commands, and some of the rest. An older file is one that the earlier program made by the worked
rows up to one of them, and is asked those behind it. Each answer has to be the twin's. After each, SQLite has to find the file sound, our tables with the twin's
definitions and rows, and the other things as they were: where they stand and how they are defined, their rows, and in the view what the twin gives to the same
SELECT. Some commands are first ended at one of their calls on the file, and then by `kill -9`: the rows are those before or after the command, the other things
are as they were, `check` says clean, and the same command again ends with its receipt.
"""

import lzma
import os
import random
import subprocess
import sys
import time
from typing import NamedTuple

from lib.program import program
from lib.worked import DAYS, FILES, REPORT, WORDS, Answer, Count, batch, connected, copy, expected, own_folder, rows_of, run, said, same, write_files

HERE = os.path.dirname(os.path.realpath(__file__))
TRIES = int(sys.argv[1]) if len(sys.argv) > 1 else 12
PROGRAM = program(2)
STOPPED = 137
CLEAN = said("clean")
# so many calls on the file a load makes, more or less
CALLS = 40
# the part of the commands that is ended, and of the words that change nothing that is asked
ENDED, ASKED = 0.25, 0.33

SHOWN = "SELECT a2 AS brand, count(*) AS lines, sum(amount) AS amount FROM fact JOIN product ON product.surrogate = fact.product_key GROUP BY a2"
THINGS = f"""
CREATE TABLE note (about TEXT, said);
INSERT INTO note VALUES ('P1', 'ask North'), (NULL, x'00ff');
CREATE VIEW by_brand AS {SHOWN};
CREATE INDEX fact_by_quantity ON fact (quantity, ticket);
ANALYZE;
"""
INDEXES = "".join(f"CREATE INDEX IF NOT EXISTS fact_by_{it} ON fact ({it}_durable, day);" for it in ("store", "product", "customer"))
# what is made, each behind the name by which a try calls it
WAYS = (("things", THINGS, ""), ("indexes", "", INDEXES), ("both", THINGS, INDEXES))
# the worked rows up to which the older files were made, each with what takes its indexes out
DROPPED = "DROP INDEX fact_by_store; DROP INDEX fact_by_product; DROP INDEX fact_by_customer;"
OLDER = ((9, DROPPED), (16, DROPPED), (20, DROPPED + DROPPED.replace("fact", "fact2")))

# the worked rows that are asked
WORKED = [it for it in WORDS if not it[1].startswith("dump ")]
# what is asked behind them: a store moved in July, and late news says in June; a night, of which the last batch sells what was sold
FILES["k1"] = batch("store", "S1,2024-01-05,Bern", "S1,2024-07-01,Basel")
FILES["k2"] = batch("store", "S1,2024-06-01,Basel")
FILES["d10"] = batch("sales2", "T7,1,2024-06-30,S2,P1,C7,3,7.50,4.80,1", "T7,2,2024-06-30,S2,P9,C7,1,10.00,7.00,0")
FILES["v6"] = batch("void", "T7,2", "T4,1")
FILES["night"] = b"product,p10,p10\nsales,s7,d10\nvoid,v6,v6\nsales,s8,d10\n"
FILES["list"] = f"store.city,was,{DAYS.replace(' ', ',')}\ncustomer.tier,prior,{DAYS.replace(' ', ',')}\n".encode()
PLAN = "put command 25\nput change 25 1\nput store 1\nremove store 3\nput store 4\nrekey fact2 T2 1\nrekey fact2 T5 1\nedits 7"
CITIES = """\
store.city:was,date.month,lines,quantity,amount,cost,margin
Basel,2024-06,1,1,10.00,7.00,3.00
Basel,2024-07,1,2,5.00,3.20,1.80
Bern,2023-12,1,1,2.50,1.60,0.90
Bern,2024-02,1,1,2.50,1.60,0.90"""
NIGHT = """\
accepted 26 p10: 1 records, 0 placeholders
accepted 27 s7: 2 records, 2 placeholders
accepted 28 v6: 2 records, 0 placeholders
refused: E6 line there, record 1"""
REPORTS = f"""\
report store.city was {DAYS}
{REPORT}       1          3           7.50           4.80           2.70  (unknown)
       2          3          15.00          10.20           4.80  Basel
       1          1           2.50           1.60           0.90  Bern
       4          7          25.00          16.60           8.40  total

refused: G2 no reading, type 2 prior"""
MORE = [
    ("load w store k1 k1", "accepted 24 k1: 2 records, 0 placeholders"),
    ("plan w store k2 k2", PLAN),
    ("load w store k2 k2", "accepted 25 k2: 1 records, 0 placeholders"),
    (f"query w {DAYS} store.city date.month", CITIES),
    ("deliver w night", NIGHT),
    ("reports w list", REPORTS),
    ("records w store", "id,day,city\nS1,2024-01-05,Bern\nS1,2024-06-01,Basel\nS1,2024-07-01,Basel"),
    ("load w void v6 v6", "already 28 v6: 2 records, 0 placeholders"),
    ("check w", "clean"),
]


class Held(NamedTuple):
    """What SQLite reads in a file: the rows of our tables and how these are defined, what the view shows or its SELECT gives, the other things where they
    stand, and whether it is sound."""

    rows: dict
    defined: list
    shown: list
    others: dict
    sound: list


class Step(NamedTuple):
    """Words, what the twin answered and how long that took, and what it then held."""

    words: str
    answer: Answer
    seconds: float
    held: Held


def held(ours):
    """What the file `w` holds, where these are the names of our tables and indexes. A copy of it is read, whose log SQLite may move."""
    copy(f"{folder}/w", f"{folder}/read")
    base = connected(f"{folder}/read")
    try:
        schema = base.execute("SELECT * FROM sqlite_schema ORDER BY name").fetchall()
        others = [it for it in schema if it[1].decode() not in ours]
        tables = [it[1].decode() for it in others if it[0] == b"table"]
        shown = "by_brand" if b"by_brand" in [it[1] for it in others] else f"({SHOWN})"
        defined = [(*it[:3], it[4]) for it in schema if it not in others]
        shown = base.execute(f"SELECT * FROM {shown} ORDER BY brand").fetchall()
        others = {"": others, **{it: base.execute(f"SELECT rowid, * FROM {it} ORDER BY rowid").fetchall() for it in tables}}
        return Held(rows_of(f"{folder}/read"), defined, shown, others, base.execute("PRAGMA integrity_check").fetchall())
    finally:
        base.close()


def told(lines):
    """The answer of lines of `MORE`: a refusal may stand below others."""
    return Answer(f"{lines}\n".encode(), 2 if "refused: " in lines else 0)


def ask_twin():
    """Asks the twin, and gives the names of its tables and indexes, and the steps; the file after a step is kept as `twin` and the step's number."""
    asked = [(words, expected(words, lines)) for _, words, lines in WORKED]
    asked += [(words, told(lines)) for words, lines in MORE]
    seconds = []
    for number, (words, wanted) in enumerate(asked):
        began = time.monotonic()
        answer = run(PROGRAM, folder, words)
        seconds.append(time.monotonic() - began)
        if answer != wanted:
            sys.exit(f"the twin, {words}: {answer}, and not {wanted}")
        copy(f"{folder}/w", f"{folder}/twin{number}")
    base = connected(f"{folder}/w")
    ours = {name.decode() for (name,) in base.execute("SELECT name FROM sqlite_schema")}
    base.close()
    steps = []
    for number, (words, answer) in enumerate(asked):
        copy(f"{folder}/twin{number}", f"{folder}/w")
        steps.append(Step(words, answer, seconds[number], held(ours)))
    return ours, steps


def is_accepted(step):
    return step.answer.text.startswith(b"accepted ")


def stopped(step, chance):
    """Runs the words of a step, and ends them at one of their calls on the file; whether it did."""
    ends = {"STOPPED_FILE": f"{folder}/w", "STOPPED_CALL": str(chance.randint(1, CALLS)), "STOPPED_HOW": chance.choice(("", "half", "lost"))}
    return run(PROGRAM, folder, step.words, LD_PRELOAD=f"{folder}/stop.so", **ends).status == STOPPED


def killed(step, chance):
    """Runs the words of a step, and kills them at some moment of the time that they took the twin; whether it did."""
    going = subprocess.Popen([PROGRAM, *step.words.split()], cwd=folder, stdin=subprocess.DEVNULL, stdout=subprocess.DEVNULL, stderr=subprocess.DEVNULL)
    time.sleep(chance.random() * step.seconds)
    going.kill()
    return going.wait() != 0


class Try:
    """A warehouse with more in it: the step after which it begins, and the other things as they then are."""

    def __init__(self, name, number, path, first, made, indexes=""):
        """Takes the file at a path, which holds what the twin held after this step, and makes things in it, and indexes also once there is `fact2`."""
        self.chance = random.Random(number)
        self.first, self.indexes = first, indexes
        self.name, self.ended = f"{name} after {first} words", {"stopped": 0, "killed": 0}
        copy(path, f"{folder}/w")
        self.make(made + self.indexes)
        if "fact2" in steps[self.first].held.rows:
            self.make(self.indexes.replace("fact", "fact2"))

    def make(self, statements):
        base = connected(f"{folder}/w")
        base.executescript(statements)
        base.close()
        self.others = held(ours).others

    def judged(self, name, *wanted):
        """What is wrong with the file, which has to hold what the twin held after one of these steps; and after which it does."""
        now, faults = held(ours), []
        found = next((it for it in wanted if same(it.held.rows, now.rows) and same(it.held.defined, now.defined)), None)
        if not found:
            faults.append("our tables are others")
        elif not same(found.held.shown, now.shown):
            faults.append(f"the view shows {now.shown}")
        if not same(self.others, now.others):
            faults.append(f"the other things are {now.others}")
        if now.sound != [(b"ok",)]:
            faults.append(f"the file isn't sound: {now.sound}")
        return [f"{self.name}, {name}: {it}" for it in faults], found

    def asked(self, name, words, wanted):
        """What is wrong with the answer to words."""
        answer = run(PROGRAM, folder, words)
        return [] if answer == wanted else [f"{self.name}, {name}: {answer}, and not {wanted}"]

    def interrupt(self, before, step):
        """Ends a command in both ways, and sends it again; the file is then as it was."""
        copy(f"{folder}/w", f"{folder}/left")
        for how in (stopped, killed):
            name = f"{step.words}, {how.__name__}"
            self.ended[how.__name__] += how(step, self.chance)
            faults, found = self.judged(name, before, step)
            again = step.answer if found is before else Answer(step.answer.text.replace(b"accepted", b"already"), 0)
            faults += self.asked(f"{name}, check", "check w", CLEAN) + self.asked(f"{name}, again", step.words, again)
            count.case(faults + self.judged(f"{name}, again", step)[0])
            copy(f"{folder}/left", f"{folder}/w")

    def go(self):
        """Looks at what it holds, and asks the words behind the first."""
        count.case(self.judged("as it was made", steps[self.first])[0])
        for before, step in zip(steps[self.first :], steps[self.first + 1 :]):
            if not is_accepted(step) and self.chance.random() >= ASKED:
                continue
            if is_accepted(step) and step.answer.text.count(b"\n") == 1 and self.chance.random() < ENDED:
                self.interrupt(before, step)
            count.case(self.asked(step.words, step.words, step.answer) + self.judged(step.words, step)[0])
            if "fact2" in step.held.rows and "fact2" not in before.held.rows:
                self.make(self.indexes.replace("fact", "fact2"))
        return self.ended


def with_more(number):
    """A try with things or indexes that are made: that of each way as the twin was made, and else as it was anywhere on the way."""
    name, things, indexes = WAYS[number % len(WAYS)]
    first = 0 if number < len(WAYS) else random.Random(number).randrange(len(steps) - len(MORE))
    return Try(f"try {number}, {name}", number, f"{folder}/twin{first}", first, things, indexes)


def older(row, made):
    """A try with the older file that was made by the rows up to this one, in which something is made."""
    with lzma.open(f"{HERE}/older/row-{row}.wh.xz") as packed, open(f"{folder}/older", "wb") as file:
        file.write(packed.read())
    first = max(place for place, (at, *_) in enumerate(WORKED) if at <= row)
    return Try(f"older, {made or 'as it is'}", row, f"{folder}/older", first, made)


count = Count()
work = own_folder()
folder = work.name
subprocess.run(["cc", "-O1", "-shared", "-fPIC", "-o", f"{folder}/stop.so", f"{HERE}/lib/stop_file.c", "-ldl"], check=True)
write_files(folder)
ours, steps = ask_twin()
ended = [with_more(number).go() for number in range(TRIES)]
ended += [older(row, made).go() for row, dropped in OLDER for made in ("", dropped)]
print(f"{len(ended)} tries, {sum(it['stopped'] for it in ended)} commands stopped at a call, {sum(it['killed'] for it in ended)} killed before they ended")
work.cleanup()
count.end()
