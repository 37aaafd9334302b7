#!/usr/bin/env python3
"""Begins the next file of a chain by examples/shop/begin.sh, and compares it with the one before. Build the program first (`rt run` in crates/wh).

usage: chain.py [TRIES] [PROGRAM] [FIRST]

A try draws policies with types 0 to 7, records of some members on a few days, so that many days are told twice, values in quotes and with what other programs
take for line ends, sales, also of members without a record, and a migration that adds attributes; every second try is an upgraded file. Then the members are
carried, and both files get the same sales, late records, another migration, and voids. Before and after that both must have the same dated lists and rows of
members, as C SQLite reads them, and in the end the next file prints the reports that tests/lib/stored.py works out from the rows of the first.
10 tries, or TRIES of them, from number FIRST on, and one of 5,001 records, of which a batch holds 5,000. Each of the wrong programs of `WRONG` must be found.
"""

import csv
import io
import os
import random
import subprocess
import sys

from lib import stored
from lib.program import ROOT, program
from lib.worked import HEADERS, Count, connected, own_folder, rows_of

DIMENSIONS = ("product", "store", "customer")
TYPES = (0, 1, 2, 3, 6, 7)
READINGS = {2: ("was",), 3: ("is", "prior"), 4: ("was",)}
# the members with records; sales name one more of each dimension, of which the store is described in the end
MEMBERS = {"product": ["P1", "P2", "P3", "P4", "P5"], "store": ["S1", "S2", "S3"], "customer": ["C1", "C2", "C3", "C4"]}
DAYS = ("2022-03-01", "2023-01-05", "2023-09-30", "2024-02-10", "2024-02-29", "2024-06-15", "2024-11-30", "2025-07-01")
# the program takes the two of Unicode's line ends for other characters
VALUES = ("", "Acme", "Bolt", "Cask", 'the "one"', "a, b", '"', "two\u2028lines", "next\x85line", 30 * "é", " ")
IN_2024 = ("2024-01-01", "2024-12-31")
DESCRIBED = ("store", "id,day,city\nS9,2024-06-15,Dorf\n")
BROKEN = ("store", 'id,day,city\nS1,2024-03-03,"two\nlines"\n', "refused: E3 batch, B6 bad value, record 1")

SLOTS = range(1, 7)
VALUES_OF = ", ".join(f"CASE v{slot} WHEN '' THEN '(none)' ELSE v{slot} END" for slot in SLOTS)
DATED = f"""
    SELECT dim, natural, day, {VALUES_OF} FROM change AS told JOIN member USING (dim, durable)
    WHERE NOT EXISTS (SELECT 1 FROM change AS again WHERE (again.dim, again.durable, again.day) = (told.dim, told.durable, told.day)
        AND (again.command, again.record) > (told.command, told.record))
    ORDER BY dim, natural, day"""
ROWS = """
    SELECT natural, from_day, to_day, is_current, a1, a2, a3, a4, a5, a6, b1, b2, b3, b4, b5, b6, v1, v2, v3, v4, v5, v6
    FROM {} LEFT JOIN profile ON number = profile_now
    WHERE durable IN (SELECT durable FROM change WHERE dim = {})
    ORDER BY natural, from_day"""
AS_SENT = ", ".join(f"CASE v{slot} WHEN '(none)' THEN '' ELSE v{slot} END" for slot in SLOTS)
# the values that a dimension was told, as they are sent, the first in the end
TOLD = f"""
    SELECT natural, substr(day, 1, 4) || '-' || substr(day, 5, 2) || '-' || substr(day, 7), {AS_SENT}
    FROM change JOIN member USING (dim, durable) WHERE dim = ? ORDER BY command DESC, record DESC"""


# ---- wrong programs: each is given what asks for the part behind so many records, that number, and the file's values by member and day, and by member

def left_out(ask, start, of_days, of_members):
    header, *records = ask(start)
    return [header, *records[:1], *records[2:]]


def begun_one_late(ask, start, of_days, of_members):
    return ask(start + 1 if start else 0)


def firsts_left_out(ask, start, of_days, of_members):
    """A part further: of so few records the first part is of first records, where there is another."""
    firsts = ask(0)[1:]
    return ask(start + len(firsts)) if ask(len(firsts))[1:] else ask(start)


def replaced(ask, start, of_days, of_members):
    """The first record of a day in place of the last."""
    header, *records = ask(start)
    return [header, *([*it[:2], *of_days[it[0], it[1]][: len(header) - 2]] for it in records)]


def opening(ask, start, of_days, of_members):
    """The member's first values in place of the day's."""
    header, *records = ask(start)
    return [header, *([*it[:2], *of_members[it[0]][: len(header) - 2]] for it in records)]


WRONG = {it.__name__: it for it in (left_out, begun_one_late, firsts_left_out, replaced, opening)}


def be_wrong(name, built, words):
    """What stands in the place of the program: it prints other records, and does all else as that does."""
    if words[0] != "records":
        os.execv(built, [built, *words])
    file, dimension, start = words[1:]

    def ask(number):
        text = subprocess.run([built, "records", file, dimension, str(number)], stdout=subprocess.PIPE, check=True).stdout.decode()
        return list(csv.reader(io.StringIO(text, newline="")))

    told = asked(file, TOLD, DIMENSIONS.index(dimension) + 1)
    of_days, of_members = {row[:2]: row[2:] for row in told}, {row[0]: row[2:] for row in told}
    sys.stdout.reconfigure(encoding="utf-8", newline="")
    csv.writer(sys.stdout, lineterminator="\n").writerows(WRONG[name](ask, int(start), of_days, of_members))


# ---- the tries

def asked(file, question, *values):
    """The rows that C SQLite answers, their texts as such."""
    base = connected(file)
    base.text_factory = str
    try:
        return base.execute(question, values).fetchall()
    finally:
        base.close()


def members_of(file):
    """The dated lists and the rows of the members that have records."""
    return [asked(file, DATED), *(asked(file, ROWS.format(name, number)) for number, name in enumerate(DIMENSIONS, 1))]


def text_of(rows, end):
    text = io.StringIO(newline="")
    csv.writer(text, lineterminator=end).writerows(rows)
    return text.getvalue()


class Try:
    """Two files of a chain in a folder, `old` and `next`, and what they are sent: kind, text, and answer where it isn't accepted."""

    def __init__(self, folder, built, seed):
        self.folder, self.built, self.chance = folder, built, random.Random(seed)
        self.is_upgraded, self.names, self.types = seed % 2 == 1, {}, {}
        self.sent, self.sold = 0, []

    def run(self, words, path="."):
        paths = {**os.environ, "PATH": f"{path}:{os.environ['PATH']}"}
        done = subprocess.run(words, cwd=self.folder, env=paths, stdin=subprocess.DEVNULL, stdout=subprocess.PIPE, stderr=subprocess.STDOUT)
        return done.returncode, done.stdout

    def write(self, name, text):
        with open(f"{self.folder}/{name}", "w", encoding="utf-8", newline="") as file:
            file.write(text)

    def policy(self, lacks=0):
        """A policy of any types; it may lack the last attributes of product and customer."""
        band, text = self.chance.choice((4, 5)), "first_year = 2022\nlast_year = 2026\n"
        for dimension in DIMENSIONS:
            names = HEADERS[dimension].split(",")[2:]
            self.names[dimension] = names[: max(1, len(names) - lacks)]
            for name, kind in zip(self.names[dimension], self.chance.sample(TYPES, len(TYPES))):
                self.types[dimension, name] = band if name.endswith("band") else kind
                text += f'[[{dimension}]]\nname = "{name}"\ntype = {self.types[dimension, name]}\n'
        return text

    def migration(self):
        """A migration to a policy that is kept beside the files."""
        text = self.policy()
        self.write("policy", text)
        return "migrate", text

    def records(self, dimension):
        """Records of some members and days."""
        keys = self.chance.sample([(member, day) for member in MEMBERS[dimension] for day in DAYS], 6)
        rows = [(*key, *(self.chance.choice(VALUES) for _ in self.names[dimension])) for key in keys]
        return dimension, text_of([["id", "day", *self.names[dimension]], *rows], self.chance.choice(("\n", "\r\n", "\r")))

    def sales(self, year):
        pick, rows = self.chance.choice, []
        for _ in range(20):
            self.sold.append((f"T{len(self.sold)}", self.chance.randint(1, 9)))
            figures = self.chance.randint(-9, 9), f"{self.chance.randint(-99, 999)}.5", f"{self.chance.randint(0, 99)}.25"
            day = pick([*(it for it in DAYS if it.startswith(year)), f"{year}-{self.chance.randint(1, 12):02}-{self.chance.randint(1, 28):02}"])
            members = pick([*MEMBERS["store"], "S9"]), pick([*MEMBERS["product"], "P9"]), pick([*MEMBERS["customer"], "C9", ""])
            rows.append((*self.sold[-1], day, *members, *figures, *[1] * self.is_upgraded))
        return "sales", text_of([HEADERS["sales2" if self.is_upgraded else "sales"].split(","), *rows], "\n")

    def night_before(self):
        sent = [*map(self.records, DIMENSIONS * 4), BROKEN, *([("upgrade", "")] if self.is_upgraded else []), self.sales("2023")]
        return [*sent, self.migration(), *map(self.records, DIMENSIONS * 2), self.sales("2023")]

    def night_after(self):
        sent = [self.sales("2024"), *map(self.records, DIMENSIONS), self.sales("2024"), self.migration(), *map(self.records, DIMENSIONS), DESCRIBED]
        voids = ("void", text_of([("ticket", "line"), *self.chance.sample(self.sold[-40:], 5)], "\n"))
        return [*sent, voids] if self.is_upgraded else sent

    def deliver(self, sent, *files):
        """What is answered otherwise than it has to be."""
        night = []
        for kind, text, *_ in sent:
            self.sent += 1
            self.write(f"c{self.sent}", text)
            night.append((kind, f"c{self.sent}", f"c{self.sent}"))
        self.write("night", text_of(night, "\n"))
        wanted = [(answer or ["accepted"])[0] for _, _, *answer in sent]
        for file in files:
            told = self.run([self.built, "deliver", file, "night"])[1].decode().splitlines()
            if len(told) != len(wanted) or not all(map(str.startswith, told, wanted)):
                return [f"{file}: {told}"]
        return []

    def begin(self, name, wrong=None):
        """Begins a file with the members of `old`, by the program or by a wrong one."""
        os.makedirs(f"{self.folder}/{wrong}.bin", exist_ok=True)
        words = f"{sys.executable} {os.path.abspath(__file__)} --wrong {wrong} {self.built}" if wrong else self.built
        self.write(f"{wrong}.bin/wh", f'#!/bin/sh\nexec {words} "$@"\n')
        os.chmod(f"{self.folder}/{wrong}.bin/wh", 0o755)
        status, told = self.run(["sh", f"{ROOT}/examples/shop/begin.sh", "old", name, "policy"], f"{self.folder}/{wrong}.bin")
        return [] if status == 0 and told.endswith(b"\nclean\n") else [told.decode()]

    def differing(self, name):
        """What C SQLite finds of members in only one of two files."""
        pairs = zip(("dated lists", *DIMENSIONS), members_of(f"{self.folder}/old"), members_of(f"{self.folder}/{name}"))
        return [f"{what}: {sorted(set(one) ^ set(other))[:4]}" for what, one, other in pairs if one != other]

    def reports(self):
        """What is reported otherwise than the rows of the first file say."""
        attributes = [(dimension, name) for dimension in DIMENSIONS for name in self.names[dimension]]
        asked_for = [(".".join(it), mode) for it in attributes for mode in READINGS.get(self.types[it], ("was", "is"))]
        self.write("list", text_of([(*it, *IN_2024) for it in asked_for], "\n"))
        rows = rows_of(f"{self.folder}/old")
        wanted = b"\n".join(stored.report(rows, *it, *IN_2024)[0] for it in asked_for)
        told = self.run([self.built, "reports", "next", "list"])[1]
        return [] if told == wanted else [f"reports: {told.decode()}and not\n{wanted.decode()}"]

    def make(self):
        """The first file, up to the night before the next one."""
        self.write("first", self.policy(lacks=1))
        self.run([self.built, "init", "old", "first"])
        return self.deliver(self.night_before(), "old")

    def go_on(self):
        """What is wrong with the next file."""
        return self.begin("next") or self.differing("next") or self.deliver(self.night_after(), "old", "next") or self.differing("next") or self.reports()


class Large(Try):
    """5,001 records of products, and none of a store or a customer."""

    def night_before(self):
        migration, header = self.migration(), ["id", "day", *self.names["product"]]
        rows = [(f"P{it // 3}", DAYS[it % 3], f"Item {it}", *(f"Value {it % 7}" for _ in header[3:])) for it in range(5001)]
        return [migration, ("product", text_of([header, *rows[:5000]], "\n")), ("product", text_of([header, rows[5000]], "\n"))]

    def go_on(self):
        faults = super().go_on()
        parts = asked(f"{self.folder}/next", "SELECT records FROM command WHERE kind = 'product' ORDER BY number LIMIT 2")
        return faults or [f"parts: {parts}"] * (parts != [(5000,), (1,)])


def count_try(count, name, made, wrong):
    """Counts a try and, of the same first file, the wrong programs."""
    faults = made.make()
    for it in [] if faults else wrong:
        failed = made.begin(it, it)
        count.case(failed or [f"{it} isn't found"] * (not made.differing(it)))
    count.case([f"{name}: {it}" for it in faults or made.go_on()])


def main():
    if sys.argv[1:2] == ["--wrong"]:
        be_wrong(*sys.argv[2:4], sys.argv[4:])
        return
    tries, first = int(sys.argv[1]) if len(sys.argv) > 1 else 10, int(sys.argv[3]) if len(sys.argv) > 3 else 0
    built, count = program(2), Count()
    for seed in range(first, first + tries):
        with own_folder() as folder:
            count_try(count, f"try {seed}", Try(folder, built, seed), ("left_out", "firsts_left_out", "replaced", "opening") if seed == first else ())
    with own_folder() as folder:
        count_try(count, "5,001 records", Large(folder, built, first), ("begun_one_late",))
    count.end()


main()
