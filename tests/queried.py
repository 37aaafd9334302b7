#!/usr/bin/env python3
"""Asks random queries of random shops, one of 195,000 facts and one of 2,000, and compares each answer with that of C SQLite's GROUP BY over the file's tables.
Build the program first (`rt run` in crates/wh).

usage: queried.py [TRIES] [PROGRAM]

A shop has attributes of each type and awkward texts as their values, sales without a card and of members that no record describes, and late records. It is
asked in format 1; then, under a policy with other types, after an upgrade and with voids, in format 2. The views of `wh views` have to show by each column
what a query answers. A try asks for one slice (a range of days, and up to
twelve conditions) by one to six columns and by others: both answers are those of SQLite, and come to the same sums. The small shop is asked ten times as
often: also by the label of a line, by one column as a report is, as a table, and what is refused. At last, programs that answer wrong have to be found. The same numbers
give the same tries.
"""

import csv
import io
import os
import random
import subprocess
import sys
from typing import NamedTuple

from lib.program import program
from lib.stored import field, money_text
from lib.worked import REPORT, Answer, Count, connected, copy, own_folder, said

TRIES = int(sys.argv[1]) if len(sys.argv) > 1 else 4
PROGRAM = program(2)

# the modes in which a type has a reading
MODES = {0: ("was", "is"), 1: ("was", "is"), 2: ("was",), 3: ("is", "prior"), 4: ("was",), 5: ("was", "is"), 6: ("was", "is"), 7: ("was", "is")}
NAMES = {"product": "description brand category department launched supplier", "store": "city region size", "customer": "name age_band spend_band tier segment since"}
DATES = {"date.month": "substr(calendar.iso, 1, 7)", "date.holiday": "calendar.holiday"}
# the tables in which a sale's labels stand, by the name that a row has here, each with the other that it needs
JOINS = {
    "calendar": ("calendar ON calendar.date_key = sale.day", None),
    "profile": ("profile ON profile.number = sale.profile", None),
    **{it: (f"{it} ON {it}.surrogate = sale.{it}_key", None) for it in NAMES},
    **{f"{it}_now": (f"{it} AS {it}_now ON {it}_now.durable = sale.{it}_durable AND {it}_now.is_current = 1", None) for it in NAMES},
    "profile_now": ("profile AS profile_now ON profile_now.number = customer_now.profile_now", "customer_now"),
}
AWKWARD = ["A", "a", "AB", "A,B", 'A "B"', '"', ",", "A=B", "=", "A b", " A ", "Ä", "none)", "-1", "\U0001f34e"]
HOLIDAYS = {"2023-12-25": "Christmas, first", "2024-12-25": "Christmas, first", "2024-01-01": 'New "Year"', "2025-07-14": "14=7", "2026-05-01": "Ä"}
SPECIAL = ["(none)", "(unknown)", "(no card)", "", "A\nB", "A\r\n", "total"]

count = Count()
work = own_folder()
os.chdir(work.name)


def run(words):
    done = subprocess.run([PROGRAM, *words], stdin=subprocess.DEVNULL, capture_output=True, timeout=300)
    return Answer(done.stdout, done.returncode)


def write_rows(name, rows):
    with open(name, "w", newline="") as file:
        csv.writer(file).writerows(rows)


class Column(NamedTuple):
    """A column as it is asked for, how it is called in the header, its label in SQL, and the line of its refusal."""

    word: str
    name: str
    label: str
    fault: str | None = None

    @property
    def attribute(self):
        return self.word.partition(":")[0]

    @property
    def meant(self):
        """What conditions of the same column have in common. The two modes of a date are two columns, though the header names none."""
        return self.name + ":is" * (self.name in DATES and self.word.endswith(":is"))


class Query(NamedTuple):
    columns: list
    conditions: list
    first: str
    last: str

    def by(self, *columns):
        return self._replace(columns=list(columns))

    def words(self):
        conditions = [word for column, label in self.conditions for word in ("--where", f"{column.word}={label}")]
        return ["query", "w", self.first, self.last, *(it.word for it in self.columns), *conditions]

    def fault(self):
        """The line of the refusal, if there is one."""
        is_bad = self.first > self.last
        return next((it.fault or is_bad and "refused: G3 bad range" for it in [*self.columns, *(it for it, _ in self.conditions)] if it.fault or is_bad), None)


def label_in(dimension, slot, kind, mode):
    """Where the label of a sale stands, of an attribute in this place of this type."""
    if kind in (4, 5):
        return f"profile{'_now' if mode == 'is' else ''}.v{slot}"
    if (kind, mode) == (7, "is"):
        return f"{dimension}_now.a{slot}"
    return f"{dimension}.{'b' if (kind, mode) in ((3, 'prior'), (6, 'is')) else 'a'}{slot}"


def columns_of(policy):
    """All columns under a policy, with those that have no reading."""
    made = [Column(f"product.{it}", it, "", "refused: G1 no attribute") for it in ("colour", "id", "brand.was", "")]
    for attribute, label in DATES.items():
        made += [Column(attribute + end, attribute, label) for end in ("", ":was", ":is")]
        made.append(Column(f"{attribute}:prior", attribute, label, "refused: G2 no reading, date prior"))
    for dimension, kinds in policy.items():
        for slot, (name, kind) in enumerate(zip(NAMES[dimension].split(), kinds), 1):
            attribute, meant = f"{dimension}.{name}", MODES[kind][0]
            made.append(Column(attribute, f"{attribute}:{meant}", label_in(dimension, slot, kind, meant)))
            for mode in ("was", "is", "prior"):
                fault = None if mode in MODES[kind] else f"refused: G2 no reading, type {kind} {mode}"
                made.append(Column(f"{attribute}:{mode}", f"{attribute}:{mode}", label_in(dimension, slot, kind, mode), fault))
    return made


class Shop:
    """The warehouse `w` of a shop, asked and read. The profile's type is 5 at first, and 4 from the upgrade on."""

    def __init__(self, seed, batches, size, members):
        self.random, self.batches, self.size, self.members = random.Random(seed), batches, size, members
        self.sold, self.columns, self.base, self.facts = [], [], None, "fact"

    # ---- what is sent

    def policy(self, name, profile):
        kinds = {"product": [0, 1, 2, 3, 6, 7], "store": self.random.sample([0, 1, 2, 3, 6, 7], 3), "customer": [profile, profile, 2, *self.random.sample([0, 1, 3, 6, 7], 3)]}
        for it in kinds.values():
            self.random.shuffle(it)
        lines = ["first_year = 2023", "last_year = 2026"]
        for dimension, types in kinds.items():
            lines += [f"[[{dimension}]]\nname = '{it}'\ntype = {kind}" for it, kind in zip(NAMES[dimension].split(), types)]
        lines += [f"[[holiday]]\nday = '{day}'\nname = '{it}'" for day, it in HOLIDAYS.items()]
        with open(name, "w") as file:
            file.write("\n".join(lines))
        self.columns = columns_of(kinds)
        return name

    def day(self):
        if self.random.random() < 0.05:
            return self.random.choice([*HOLIDAYS])
        return f"{self.random.randint(2023, 2026)}-{self.random.randint(1, 12):02}-{self.random.randint(1, 28):02}"

    def value(self):
        return self.random.choice(["", self.random.choice(AWKWARD), self.random.choice(AWKWARD), f"V{self.random.randint(1, 20)}"])

    def records(self, dimension, name, most):
        """A batch of records, of nine in ten members."""
        keys = dict.fromkeys((f"{dimension[0].upper()}{self.random.randint(1, self.members * 9 // 10)}", self.day()) for _ in range(most))
        names = NAMES[dimension].split()
        write_rows(name, [["id", "day", *names], *([*key, *(self.value() for _ in names)] for key in keys)])
        return dimension, name, name

    def money(self):
        return f"{self.random.randint(-99, 999)}.{self.random.randint(0, 99):02}"

    def sales(self, name, is_discounted=False):
        pick, rows = self.random.randint, []
        for place in range(self.size):
            card = f"C{pick(1, self.members)}" if pick(1, 4) > 1 else ""
            rows.append([f"{name}-{place // 3}", place % 3 + 1, self.day(), f"S{pick(1, self.members)}", f"P{pick(1, self.members)}", card, pick(-9, 99), self.money(), self.money(), *(["0.5"] * is_discounted)])
        self.sold += [row[:2] for row in rows]
        write_rows(name, ["ticket,line,day,store,product,customer,quantity,amount,cost".split(",") + ["discount"] * is_discounted, *rows])
        return "sales", name, name

    def send(self, commands):
        write_rows("night", commands)
        answer = run(["deliver", "w", "night"])
        if answer.status:
            sys.exit(f"{commands}: {answer}")
        if self.base:
            self.base.close()
        copy("w", "read")
        self.base = connected("read")

    def make(self):
        for name in ("w", "w-wal", "w-shm"):
            if os.path.exists(name):
                os.remove(name)
        run(["init", "w", self.policy("p1", 5)])
        half = self.batches // 2
        sales = [self.sales(f"s{it}") for it in range(self.batches)]
        late = [self.records(it, f"l{it}", self.members // 5) for it in NAMES]
        self.send([*(self.records(it, f"r{it}", 2 * self.members) for it in NAMES), *sales[:half], *late, *sales[half:]])

    def go_on(self):
        """Other types, the upgrade, lines that are withdrawn, sales with discounts, and late records."""
        write_rows("v", [["ticket", "line"], *self.random.sample(self.sold, self.size // 2)])
        late = [self.records(it, f"n{it}", self.members // 5) for it in NAMES]
        self.send([("migrate", "m", self.policy("p2", 4)), ("upgrade", "u", ""), ("void", "v", "v"), self.sales("n", True), *late])
        self.facts = "fact2"

    # ---- what is asked

    def select(self, shown, conditions, values, rest=""):
        """What SQLite finds by such labels: the tables in which they stand are joined."""
        needed = {alias for alias in JOINS if any(f"{alias}." in it for it in (*shown, *conditions))}
        needed |= {JOINS[alias][1] for alias in needed} - {None}
        joins = "".join(f" JOIN {join}" for alias, (join, _) in JOINS.items() if alias in needed)
        return self.base.execute(f"SELECT {', '.join(shown)} FROM {self.facts} AS sale{joins} WHERE {' AND '.join(conditions)}{rest}", values).fetchall()

    def sums(self, query):
        """The answer to a query, by SQLite."""
        wanted = {}
        for column, label in query.conditions:
            wanted.setdefault((column.meant, column.label), []).append(label)
        conditions = ["sale.day BETWEEN ? AND ?", *(f"{label} IN ({', '.join('?' * len(them))})" for (_, label), them in wanted.items())]
        values = [int(query.first.replace("-", "")), int(query.last.replace("-", "")), *(it for them in wanted.values() for it in them)]
        places = ", ".join(str(it + 1) for it in range(len(query.columns)))
        shown = [*(it.label for it in query.columns), "count(*)", "sum(quantity)", "sum(amount)", "sum(cost)"]
        return self.select(shown, conditions, values, f" GROUP BY {places} ORDER BY {places}")

    def expected(self, query):
        """What a query has to print."""
        if fault := query.fault():
            return said(fault)
        lines = [",".join([*(it.name for it in query.columns), "lines,quantity,amount,cost,margin"]).encode()]
        for *labels, sold, quantity, amount, cost in self.sums(query):
            lines.append(b",".join([*map(field, labels), b"%d,%d" % (sold, quantity), *map(money_text, (amount, cost, amount - cost))]))
        return Answer(b"".join(it + b"\n" for it in lines), 0)

    def range(self):
        kind = self.random.randint(1, 6)
        if kind > 3:
            return ("2023-01-01", "2026-12-31") if kind > 4 else ("1900-01-01", "9999-12-31")
        first, last = sorted((self.day(), self.day()))
        return (first, first) if kind == 1 else (first, last)

    def pick(self, most):
        good = [it for it in self.columns if not it.fault]
        # as many of the dates and of each dimension
        kinds = [[it for it in good if it.word.startswith(kind)] for kind in ("date", *NAMES)]
        return [self.random.choice(self.random.choice(kinds)) for _ in range(self.random.randint(1, most))]

    def conditions(self):
        """None in three of ten tries; else labels in up to four columns, those of some sale mostly among them."""
        if self.random.random() < 0.3:
            return []
        columns = self.pick(4)
        ticket, line = self.random.choice(self.sold)
        held = self.select([it.label for it in columns], ["ticket = ?", "line = ?"], (ticket, line))
        labels = [(column, bytes(label).decode()) for row in held for column, label in zip(columns, row) if self.random.random() < 0.9]
        others = [*AWKWARD, *SPECIAL, *HOLIDAYS.values(), *(f"V{it}" for it in range(1, 21)), "2024-02", "2025-12"]
        more = [(self.random.choice(columns), self.random.choice(others)) for _ in range(self.random.randint(0, 12 - len(labels)))]
        return self.random.sample(labels + more, len(labels + more))

    def query(self):
        return Query(self.pick(6), self.conditions(), *self.range())


# ---- what is judged

def lines_of(answer):
    """The lines of a query's answer, without the header."""
    return [row for row in csv.reader(io.StringIO(answer.text.decode(), newline=""))][1:]


def hundredths(text):
    return int(text.replace(".", ""))


def totals(answer):
    return [sum(hundredths(row[place]) for row in lines_of(answer)) for place in range(-5, 0)]


def line_of(label, sold, quantity, *money):
    """A line of a report or a table."""
    return f"{sold:8} {quantity:10} {'%14s %14s %14s' % tuple(money_text(it).decode() for it in money)}  {label}\n"


def side_by_side(labels):
    return "".join(f"{it:<24} " for it in labels[:-1]) + labels[-1]


class Judge:
    """Asks a shop by a program, and tells the faults of the answers."""

    def __init__(self, shop, ask):
        self.shop, self.ask = shop, ask

    def of_query(self, query):
        """The answer to a query, and the faults of it."""
        answer, wanted = self.ask(query.words()), self.shop.expected(query)
        if answer == wanted:
            return answer, []
        pairs = zip(answer.text.split(b"\n"), wanted.text.split(b"\n"))
        return answer, [f"{query.words()}: {next((f'{one}, and not {other}' for one, other in pairs if one != other), 'a beginning')}, status {answer.status}"]

    def of_slice(self, query):
        other = query.by(*self.shop.pick(6))
        (one, faults), (two, more) = self.of_query(query), self.of_query(other)
        is_same = faults or more or totals(one) == totals(two)
        return faults + more + ([] if is_same else [f"{query.words()} and {other.words()} come to other sums"])

    def of_label(self, query):
        """A slice by a label has the lines that begin with it in the query by its column, too."""
        others = query._replace(conditions=query.conditions[:11], columns=query.columns[:5])
        free = [it for it in self.shop.pick(6) if all(it.meant != taken.meant for taken, _ in others.conditions)]
        if not free:
            return []
        answer, faults = self.of_query(others.by(free[0], *others.columns))
        label = next((row[0] for row in lines_of(answer)), "A")
        sliced, more = self.of_query(others._replace(conditions=[*others.conditions, (free[0], label)]))
        is_same = faults or more or [row[1:] for row in lines_of(answer) if row[0] == label] == lines_of(sliced)
        return faults + more + ([] if is_same else [f"{others.words()} with {free[0].word}={label}: other lines than those of the query by it"])

    def of_report(self, query):
        """One column without conditions prints what the report prints."""
        column = query.columns[0]
        mode = column.word.partition(":")[2] or column.name.partition(":")[2] or "was"
        words = [column.attribute, mode, query.first, query.last]
        answer, faults = self.of_query(query._replace(columns=[column], conditions=[]))
        if faults:
            return faults
        rows = [[row[0], *map(hundredths, row[1:])] for row in lines_of(answer)]
        rows.append(["total", *(sum(row[place] for row in rows) for place in range(1, 6))])
        text = "".join(line_of(*row) for row in rows)
        told = run(["report", "w", *words])
        return [] if told.text.decode() == f"report {' '.join(words)}\n{REPORT}{text}" else [f"report {words}: {told}, and not {text}"]

    def of_table(self, query):
        """The lines as a table, with the total of the slice behind them."""
        rows = [(side_by_side([bytes(it).decode() for it in labels]), sold, quantity, amount, cost, amount - cost) for *labels, sold, quantity, amount, cost in self.shop.sums(query)]
        rows.append(("total", *(sum(row[place] for row in rows) for place in range(1, 6))))
        text = REPORT.replace("label", side_by_side([it.name for it in query.columns])) + "".join(line_of(*row) for row in rows)
        told = run([*query.words(), "--table"])
        return [] if told == Answer(text.encode(), 0) else [f"{query.words()} as a table: {told}, and not {text}"]

    def of_refused(self, query):
        """With a column that has no reading, or a range of days that is none."""
        pick, bad = self.shop.random, [it for it in self.shop.columns if it.fault]
        columns = pick.sample([pick.choice(bad), *query.columns[:5]], min(len(query.columns), 5) + 1)
        conditions = pick.sample([*query.conditions[:10], (pick.choice(bad), "A")], min(len(query.conditions), 10) + 1)
        kinds = [query._replace(first="2025-01-02", last="2025-01-01"), query.by(*columns), query._replace(conditions=conditions)]
        turned = kinds[0]._replace(columns=columns)
        return [fault for it in (*kinds, turned) for fault in self.of_query(it)[1]]


def viewed(shop):
    """What is wrong with the views: by each column they have what a query answers."""
    shop.base.executescript(run(["views", "w"]).text.decode())
    faults = []
    for column in {it.name: it for it in shop.columns if not it.fault}.values():
        attribute, _, mode = column.name.partition(":")
        name = "prior_" * (mode == "prior") + attribute.replace("date.", "").replace(".", "_")
        question = f"SELECT {name}, count(*), sum(quantity), sum(amount), sum(cost), sum(margin) FROM sales_as_{'is' if mode in ('is', 'prior') else 'was'} GROUP BY 1 ORDER BY 1"
        shown = [[bytes(label).decode(), *figures] for label, *figures in shop.base.execute(question)]
        asked = [[label, *map(hundredths, figures)] for label, *figures in lines_of(run(Query([column], [], "1900-01-01", "9999-12-31").words()))]
        if shown != asked or not shown:
            faults.append(f"{question}: {shown}, and not {asked}")
    return faults


# ---- programs that answer wrong

def exchanged(words):
    """Shows the first two columns in each other's place."""
    if len(words) < 6 or words[5] == "--where":
        return run(words)
    answer = run([*words[:4], words[5], words[4], *words[6:]])
    header, lines = answer.text.split(b"\n", 1)
    one, two, *names = header.split(b",")
    return Answer(b",".join([two, one, *names]) + b"\n" + lines, answer.status)


def passed_over(words):
    """Knows nothing of the last condition."""
    return run(words[:-2] if "--where" in words else words)


def counted_twice(words):
    """Counts the sales of the last tuple twice."""
    answer = run(words)
    *lines, last = answer.text.splitlines()
    if not lines:
        return answer
    labels, figures = last.split(b",")[:-5], last.split(b",")[-5:]
    twice = [b"%d" % (2 * int(it)) for it in figures[:2]] + [money_text(2 * hundredths(it.decode())) for it in figures[2:]]
    return Answer(b"\n".join([*lines, b",".join(labels + twice), b""]), answer.status)


def try_shop(name, shop, tries, kinds):
    for _ in range(tries):
        query = shop.query()
        for kind in kinds:
            count.case(kind(Judge(shop, run), query))
    print(f"{name} in format {2 if shop.facts == 'fact2' else 1}: {tries} tries", flush=True)


def find(shop, wrong):
    """Whether a program that answers wrong is found, in 20 slices."""
    found = sum(bool(Judge(shop, wrong).of_slice(shop.query())) for _ in range(20))
    print(f"{wrong.__name__}: found in {found} of 20 slices", flush=True)
    count.case([] if found else f"{wrong.__name__} isn't found")


for name, shop, tries, kinds in (
    ("195,000 facts", Shop(1, 39, 5000, 300), TRIES, [Judge.of_slice]),
    ("2,000 facts", Shop(2, 2, 1000, 12), 10 * TRIES, [Judge.of_slice, Judge.of_label, Judge.of_report, Judge.of_table, Judge.of_refused]),
):
    for make, part in ((shop.make, (tries + 1) // 2), (shop.go_on, tries // 2)):
        make()
        try_shop(name, shop, part, kinds)
        if shop.members < 100:
            count.case(viewed(shop))
for wrong in (exchanged, passed_over, counted_twice):
    find(shop, wrong)
work.cleanup()
count.end()
