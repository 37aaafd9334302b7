#!/usr/bin/env python3
"""Random nights with voids, over both formats, against a model of the rules in Python.

usage: tests/nights_with_voids.py [NIGHTS] [PROGRAM]: 20 nights, or so many, each of forty commands over a warehouse of its own.

A night sends sales, voids, late records of products and an upgrade, each under a new id, some again under an old one. The model keeps what was
sold, what was withdrawn and the records of each product, and says of each command what must be printed. After a night the rows of
`fact2` (or `fact`) and `void`, three reports and `check` have to be as it says. Every second night goes on with a warehouse that an earlier
program made, which gave the facts further indexes (tests/older).
"""

import lzma
import os
import random
import subprocess
import sys
import tempfile

from lib.program import program

POLICY = 'first_year = 2023\nlast_year = 2026\n[[product]]\nname = "brand"\ntype = 6\n[[store]]\nname = "city"\ntype = 2\n[[customer]]\nname = "tier"\ntype = 2\n'
RANGE = ("2023-01-01", "2026-12-31")
# made under this policy by an earlier program
OLDER = os.path.join(os.path.dirname(os.path.abspath(__file__)), "older", "night.wh.xz")


def money(hundredths):
    return f"{hundredths // 100}.{hundredths % 100:02}"


class Model:
    """What the accepted commands say."""

    def __init__(self):
        self.format, self.number = 1, 1
        self.sold, self.withdrawn = {}, {}
        self.records, self.members = {}, set()
        self.kept = {}

    def accepted(self, name, kind, text, records, placeholders):
        self.number += 1
        told = f"{self.number} {name}: {records} records, {placeholders} placeholders"
        self.kept[name] = (kind, text, told)
        return f"accepted {told}"

    def answer(self, name, kind, text, content):
        """The line that a command must be answered with."""
        if name in self.kept:
            same = self.kept[name][:2] == (kind, text)
            return f"already {self.kept[name][2]}" if same else "refused: E2 id reused"
        return getattr(self, kind)(name, text, content)

    def upgrade(self, name, text, content):
        if self.format == 2:
            return "refused: E6 format, 2"
        self.format = 2
        return self.accepted(name, "upgrade", text, 0, 0)

    def product(self, name, text, records):
        for natural, day, brand in records:
            self.records.setdefault(natural, {})[day] = brand
            self.members.add(("product", natural))
        return self.accepted(name, "product", text, len(records), 0)

    def sales(self, name, text, sales):
        for place, sale in enumerate(sales, 1):
            if sale[:2] in self.sold:
                return f"refused: E6 line there, record {place}"
        mentioned = {member for sale in sales for member in (("store", sale[3]), ("product", sale[4]), ("customer", sale[5])) if member[1]}
        new = len(mentioned - self.members)
        self.members |= mentioned
        self.sold.update((sale[:2], sale) for sale in sales)
        return self.accepted(name, "sales", text, len(sales), new)

    def void(self, name, text, lines):
        if self.format == 1:
            return "refused: E3 batch, B10 not in format, record 0"
        for place, line in enumerate(lines, 1):
            if line not in self.sold or line in self.withdrawn:
                return f"refused: E6 no line, record {place}"
        told = self.accepted(name, "void", text, len(lines), 0)
        self.withdrawn.update((line, self.number) for line in lines)
        return told

    def standing(self):
        return [sale for line, sale in sorted(self.sold.items()) if line not in self.withdrawn]

    def brand(self, natural, day=None):
        """A product's brand on a day, or its latest one."""
        records = self.records.get(natural)
        if not records:
            return "(unknown)"
        before = [it for it in records if day is None or it <= day]
        return records[max(before) if before else min(records)]

    def report(self, label):
        sums = {}
        for sale in self.standing():
            row = sums.setdefault(label(sale), [0, 0, 0, 0])
            for place, more in enumerate((1, *sale[6:9])):
                row[place] += more
        rows = [(*row, text) for text, row in sorted(sums.items())]
        return [*rows, (*(sum(row[place] for row in rows) for place in range(4)), "total")]


class Night:
    def __init__(self, program, seed):
        self.program, self.random, self.model, self.sent = program, random.Random(seed), Model(), []
        self.is_older = seed % 2 == 1

    def run(self, *words):
        done = subprocess.run([self.program, *words], stdin=subprocess.DEVNULL, capture_output=True, text=True, timeout=60)
        return done.stdout.splitlines()

    def day(self):
        return f"{self.random.randint(2023, 2025)}-{self.random.randint(1, 12):02}-{self.random.randint(1, 28):02}"

    def product(self):
        records = {(f"P{self.random.randint(1, 4)}", self.day()): self.random.choice(("Acme", "Bolt", "Cask")) for _ in range(self.random.randint(1, 3))}
        records = [(*key, brand) for key, brand in records.items()]
        return "id,day,brand\n" + "".join(",".join(it) + "\n" for it in records), records

    def line(self):
        return f"T{self.random.randint(1, 30)}", self.random.randint(1, 3)

    def sales(self):
        lines = dict.fromkeys(self.line() for _ in range(self.random.randint(1, 4)))
        pick = self.random.choice
        sales = [(*line, self.day(), pick(("S1", "S2")), f"P{self.random.randint(1, 5)}", pick(("", "C1", "C2")), self.random.randint(1, 9), self.random.randint(0, 999), self.random.randint(0, 999), self.random.randint(0, 99)) for line in lines]
        if self.model.format == 1:
            sales = [(*sale[:9], 0) for sale in sales]
        header = "ticket,line,day,store,product,customer,quantity,amount,cost" + (",discount" if self.model.format == 2 else "")
        rows = [",".join(map(str, (*sale[:7], *map(money, sale[7:9 + (self.model.format == 2)])))) for sale in sales]
        return header + "\n" + "".join(row + "\n" for row in rows), sales

    def void(self):
        stand = [sale[:2] for sale in self.model.standing()]
        lines = dict.fromkeys(self.random.choice(stand) if stand and self.random.random() < 0.8 else self.line() for _ in range(self.random.randint(1, 2)))
        return "ticket,line\n" + "".join(f"{ticket},{line}\n" for ticket, line in lines), list(lines)

    def send(self, number):
        """Sends one command, and compares its line."""
        if self.sent and self.random.random() < 0.1:
            name, kind, text, content = self.random.choice(self.sent)
        else:
            kind = self.random.choices(("sales", "void", "product", "upgrade"), (5, 4, 3, 1))[0]
            text, content = ("", None) if kind == "upgrade" else getattr(self, kind)()
            name = f"c{number}"
            self.sent.append((name, kind, text, content))
        with open("input.csv", "w") as file:
            file.write(text)
        told = self.run("upgrade", "w", name) if kind == "upgrade" else self.run("load", "w", kind, name, "input.csv")
        if kind == "sales" and name not in self.model.kept and text.partition("\n")[0].count(",") != 7 + self.model.format:
            wanted = "refused: E3 batch, B2 wrong header, record 0"
        else:
            wanted = self.model.answer(name, kind, text, content)
        if told != [wanted]:
            raise SystemExit(f"{kind} {name}: {told}, and not {wanted}\n{text}")

    def differ(self, what, told, wanted):
        if told != wanted:
            raise SystemExit(f"{what}: {told}, and not {wanted}")

    def compare(self):
        """Compares the tables, the reports and what `check` says."""
        model, second = self.model, self.model.format == 2
        rows = [row.split(",") for row in self.run("dump", "w", "fact2" if second else "fact")[1:]]
        facts = [(row[0], int(row[1]), row[2], *map(int, row[10:])) for row in rows]
        self.differ("facts", facts, [(sale[0], sale[1], sale[2].replace("-", ""), *sale[6:9 + second]) for sale in model.standing()])
        self.differ("void", self.run("dump", "w", "void")[1:], [f"{ticket},{line},{number}" for (ticket, line), number in sorted(model.withdrawn.items())])
        labels = {
            ("product.brand", "was"): lambda sale: model.brand(sale[4], sale[2]),
            ("product.brand", "is"): lambda sale: model.brand(sale[4]),
            ("date.month", "was"): lambda sale: sale[2][:7],
        }
        for words, label in labels.items():
            told = [row.split(None, 5) for row in self.run("report", "w", *words, *RANGE)[2:]]
            wanted = [[str(lines), str(quantity), money(amount), money(cost), ("-" if amount < cost else "") + money(abs(amount - cost)), text] for lines, quantity, amount, cost, text in model.report(label)]
            self.differ(f"report {words}", told, wanted)
        self.differ("check", self.run("check", "w"), ["clean"])

    def begin(self):
        """Makes the warehouse, or takes the one that an earlier program made."""
        if self.is_older:
            with lzma.open(OLDER) as packed, open("w", "wb") as file:
                file.write(packed.read())
            return
        with open("policy.toml", "w") as file:
            file.write(POLICY)
        self.differ("init", self.run("init", "w", "policy.toml"), ["accepted 1 init: 0 records, 0 placeholders"])

    def make(self):
        self.begin()
        for number in range(40):
            self.send(number)
        self.compare()
        return len(self.model.withdrawn), self.model.format


def main():
    nights = int(sys.argv[1]) if len(sys.argv) > 1 else 20
    built = program(2)
    withdrawn = 0
    for seed in range(nights):
        with tempfile.TemporaryDirectory() as room:
            os.chdir(room)
            withdrawn += Night(built, seed).make()[0]
            os.chdir("/")
    print(f"{nights} nights of 40 commands, {withdrawn} lines withdrawn: ok")


main()
