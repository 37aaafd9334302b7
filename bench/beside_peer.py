#!/usr/bin/env python3
"""Measures what people wait for, beside a program that does the same by hand, command by command in turns.

usage: beside_peer.py [--facts N] [--runs K] [--instructions] [--program PATH] PEER

PEER is a program with the words `init`, `load`, `migrate`, `report` and `status` of `wh`, which works on the same files. `sqlite3` stands beside an
upgrade, which PEER hasn't: it copies the facts by `INSERT .. SELECT` and deletes them. One warehouse of N facts is made by `wh deliver`
(bench/deliver.py says of what), and each command works on a copy of it. Printed is a table in Markdown: the least processor time of K runs, in
seconds, of an open, which is that of a load that is refused right behind it, and, less that, of each command; with --instructions what valgrind
counts in one run each, in billions."""
import argparse
import os
import re
import resource
import shutil
import subprocess
import sys
import tempfile

import deliver

OPENED = "an open (a load whose id is taken, refused right behind it)"


class Run:
    """Words that are given to a program over a copy of the warehouse; `{file}` stands for the copy."""

    def __init__(self, program, words, told, times=1):
        self.words, self.told, self.times = [program, *words], told, times

    def spent(self, path, counts):
        return sum(self.once(path, counts) for _ in range(self.times))

    def once(self, path, counts):
        words = [word.replace("{file}", path) for word in self.words]
        if counts:
            words = ["valgrind", "--tool=callgrind", "--callgrind-out-file=/dev/null", *words]
        before = resource.getrusage(resource.RUSAGE_CHILDREN)
        done = subprocess.run(words, capture_output=True, text=True)
        after = resource.getrusage(resource.RUSAGE_CHILDREN)
        if not done.stdout.startswith(self.told):
            sys.exit(f"{' '.join(words)}: {done.stdout}{done.stderr[-500:]}")
        if counts:
            return int(re.search(r"Collected : (\d+)", done.stderr).group(1)) / 1e9
        return after.ru_utime + after.ru_stime - before.ru_utime - before.ru_stime


def tasks(folder, program, peer):
    """The name of each wait, and the run of it by the program and by the other one."""
    sold, products, customers = (os.path.join(folder, name) for name in ("new.csv", "products.csv", "customers.csv"))
    deliver.sales(sold, 999)
    deliver.products(products, range(5000), "2025-06-20", 1)
    deliver.customers(customers, range(2000), "2025-06-20", 1)
    newer = os.path.join(folder, "newer.toml")
    with open(deliver.POLICY, encoding="utf-8") as old, open(newer, "w", encoding="utf-8") as new:
        new.write(old.read().replace('name = "brand"\ntype = 2', 'name = "brand"\ntype = 1'))
    asked = [(attribute, mode, f"2024-{month:02}-01", "2025-12-31") for month in range(1, 6) for attribute, mode in (("product.brand", "was"), ("product.category", "is"), ("customer.tier", "was"), ("date.month", "was"))]
    listed = os.path.join(folder, "reports.csv")
    with open(listed, "w", encoding="ascii") as out:
        out.writelines(",".join(words) + "\n" for words in asked)

    def both(words, told="accepted"):
        return Run(program, words, told), Run(peer, words, told)

    found = [
        (OPENED, *both(["load", "{file}", "sales", "s0", sold], "refused")),
        ("counts of all (`status`)", *both(["status", "{file}"], "format")),
        ("5,000 sales", *both(["load", "{file}", "sales", "new", sold])),
        ("5,000 late product records", *both(["load", "{file}", "product", "new", products])),
        ("2,000 late customer records", *both(["load", "{file}", "customer", "new", customers])),
        ("a migration that overwrites the brand", *both(["migrate", "{file}", "new", newer])),
        ("a report", *both(["report", "{file}", *asked[0]], "report")),
        ("twenty reports", Run(program, ["reports", "{file}", listed], "report"), Run(peer, ["report", "{file}", *asked[0]], "report", len(asked))),
        ("an upgrade", Run(program, ["upgrade", "{file}", "new"], "accepted"), Run("sqlite3", ["{file}", UPGRADE], "")),
    ]
    return found


UPGRADE = """
CREATE TABLE fact2 (ticket TEXT NOT NULL, line INTEGER NOT NULL, day INTEGER NOT NULL, store_key INTEGER NOT NULL, product_key INTEGER NOT NULL, customer_key INTEGER NOT NULL,
  store_durable INTEGER NOT NULL, product_durable INTEGER NOT NULL, customer_durable INTEGER NOT NULL, profile INTEGER NOT NULL, quantity INTEGER NOT NULL, amount INTEGER NOT NULL, cost INTEGER NOT NULL, discount INTEGER NOT NULL,
  PRIMARY KEY (ticket, line));
BEGIN;
INSERT INTO fact2 SELECT *, 0 FROM fact;
DELETE FROM fact;
COMMIT;
"""


def measured(path, copy, runs, count, counts):
    """The least of so many runs of each program, in turns, each over a copy of its own."""
    best = [None] * len(runs)
    for _ in range(count):
        for place, run in enumerate(runs):
            shutil.copyfile(path, copy)
            spent = run.spent(copy, counts)
            best[place] = spent if best[place] is None else min(best[place], spent)
            for left in (copy, f"{copy}-wal", f"{copy}-shm"):
                if os.path.exists(left):
                    os.remove(left)
    return best


def main():
    words = argparse.ArgumentParser(description="Measures waits beside another program.")
    words.add_argument("--facts", type=int, default=195_000)
    words.add_argument("--runs", type=int, default=5)
    words.add_argument("--instructions", action="store_true")
    words.add_argument("--program", default=os.path.join(deliver.TOP, "crates", "wh", "out", "wh"))
    words.add_argument("peer")
    given = words.parse_args()
    unit, count = ("billions of instructions", 1) if given.instructions else ("s", given.runs)
    with tempfile.TemporaryDirectory() as folder:
        path, copy, manifest = (os.path.join(folder, name) for name in ("shop.wh", "copy.wh", "night.csv"))
        with open(manifest, "w", encoding="ascii") as out:
            out.writelines(f"{kind},{name},{file}\n" for kind, name, file in deliver.commands(folder, given.facts // deliver.SIZE))
        deliver.run(given.program, "init", path, deliver.POLICY)
        deliver.run(given.program, "deliver", path, manifest)
        print(f"{given.facts} facts, a file of {os.path.getsize(path) / 1e6:.0f} MB; {unit}; all but the first line less an open\n")
        print("| What | `wh` | by hand | times |\n|---|---|---|---|", flush=True)
        opened = [0.0, 0.0]
        for name, *runs in tasks(folder, given.program, given.peer):
            own, other = measured(path, copy, runs, count, given.instructions)
            own, other = own - opened[0], other - opened[1] * runs[1].times * (runs[1].words[0] == given.peer)
            if name == OPENED:
                opened = [own, other]
            print(f"| {name} | {own:.2f} | {other:.3f} | {own / other if other > 0 else 0:.1f} |", flush=True)


main()
