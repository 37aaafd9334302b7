#!/usr/bin/env python3
"""Times a chain of files: twelve months of 900,000 sales of twenty shops, whose 60,000 records of members are carried from file to file (build the program
first: `rt run` in crates/wh). chain.py [--months N] [--sales N] [--records N] [PROGRAM].

The first file is told the records. Each later one is begun as examples/shop/begin.sh does it. Each gets its month's sales in one delivery, and is
checked. In the end there is a late product record of each month, delivered to the month's file and all later ones. Prints what each step takes: processor
time, seconds by the clock, the greatest memory; of each file the size; of the parts that are carried what each takes less the open, since each begins at the
first member again."""
import argparse
import os
import sys
import tempfile
import time

import deliver

SHOPS = 20
DIMENSIONS = ("product", "store", "customer")


class Step:
    """What the runs of a step take together."""

    def __init__(self, program, what):
        self.program, self.what = program, what
        self.clock, self.spent, self.most = 0, 0, 0

    def run(self, *words):
        """What is printed, which must be good, and its processor time."""
        began = time.time()
        text, spent, memory = deliver.run(self.program, *words)
        self.clock += time.time() - began
        if words[0] != "records" and not text.startswith(("accepted", "clean")):
            sys.exit(f"{' '.join(words)}: {text}")
        self.spent, self.most = self.spent + spent, max(self.most, memory)
        return text, spent

    def end(self, more=""):
        print(f"{self.what}: {self.spent:.1f} s of processor time, {self.clock:.1f} s by the clock, {self.most:.0f} MB{more}", flush=True)


class Chain:
    def __init__(self, folder, given):
        self.folder, self.program, self.sales = folder, given.program, given.sales
        self.customers = given.records // 6
        self.products = given.records - self.customers - SHOPS

    def path(self, name):
        return os.path.join(self.folder, name)

    def file(self, month):
        return self.path(f"{2024 + (month - 1) // 12}-{(month - 1) % 12 + 1:02}.wh")

    def deliver(self, what, file, commands):
        """Delivers commands, of which each writes its file: kind, id, what writes it, its words."""
        with open(self.path("night.csv"), "w", encoding="ascii") as night:
            for kind, name, write, *words in commands:
                write(self.path(f"{name}.csv"), *words)
                night.write(f"{kind},{name},{self.path(f'{name}.csv')}\n")
        step = Step(self.program, what)
        text, _ = step.run("deliver", file, self.path("night.csv"))
        if not all(line.startswith("accepted") for line in text.splitlines()):
            sys.exit(text)
        step.end(f", a file of {os.path.getsize(file) / 1e6:.1f} MB")

    def tell(self, file):
        """The first file's records of members."""
        size, day = deliver.SIZE, "2024-01-01"
        told = [("store", "k", write_stores)]
        for kind, write, number in (("product", deliver.products, self.products), ("customer", deliver.customers, self.customers)):
            told += [(kind, f"{kind}-{it}", write, range(it, min(it + size, number)), day, 0) for it in range(0, number, size)]
        self.deliver("  records", file, told)

    def carry(self, old, new):
        """Prints what asking for the parts takes, and loading them."""
        asking, loading, parts = Step(self.program, "  records asked for"), Step(self.program, "  records loaded"), []
        _, opened, _ = deliver.run(self.program, "status", old)
        for dimension in DIMENSIONS:
            start, count = 0, 1
            while count:
                text, spent = asking.run("records", old, dimension, str(start))
                count = text.count("\n") - 1
                parts.append(f"{dimension} from {start} {spent - opened:.2f} s")
                if count:
                    self.write("part.csv", text)
                    loading.run("load", new, dimension, f"carried-{dimension}-{start}", self.path("part.csv"))
                start += count
        asking.end()
        loading.end()
        print(f"  less an open of {opened:.2f} s: {', '.join(parts)}")

    def write(self, name, text):
        with open(self.path(name), "w", encoding="utf-8") as out:
            out.write(text)

    def month(self, month):
        """The month's file, with its sales, checked."""
        file = self.file(month)
        print(os.path.basename(file), flush=True)
        Step(self.program, "init").run("init", file, deliver.POLICY)
        if month == 1:
            self.tell(file)
        else:
            self.carry(self.file(month - 1), file)
        batches = -(-self.sales // deliver.SIZE)
        self.deliver("  sales", file, [("sales", f"s{turn}", self.write_sales, month, turn) for turn in range(batches)])
        step = Step(self.program, "  check")
        step.run("check", file)
        step.end()

    def write_sales(self, path, month, turn):
        """Sales of the month, every third with a card."""
        with open(path, "w", encoding="ascii") as out:
            out.write("ticket,line,day,store,product,customer,quantity,amount,cost\n")
            for number in range(min(deliver.SIZE, self.sales - turn * deliver.SIZE)):
                shop, product = number % SHOPS, (number * 1777 + turn * 31) % self.products
                card = f"C{(number * 31 + turn) % self.customers:06}" if number % 3 == 0 else ""
                line = f"S{shop:02}-{turn:03}{number // SHOPS:04},1,{self.file(month)[-10:-3]}-{(number + turn) % 28 + 1:02}"
                figures = f"{number % 9 + 1},{number % 90 + 10}.50,{number % 60 + 5}.25"
                out.write(f"{line},S{shop:02},P{product:06},{card},{figures}\n")

    def late(self, months):
        """A late record of each month, for its file and all later ones."""
        for month in range(1, months + 1):
            file = self.file(month)
            days = [f"{self.file(it)[-10:-3]}-10" for it in range(1, month + 1)]
            told = [("product", f"l{it}", deliver.products, range(it, it + 1), day, 1) for it, day in enumerate(days)]
            self.deliver(f"{os.path.basename(file)}: {month} late records", file, told)


def write_stores(path):
    with open(path, "w", encoding="ascii") as out:
        out.write("id,day,city\n" + "".join(f"S{it:02},2024-01-01,City {it % 7}\n" for it in range(SHOPS)))


def main():
    words = argparse.ArgumentParser(description="Times a chain of files.")
    words.add_argument("--months", type=int, default=12)
    words.add_argument("--sales", type=int, default=900_000, help="of a month")
    words.add_argument("--records", type=int, default=60_000, help="of members")
    words.add_argument("program", nargs="?", default=os.path.join(deliver.TOP, "crates", "wh", "out", "wh"))
    given = words.parse_args()
    with tempfile.TemporaryDirectory() as folder:
        chain = Chain(folder, given)
        for month in range(1, given.months + 1):
            chain.month(month)
        chain.late(given.months)


if __name__ == "__main__":
    main()
