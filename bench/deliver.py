#!/usr/bin/env python3
"""Times `wh deliver` of a manifest of 260 commands that make 1,000,000 facts, and the same commands sent one by one (build the program
first: `rt run` in crates/wh). deliver.py [--facts N] [--single] [PROGRAM]. The commands are a batch of 8,000 products in two, one of 2,000
customers, a batch of 5,000 sales for each 5,000 facts, and late records of products and of customers between them. Prints processor time,
the greatest memory, and the sizes of the file and of the log beside it, and what an open (`wh status`) and `wh check` of that file take; with --single what the same commands take one by one, which open
the file anew each time."""
import argparse
import os
import shutil
import subprocess
import sys
import tempfile
import threading
import time

TOP = os.path.join(os.path.dirname(os.path.abspath(__file__)), "..")
POLICY = os.path.join(TOP, "examples", "flat.toml")
PRODUCTS, STORES, CUSTOMERS, SIZE = 8000, 50, 2000, 5000


def products(path, numbers, day, turn):
    with open(path, "w", encoding="ascii") as out:
        out.write("id,day,description,brand,category,department,launched,supplier\n")
        for number in numbers:
            out.write(f"P{number:06},{day},Item {number % 17},Brand {number % 23} {turn},Category {number % 11},Department {number % 5},2019,North\n")


def customers(path, numbers, day, turn):
    with open(path, "w", encoding="ascii") as out:
        out.write("id,day,tier\n")
        for number in numbers:
            out.write(f"C{number:06},{day},Tier {(number + turn) % 4}\n")


def sales(path, turn):
    """5,000 sales in the order of a shuffle, on days of 2024 and 2025; every third with a card."""
    with open(path, "w", encoding="ascii") as out:
        out.write("ticket,line,day,store,product,customer,quantity,amount,cost\n")
        for number in range(SIZE):
            product = (number * 1777 + turn * 31) % PRODUCTS
            card = f"C{(number * 31 + turn) % CUSTOMERS:06}" if number % 3 == 0 else ""
            day = f"{2024 + number % 2}-{number % 12 + 1:02}-{(number + turn) % 28 + 1:02}"
            out.write(f"T{turn:03}{number // 4:05},{number % 4 + 1},{day},S{number % STORES:02},P{product:06},{card},{number % 9 + 1},{number % 90 + 10}.50,{number % 60 + 5}.25\n")


def commands(folder, batches):
    """The kind, id and file of each command: 4 batches of records in front, and one of late records after every three or four of sales."""
    made = []

    def add(kind, name, write, *words):
        path = os.path.join(folder, f"{name}.csv")
        write(path, *words)
        made.append((kind, name, path))

    add("product", "p0", products, range(0, 4000), "2024-01-01", 0)
    add("product", "p1", products, range(4000, PRODUCTS), "2024-01-01", 0)
    add("customer", "c0", customers, range(CUSTOMERS), "2024-01-01", 0)
    late = 57 * batches // 200
    for turn in range(batches):
        add("sales", f"s{turn}", sales, turn)
        if (turn + 1) * late // batches > turn * late // batches:
            day = f"2025-{turn % 12 + 1:02}-{turn % 28 + 1:02}"
            if turn % 2:
                add("product", f"l{turn}", products, range(turn, PRODUCTS, 40), day, turn)
            else:
                add("customer", f"l{turn}", customers, range(turn, CUSTOMERS, 20), day, turn)
    return made


def run(program, *words):
    """What it prints, its processor seconds, and its greatest memory in MB."""
    with subprocess.Popen([program, *words], stdout=subprocess.PIPE) as child:
        text = child.stdout.read().decode()
        _, status, used = os.wait4(child.pid, 0)
        child.returncode = os.waitstatus_to_exitcode(status)
    return text, used.ru_utime + used.ru_stime, used.ru_maxrss / 1024


class Sizes(threading.Thread):
    """Looks at the log beside the file ten times a second."""

    def __init__(self, path):
        super().__init__(daemon=True)
        self.log, self.most, self.stopped = f"{path}-wal", 0, threading.Event()

    def run(self):
        while not self.stopped.wait(0.1):
            try:
                self.most = max(self.most, os.path.getsize(self.log))
            except OSError:
                pass


def main():
    words = argparse.ArgumentParser(description="Times a delivery.")
    words.add_argument("--facts", type=int, default=1_000_000)
    words.add_argument("--single", action="store_true", help="the same commands one by one, too")
    words.add_argument("program", nargs="?", default=os.path.join(TOP, "crates", "wh", "out", "wh"))
    given = words.parse_args()
    with tempfile.TemporaryDirectory() as folder:
        sent = commands(folder, given.facts // SIZE)
        manifest, path = os.path.join(folder, "night.csv"), os.path.join(folder, "night.wh")
        with open(manifest, "w", encoding="ascii") as out:
            out.writelines(f"{kind},{name},{file}\n" for kind, name, file in sent)
        print(run(given.program, "init", path, POLICY)[0], end="")
        empty = os.path.join(folder, "empty.wh")
        shutil.copyfile(path, empty)
        sizes = Sizes(path)
        sizes.start()
        began = time.time()
        text, spent, memory = run(given.program, "deliver", path, manifest)
        clock = time.time() - began
        sizes.stopped.set()
        lines = text.splitlines()
        if len(lines) != len(sent) or not all(line.startswith("accepted") for line in lines):
            sys.exit(text)
        print(f"{len(sent)} commands, {given.facts} facts: {spent:.1f} s of processor time, {clock:.1f} s by the clock, {memory:.0f} MB, a file of {os.path.getsize(path) / 1e6:.0f} MB, a log of at most {sizes.most / 1e6:.0f} MB")
        _, opened, of_open = run(given.program, "status", path)
        said, checked, of_check = run(given.program, "check", path)
        print(f"status: {opened:.1f} s, {of_open:.0f} MB; check: {said.strip()}, {checked:.1f} s, {of_check:.0f} MB, so {(checked - opened) / spent:.2f} times the delivery beside the open")
        if given.single:
            total = sum(run(given.program, *(("load", empty, kind, name, file)))[1] for kind, name, file in sent)
            print(f"the same one by one: {total:.1f} s of processor time")


if __name__ == "__main__":
    main()
