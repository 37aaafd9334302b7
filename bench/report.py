#!/usr/bin/env python3
"""Times `wh report`, by an attribute that is found by the surrogate key (product.brand) and by the month, `wh query` by both of the customers without a
card, and `wh dump` of the facts, over a file of 1,000,000 facts, which it makes as bench/deliver.py does (build the program first: `rt run` in crates/wh; some
two minutes for the file). Beside each the same job by bench/report.cpp, a plain program over C SQLite, built here with g++; both have to print the same text.
report.py [--facts N] [--runs N] [--file FILE] [--tuples] [PROGRAM]. --file keeps the warehouse under this name, or takes the one that is there. With --tuples
it makes another file, and asks one query alone, whose answer has a line for each sale: no two are of the same product and the same customer.

Prints processor seconds, the least of the runs each. An open of the file, which reads and checks all of it, is that of `wh status`. The jobs are asked of one
`wh session`, whose first answer has opened the file, so they are less the open; the other program's times are whole, since its open reads next to nothing. The
greatest memory of both is told, too; a process begins as a copy of this one, so no memory below some 11 MB is seen."""
import argparse
import filecmp
import os
import shutil
import subprocess
import sys
import tempfile

sys.dont_write_bytecode = True
from deliver import POLICY, SIZE, TOP, commands

HERE = os.path.dirname(os.path.abspath(__file__))
FROM, TO, TIER = "2024-01-01", "2025-12-31", "(no card)"
JOBS = (
    ("report product.brand was", ("report", "product.brand", "was", FROM, TO), ("brand", FROM, TO)),
    ("report date.month was", ("report", "date.month", "was", FROM, TO), ("month", FROM, TO)),
    ("query product.brand date.month", ("query", FROM, TO, "product.brand", "date.month", "--where", f"customer.tier={TIER}"), ("query", FROM, TO, TIER)),
    ("dump fact", ("dump", "fact"), ("fact",)),
)
TUPLES = (("query product.name customer.name date.month", ("query", FROM, TO, "product.name:is", "customer.name:is", "date.month"), ("tuples", FROM, TO)),)
NAMES = "first_year = 2024\nlast_year = 2025\n" + "".join(f'[[{it}]]\nname = "name"\ntype = 1\n' for it in ("product", "store", "customer"))
SIDE = 1000


def run(out, *words):
    """Processor seconds and greatest memory, in megabytes, of a run that prints into a file."""
    with open(out, "wb") as text:
        child = os.fork()
        if child == 0:
            os.dup2(text.fileno(), 1)
            os.execv(words[0], words)
        _, status, spent = os.wait4(child, 0)
    if status:
        with open(out, errors="replace") as text:
            sys.exit(f"{' '.join(words)}: status {os.waitstatus_to_exitcode(status)}\n{text.read(1000)}")
    return spent.ru_utime + spent.ru_stime, spent.ru_maxrss / 1024


class Session:
    """A session of the program over a file, and what its answers take."""

    def __init__(self, program, path):
        self.process = subprocess.Popen([program, "session", path], stdin=subprocess.PIPE, stdout=subprocess.PIPE)

    def spent(self):
        """Processor seconds so far."""
        with open(f"/proc/{self.process.pid}/schedstat", encoding="ascii") as file:
            return int(file.read().split()[0]) / 1e9

    def ask(self, out, words):
        """Puts the answer to the words of a line into a file, and gives the processor seconds that it took."""
        before = self.spent()
        self.process.stdin.write(" ".join(f'"{word}"' for word in words).encode() + b"\n")
        self.process.stdin.flush()
        with open(out, "wb") as text:
            for line in iter(self.process.stdout.readline, b"status 0\n"):
                if not line or line.startswith(b"status "):
                    sys.exit(f"{' '.join(words)}: {line.decode() or 'the session ended'}")
                text.write(line)
        return self.spent() - before

    def end(self):
        """The greatest memory, in megabytes."""
        self.process.stdin.close()
        return os.wait4(self.process.pid, 0)[2].ru_maxrss / 1024


def least(runs, out, *words):
    """The least time and the least of the greatest memory."""
    spent = [run(out, *words) for _ in range(runs)]
    return min(it[0] for it in spent), min(it[1] for it in spent)


def members(path, letter, word):
    """1,000 members, each with a name of its own."""
    with open(path, "w", encoding="ascii") as out:
        out.write("id,day,name\n")
        out.writelines(f"{letter}{number:03},2024-01-01,{word} {number:03}\n" for number in range(SIDE))


def pairs(path, turn):
    """5,000 sales on days of 2024 and 2025, the pairs of a product and a customer in no order."""
    with open(path, "w", encoding="ascii") as out:
        out.write("ticket,line,day,store,product,customer,quantity,amount,cost\n")
        for number in range(turn * SIZE, turn * SIZE + SIZE):
            pair = number * 617_647 % SIDE**2
            day = f"{2024 + number % 2}-{number % 12 + 1:02}-{number % 28 + 1:02}"
            product, customer = f"P{pair % SIDE:03}", f"C{pair // SIDE:03}"
            out.write(f"T{number // 4:06},{number % 4 + 1},{day},S{number % 50:02},{product},{customer},{number % 9 + 1},{number % 90 + 10}.50,{number % 60 + 5}.25\n")


def paired(folder, batches):
    """The policy, and the commands that make sales of as many pairs."""
    policy, products, customers = (os.path.join(folder, name) for name in ("names.toml", "p.csv", "c.csv"))
    with open(policy, "w", encoding="ascii") as out:
        out.write(NAMES)
    members(products, "P", "Product")
    members(customers, "C", "Customer")
    sent = [("product", "p", products), ("customer", "c", customers)]
    for turn in range(batches):
        path = os.path.join(folder, f"s{turn}.csv")
        pairs(path, turn)
        sent.append(("sales", f"s{turn}", path))
    return policy, sent


def make(folder, program, path, policy, sent):
    """A warehouse of these commands."""
    manifest, told = os.path.join(folder, "night.csv"), os.path.join(folder, "told")
    with open(manifest, "w", encoding="ascii") as out:
        out.writelines(f"{kind},{name},{file}\n" for kind, name, file in sent)
    run(told, program, "init", path, policy)
    run(told, program, "deliver", path, manifest)


def compare(folder, given, path, jobs):
    """Times each job beside the other program."""
    plain, out, other, copied = (os.path.join(folder, name) for name in ("report", "out", "other", "copy.wh"))
    subprocess.run(["g++", "-std=c++17", "-O2", "-o", plain, os.path.join(HERE, "report.cpp"), "-lsqlite3"], check=True)
    opening, memory = least(given.runs, out, given.program, "status", path)
    with open(out, encoding="ascii") as text:
        facts = text.read().splitlines()[3]
    print(f"{facts}, a file of {os.path.getsize(path) / 1e6:.0f} MB: an open takes {opening:.2f} s of processor time and {memory:.0f} MB")
    # a session locks its file, so the other program reads a copy
    shutil.copyfile(path, copied)
    session = Session(given.program, path)
    session.ask(out, ["status"])
    print("| What | `wh`, less the open | C++ over C SQLite | Memory of C++ | Ratio |")
    print("|---|---|---|---|---|")
    for name, words, beside in jobs:
        spent = min(session.ask(out, words) for _ in range(given.runs))
        plain_spent, plain_most = least(given.runs, other, plain, copied, *beside)
        if not filecmp.cmp(out, other, shallow=False):
            sys.exit(f"{name}: the two texts differ")
        print(f"| {name} | {spent:.2f} s | {plain_spent:.2f} s | {plain_most:.0f} MB | {spent / plain_spent:.1f} |", flush=True)
    print(f"At its peak the session had {session.end():.0f} MB.")


def main():
    words = argparse.ArgumentParser(description="Times reports, queries and a dump.")
    words.add_argument("--facts", type=int, default=1_000_000)
    words.add_argument("--runs", type=int, default=5)
    words.add_argument("--file")
    words.add_argument("--tuples", action="store_true", help="a query alone, whose answer has a line for each sale")
    words.add_argument("program", nargs="?", default=os.path.join(TOP, "crates", "wh", "out", "wh"))
    given = words.parse_args()
    given.program = os.path.abspath(given.program)
    with tempfile.TemporaryDirectory() as folder:
        path = given.file or os.path.join(folder, "night.wh")
        if not os.path.exists(path):
            batches = given.facts // SIZE
            policy, sent = paired(folder, batches) if given.tuples else (POLICY, commands(folder, batches))
            make(folder, given.program, path, policy, sent)
        compare(folder, given, path, TUPLES if given.tuples else JOBS)


main()
