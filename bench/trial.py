#!/usr/bin/env python3
"""Times `wh trial product` on batches of 500 and 5,000 records, over a fifth as many members (build the program first:
`rt run` in crates/wh), and on 5,000 records of one member. Prints the least processor time of five runs each."""
import os
import resource
import subprocess
import sys
import tempfile

TOP = os.path.join(os.path.dirname(os.path.abspath(__file__)), "..")
PROGRAM = os.path.join(TOP, "crates", "wh", "out", "wh")


def batch(records, members):
    """Records spread over the members, each member's on days of its own, in no order of days."""
    lines = ["id,day,description,brand"]
    for number in range(records):
        turn = number // members
        day = (turn * 7919) % 9072
        date = f"{1950 + day // 336}-{day % 336 // 28 + 1:02}-{day % 28 + 1:02}"
        lines.append(f"P{number % members},{date},Item {number % 17},Brand {turn % 5}")
    return "\n".join(lines) + "\n"


def seconds(path):
    best = None
    for _ in range(5):
        before = resource.getrusage(resource.RUSAGE_CHILDREN)
        done = subprocess.run([PROGRAM, "trial", "product", path], stdout=subprocess.PIPE)
        after = resource.getrusage(resource.RUSAGE_CHILDREN)
        if done.returncode != 0:
            sys.exit(done.stdout.decode())
        spent = after.ru_utime + after.ru_stime - before.ru_utime - before.ru_stime
        best = spent if best is None else min(best, spent)
    return best


def main():
    with tempfile.TemporaryDirectory() as folder:
        for records, members in ((500, 100), (5000, 1000), (5000, 5000), (5000, 1)):
            path = os.path.join(folder, "p.csv")
            with open(path, "w", encoding="ascii") as out:
                out.write(batch(records, members))
            print(f"{records} records over {members} members: {seconds(path):.3f} s")


main()
