#!/usr/bin/env python3
"""Times `wh load` of 5,000 late product records over 5,000 members, into warehouses of 5,000 and of 50,000 members (build the program
first: `rt run` in crates/wh). late_records.py [--instructions] [PROGRAM]. Prints the least processor time of fifteen runs of the load, of fifteen
that are refused for their id right after the open, and the ratio of what the load takes more than the open; or, in place of times, the
instructions of one run each, in billions, as valgrind counts them (some four minutes), which don't vary with the machine's load.

The late members came in one batch (`together`), or one in ten of the 50,000 is late (`spread`)."""
import os
import re
import resource
import shutil
import subprocess
import sys
import tempfile

import deliver

COUNTS = "--instructions" in sys.argv
PATHS = [word for word in sys.argv[1:] if word != "--instructions"]
PROGRAM = PATHS[0] if PATHS else os.path.join(deliver.TOP, "crates", "wh", "out", "wh")
SIZE = deliver.SIZE


def batch(path, members, day, turn):
    """One record of each member, all of one day."""
    deliver.products(path, members, day, turn)
    return path


def run(*words, told="accepted"):
    """Processor seconds of a run that is answered so."""
    before = resource.getrusage(resource.RUSAGE_CHILDREN)
    done = subprocess.run([PROGRAM, *words], stdout=subprocess.PIPE)
    after = resource.getrusage(resource.RUSAGE_CHILDREN)
    if not done.stdout.decode().startswith(told):
        sys.exit(done.stdout.decode())
    return after.ru_utime + after.ru_stime - before.ru_utime - before.ru_stime


def count(*words, told="accepted"):
    """Instructions of a run that is answered so, in billions."""
    done = subprocess.run(["valgrind", "--tool=callgrind", "--callgrind-out-file=/dev/null", PROGRAM, *words], stdout=subprocess.PIPE, stderr=subprocess.PIPE)
    if not done.stdout.decode().startswith(told):
        sys.exit(done.stdout.decode())
    return int(re.search(r"Collected : (\d+)", done.stderr.decode()).group(1)) / 1e9


def warehouse(folder, batches):
    path = os.path.join(folder, f"{len(batches)}.wh")
    run("init", path, deliver.POLICY)
    for number, members in enumerate(batches):
        run("load", path, "product", f"b{number}", batch(os.path.join(folder, "b.csv"), members, "2024-06-01", 0))
    return path


def measure(folder, path, late):
    """The least time of the load, and of an open, of fifteen runs each on a copy of the file, or the instructions of one."""
    load = opening = None
    copy = os.path.join(folder, "copy.wh")
    take = count if COUNTS else run
    for _ in range(1 if COUNTS else 15):
        shutil.copyfile(path, copy)
        spent = take("load", copy, "product", "bad id", late, told="refused: E1")
        opening = spent if opening is None else min(opening, spent)
        spent = take("load", copy, "product", "late", late)
        load = spent if load is None else min(load, spent)
        os.remove(copy)
    return load, opening


def main():
    with tempfile.TemporaryDirectory() as folder:
        consecutive = [range(SIZE * turn, SIZE * (turn + 1)) for turn in range(10)]
        large = warehouse(folder, consecutive)
        for name, members in (("together", consecutive[0]), ("spread", range(0, SIZE * 10, 10))):
            late = batch(os.path.join(folder, "late.csv"), members, "2024-03-01", 1)
            small = warehouse(folder, [members])
            spent = []
            for size, path in ((SIZE, small), (SIZE * 10, large)):
                load, opening = measure(folder, path, late)
                spent.append(load - opening)
                print(f"{name}: {size} members: load {load:.3f}, open {opening:.3f}, less the open {load - opening:.3f}")
            os.remove(small)
            print(f"{name}: ratio {spent[1] / spent[0]:.2f}")


main()
