#!/usr/bin/env python3
"""Times `wh-mirror` (build the program first: `rt run` in crates/wh). mirror.py DSN [PROGRAM]: DSN names an empty database, in which the
schemas `first` and `night` are made.

A warehouse of 990,000 facts is made and mirrored; then come a night of 5,000 sales, and one of 5,000 sales and 5,000 late product records,
each mirrored, and at last a first mirror of 1,000,000 facts. Prints what the mirror says of each, and seconds by the clock."""
import os
import subprocess
import sys
import tempfile
import time

import deliver

TOP = os.path.join(os.path.dirname(os.path.abspath(__file__)), "..")
DSN = sys.argv[1]
PROGRAM = sys.argv[2] if len(sys.argv) > 2 else os.path.join(TOP, "crates", "wh", "out", "wh")
BATCHES = 198


def run(*words):
    """What a command prints, and seconds by the clock; it has to succeed."""
    began = time.time()
    done = subprocess.run(words, capture_output=True, text=True)
    if done.returncode or "refused" in done.stdout:
        sys.exit(done.stdout + done.stderr)
    return done.stdout, time.time() - began


def send(folder, path, commands):
    """Delivers commands, each its kind, id and file."""
    manifest = os.path.join(folder, "manifest.csv")
    with open(manifest, "w", encoding="ascii") as out:
        out.writelines(f"{kind},{name},{file}\n" for kind, name, file in commands)
    run(PROGRAM, "deliver", path, manifest)


def mirror(what, path, schema):
    """Mirrors, and prints what that said and took."""
    told, seconds = run(os.path.join(TOP, "mirror", "wh-mirror"), path, DSN, "--schema", schema)
    print(f"{told}{what}: {seconds:.1f} s\n", flush=True)


def night(folder, path, turn, is_late):
    """Delivers a batch of 5,000 sales, and one of as many late records."""
    sold, late = os.path.join(folder, "night.csv"), os.path.join(folder, "late.csv")
    deliver.sales(sold, turn)
    commands = [("sales", f"s{turn}", sold)]
    if is_late:
        deliver.products(late, range(deliver.SIZE), "2024-07-15", turn)
        commands.append(("product", f"late{turn}", late))
    send(folder, path, commands)


def main():
    with tempfile.TemporaryDirectory() as folder:
        path = os.path.join(folder, "shop.wh")
        run(PROGRAM, "init", path, deliver.POLICY)
        send(folder, path, deliver.commands(folder, BATCHES))
        mirror("the first mirror, 990,000 facts", path, "night")
        night(folder, path, BATCHES, is_late=False)
        mirror("a night of 5,000 sales", path, "night")
        night(folder, path, BATCHES + 1, is_late=True)
        mirror("a night of 5,000 sales and 5,000 late records", path, "night")
        mirror("once more", path, "night")
        mirror("the first mirror, 1,000,000 facts", path, "first")


if __name__ == "__main__":
    main()
