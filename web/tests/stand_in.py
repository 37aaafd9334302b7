#!/usr/bin/python3
"""Has the word `session`, and runs each of its lines as a word of the program that WH_ALONE names; all other words it hands on.

Each line that is asked goes into the file WH_LINES, where that is named. Where WH_DIES names a file, the first session takes that file away and
dies before it answers. With WH_HAS_NONE it has no such word.
"""

import os
import re
import signal
import subprocess
import sys

ALONE = os.environ["WH_ALONE"]
# A word in double quotes, where a double quote is doubled, or one without blanks.
WORD = re.compile(r'"((?:[^"]|"")*)"(?= |$)|([^" ]+)(?= |$)')
USAGE = "error: the line is no command\n"


def words_of(line: str) -> list[str]:
    """The words of a line; none where it isn't of the form."""
    found = [it[1].replace('""', '"') if it[1] is not None else it[2] for it in WORD.finditer(line)]
    return found if " ".join(it[0] for it in WORD.finditer(line)) == line else []


def note(line: bytes) -> None:
    """What the tests look at."""
    if path := os.environ.get("WH_LINES"):
        with open(path, "ab") as file:
            file.write(line)
    dies = os.environ.get("WH_DIES")
    if dies and os.path.exists(dies):
        os.remove(dies)
        os.kill(os.getpid(), signal.SIGKILL)


def session(path: str) -> int:
    """Answers line by line, and gives the greatest status."""
    greatest = 0
    for line in sys.stdin.buffer:
        note(line)
        words = words_of(line.decode().rstrip("\n"))
        done = subprocess.run([ALONE, words[0], path, *words[1:]], capture_output=True, check=False) if words else None
        told, status = (done.stdout, done.returncode) if done else (USAGE.encode(), 4)
        sys.stdout.buffer.write(told + f"status {status}\n".encode())
        sys.stdout.flush()
        greatest = max(greatest, status)
    return greatest


if sys.argv[1:] == ["help", "session"]:
    sys.exit(4 if os.environ.get("WH_HAS_NONE") else 0)
if sys.argv[1:2] == ["session"]:
    sys.exit(session(sys.argv[2]))
os.execv(ALONE, [ALONE, *sys.argv[1:]])
