#!/usr/bin/env python3
"""Asks the built program in a session, line by line. Build it first (`rt run` in crates/wh).

usage: session.py [QUESTIONS] [PROGRAM]: 1,000 questions, or so many. WH names another program, too.

All worked rows are asked in one session, from `init` on: each answer has to be the worked one, with its status, before the next line is sent, so an answer that
is kept back shows as a line that doesn't come. Then lines that are passed over, that are no command, in quotes, with other ends, or none; a session whose input
or output fails, within another, beside another process; so many questions one by one; a hundred times as many through a pipe, for which no more memory is
taken; and a session that is killed in the midst of loads, sent again.
"""

import os
import select
import signal
import subprocess
import sys
import threading

from lib.program import program
from lib.worked import DAYS, FILES, WORDS, Answer, Count, batch, expected, own_folder, printed, run, said, without_file, write_files

QUESTIONS = int(sys.argv[1]) if len(sys.argv) > 1 else 1_000
PROGRAM = program(2)
PATIENCE = 60
NO_COMMAND = b"error: a line is at most 65536 bytes of UTF-8, and "

count = Count()
work = own_folder()
folder = work.name
write_files(folder)


def equal(name, found, wanted):
    count.case([] if found == wanted else [f"{name}: {found!r}\nand not {wanted!r}"])


def end_of(answer):
    """An answer as a session prints it."""
    return answer.text + b"status %d\n" % answer.status


class Session:
    """A session over `w`, or over another file, that is asked line by line."""

    def __init__(self, file="w"):
        self.process = subprocess.Popen([PROGRAM, "session", file], cwd=folder, stdin=subprocess.PIPE, stdout=subprocess.PIPE, bufsize=0)
        self.read = b""

    def line(self):
        """The next line of output. It has to come though nothing more is sent."""
        while b"\n" not in self.read:
            if not select.select([self.process.stdout], [], [], PATIENCE)[0]:
                raise TimeoutError(f"no line comes after {self.read!r}")
            more = os.read(self.process.stdout.fileno(), 65_536)
            if not more:
                raise EOFError(f"the output ends with {self.read!r}")
            self.read += more
        line, self.read = self.read.split(b"\n", 1)
        return line + b"\n"

    def send(self, words):
        self.process.stdin.write(words.encode() if isinstance(words, str) else words)

    def ask(self, words):
        """The answer to a line."""
        self.send(f"{words}\n")
        text = b""
        while not (line := self.line()).startswith(b"status "):
            text += line
        return Answer(text, int(line.split()[1]))

    def repeats(self, text, times):
        """Whether what comes next is a text, so many times."""
        behind, missing = 0, times * len(text)
        while missing:
            if not select.select([self.process.stdout], [], [], PATIENCE)[0]:
                raise TimeoutError(f"{missing} bytes don't come")
            more = os.read(self.process.stdout.fileno(), min(missing, 65_536))
            if not more or more != (text[behind:] + (len(more) // len(text) + 1) * text)[: len(more)]:
                self.process.kill()
                return False
            behind, missing = (behind + len(more)) % len(text), missing - len(more)
        return True

    def peak(self):
        """The most memory that the process has had, in kilobytes."""
        with open(f"/proc/{self.process.pid}/status") as status:
            return next(int(line.split()[1]) for line in status if line.startswith("VmHWM:"))

    def end(self):
        """What still comes, and the status."""
        self.process.stdin.close()
        rest = self.read + self.process.stdout.read()
        self.process.stdout.close()
        return Answer(rest, self.process.wait(PATIENCE))


def answered(sent, file="w"):
    """What a session prints of an input, and its status."""
    done = subprocess.run([PROGRAM, "session", file], cwd=folder, input=sent, capture_output=True, timeout=PATIENCE)
    return Answer(done.stdout, done.returncode)


def worked_rows():
    session = Session()
    for row, words, wanted in WORDS:
        equal(f"row {row}, {words}", session.ask(without_file(words)), expected(words, wanted))
    equal("the end after the worked rows", session.end(), Answer(b"", 2))


CLEAN = b"clean\nstatus 0\n"


def lines():
    """Over `w` after the worked rows: lines, what is printed, and the status."""
    for name, sent, text, status in [
        ("no line", b"", b"", 0),
        ("passed over", b"\n# check\n \t \r\n\n", b"", 0),
        ("no end of the last line", b"check", CLEAN, 0),
        ("CR LF", b"check\r\n\r\n#\r\ncheck\r\n", 2 * CLEAN, 0),
        ("blanks", b"  check\t \n", CLEAN, 0),
        ("quotes", b'"check"\n', CLEAN, 0),
        ("quotes in quotes", b'load product "p ""1""" "p1"\n', b"refused: E1 bad id\nstatus 2\n", 2),
        ("a path with a blank", b'load product p1 "p 1"\n', b"already 3 p1: 1 records, 0 placeholders\nstatus 0\n", 0),
        ("a session within", b"session\n", b"refused: G5 session\nstatus 2\n", 2),
        ("the greatest status", b"load product p/1 p1\ncheck\n", b"refused: E1 bad id\nstatus 2\n" + CLEAN, 2),
        ("no such input", b"load product p99 p99\ncheck\n", b"failed: F1 file, p99\nstatus 3\n" + CLEAN, 3),
    ]:
        equal(name, answered(sent), Answer(text, status))
    longest = answered(b"load product p1 " + 65_520 * b"x" + b"\n")
    equal("as long as a line may be", (longest.text[:16], longest.status), (b"failed: F1 file,", 3))


def no_commands():
    for name, sent in [
        ("a quote without its partner", b'"check\n'),
        ("a quote within a word", b'che"ck"\n'),
        ("a word behind a quote", b'"check"x\n'),
        ("no UTF-8", b"load product p\xff p1\n"),
        ("a long line", b"load product p1 " + 65_521 * b"x" + b"\n"),
        ("a long remark", b"#" + 65_536 * b"x" + b"\n"),
        ("a very long line", 3_000_000 * b"x" + b"\n"),
    ]:
        answer = answered(sent + b"check\n")
        beginning, end = answer.text[: len(NO_COMMAND)], answer.text[-len(b"status 4\n" + CLEAN) :]
        equal(name, (beginning, end, answer.text.count(b"status "), answer.status), (NO_COMMAND, b"status 4\n" + CLEAN, 2, 4))


def as_alone():
    """Help, a word that needs no warehouse, and words that clap doesn't take."""
    for sent, words in [
        ("help", "help"),
        ("help load", "help load"),
        ("--version", "--version"),
        ("trial customer p99", "trial customer p99"),
        ("report", "report w"),
        ("load product", "load w product"),
        ("status x", "status w x"),
        ("nothing such", "nothing w such"),
    ]:
        alone = run(PROGRAM, folder, words)
        equal(sent, answered(f"{sent}\n".encode()), Answer(end_of(alone), alone.status))


def failures():
    """An input that can't be read, a file that isn't there, outputs that take nothing."""
    unread = os.open(folder, os.O_RDONLY)
    done = subprocess.run([PROGRAM, "session", "w"], cwd=folder, stdin=unread, capture_output=True, timeout=PATIENCE)
    os.close(unread)
    equal("an input that can't be read", (done.stdout, done.returncode), (b"failed: F1 file, -\n", 3))
    equal("no warehouse", answered(b"check\nstatus\n", "none"), Answer(2 * b"failed: N1 not a warehouse\nstatus 3\n", 3))
    equal("no file is made", os.path.exists(f"{folder}/none"), False)
    with open("/dev/full", "wb") as full:
        done = subprocess.run([PROGRAM, "session", "w"], cwd=folder, input=b"check\n" * 100, stdout=full, timeout=PATIENCE)
    equal("an output that is full", done.returncode, 3)
    session = Session()
    session.process.stdout.close()
    try:
        session.send(1_000 * "check\n")
        session.process.stdin.close()
    except BrokenPipeError:
        pass
    equal("an output that is closed", session.process.wait(PATIENCE), 3)


def beside_another():
    session = Session()
    equal("the first word", session.ask("check"), said("clean"))
    equal("beside a session", run(PROGRAM, folder, "check w"), said("failed: F1 file, w"))
    equal("the session goes on", session.ask("check"), said("clean"))
    session.end()
    equal("after the session", run(PROGRAM, folder, "check w"), said("clean"))


def one_by_one():
    """The worked status and report in turn, each asked once the one before is answered."""
    asked = [(without_file(words), expected(words, printed(20, words))) for words in ("status w", f"report w date.month was {DAYS}")]
    session = Session()
    wrong = [number for number in range(QUESTIONS) if session.ask(asked[number % 2][0]) != asked[number % 2][1]]
    equal("questions one by one", (wrong, session.end()), ([], Answer(b"", 0)))


def many_lines():
    """Lines of `status` through a pipe, whose answers are read as they come. The process needs what it needed for the first ones: a page is 4 kilobytes."""
    words, number = "status w", 100 * QUESTIONS
    answer = end_of(expected(words, printed(20, words)))
    session = Session()
    session.send(100 * "status\n")
    equal("a hundred lines", session.repeats(answer, 100), True)
    before = session.peak()
    sender = threading.Thread(target=lambda: [session.send(100 * "status\n") for _ in range(number // 100)])
    sender.start()
    equal("many lines", session.repeats(answer, number), True)
    sender.join()
    grown = session.peak() - before
    equal(f"memory for {number} lines: {grown} kilobytes", grown <= 8, True)
    equal("the end after many lines", session.end(), Answer(b"", 0))


def loads(number):
    """A new file, and lines for so many loads."""
    for name in ("k", "k-wal"):
        if os.path.exists(f"{folder}/{name}"):
            os.remove(f"{folder}/{name}")
    run(PROGRAM, folder, "init k policy")
    for it in range(number):
        with open(f"{folder}/n{it}", "wb") as file:
            file.write(batch("sales", *(f"N{it},{line},2024-02-05,S{it % 7},P{line % 11},,1,1.00,0.50" for line in range(1, 200))))
    return [f"load sales n{it} n{it}" for it in range(number)]


def killed():
    """Killed behind some answers, with the next lines sent already; all are sent again, and those that were answered are kept."""
    asked = loads(40)
    for stop in (1, 7, 23):
        session = Session("k")
        for words in asked[:stop]:
            session.ask(words)
        session.send("".join(f"{words}\n" for words in asked[stop:]))
        session.process.send_signal(signal.SIGKILL)
        session.process.wait()
        session.process.stdout.close()
    again = answered("".join(f"{words}\n" for words in [*asked, "check"]).encode(), "k")
    told = again.text.decode().split("\n")
    equal("each is kept", ([it for it in told[:-3:2] if it.split(" ")[0] not in ("accepted", "already")], told[-3:], again.status), ([], ["clean", "status 0", ""], 0))
    equal("the first were kept before", {it.split(" ")[0] for it in told[:46:2]}, {"already"})


with open(f"{folder}/p 1", "wb") as spaced:
    spaced.write(FILES["p1"])
worked_rows()
lines()
no_commands()
as_alone()
failures()
beside_another()
one_by_one()
many_lines()
killed()
count.end()
