#!/usr/bin/env python3
"""Makes each write of a run's output fail in turn, and looks at what went out, at the status and at the file. Build the program first (`rt run` in
crates/wh); a C compiler makes the library tests/lib/fail_write.c that is loaded in front of it.

usage: failed_output.py [PROGRAM]

A report, a query, records, a dump of the commands, a plan and a delivery, each as it writes and in pieces of some bytes; the write fails since nobody reads, since there is
no room, or takes nothing; it alone, or all after it too. What went out has to be a beginning of what is printed else, with the line `failed: G4 write`
behind it where that can be written, and the status 3. The file holds what it held; after a delivery those of its commands whose lines went out whole, and the
next one. The same of two sessions, of which the one loads: a session goes on behind an answer that was cut off, and ends where the line of a status was; the file
holds what the words of the lines up to there leave, each alone. At last all but the sessions into a pipe that is closed and into /dev/full.
"""

import errno
import os
import subprocess
import tempfile

from lib.program import program
from lib.worked import DAYS, Answer, Count, copy, make_worked, rows_of, run, said, same, without_file, write_files

HERE = os.path.dirname(os.path.realpath(__file__))
PROGRAM = program(1)
LINE = b"failed: G4 write\n"
NIGHT = ["product,p3,p3", "product,p4,p4", "sales,s2,s2", "store,bad id,p1", "product,p3,p3"]
LINES = """\
accepted 6 p3: 1 records, 0 placeholders
accepted 7 p4: 1 records, 0 placeholders
accepted 8 s2: 1 records, 2 placeholders
refused: E1 bad id
already 6 p3: 1 records, 0 placeholders
"""

count = Count()
work = tempfile.TemporaryDirectory()
folder = work.name
subprocess.run(["cc", "-O1", "-shared", "-fPIC", "-o", f"{folder}/fail.so", f"{HERE}/lib/fail_write.c", "-ldl"], check=True)
write_files(folder)
with open(f"{folder}/night", "w") as file:
    file.write("".join(line + "\n" for line in NIGHT))
for row in (3, 11):
    for end in ("", "-wal"):
        if os.path.exists(f"{folder}/w{end}"):
            os.remove(f"{folder}/w{end}")
    make_worked(PROGRAM, folder, row)
    copy(f"{folder}/w", f"{folder}/after{row}")


def delivered():
    copy(f"{folder}/after3", f"{folder}/w")


def kept_by_delivery(name, text):
    """The commands of the delivery whose lines went out whole are kept, and the one whose line was cut off; none behind it was begun. All are told so when they come again."""
    begun = text.removesuffix(LINE).count(b"\n") + 1
    wanted = "".join(line.replace("accepted", "already") if place < begun else line for place, line in enumerate(LINES.splitlines(True)))
    answer = run(PROGRAM, folder, "deliver w night")
    return [] if answer == Answer(wanted.encode(), 2) else [f"{name}: again it says {answer}"]


def fail_each(words, whole, part):
    """Makes each write of a run fail, in each way."""
    is_delivery = words.startswith("deliver ")
    before = None if is_delivery else rows_of(f"{folder}/w")
    note = f"{folder}/note"
    runs = 0
    for error in (errno.EPIPE, errno.ENOSPC, 0):
        for since in ({}, {"FAILED_SINCE": "1"}):
            number = 1
            while True:
                if is_delivery:
                    delivered()
                if os.path.exists(note):
                    os.remove(note)
                answer = run(
                    PROGRAM, folder, words, LD_PRELOAD=f"{folder}/fail.so", FAILED_WRITE=str(number), FAILED_ERROR=str(error), FAILED_PART=str(part), FAILED_NOTE=note, **since
                )
                if not os.path.exists(note):
                    break
                name = f"{words}, write {number} of {part or 'all'} bytes fails, error {error}"
                text = answer.text.removesuffix(LINE) if not since else answer.text
                is_right = answer.status == 3 and whole.startswith(text) and len(text) < len(whole) and (since or answer.text.endswith(LINE))
                # each write before it went out
                is_right = is_right and len(text) >= (number - 1 if part else 0)
                faults = [] if is_right else [f"{name}: {answer}"]
                count.case(faults + (kept_by_delivery(name, answer.text) if is_delivery else []))
                number += 1
                runs += 1
            if number == 1 or answer.text != whole:
                count.case(f"{words}: no write failed, and it says {answer}")
    if before:
        count.case([] if same(rows_of(f"{folder}/w"), before) else f"{words}: the rows are others now")
    print(f"{words}: {runs} runs in which a write {f'of at most {part} bytes ' if part else ''}fails", flush=True)


def answers_of(whole):
    """The answers of a session, each with the line of its status."""
    answers = [b""]
    for line in whole.splitlines(True):
        answers[-1] += line
        if line.startswith(b"status ") and line.endswith(b"\n"):
            answers.append(b"")
    return answers[:-1]


def session_texts(whole):
    """What a session may print where one write fails, and how many of its lines are answered then: a beginning of an answer, its line, and the others; or all up
    to a beginning of the line of a status."""
    answers = answers_of(whole)
    for place, answer in enumerate(answers):
        before, after = b"".join(answers[:place]), b"".join(answers[place + 1 :])
        text = answer[: answer.rindex(b"status ")]
        yield from ((before + text[:kept] + LINE + b"status 3\n" + after, len(answers)) for kept in range(len(text)))
        yield from ((before + answer[:kept], place + 1) for kept in range(len(text), len(answer)))


def states_of(file, asked):
    """The rows of a file, and those behind each of the words that are asked of it."""
    copy(f"{folder}/{file}", f"{folder}/w")
    states = [rows_of(f"{folder}/w")]
    for words in asked:
        run(PROGRAM, folder, words)
        states.append(rows_of(f"{folder}/w"))
    return states


def fail_session(file, asked):
    """Makes each write of a session of these words over a file fail, in each way."""
    told, states = "".join(f"{without_file(words)}\n" for words in asked).encode(), states_of(file, asked)
    copy(f"{folder}/{file}", f"{folder}/w")
    whole = run(PROGRAM, folder, "session w", told)
    count.case([] if whole.status == 0 and len(answers_of(whole.text)) == len(asked) else f"a session: {whole}")
    allowed, note, runs = dict(session_texts(whole.text)), f"{folder}/note", 0
    for error in (errno.EPIPE, errno.ENOSPC, 0):
        for since in ({}, {"FAILED_SINCE": "1"}):
            for number in range(1, 1_000):
                if os.path.exists(note):
                    os.remove(note)
                copy(f"{folder}/{file}", f"{folder}/w")
                failing = {"FAILED_WRITE": str(number), "FAILED_ERROR": str(error), "FAILED_PART": "0", "FAILED_NOTE": note, **since}
                answer = run(PROGRAM, folder, "session w", told, LD_PRELOAD=f"{folder}/fail.so", **failing)
                if not os.path.exists(note):
                    break
                answered = len(answers_of(answer.text)) + 1 if since else allowed.get(answer.text, 0)
                is_cut = whole.text.startswith(answer.text) and len(answer.text) < len(whole.text) if since else answered > 0
                is_right = is_cut and answer.status == 3 and same(rows_of(f"{folder}/w"), states[answered])
                count.case([] if is_right else f"a session over {file}, write {number} fails, error {error}: {answer}")
                runs += 1
    print(f"a session over {file}: {runs} runs in which a write fails", flush=True)


def unread(words, whole, is_kept):
    """A pipe that nobody reads, and a device without room."""
    read, write = os.pipe()
    os.close(read)
    with open("/dev/full", "wb") as full:
        for name, out in (("a closed pipe", write), ("/dev/full", full)):
            if words.startswith("deliver "):
                delivered()
            done = subprocess.run([PROGRAM, *words.split()], cwd=folder, stdin=subprocess.DEVNULL, stdout=out, stderr=subprocess.DEVNULL, timeout=20)
            faults = [] if done.returncode == 3 else [f"{words} into {name}: status {done.returncode}"]
            count.case(faults + is_kept(f"{words} into {name}", b""))
    os.close(write)


AGE = f"report w customer.age_band was {DAYS}"
QUERY = f"query w {DAYS} product.category:is date.month"
RUNS = [("after11", AGE, 24), ("after11", QUERY, 24), ("after11", "records w product", 48), ("after11", "views w", 512), ("after11", "dump w command", 64), ("after3", "plan w product p3 p3", 8), ("after3", "deliver w night", 12)]
for file, words, part in RUNS:
    copy(f"{folder}/{file}", f"{folder}/w")
    whole = run(PROGRAM, folder, words)
    if words.startswith("deliver "):
        count.case([] if whole == Answer(LINES.encode(), 2) else f"{words}: {whole}")
    elif whole.status:
        count.case(f"{words}: {whole}")
    for size in (0, part):
        fail_each(words, whole.text, size)
    unread(words, whole.text, kept_by_delivery if words.startswith("deliver ") else lambda name, text: [])

fail_session("after11", ["status w", AGE, "check w", QUERY, "dump w product"])
fail_session("after3", ["load w product p3 p3", AGE, "load w sales s2 s2", "migrate w m1 m1", "check w", "upgrade w u1"])

# the last run's file is what its commands define
copy(f"{folder}/after3", f"{folder}/w")
run(PROGRAM, folder, "deliver w night", LD_PRELOAD=f"{folder}/fail.so", FAILED_WRITE="1", FAILED_ERROR=str(errno.EPIPE))
answer = run(PROGRAM, folder, "check w")
count.case([] if answer == said("clean") else f"check after a delivery that wasn't told: {answer}")

work.cleanup()
count.end()
