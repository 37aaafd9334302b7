#!/usr/bin/env python3
"""Asks tools/wh-doctor about files that the built program doesn't open, or can't work on. Build it first (`rt run` in crates/wh); sqlite3 mends what can be mended.

usage: doctor.py [PROGRAM]. WH names another program, too.

Each case changes a copy of the worked warehouse (tests/lib/worked.py), and has the causes that must be said, worked out by hand from the pages. The program is asked
for the same file: where a cause F1 or N is said, `wh status` has to answer just that, and else it has to open the file. Nothing in the folder may be changed by the
question, nor left behind. Where a line gives a command, that is run, and afterwards the file has to be good.
"""

import contextlib
import os
import re
import shlex
import shutil
import signal
import sqlite3
import subprocess
import tempfile

from lib.program import program
from lib.worked import FILES, Count, batch, copy, make_worked, own_folder, write_files

ROOT = os.path.realpath(f"{os.path.dirname(__file__)}/..")
TOOL = f"{ROOT}/tools/wh-doctor"
PROGRAM = program(1)
NOBODY = 65534
FILE = "case.wh"

count = Count()
work = own_folder()
os.chdir(work.name)
os.mkdir("temporary")


# ---- What is asked


def state():
    """What lies in the folder, with its bytes and times."""
    found = {}
    for name in sorted(set(os.listdir(".")) - {"temporary"}):
        at = os.lstat(name)
        is_file = os.path.isfile(name) and not os.path.islink(name)
        found[name] = (at.st_mode, at.st_nlink, at.st_size, at.st_mtime_ns, open(name, "rb").read() if is_file else os.listdir(name) if os.path.isdir(name) else None)
    return found


def asked(*words, program=TOOL, **how):
    done = subprocess.run([program, *words], stdin=subprocess.DEVNULL, capture_output=True, text=True, env={**os.environ, "TMPDIR": f"{work.name}/temporary"}, **how)
    return done.stdout + done.stderr, done.returncode


def doctor(*words, **how):
    return asked(FILE, "--wh", PROGRAM, *words, **how)


def status(file=FILE, **how):
    """What the program answers: `ok`, or the name of the failure."""
    printed, code = asked("status", file, program=PROGRAM, **how)
    return "ok" if code == 0 else printed.removeprefix("failed: ")[:2]


def commands_in(text):
    return [it for it in re.findall("`([^`]*)`", text) if it.startswith("sqlite3 ")]


def mended(name, text):
    """What is wrong after the commands of the lines were run."""
    for command in commands_in(text):
        subprocess.run(["bash", "-c", command.replace("NEW", "new.wh")], capture_output=True, check=True)
        if os.path.exists("new.wh"):
            os.replace("new.wh", FILE)
    found = doctor()[0], status()
    return [] if found == ("ok, format 1\n", "ok") else [f"{name}, mended: {found}"]


def judge(name, *wanted, **how):
    """Asks about the case. What is wanted are the causes without what to do; none where the file is good."""
    before = state()
    text, code = doctor(**how)
    faults = [] if state() == before else [f"{name}: something was changed"]
    found = [line.partition("; ")[0] for line in text.splitlines()]
    if (found, code) != (list(wanted) or ["ok, format 1"], 3 if wanted else 0):
        faults.append(f"{name}: {text}status {code}, and not\n{wanted}")
    answer, closing = status(**how), [it[:2] for it in wanted if not it.startswith("E")]
    if answer not in (closing or ["ok", "E7"]) or answer == "E7" and not any(it.startswith("E7") for it in wanted):
        faults.append(f"{name}: wh status answers {answer}")
    if commands_in(text) and not faults:
        faults = mended(name, text)
    count.case(faults)


def fresh():
    """The worked warehouse as the case's file."""
    for name in os.listdir("."):
        if name.startswith((FILE, "new.wh")):
            shutil.rmtree(name) if os.path.isdir(name) and not os.path.islink(name) else os.remove(name)
    copy("w", FILE)


def changed(statements, file=FILE):
    base = sqlite3.connect(file, isolation_level=None)
    base.executescript(statements)
    base.close()


def patched(place, content, file=FILE):
    with open(file, "r+b") as opened:
        opened.seek(place, 2 if place < 0 else 0)
        opened.write(content)


def into_file():
    """Moves the log into the file, so that the file has all."""
    changed("PRAGMA wal_checkpoint(TRUNCATE)")


# ---- Other things in the file

OWN = "CREATE TABLE own (k INTEGER PRIMARY KEY); CREATE TABLE child (a REFERENCES own (k)); "
OF_OTHERS = [
    ("plain things", "CREATE TABLE note (a); CREATE INDEX by_a ON note (a DESC); CREATE VIEW v AS SELECT a FROM note; CREATE INDEX by_cost ON fact (cost); ANALYZE", []),
    ("a trigger on one's own", "CREATE TABLE own (k); CREATE TRIGGER t AFTER INSERT ON own BEGIN SELECT 1; END", []),
    ("an INSTEAD OF trigger", "CREATE VIEW v AS SELECT 1 AS a; CREATE TRIGGER t INSTEAD OF INSERT ON v BEGIN SELECT 1; END", ["F1: the trigger t is none that `wh` reads (INSTEAD)"]),
    ("a virtual table", "CREATE VIRTUAL TABLE words USING fts5 (a); INSERT INTO words VALUES ('b')", ["F1: the virtual table words is none that `wh` reads"]),
    ("two causes, with names in quotes", 'CREATE VIEW "top 10" AS SELECT rank() OVER () FROM fact; CREATE VIRTUAL TABLE "it\'s" USING rtree (a, b, c)',
     ["F1: the view top 10 is none that `wh` reads (OVER)", "F1: the virtual table it's is none that `wh` reads"]),
    ("words in quotes and comments", "CREATE VIEW v AS SELECT 'OVER' AS \"GLOB\" /* FULL */ FROM main.fact -- RIGHT", ["F1: the view v is none that `wh` reads"]),
    ("a trigger beside a foreign key", f"{OWN} CREATE TRIGGER t AFTER INSERT ON child BEGIN SELECT 1; END", ["F1: `wh` doesn't read the trigger t on the table child, which has a foreign key"]),
    ("a partial index beside a foreign key", f"{OWN} CREATE INDEX part ON child (a) WHERE a > 1", ["F1: `wh` doesn't read the index part on the table child, which has a foreign key"]),
    ("no rowid beside a foreign key", "CREATE TABLE child (a PRIMARY KEY REFERENCES fact (ticket)) WITHOUT ROWID", ["F1: the table child has the word REFERENCES, and more that `wh` doesn't read"]),
    ("no rowid", "CREATE TABLE own (a PRIMARY KEY) WITHOUT ROWID; INSERT INTO own VALUES (1)", []),
    ("a row without a parent", f"{OWN} INSERT INTO own VALUES (1); INSERT INTO child VALUES (1), (2); CREATE TABLE other (a REFERENCES child (a))",
     ["F1: the row 2 of the table child has no parent in own"]),
    ("a parent of another type", "CREATE TABLE child (a TEXT REFERENCES product (surrogate)); INSERT INTO child VALUES ('1')",
     ["F1: the table child has a row that breaks its rules, as one with a parent of another type, text for number"]),
    ("a later default", "CREATE TABLE own (a); INSERT INTO own VALUES (1); ALTER TABLE own ADD COLUMN b DEFAULT 5",
     ["F1: the table own has rows, or an index, that `wh` doesn't take, as rows from before a column with a default was added"]),
    ("a view and a row", f"{OWN} INSERT INTO child VALUES (2); CREATE VIEW v AS VALUES (1)", ["F1: the view v is none that `wh` reads (VALUES)", "F1: the row 1 of the table child has no parent in own"]),
]
JOIN = "FROM fact JOIN product ON surrogate = product_key"
READ = [
    f"SELECT a2, sum(amount) {JOIN} GROUP BY a2 HAVING count(*) > 1 ORDER BY 2 DESC LIMIT 10", "SELECT a1 FROM product LEFT JOIN fact ON product_key = surrogate WHERE ticket IS NULL",
    "SELECT CASE WHEN amount > 0 THEN 'sale' ELSE 'return' END AS kind FROM fact", "WITH s AS (SELECT day, sum(amount) AS a FROM fact GROUP BY day) SELECT max(a) FROM s",
    "SELECT a1 FROM product WHERE a1 LIKE 'Cola%' AND surrogate IN (SELECT product_key FROM fact)", "SELECT day FROM fact UNION SELECT day FROM change", "SELECT DISTINCT upper(a1) FROM product",
    "SELECT count(DISTINCT ticket) FROM fact WHERE day BETWEEN 20240101 AND 20241231", "SELECT CAST(amount AS REAL) / 100 AS money FROM fact", "SELECT a1 COLLATE NOCASE AS name FROM product",
]
NOT_READ = {
    "(OVER)": "SELECT rank() OVER (ORDER BY amount) FROM fact", "(FILTER)": "SELECT count(*) FILTER (WHERE amount > 0) FROM fact", "(GLOB)": "SELECT 1 FROM fact WHERE ticket GLOB 'T*'",
    "(ESCAPE)": "SELECT 1 FROM fact WHERE ticket LIKE 'T%' ESCAPE 'x'", "(->>, ->)": "SELECT a1 ->> '$.a', a1 -> '$' FROM product", "(VALUES)": "VALUES (1)", "(NATURAL)": "SELECT 1 FROM fact NATURAL JOIN void",
    "(RIGHT)": f"SELECT 1 {JOIN.replace('JOIN', 'RIGHT JOIN')}", "(FULL)": f"SELECT 1 {JOIN.replace('JOIN', 'FULL JOIN')}", "": "SELECT 1 FROM main.fact", " ": "SELECT value FROM json_each('[1]')",
    "(INDEXED)": "SELECT 1 FROM product INDEXED BY product_by_durable WHERE durable = 1", "  ": "SELECT 1 FROM fact WHERE (ticket, line) = ('T1', 1)",
    "(MATERIALIZED)": "WITH s AS MATERIALIZED (SELECT 1 AS a) SELECT a FROM s",
}


def views():
    """Each of these sorts by itself: those that are read do no harm beside those that aren't."""
    fresh()
    changed("".join(f"CREATE VIEW read{number} AS {text}; " for number, text in enumerate(READ)))
    judge("views that are read")
    for number, text in enumerate(NOT_READ.values()):
        with contextlib.suppress(sqlite3.OperationalError):
            changed(f"CREATE VIEW view{number} AS {text}")
    base = sqlite3.connect(FILE)
    there = {name for (name,) in base.execute("SELECT name FROM sqlite_schema WHERE type = 'view'")}
    base.close()
    wanted = [f"F1: the view view{number} is none that `wh` reads {words}".strip() for number, words in enumerate(NOT_READ) if f"view{number}" in there]
    judge("views that aren't read", *wanted)


# ---- Tables of the warehouse that were changed

ANEW = "ALTER TABLE {0} RENAME TO old; CREATE TABLE {0} AS SELECT * FROM old; DROP TABLE old"
OURS = [
    ("a column more", "ALTER TABLE product ADD COLUMN note", ["E7: the table product has a column more, note"]),
    ("a column with a default more", "ALTER TABLE product ADD COLUMN note DEFAULT 'x'", ["F1: the table product has a column more, note"]),
    ("a generated column", "ALTER TABLE store ADD COLUMN big AS (upper(a1))", ["N1: the table store has a generated column more, big"]),
    ("a column less", "ALTER TABLE fact DROP COLUMN cost", ["N1: the table fact has no column cost"]),
    ("a column renamed", "ALTER TABLE fact RENAME COLUMN cost TO price", ["N1: the table fact has no column cost, but price"]),
    ("a table less", "DROP TABLE profile", ["N1: the table profile isn't there"]),
    ("a view for a table", "ALTER TABLE profile RENAME TO other; CREATE VIEW profile AS SELECT * FROM other", ["N1: profile is no table, but of the kind view"]),
    ("a trigger", "CREATE TRIGGER t AFTER INSERT ON fact BEGIN SELECT 1; END", ["N1: the trigger t is on the table fact"]),
    ("a partial index", "CREATE INDEX part ON fact (cost) WHERE cost > 0", ["N1: the index part on the table fact is partial"]),
    ("an index on an expression", "CREATE INDEX half ON fact (cost / 2)", ["N1: the index half on the table fact is on an expression"]),
    ("a unique index", "CREATE UNIQUE INDEX one ON store (natural)", ["E9: the index one on the table store is unique, so a load of a second row with the same natural is refused"]),
    ("a unique index on the key and more", "CREATE UNIQUE INDEX one ON fact (line, cost, ticket); CREATE UNIQUE INDEX two ON member (natural, dim)", []),
    ("a foreign key", "CREATE TABLE child (a INTEGER REFERENCES product (surrogate)); INSERT INTO child VALUES (1)",
     ["E9: the table child has a foreign key to product, so a load that removes a row which it names is refused"]),
    ("foreign keys that do no harm", "CREATE TABLE child (a REFERENCES calendar (date_key), b INTEGER REFERENCES product (surrogate) ON DELETE CASCADE)", []),
    ("an index less", "DROP INDEX product_by_durable", []),
    ("no format", "DELETE FROM meta WHERE name = 'format'", ["N1: the table meta has no good row of the format"]),
    ("a new format", "UPDATE meta SET value = 3 WHERE name = 'format'", ["N3: its format is 3"]),
    ("an old format", "UPDATE meta SET value = 0 WHERE name = 'format'", ["N2: its format is 0"]),
    ("format 2 without its tables", "UPDATE meta SET value = 2 WHERE name = 'format'", ["N1: the table fact2 isn't there", "N1: the table void isn't there"]),
    ("a text for a format", "UPDATE meta SET value = 'x' WHERE name = 'format'", ["E7: in the row format of the table meta value is text, and not integer"]),
    ("bytes for a text", "UPDATE product SET a2 = x'00' WHERE surrogate = 4", ["E7: in the row 4 of the table product a2 is blob, and not text"]),
    ("part of a number", "UPDATE fact SET amount = 1.5 WHERE ticket = 'T2'; UPDATE change SET day = 'x' WHERE command = 9",
     ["E7: in the row 9 1 of the table change day is text, and not integer", "E7: in the row T2 1 of the table fact amount is real, and not integer"]),
    ("no day", "UPDATE store SET from_day = 20240230", ["E7: a row of the table store has a value that docs/schema.md doesn't allow"]),
]


def refused_load():
    """The load that a unique index refuses, before and after the command of the line."""
    fresh()
    changed("CREATE UNIQUE INDEX one ON store (natural)")
    FILES["k1"] = batch("store", "S1,2024-01-05,Bern", "S1,2024-07-01,Basel")
    write_files(work.name)
    refused = asked("load", FILE, "store", "k1", "k1", program=PROGRAM)[0]
    for command in commands_in(doctor()[0]):
        subprocess.run(["bash", "-c", command], check=True)
    count.case([] if (refused[:10], status()) == ("failed: E9", "ok") else f"a refused load: {refused}")
    count.case([] if asked("load", FILE, "store", "k1", "k1", program=PROGRAM)[1] == 0 else "the load again is refused")


# ---- The first page

HEADERS = [
    (16, b"\x03\x00", "pages of 768 bytes, which is no size of a page"),
    (18, b"\3\3", "the versions 3 and 3 for writers and readers, which aren't 1 and 1 or 2 and 2"),
    (18, b"\1\2", "the versions 1 and 2 for writers and readers, which aren't 1 and 1 or 2 and 2"),
    (44, b"\0\0\0\1", "schema format 1, an old one"),
]


def headers():
    for place, content, why in HEADERS:
        fresh()
        into_file()
        patched(place, content)
        judge(why, f"F1: it has {why}")
    for size in (512, 65536):
        fresh()
        changed(f"PRAGMA journal_mode = DELETE; PRAGMA page_size = {size}; VACUUM")
        judge(f"pages of {size}")
    fresh()
    changed("PRAGMA journal_mode = DELETE; PRAGMA auto_vacuum = 1; VACUUM")
    judge("auto_vacuum", "F1: it has auto_vacuum")
    fresh()
    subprocess.run(["bash", "-c", f"(echo 'PRAGMA encoding = \"UTF-16\";'; sqlite3 {FILE} .dump) | sqlite3 new.wh"], check=True)
    fresh_from("new.wh")
    judge("UTF-16", "F1: it has texts in UTF-16")
    fresh()
    subprocess.run(["sqlite3", FILE, "PRAGMA journal_mode = DELETE", ".filectrl reserve_bytes 16", "VACUUM"], check=True, capture_output=True)
    judge("reserved bytes", "F1: it has 16 reserved bytes in each page, as encrypted databases have")


def fresh_from(path):
    os.replace(path, "made")
    fresh()
    os.remove(f"{FILE}-wal")
    os.replace("made", FILE)


# ---- What is no warehouse at all


def written(content, with_log=None):
    fresh()
    os.remove(f"{FILE}-wal")
    with open(FILE, "wb") as file:
        file.write(content)
    if with_log is not None:
        with open(f"{FILE}-wal", "wb") as file:
            file.write(with_log)


def no_databases():
    log = open("w-wal", "rb").read()
    with_frames()
    frames = open(f"{FILE}-wal", "rb").read()
    begins, beside = "it doesn't begin as a database does, but with", ", and no log lies beside it"
    for name, content, with_log, wanted in (
        ("a text", b"ticket,line\nT1,1\n", None, f"N1: {begins} 'ticket,line\\nT1,1\\n'{beside}"),
        ("a zip", b"PK\3\4\n", None, f"N1: {begins} 'PK\\x03\\x04\\n': a zip, as Excel writes{beside}"),
        ("nulls", bytes(4096), None, f"N1: {begins} {(32 * chr(0))!r}: nulls, as an `init` leaves on a full disk{beside}"),
        ("a log", frames[:32], None, f"N1: {begins} {frames[:32].decode('latin-1')!r}: a log, and its file has the name without -wal{beside}"),
        ("nothing in it", b"", None, f"N1: it is empty{beside}"),
        ("nothing in it, with a log", b"", log, "N1: it is empty"),
        ("a text with a log", b"ticket,line\nT1,1\n", frames, f"F1: {begins} 'ticket,line\\nT1,1\\n'"),
    ):
        written(content, with_log)
        judge(name, wanted)
    written(b"")
    changed("CREATE TABLE own (a)")
    judge("another database", "N1: it is a database without tables of a warehouse")


# ---- Names, kinds, rights, locks


def names():
    fresh()
    os.rename(FILE, f"{FILE}-moved")
    judge("nothing", f"N1: nothing has the name {FILE}")
    os.symlink("nothing", FILE)
    judge("a link to nothing", f"N1: the link {FILE} leads to nothing")
    fresh()
    os.rename(FILE, f"{FILE}-moved")
    os.rename(f"{FILE}-wal", f"{FILE}-moved-wal")
    os.symlink(f"{FILE}-moved", FILE)
    judge("a link")
    for make, kind in ((os.mkdir, "a folder"), (os.mkfifo, "a pipe")):
        fresh()
        os.remove(FILE)
        make(FILE)
        judge(kind, f"F1: {FILE} is {kind}")
        fresh()
        os.remove(f"{FILE}-wal")
        make(f"{FILE}-wal")
        judge(f"{kind} for a log", f"F1: the log {FILE}-wal is {kind}")
    for end, named in (("", FILE), ("-wal", f"the log {FILE}-wal")):
        fresh()
        os.link(FILE + end, f"{FILE}-second")
        judge("a hard link", f"F1: {named} has 2 names, which are hard links")
    fresh()
    os.rename(f"{FILE}-wal", f"{FILE}-moved")
    os.symlink(f"{FILE}-moved", f"{FILE}-wal")
    judge("a link for a log", f"F1: the log {FILE}-wal is a link")


def journals():
    for content in (b"", bytes(28)):
        fresh()
        with open(f"{FILE}-journal", "wb") as journal:
            journal.write(content)
        judge("a journal with nothing in it")
    hot = f"F1: the journal {FILE}-journal of a program that was stopped waits"
    fresh()
    os.mkdir(f"{FILE}-journal")
    judge("a folder for a journal", f"F1: {FILE}-journal is a folder, in the place of a journal")
    fresh()
    changed("PRAGMA journal_mode = DELETE")
    # a program that is killed in a transaction that it has begun to write
    killed = "import os, sqlite3; base = sqlite3.connect('case.wh', isolation_level=None); base.executescript('PRAGMA cache_size = 1; BEGIN; UPDATE product SET a1 = a1 || 1; UPDATE fact SET cost = 7; CREATE TABLE own (a); INSERT INTO own SELECT x.iso || y.iso FROM calendar x, calendar y LIMIT 5000'); os.kill(os.getpid(), 9)"
    subprocess.run(["python3", "-c", killed], check=False)
    judge("a journal of a killed program", hot)


def in_use():
    sqlite = "import sqlite3; base = sqlite3.connect('case.wh', isolation_level=None); base.execute('BEGIN'); print('status', base.execute('SELECT count(*) FROM fact').fetchall(), flush=True); input()"
    for name, words in (("sqlite3", ["python3", "-c", sqlite]), ("a session", [PROGRAM, "session", FILE])):
        fresh()
        holder = subprocess.Popen(words, stdin=subprocess.PIPE, stdout=subprocess.PIPE, text=True)
        if words[0] == PROGRAM:
            print("status", file=holder.stdin, flush=True)
        while not holder.stdout.readline().startswith("status "):
            pass
        with open(f"/proc/{holder.pid}/comm") as comm:
            judge(name, f"F1: it is in use ({comm.read().strip()}, process {holder.pid})")
        holder.send_signal(signal.SIGKILL)
        holder.communicate()
        judge(f"{name} that was killed")


def rights():
    """As another user, where that can be: root has every right."""
    how = {"user": NOBODY, "group": NOBODY, "extra_groups": []} if os.geteuid() == 0 else {}
    user = NOBODY if how else os.geteuid()
    with tempfile.TemporaryDirectory() as elsewhere:
        os.chmod(elsewhere, 0o755)
        if how and subprocess.run([TOOL, "--help"], capture_output=True, check=False, **how).returncode or subprocess.run([PROGRAM, "help"], capture_output=True, check=False, **how).returncode:
            print("passed over: another user can't run the programs here")
            return
    os.chmod(".", 0o777)
    os.chmod("temporary", 0o777)
    owner = f"user {os.geteuid()}, group {os.getegid()}"
    for end, named in (("", FILE), ("-wal", f"the log {FILE}-wal")):
        for mode, shown, lacking in ((0o444, "-r--r--r--", "write"), (0o222, "--w--w--w-", "read"), (0, "----------", "read or write")):
            fresh()
            for it in ("", "-wal"):
                os.chmod(FILE + it, 0o666)
            os.chmod(FILE + end, mode)
            judge(f"rights {mode:o} of {named}", f"F1: user {user} has no right to {lacking} {named} ({shown}, {owner})", **how)
    for mode, shown, lacking, with_log in ((0o755, "drwxr-xr-x", "write", False), (0o733, "drwx-wx-wx", "read", True)):
        fresh()
        os.chmod(FILE, 0o666)
        os.chmod(f"{FILE}-wal", 0o666)
        if not with_log:
            os.remove(f"{FILE}-wal")
        os.chmod(".", mode)
        where = f"the folder {os.path.realpath('.')}" + ("" if with_log else ", where the log has to be made")
        judge(f"rights {mode:o} of the folder", f"F1: user {user} has no right to {lacking} {where} ({shown}, {owner})", **how)
        os.chmod(".", 0o777)
    os.chmod(".", 0o700)


# ---- Damage, and logs


def with_frames():
    """The case's file with a log of another writer that has more than it: a table of which the file knows nothing."""
    fresh()
    base = sqlite3.connect(FILE, isolation_level=None)
    base.executescript("PRAGMA journal_mode = WAL; PRAGMA wal_autocheckpoint = 0; CREATE TABLE own (a); INSERT INTO own SELECT iso || hex(iso) FROM calendar")
    for end in ("", "-wal"):
        shutil.copyfile(FILE + end, f"kept{end}")
    base.close()
    fresh()
    for end in ("", "-wal"):
        os.replace(f"kept{end}", FILE + end)


def logs():
    with_frames()
    judge("a log with more")
    with_frames()
    os.replace(f"{FILE}-wal", "log")
    fresh()
    changed("PRAGMA journal_mode = DELETE; DROP INDEX product_by_durable; CREATE TABLE own (a); INSERT INTO own SELECT x.iso || y.iso FROM calendar x, calendar y LIMIT 3000; VACUUM")
    os.replace("log", f"{FILE}-wal")
    judge("a log of another file", f"F1: the log {FILE}-wal doesn't go with the file, which is good without it")


def damage():
    fresh()
    into_file()
    base = sqlite3.connect(FILE)
    roots = dict(base.execute("SELECT name, rootpage FROM sqlite_schema WHERE rootpage > 0"))
    size = base.execute("PRAGMA page_size").fetchone()[0]
    base.close()
    kept = open(FILE, "rb").read()
    for name, place, content in (
        ("a page of nulls", (roots["fact"] - 1) * size, bytes(size)),
        ("a kind of page", (roots["product"] - 1) * size, b"\x07"),
        ("a byte in the schema", kept.rindex(b"CREATE TABLE fact"), b"\xc3"),
        ("a page less", len(kept) - size, None),
        ("a key in an index", (roots["product_by_durable"]) * size - 2, b"\x55"),
    ):
        fresh()
        into_file()
        patched(place, content) if content else os.truncate(FILE, place)
        text, code = doctor()
        answer = status()
        count.case([] if answer == "F1" and code == 3 and text.startswith("F1: it is damaged: ") else f"{name}: wh status answers {answer}, and {text}status {code}")


# ---- Words


def words():
    fresh()
    for given, wanted in (
        ([FILE, "--wh", "nothing"], ("failed: nothing isn't on the path; --wh names the program\n", 3)),
        ([FILE, "--wh", "/bin/echo"], (f"failed: /bin/echo isn't the program, for it answers 'status {work.name}/temporary/wh-doctor-X/2.wh'\n", 3)),
        ([], ("error: the following arguments are required: FILE; wh-doctor --help tells more\n", 4)),
        ([FILE, FILE], (f"error: unrecognized arguments: {FILE}; wh-doctor --help tells more\n", 4)),
    ):
        text, code = asked(*given)
        found = re.sub("wh-doctor-[a-z0-9_]{8}/", "wh-doctor-X/", text), code
        count.case([] if found == wanted else f"{given}: {found}")
    os.rename(FILE, "odd\n'name.wh")
    os.rename(f"{FILE}-wal", "odd\n'name.wh-wal")
    found = asked("odd\n'name.wh", "--wh", PROGRAM), asked("odd\n", "--wh", PROGRAM)[0].count("\n")
    count.case([] if found == (("ok, format 1\n", 0), 1) else f"an odd name: {found}")
    os.remove("odd\n'name.wh")
    os.remove("odd\n'name.wh-wal")


write_files(work.name)
make_worked(PROGRAM, work.name)
for name, statements, wanted in [("nothing", "", []), *OF_OTHERS, *OURS]:
    fresh()
    changed(statements)
    judge(name, *wanted)
views()
refused_load()
headers()
no_databases()
names()
journals()
in_use()
rights()
logs()
damage()
words()
count.case([] if not os.listdir("temporary") else f"left: {os.listdir('temporary')}")
count.end()
