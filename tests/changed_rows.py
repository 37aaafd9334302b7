#!/usr/bin/env python3
"""Changes rows of a warehouse's file by other SQL than the program's, and looks at what each word then says and does. Build the program first
(`rt run` in crates/wh).

usage: changed_rows.py [CHANGES] [PROGRAM] [FIRST]

First changes whose answers were worked out by hand, ten of the sixteen worked rows and twenty-one after their upgrade and a void, each through check, load,
plan, report, dump and status, and a late record that is accepted since the damage is in rows of others. Then 1,000 random changes, or CHANGES of them, from
number FIRST on, the even ones of the warehouse after its upgrade and a void: another value of whatever type, another key, a row that is gone, or that stands
under a second key, or one in a table that has none. What each word may say of the rows is worked out in tests/lib/stored.py: check, dump and report exactly. A
damaged value is never taken for another: what is out of its type is told of its table, or the answer is the one without that row or without the damage. What
is refused or only read leaves the rows of all tables as they were; no run takes 20 seconds or is ended by a signal. The same numbers give the same changes.
"""

import random
import re
import sqlite3
import sys
import tempfile

from lib import stored
from lib.program import program
from lib.stored import damaged, e7
from lib.worked import DAYS, FILES, REPORT, SECOND, TABLES, TOTAL, Answer, Count, Text, batch, connected, copy, make_worked, printed, rows_of, run, said, same, write_files

ARGUMENTS = dict(enumerate(sys.argv))
CHANGES = int(ARGUMENTS.get(1, 1000))
PROGRAM = program(2)
FIRST = int(ARGUMENTS.get(3, 1))

ACCEPTED = "accepted 21 p10: 1 records, 0 placeholders"
BRAND, AGE, HOLIDAY = f"product.brand was {DAYS}", f"customer.age_band is {DAYS}", f"date.holiday was {DAYS}"
PLANNED = "put command 21\nput change 21 1\nput product 3\nput product 5\nedits 4"
COUNTED = printed(16, "status w")
# the sale of T1, of 5.00 at a cost of 3.20, has the brand that its key leads to
BOLT = "       1          2           5.00           3.20           1.80  Bolt\n"
ONE = "       1          1           2.50           1.60           0.90  Cask\n"
THREE, FIVE = "       2          3           7.50           4.80           2.70  Cask\n", "       3          5          12.50           8.00           4.50  Cask\n"
# the change, what check says, the load of p10, a report and what it says where that is another thing than without the change (a text or some that it may
# be, or lines of it and those in their place), status
TEN = [
    ("INSERT INTO meta VALUES ('colour', 1)", "wrong: meta", ACCEPTED, BRAND, None, COUNTED),
    ("UPDATE command SET records = 2 WHERE number = 3", "wrong: command", ACCEPTED, BRAND, None, COUNTED),
    ("UPDATE command SET bytes = CAST(replace(CAST(bytes AS TEXT), 'Bolt', 'Bolu') AS BLOB) WHERE number = 4", "wrong: change", ACCEPTED, BRAND, None, COUNTED),
    ("DELETE FROM change WHERE command = 6 AND record = 1", "wrong: change", ACCEPTED, BRAND, None, COUNTED.replace("changes 13", "changes 12")),
    ("UPDATE member SET natural = 'S 1' WHERE dim = 2", e7("member"), ACCEPTED, f"store.city was {DAYS}", None, (COUNTED, e7("member"))),
    ("UPDATE product SET to_day = 20240332 WHERE surrogate = 3", e7("product"), e7("product"), BRAND, e7("product"), COUNTED),
    ("DELETE FROM profile WHERE number = 3; UPDATE fact SET product_key = 4 WHERE ticket = 'T1'", "wrong: profile", ACCEPTED, AGE, (e7("customer"), e7("profile")), COUNTED),
    ("UPDATE calendar SET holiday = '(none)' WHERE date_key = 20241225", "wrong: calendar", ACCEPTED, HOLIDAY, None, COUNTED),
    ("UPDATE fact SET product_key = 4 WHERE ticket = 'T1'", "wrong: fact", ACCEPTED, BRAND, {THREE: BOLT + ONE}, COUNTED),
    ("UPDATE command SET bytes = x'' WHERE id IN ('init', 'm1', 'm2')", e7("command"), e7("command"), BRAND, e7("command"), e7("command")),
]
# the same after an upgrade and a void: the sale of T5 has the measures of that of T1, which is withdrawn
ACCEPTED_AFTER = ACCEPTED.replace("21", "24")
COUNTED_AFTER = printed(20, "status w")
SOLD = "       5          7          25.00          16.60           8.40  total\n"
NO_SALES = f"report {BRAND}\n{REPORT}       0          0           0.00           0.00           0.00  total"
NONE, NEWER = "failed: N1 not a warehouse", "failed: N3 new format"
OF_UPGRADE = [
    ("UPDATE meta SET value = 1 WHERE name = 'format'", "wrong: command", ACCEPTED_AFTER, BRAND, NO_SALES, COUNTED_AFTER.replace("format 2", "format 1").replace("facts 4", "facts 0")),
    ("UPDATE meta SET value = 3 WHERE name = 'format'", NEWER, NEWER, BRAND, NEWER, NEWER),
    ("DROP TABLE void", NONE, NONE, BRAND, NONE, NONE),
    ("UPDATE command SET bytes = x'0a' WHERE id = 'u1'", "wrong: command", ACCEPTED_AFTER, BRAND, None, COUNTED_AFTER),
    ("UPDATE command SET kind = 'upgraded' WHERE id = 'u1'", e7("command"), (ACCEPTED_AFTER, e7("command")), BRAND, None, COUNTED_AFTER),
    ("INSERT INTO fact SELECT 'T9', line, day, store_key, product_key, customer_key, store_durable, product_durable, customer_durable, profile, quantity, amount, cost FROM fact2 WHERE ticket = 'T2'", "wrong: fact", ACCEPTED_AFTER, BRAND, None, COUNTED_AFTER),
    ("UPDATE fact2 SET discount = 51 WHERE ticket = 'T5'", "wrong: fact2", ACCEPTED_AFTER, BRAND, None, COUNTED_AFTER),
    ("UPDATE fact2 SET discount = 0.5 WHERE ticket = 'T2'", e7("fact2"), ACCEPTED_AFTER, BRAND, ("as it was", e7("fact2")), COUNTED_AFTER),
    ("UPDATE fact2 SET quantity = 10000 WHERE ticket = 'T2'", e7("fact2"), ACCEPTED_AFTER, BRAND, e7("fact2"), COUNTED_AFTER),
    ("UPDATE fact2 SET product_key = 4 WHERE ticket = 'T5'", "wrong: fact2", ACCEPTED_AFTER, BRAND, {THREE: BOLT + ONE}, COUNTED_AFTER),
    ("INSERT INTO void VALUES ('T5', 1, 22)", "wrong: void", ACCEPTED_AFTER, BRAND, None, COUNTED_AFTER),
    ("INSERT INTO void VALUES ('T5', 0, 22)", e7("void"), ACCEPTED_AFTER, BRAND, None, COUNTED_AFTER),
    ("UPDATE fact2 SET discount = 51 WHERE ticket = 'T5'; INSERT INTO void VALUES ('T5', 0, 22)", "wrong: fact2", ACCEPTED_AFTER, BRAND, None, COUNTED_AFTER),
    ("DELETE FROM void", "wrong: void", ACCEPTED_AFTER, BRAND, None, COUNTED_AFTER),
    ("UPDATE void SET command = 22", "wrong: void", ACCEPTED_AFTER, BRAND, None, COUNTED_AFTER),
    ("INSERT INTO fact2 VALUES ('T1', 1, 20240205, 1, 3, 0, 1, 1, 0, 0, 2, 500, 320, 0)", "wrong: fact2", ACCEPTED_AFTER, BRAND, {THREE: FIVE, TOTAL: SOLD}, COUNTED_AFTER.replace("facts 4", "facts 5")),
    ("UPDATE command SET bytes = CAST(replace(CAST(bytes AS TEXT), 'T1', 'T2') AS BLOB) WHERE id = 'v1'", "wrong: fact2", ACCEPTED_AFTER, BRAND, None, COUNTED_AFTER),
    ("UPDATE command SET bytes = CAST(replace(CAST(bytes AS TEXT), 'T1', 'T9') AS BLOB) WHERE id = 'v1'", "wrong: command", ACCEPTED_AFTER, BRAND, None, COUNTED_AFTER),
    ("UPDATE command SET records = 2 WHERE id = 'v1'", "wrong: command", ACCEPTED_AFTER, BRAND, None, COUNTED_AFTER),
    ("UPDATE meta SET value = 4 WHERE name = 'facts_max'", "wrong: command", ACCEPTED_AFTER, BRAND, None, COUNTED_AFTER),
    ("UPDATE meta SET value = 5 WHERE name = 'facts_max'", "clean", ACCEPTED_AFTER, BRAND, None, COUNTED_AFTER),
]
# damage in rows of others than the record's product, with which its load has nothing to do
ELSEWHERE = "UPDATE command SET bytes = x'' WHERE number = 4; UPDATE change SET day = 20240632 WHERE command = 14; UPDATE product SET to_day = 20240332 WHERE surrogate = 9"

count = Count()
work = tempfile.TemporaryDirectory()
folder = work.name
write_files(folder)
changed = f"{folder}/changed"


class Warehouse:
    """A warehouse whose copies are changed: a copy of `w` under a name, its rows, the loads that the copies are sent, and what they would write of it."""

    def __init__(self, name, sales):
        copy(f"{folder}/w", f"{folder}/{name}")
        self.name, self.rows = name, rows_of(f"{folder}/{name}")
        self.loads = [
            ("product", "p10", FILES["p10"]),
            ("store", "x1", batch("store", "S1,2024-03-01,Bern")),
            ("customer", "x2", batch("customer", "C9,2024-06-01,Gold,20-29,low")),
            ("sales", *sales),
            ("void", "x5", batch("void", "T0,1")),
        ]
        for _, id, content in self.loads:
            with open(f"{folder}/{id}", "wb") as file:
                file.write(content)
        self.plans = {id: run(PROGRAM, folder, f"plan {name} {kind} {id} {id}") for kind, id, _ in self.loads}


make_worked(PROGRAM, folder)
PLAIN = Warehouse("plain", ("x3", batch("sales", "T9,1,2024-06-07,S1,P1,C9,1,1,1", "T9,2,2024-06-07,S2,P9,,1,1,1")))
make_worked(PROGRAM, folder, 20, since=17)
UPGRADED = Warehouse("upgraded", ("x4", batch("sales2", "T9,1,2024-06-07,S1,P1,C9,1,1,1,0.25", "T9,2,2024-06-07,S2,P9,,1,1,1,0")))


def change(sql, warehouse):
    copy(f"{folder}/{warehouse.name}", changed)
    base = sqlite3.connect(changed, isolation_level=None)
    base.executescript(sql)
    base.close()


def one_of(name, answer, lines):
    """A fault where an answer is none of these, each with its status."""
    lines = (lines,) if isinstance(lines, str) else lines
    if not any(answer == said(it) for it in lines):
        return [f"{name}: {answer}, and not {' or '.join(map(repr, lines))}"]
    return []


def left(name, before):
    return [] if same(rows_of(changed), before) else [f"{name}: the rows are others now"]


# ---- changes that were worked out by hand

def dump_of_stored(name, rows, table):
    """The faults of a dump, which prints what is stored, or lines of rows before a damaged one and which table is damaged."""
    answer = run(PROGRAM, folder, f"dump changed {table}")
    lines, is_cut = stored.dump(rows, table)
    if not is_cut:
        return [] if answer == Answer(b"".join(lines), 0) else [f"{name}, dump {table}: {answer}"]
    *printed, last = answer.text.splitlines(keepends=True) or [b""]
    if answer.status == 3 and last.decode() == e7(table) + "\n" and printed and printed == lines[: len(printed)]:
        return []
    return [f"{name}, dump {table}: {answer}"]


def faults_of_report(name, answer, whole, reported):
    """What is wrong with a report, where that without the change is given, and what is another thing by it."""
    if isinstance(reported, dict):
        text = whole.text.decode()
        for lines, others in reported.items():
            if lines not in text:
                return [f"{name}: {whole} without the change"]
            text = text.replace(lines, others)
        return one_of(name, answer, text)
    if reported is None or isinstance(reported, tuple) and reported[0] == "as it was":
        if answer == whole and not whole.status:
            return []
        return one_of(name, answer, reported[1:]) if reported else [f"{name}: {answer}"]
    return one_of(name, answer, reported)


for warehouse, (sql, verdict, loaded, report, reported, counted) in [*((PLAIN, it) for it in TEN), *((UPGRADED, it) for it in OF_UPGRADE)]:
    change(sql, warehouse)
    rows = rows_of(changed)
    faults = one_of(f"{sql}: check", run(PROGRAM, folder, "check changed"), verdict)
    opened = stored.opening(rows, "changed")
    for table in TABLES if warehouse is PLAIN else ("meta", "command", "fact", *SECOND):
        faults += dump_of_stored(sql, rows, table) if not opened else one_of(f"{sql}: dump", run(PROGRAM, folder, f"dump changed {table}"), opened)
    whole = run(PROGRAM, folder, f"report {warehouse.name} {report}")
    faults += faults_of_report(f"{sql}: report", run(PROGRAM, folder, f"report changed {report}"), whole, reported)
    faults += one_of(f"{sql}: status", run(PROGRAM, folder, "status changed"), counted)
    faults += left(sql, rows)
    answer = run(PROGRAM, folder, "load changed product p10 p10")
    faults += one_of(f"{sql}: load", answer, loaded)
    if answer.status:
        faults += left(sql, rows)
    count.case(faults)

change(ELSEWHERE, PLAIN)
faults = one_of("plan of p10", run(PROGRAM, folder, "plan changed product p10 p10"), PLANNED)
faults += one_of("load of p10", run(PROGRAM, folder, "load changed product p10 p10"), ACCEPTED)
base = sqlite3.connect(changed)
found = base.execute("SELECT surrogate, from_day, to_day, a2 FROM product WHERE surrogate IN (3, 5)").fetchall()
base.close()
if found != [(3, 20240201, 20240229, "Dash"), (5, 20240301, 20240331, "Cask")]:
    faults.append(f"the products after p10: {found}")
count.case(faults)

# ---- random changes

ANSWERS = {}
REPORTS = [
    ("product.brand", "was"), ("product.category", "was"), ("product.category", "is"), ("product.department", "is"), ("product.supplier", "prior"),
    ("product.supplier", "is"), ("store.city", "was"), ("customer.tier", "was"), ("customer.age_band", "was"), ("customer.age_band", "is"),
    ("date.month", "was"), ("date.holiday", "is"),
]
NUMBERS = [0, 1, 2, 3, 7, -1, 9_999_999, 10_000_000, 2**40, 2**63 - 1, -(2**63), 20240230, 20240632, 20231231, 19000101, 1.5, 1e300]
TEXTS = [b"", b"x", b"S 1", b"(none)", b"(unknown)", b"(no card)", b"(other)", b"x" * 61, b"a\x07", b"a\nb", b"a\x00b", b"a,b", b'a"b', "Zürich".encode(), b"\xff", b"7", b"init", b"sales", b"upgrade", b"void"]


def another(chance, value, column):
    """A value for a column, of whatever type: near the old one, from elsewhere in the column, or none that belongs there."""
    near = []
    if type(value) is int:
        near = [value + 1, value - 1, -value, value * 10, Text(str(value).encode() + b"x")]
    elif type(value) is Text:
        near = [Text(value + b"x"), Text(value[:-1]), Text(value.swapcase()), bytes(value)]
    elif value:
        place = chance.randrange(len(value))
        near = [value[:place] + bytes([chance.randrange(256)]) + value[place + 1 :], value[:place], value + b"\n", value + value, Text(value)]
    kind = chance.randrange(8)
    if kind < 3 and near:
        return chance.choice(near)
    if kind < 5:
        return chance.choice(column)
    return chance.choice([*NUMBERS, *map(Text, TEXTS), b"", b"x", b"\xff\x00", None, None])


def bound(value):
    return "CAST(? AS TEXT)" if type(value) is Text else "?"


def write(base, table, row, sql, values):
    """Writes rows of a table, also NULL where the schema forbids it."""
    keys = TABLES[table][1].split()[: TABLES[table][0]]
    where = " AND ".join(f"{name} IS ?" for name in keys)
    place = [bytes(it).decode() if type(it) is Text else it for it in row[: len(keys)]]
    base.execute(sql.replace("WHERE", f"WHERE {where}"), [*(bytes(it) if type(it) is Text else it for it in values), *place] if "WHERE" in sql else values)


def without_rule(base, table):
    """Lets the table take NULL; the text of its schema."""
    text = base.execute("SELECT sql FROM sqlite_master WHERE name = ?", [table]).fetchone()[0]
    rewrite(base, table, bytes(text).decode().replace(" NOT NULL", ""))
    return bytes(text).decode()


def rewrite(base, table, text):
    version = base.execute("PRAGMA schema_version").fetchone()[0]
    base.execute("PRAGMA writable_schema = ON")
    base.execute("UPDATE sqlite_master SET sql = ? WHERE name = ?", [text, table])
    base.execute(f"PRAGMA schema_version = {version + 1}")
    base.execute("PRAGMA writable_schema = OFF")


def strange_row(chance, warehouse):
    """A row for `fact` of the upgraded warehouse, which has none, each value as one of its column could be, or all but one."""
    row = list(chance.choice(warehouse.rows["fact2"])[:13])
    if chance.randrange(2):
        place = chance.randrange(len(row))
        row[place] = another(chance, row[place], [row[place]])
    return row


def insert(base, table, row):
    base.execute(f"INSERT INTO {table} VALUES ({', '.join(map(bound, row))})", [bytes(it) if type(it) is Text else it for it in row])


def damage(chance, warehouse, table):
    """Makes a random change in a table of a copy, and says what it was; None where the file can't take it."""
    names = TABLES[table][1].split()
    keys = TABLES[table][0]
    there = warehouse.rows[table]
    row = chance.choice(there) if there else strange_row(chance, warehouse)
    what = chance.choice(["value"] * 6 + ["two values", "key", "key", "gone", "gone", "twice", "twice"]) if there else "new"
    copy(f"{folder}/{warehouse.name}", changed)
    base = connected(changed)
    try:
        if what == "new":
            text = without_rule(base, table) if None in row else None
            insert(base, table, row)
            if text:
                rewrite(base, table, text)
            return f"{table} has {row}"
        if what == "gone":
            write(base, table, row, f"DELETE FROM {table} WHERE", [])
            return f"{table} {row[:keys]} is gone"
        if what == "twice":
            new = list(row)
            for place in chance.choice([[0], [keys - 1], range(keys)]):
                new[place] = row[place] + chance.randrange(1, 40) if type(row[place]) is int else Text(row[place] + b"-%d" % chance.randrange(9))
            if table in ("command", "member"):
                new[1 if table == "command" else 2] = Text(b"Q%d" % chance.randrange(99))
            insert(base, table, new)
            return f"{table} {row[:keys]} stands under {new[:keys]} too"
        places = range(keys) if what == "key" else range(len(names))
        news = {place: another(chance, row[place], [it[place] for it in there]) for place in chance.sample(places, 2 if what == "two values" else 1)}
        text = without_rule(base, table) if None in news.values() else None
        write(base, table, row, f"UPDATE {table} SET {', '.join(f'{names[it]} = {bound(new)}' for it, new in news.items())} WHERE", list(news.values()))
        if text:
            rewrite(base, table, text)
        return f"{table} {row[:keys]} has " + ", ".join(f"{names[it]} {new!r}" for it, new in news.items())
    except (sqlite3.IntegrityError, sqlite3.DataError):
        return None
    finally:
        base.close()


def defined(rows):
    """The rows that the stored commands define, by a making and a delivery of them in a file of their own; None where they aren't accepted so."""
    for warehouse in (PLAIN, UPGRADED):
        if same(rows["command"], warehouse.rows["command"]):
            return warehouse.rows
    commands = rows["command"]
    if not commands or [row[0] for row in commands] != list(range(1, len(commands) + 1)):
        return None
    if commands[0][1:3] != (b"init", b"init") or any(row[2] == b"init" for row in commands[1:]):
        return None
    # of an upgrade no bytes are read, and none are kept
    if any(row[2] == b"upgrade" and row[3] for row in commands):
        return None
    lines = []
    with open(f"{folder}/again.csv", "wb") as manifest:
        for row in commands:
            with open(f"{folder}/again-{row[0]}", "wb") as file:
                file.write(row[3])
            lines.append("accepted %d %s: %d records, %d placeholders" % (row[0], row[1].decode(), *row[4:]))
            if row[0] > 1:
                manifest.write(b"%s,%s,again-%d\n" % (row[2], row[1], row[0]))
    copy(f"{folder}/none", f"{folder}/again")
    made = run(PROGRAM, folder, "init again again-1")
    answer = run(PROGRAM, folder, "deliver again again.csv")
    return rows_of(f"{folder}/again") if (made.text + answer.text).decode().splitlines() == lines else None


def tally(word, answer):
    """Counts an answer by its first words."""
    line = f"{word} {' '.join(answer.line().split(' ')[: 2 if answer.status == 3 else 1])}"
    ANSWERS[line] = ANSWERS.get(line, 0) + 1


def faults_of_reading(chance, rows, table):
    """What is wrong with the answers of the words that read."""
    opened = stored.opening(rows, "changed")
    answer = run(PROGRAM, folder, "check changed")
    tally("check", answer)
    faults = one_of("check", answer, opened or stored.verdict(rows, defined))
    faults += left("check", rows)

    answer = run(PROGRAM, folder, "status changed")
    if opened:
        faults += one_of("status", answer, opened)
    else:
        form = stored.meta_of(rows)[b"format"]
        counts = [f"format {form}", f"commands {len(rows['command'])}", f"changes {len(rows['change'])}", f"facts {len(rows[stored.facts_table(rows)])}"]
        # of the members how many they are, or the greatest number of one
        members = [{len(them), max(them, default=0)} for them in ([row[1] for row in rows["member"] if row[0] == dim and type(row[1]) is int] for dim in (1, 2, 3))]
        found = re.fullmatch("\n".join(counts) + "\nmembers product (\\d+) store (\\d+) customer (\\d+)", answer.line())
        if not (found and answer.status == 0 and all(int(it) in them for it, them in zip(found.groups(), members))):
            faults += one_of("status", answer, e7("member")) if damaged(rows, "member") else [f"status: {answer}"]
    faults += left("status", rows)

    subject, mode = chance.choice(REPORTS)
    answer = run(PROGRAM, folder, f"report changed {subject} {mode} {DAYS}")
    if opened:
        faults += one_of("report", answer, opened)
    elif same(stored.policy_row(rows)[3], FILES["policy"]):
        wanted = stored.report(rows, subject, mode, *DAYS.split())
        if not any(answer == Answer(text, stored_status(text)) for text in wanted):
            faults.append(f"report {subject} {mode}: {answer}, and not {wanted}")
    elif answer.status not in (0, 2, 3):
        faults.append(f"report {subject} {mode}: {answer}")
    faults += left("report", rows)

    faults += one_of("dump", run(PROGRAM, folder, f"dump changed {table}"), opened) if opened else dump_of_stored("dump", rows, table)
    return faults + left("dump", rows)


def stored_status(text):
    return 3 if text.startswith(b"failed: ") else 0


def keys_of(lines):
    """The tables and keys that a plan's lines name."""
    return {tuple(line.split(" ", 1)[1].split(" ")) for line in lines[:-1]}


def differing(before, after):
    for table, (keys, _) in TABLES.items():
        old, new = ({tuple(map(str, map(plain, row[:keys]))): row for row in them.get(table, [])} for them in (before, after))
        for key in {*old, *new}:
            if not same(old.get(key), new.get(key)):
                yield (table, *key)


def plain(value):
    return bytes(value).decode(errors="replace") if isinstance(value, bytes) else value


def faults_of_load(chance, warehouse, rows, table):
    """What is wrong with the answers to a plan and a load, and with what the load leaves."""
    kind, id, content = chance.choice(warehouse.loads)
    name = f"of {kind} {id}"
    planned = run(PROGRAM, folder, f"plan changed {kind} {id} {id}")
    faults = left("plan", rows)
    loaded = run(PROGRAM, folder, f"load changed {kind} {id} {id}")
    tally("load", loaded)
    opened = stored.opening(rows, "changed")
    if opened:
        return faults + one_of(f"plan {name}", planned, opened) + one_of(f"load {name}", loaded, opened) + left("load", rows)
    lines = planned.line().split("\n")
    if planned.status == 0 and loaded.status == 0:
        after = rows_of(changed)
        number = first_free(rows["command"])
        receipt = re.fullmatch(rf"accepted {number} {id}: (\d+) records, (\d+) placeholders", loaded.line())
        if not receipt:
            faults.append(f"load {name}: {loaded}")
        elif not same(after["command"], kept(rows["command"], (number, Text(id.encode()), Text(kind.encode()), content, int(receipt[1]), int(receipt[2])))):
            faults.append(f"load {name}: not kept as command {number}")
        strange = set(differing(rows, after)) - keys_of(lines)
        if strange:
            faults.append(f"load {name}: {strange} changed, and the plan hasn't them")
        if [row for row in damaged(rows, table) if not any(same(row, it) for it in after[table])]:
            faults.append(f"load {name}: a damaged row was written over")
    else:
        if planned.status and planned != loaded or not planned.status and loaded != Answer(b"failed: E9 store, disk\n", 3):
            faults.append(f"plan {name}: {planned}, load: {loaded}")
        faults += left("load", rows)
        if not (loaded.status == 2 and loaded.text.startswith(b"refused: ") or loaded.status == 3 and loaded.text.startswith(b"failed: ")):
            faults.append(f"load {name}: {loaded}")
        for text in {planned.line(), loaded.line()}:
            if text.startswith("failed: E7") and not (text == e7(table) and damaged(rows, table)):
                faults.append(f"{text}, and nothing in that table is out of its type")
    if damaged(rows, table) and planned.line() != e7(table) and planned != warehouse.plans[id]:
        # then the damaged rows are as if they weren't there
        faults += planned_without(name, rows, table, planned, f"{kind} {id} {id}", warehouse.plans[id])
    return faults


def first_free(commands):
    """The number of the next command: the first, past as many as there are, under which none stands, so that none is written over."""
    taken = {row[0] for row in commands}
    return next(number for number in range(len(commands) + 1, len(commands) + len(taken) + 2) if number not in taken)


def kept(commands, row):
    """The commands with one more, in order."""
    return sorted([*commands, row], key=lambda it: it[0])


def planned_without(name, rows, table, planned, words, undamaged):
    copy(f"{folder}/before", f"{folder}/without")
    base = connected(f"{folder}/without")
    for row in damaged(rows, table):
        keys = TABLES[table][1].split()[: TABLES[table][0]]
        base.execute(f"DELETE FROM {table} WHERE " + " AND ".join(f"{key} IS {bound(value)}" for key, value in zip(keys, row)), [bytes(it) if type(it) is Text else it for it in row[: len(keys)]])
    base.close()
    wanted = run(PROGRAM, folder, f"plan without {words}")
    return [] if planned == wanted else [f"plan {name}: {planned}, and not {undamaged} or {wanted}"]


for number in range(FIRST, FIRST + CHANGES):
    chance = random.Random(number)
    warehouse = PLAIN if number % 2 else UPGRADED
    made = None
    while not made:
        table = chance.choice(list(warehouse.rows))
        made = damage(chance, warehouse, table)
        rows = rows_of(changed) if made else warehouse.rows
        if same(rows, warehouse.rows):
            made = None
    copy(changed, f"{folder}/before")
    faults = faults_of_reading(chance, rows, table) + faults_of_load(chance, warehouse, rows, table)
    count.case([f"change {number}, {warehouse.name}, {made}: {it}" for it in faults])

print(", ".join(f"{line} {times}" for line, times in sorted(ANSWERS.items())))
work.cleanup()
count.end()
