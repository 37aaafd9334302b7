"""What the rules of docs/ say of any rows that a file stores, in either format: which are of their types, and what the words over the
file then print. Rows are by their tables; those of the second format may be there or not."""

import datetime
import re
import tomllib

from lib import readers
from lib.worked import HEADERS, REPORT, SECOND, TABLES, Text, same

GREATEST = {"commands_max": 100_000, "changes_max": 1_000_000, "facts_max": 1_000_000}
NO_CARD = b"(no card)"
SPECIAL = (b"", b"(none)", b"(unknown)", NO_CARD)


def is_text(value):
    if type(value) is not Text:
        return False
    try:
        value.decode()
    except UnicodeDecodeError:
        return False
    return True


def is_int(value):
    return type(value) is int


def whole(least, most):
    return lambda value: is_int(value) and least <= value <= most


def is_day(value):
    try:
        return is_int(value) and 1900 <= datetime.date(value // 10_000, value // 100 % 100, value % 100).year
    except (ValueError, OverflowError):
        return False


def key(most):
    return lambda value: type(value) is Text and readers.is_key(value, most)


def is_slot(value):
    return type(value) is Text and (value in SPECIAL or readers.is_given(value))


def is_kind(value):
    return type(value) is Text and value in (b"init", b"migrate", b"upgrade", b"product", b"store", b"customer", b"sales", b"void")


number, flag, dim = whole(0, 9_999_999), whole(0, 1), whole(1, 3)
money = whole(-999_999_999, 999_999_999)
DIMENSION = [number, number, key(32), is_day, is_day, flag, *[is_slot] * 12, number]
FACT = [key(20), whole(1, 9999), is_day, *[number] * 7, whole(-9999, 9999), money, money]
# of each column whether a value is of its type
TYPES = {
    "meta": [is_text, is_int],
    "command": [number, key(40), is_kind, lambda value: type(value) is bytes, number, number],
    "member": [dim, number, key(32), number],
    "change": [number, number, dim, number, is_day, number, *[is_slot] * 6],
    "product": DIMENSION,
    "store": DIMENSION,
    "customer": DIMENSION,
    "profile": [number, *[is_slot] * 6],
    "calendar": [is_day, is_text, *[is_int] * 6, is_text, flag, is_text],
    "fact": FACT,
    "fact2": [*FACT, whole(0, 999_999_999)],
    "void": [key(20), whole(1, 9999), number],
}


def is_damaged(table, row):
    if table == "customer" and same(row[0], 0) and same(row[2], Text(NO_CARD)):
        row = (*row[:2], Text(b"x"), *row[3:])
    return not all(is_good(value) for is_good, value in zip(TYPES[table], row))


def damaged(rows, table):
    return [row for row in rows.get(table, []) if is_damaged(table, row)]


def e7(table):
    return f"failed: E7 damaged, {table}"


def meta_of(rows):
    """The numbers of meta by their names."""
    return {bytes(name): value for name, value in rows["meta"] if type(name) is Text}


def tables_in(form):
    """The tables that a format has."""
    return [table for table in TABLES if form == 2 or table not in SECOND]


def facts_table(rows):
    """The table in which the sales of a file stand that is opened."""
    return "fact2" if meta_of(rows)[b"format"] == 2 else "fact"


def policy_row(rows):
    return next((row for row in reversed(rows["command"]) if type(row[2]) is Text and row[2] in (b"init", b"migrate")), None)


def opening(rows, name):
    """The line of an opening that fails, or None; of a file of that name."""
    if any(value is None for table in rows.values() for row in table for value in row):
        # the schema forbids it, so the file isn't sound as SQLite sees it
        return f"failed: F1 file, {name}"
    if any(table not in rows for table in tables_in(1)):
        return "failed: N1 not a warehouse"
    meta = meta_of(rows)
    if b"format" not in meta:
        return "failed: N1 not a warehouse"
    if not is_int(meta[b"format"]):
        return e7("meta")
    if meta[b"format"] not in (1, 2):
        return "failed: N2 old format" if meta[b"format"] < 1 else "failed: N3 new format"
    if any(table not in rows for table in tables_in(meta[b"format"])):
        return "failed: N1 not a warehouse"
    if not all(whole(1, most)(meta.get(name.encode())) for name, most in GREATEST.items()):
        return e7("meta")
    row = policy_row(rows)
    if not row or is_damaged("command", row) or readers.policy_fault(row[3]):
        return e7("command")
    return None


def verdict(rows, defined):
    """What a check says of a file that is opened. `defined` gives the rows that the stored commands define, or None where they aren't such a list."""
    if len(rows["meta"]) > 4:
        return e7("meta") if damaged(rows, "meta") else "wrong: meta"
    if damaged(rows, "command"):
        return e7("command")
    meta = meta_of(rows)
    wanted = defined(rows)
    if not wanted or meta_of(wanted)[b"format"] != meta[b"format"]:
        return "wrong: command"
    # what was sold and withdrawn counts among the facts
    most = {"commands_max": wanted["command"], "changes_max": wanted["change"], "facts_max": [*wanted[facts_table(wanted)], *wanted.get("void", [])]}
    if any(len(them) > meta[name.encode()] for name, them in most.items()):
        return "wrong: command"
    for table in tables_in(meta[b"format"])[2:]:
        if not same(rows[table], wanted[table]):
            return e7(table) if damaged(rows, table) else f"wrong: {table}"
    return "clean"


# ---- dumps

def field(value):
    if type(value) is bytes:
        return value.hex().encode()
    text = bytes(value) if type(value) is Text else str(value).encode()
    return b'"' + text.replace(b'"', b'""') + b'"' if re.search(rb'[,"\r\n]', text) else text


def dump(rows, table):
    """The lines of a table, up to the first row that is out of its type, and whether there is one. One that the format hasn't has no row."""
    lines = [TABLES[table][1].replace(" ", ",").encode() + b"\n"]
    for row in rows[table] if table in tables_in(meta_of(rows)[b"format"]) else []:
        if is_damaged(table, row):
            return lines, True
        lines.append(b",".join(field(value) for value in row) + b"\n")
    return lines, False


# ---- reports

def named(table, name):
    return TABLES[table][1].split().index(name)


def labels(rows, subject, mode):
    """The column of a fact that leads to a label, the tables in which the labels stand, and the labels by that column's values."""
    dimension, name = subject.split(".")
    if dimension == "date":
        return "day", ["calendar"], {row[0]: Text(b"%d-%02d" % divmod(row[0] // 100, 100)) if name == "month" else row[10] for row in rows["calendar"]}
    slot = HEADERS[dimension].split(",").index(name) - 1
    policy = tomllib.loads(policy_row(rows)[3].decode())
    kind = policy[dimension][slot - 1]["type"]
    if kind in (4, 5):
        profiles = {row[0]: row[slot] for row in rows["profile"]}
        if mode == "was":
            return "profile", ["profile"], profiles
        now = {}
        for row in rows["customer"]:
            if row[5] == 1 and row[18] in profiles:
                now.setdefault(row[1], profiles[row[18]])
        return "customer_durable", ["customer", "profile"], now
    if kind == 7 and mode == "is":
        now = {}
        for row in rows[dimension]:
            if row[5] == 1:
                now.setdefault(row[1], row[5 + slot])
        return f"{dimension}_durable", [dimension], now
    second = (kind, mode) in ((3, "prior"), (6, "is"))
    return f"{dimension}_key", [dimension], {row[0]: row[(11 if second else 5) + slot] for row in rows[dimension]}


def money_text(hundredths):
    return f"{'-' if hundredths < 0 else ''}{abs(hundredths) // 100}.{abs(hundredths) % 100:02}".encode()


def report(rows, subject, mode, first, last):
    """The texts of a report that has a reading, one of which is the right one; that of a fault is its line."""
    column, tables, by_key = labels(rows, subject, mode)
    for table in tables:
        if damaged(rows, table):
            return [e7(table).encode() + b"\n"]
    facts = facts_table(rows)
    place = named(facts, column)
    read = [2, place, 10, 11, 12]
    if any(not TYPES[facts][it](row[it]) for row in rows[facts] for it in read):
        return [e7(facts).encode() + b"\n"]
    sums = {}
    total = [0, 0, 0, 0]
    for row in rows[facts]:
        if not int(first.replace("-", "")) <= row[2] <= int(last.replace("-", "")):
            continue
        if row[place] not in by_key:
            return [e7(table).encode() + b"\n" for table in tables]
        for line in (sums.setdefault(by_key[row[place]], [0, 0, 0, 0]), total):
            for at, value in enumerate((1, row[10], row[11], row[12])):
                line[at] += value
    text = f"report {subject} {mode} {first} {last}\n{REPORT}".encode()
    for label, (lines, quantity, amount, cost) in [*sorted(sums.items()), (b"total", total)]:
        text += b"%8d %10d %14s %14s %14s  %s\n" % (lines, quantity, money_text(amount), money_text(cost), money_text(amount - cost), label)
    # what isn't read needs not be of its type
    return [text, e7(facts).encode() + b"\n"] if damaged(rows, facts) else [text]
