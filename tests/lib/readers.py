"""Policies, batches and manifests, read by the rules of docs/policies.md and docs/batches.md once more: what scripts in Python compare the program with."""

import csv
import datetime
import io
import re
import tomllib

MARK = b"\xef\xbb\xbf"
KINDS = ("product", "store", "customer", "sales", "void", "migrate", "upgrade")
FIRST = "ticket,line,day,store,product,customer,quantity,amount,cost".split(",")
# the header of sales by the format
SALES = {1: FIRST, 2: [*FIRST, "discount"]}
VOIDS = ["ticket", "line"]


def rows_of(content):
    """The rows of a CSV text, each a list of fields in bytes."""
    text = content.removeprefix(MARK).decode("latin-1")
    return [[field.encode("latin-1") for field in row] for row in csv.reader(io.StringIO(text, newline="")) if row]


def is_day(text, last=9999):
    if not re.fullmatch(rb"\d{4}-\d\d-\d\d", text):
        return False
    try:
        return 1900 <= datetime.date(*map(int, text.split(b"-"))).year <= last
    except ValueError:
        return False


def is_key(text, most=32):
    return 1 <= len(text) <= most and re.fullmatch(rb"[A-Za-z0-9_.-]+", text) is not None


def is_given(text):
    """Whether a source can give the text as a value."""
    try:
        text.decode()
    except UnicodeDecodeError:
        return False
    return 1 <= len(text) <= 60 and not text.startswith(b"(") and all(byte >= 32 and byte != 127 for byte in text)


def is_money(text):
    return re.fullmatch(rb"-?\d{1,7}(\.\d{1,2})?", text) is not None


def is_discount(text):
    return not text.startswith(b"-") and is_money(text)


# what a field may be, and the fault otherwise
FIELDS = {
    "ticket": (lambda text: is_key(text, 20), "B4 bad key"),
    "line": (lambda text: re.fullmatch(rb"\d{1,4}", text) and int(text) >= 1, "B7 bad number"),
    "day": (is_day, "B5 bad day"),
    "store": (is_key, "B4 bad key"),
    "product": (is_key, "B4 bad key"),
    "customer": (lambda text: not text or is_key(text), "B4 bad key"),
    "quantity": (lambda text: re.fullmatch(rb"-?\d{1,4}", text), "B7 bad number"),
    "amount": (is_money, "B7 bad number"),
    "cost": (is_money, "B7 bad number"),
    "discount": (is_discount, "B7 bad number"),
}
DESCRIBED = {"id": (is_key, "B4 bad key"), "day": (lambda text: is_day(text, 2199), "B5 bad day")}
VALUE = (lambda text: not text or is_given(text), "B6 bad value")


def read_batch(kind, names, years, content, form=1):
    """The records of a batch and None, or None and its first fault; names are those of the dimension's attributes, the format is that of sales and voids."""
    if kind == "void" and form == 1:
        return None, "B10 not in format, record 0"
    if len(content) > 1_000_000:
        return None, "B1 too large, record 0"
    header = {"sales": SALES[form], "void": VOIDS}.get(kind, ["id", "day", *names])
    rows = rows_of(content)
    if not rows or rows[0] != [name.encode() for name in header]:
        return None, "B2 wrong header, record 0"
    seen = set()
    for number, row in enumerate(rows[1:], 1):
        fault = fault_of_record(kind, header, years, row, seen) if number <= 5000 else "B1 too large"
        if fault:
            return None, f"{fault}, record {number}"
    return rows[1:], None


def fault_of_record(kind, header, years, row, seen):
    if len(row) != len(header):
        return "B3 wrong length"
    for name, field in zip(header, row):
        is_good, fault = FIELDS[name] if kind in ("sales", "void") else DESCRIBED.get(name, VALUE)
        if not is_good(field):
            return fault
    key = (row[0], int(row[1])) if kind in ("sales", "void") else (row[0], row[1])
    if key in seen:
        return "B8 twice in batch"
    seen.add(key)
    if kind == "sales" and not years[0] <= int(row[2][:4]) <= years[1]:
        return "B9 outside calendar"
    return None


def policy_fault(content):
    """The first fault of a policy, or None."""
    try:
        if len(content) > 65_536:
            return "P1 not toml"
        file = tomllib.loads(content.removeprefix(MARK).decode())
    except (UnicodeDecodeError, tomllib.TOMLDecodeError):
        return "P1 not toml"
    needed = ("first_year", "last_year", "product", "store", "customer")
    if set(file) - {*needed, "holiday"}:
        return "P3 unknown key"
    if any(key not in file for key in needed):
        return "P2 missing"
    for dimension in needed[2:]:
        fault = attributes_fault(dimension, file[dimension])
        if fault:
            return fault
    if {4, 5} <= {table["type"] for table in file["customer"]}:
        return "P9 profile mixed"
    first, last = file["first_year"], file["last_year"]
    if type(first) is not int or type(last) is not int or not 1900 <= first <= last <= 2199 or last - first > 29:
        return "P10 bad years"
    return holidays_fault(file.get("holiday", []), first, last)


def are_tables(value):
    return isinstance(value, list) and all(isinstance(it, dict) for it in value)


def attributes_fault(dimension, tables):
    if not are_tables(tables) or not tables:
        return "P2 missing"
    if len(tables) > 6:
        return "P6 too many"
    names = []
    for table in tables:
        if set(table) - {"name", "type"}:
            return "P3 unknown key"
        if len(table) < 2:
            return "P2 missing"
        name, kind = table["name"], table["type"]
        if not isinstance(name, str) or not re.fullmatch("[a-z][a-z0-9_]{0,23}", name) or name in ("id", "day"):
            return "P4 bad name"
        if type(kind) is not int or not 0 <= kind <= 7:
            return "P5 bad type"
        if kind in (4, 5) and dimension != "customer":
            return "P8 profile outside"
        if name in names:
            return "P7 named twice"
        names.append(name)
    return None


def holidays_fault(tables, first, last):
    if not are_tables(tables):
        return "P11 bad holiday"
    days = []
    for table in tables:
        if set(table) - {"day", "name"}:
            return "P3 unknown key"
        if len(table) < 2:
            return "P2 missing"
        day, name = table["day"], table["name"]
        if not isinstance(day, str) or not is_day(day.encode()) or not first <= int(day[:4]) <= last or day in days:
            return "P11 bad holiday"
        if not isinstance(name, str) or not is_given(name.encode()):
            return "P11 bad holiday"
        days.append(day)
    return None


def read_manifest(content):
    """The entries of a manifest and None, or None and the number of its first bad record."""
    entries = rows_of(content)
    for number, row in enumerate(entries, 1):
        try:
            kind, _, _ = (field.decode() for field in row)
        except ValueError:
            return None, number
        if kind not in KINDS:
            return None, number
    return [[field.decode() for field in row] for row in entries], None
