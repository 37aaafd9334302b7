"""Databases on the servers that tests/mirror.sh starts, mirrors in them, and what they hold."""

import atexit
import csv
import io
import os
import re
import subprocess
import sys
import time
import unittest
from collections.abc import Callable
from contextlib import redirect_stderr, redirect_stdout
from functools import cache
from pathlib import Path
from tempfile import TemporaryDirectory

import psycopg
from reader import Reader
from shop import KEYS_IN_FILE, ROOT, Line, Shop

sys.path.insert(0, str(ROOT / "mirror"))
from wh_mirror.command_line import main  # noqa: E402

MIRROR = str(ROOT / "mirror/wh-mirror")
# folders with the sockets of three servers
SOCKETS = os.environ["MIRROR_SOCKETS"].split(":")

_connections: dict[str, psycopg.Connection] = {}
_made = 0


def new_database(server: int = 0, options: str = "") -> str:
    """The connection string of an empty database on a server."""
    global _made
    _made += 1
    name = f"test_{os.getpid()}_{_made}"
    run(f"host={SOCKETS[server]} user=postgres dbname=postgres", f"CREATE DATABASE {name} {options}")
    return f"host={SOCKETS[server]} user=postgres dbname={name}"


def run_mirror(*words: str) -> subprocess.CompletedProcess[str]:
    """Runs the program, and answers its status and what it printed."""
    return subprocess.run([MIRROR, *words], capture_output=True, text=True)


def call_mirror(*words: str) -> subprocess.CompletedProcess[str]:
    """The same without a process of its own, which takes half the time."""
    told, faults = io.StringIO(), io.StringIO()
    with redirect_stdout(told), redirect_stderr(faults):
        status = main(words)
    return subprocess.CompletedProcess(words, status, told.getvalue(), faults.getvalue())


def connected(dsn: str) -> psycopg.Connection:
    """A connection of somebody else than the mirror, each of whose statements is a transaction."""
    if dsn not in _connections:
        _connections[dsn] = psycopg.connect(dsn, autocommit=True)
    return _connections[dsn]


def disconnect() -> None:
    """Closes all connections."""
    while _connections:
        _connections.popitem()[1].close()


def ask(dsn: str, question: str) -> list[tuple]:
    """The rows of a question."""
    return connected(dsn).execute(question.encode()).fetchall()


def run(dsn: str, statement: str) -> None:
    """Runs a statement as somebody else than the mirror."""
    connected(dsn).execute(statement.encode())


def dump_of(dsn: str, table: str, columns: tuple[str, ...]) -> list[tuple[str, ...]]:
    """The rows of a mirrored table in the form of the program's dump, with the columns in front."""
    listed = ", ".join("encode(bytes, 'hex') AS bytes" if name == "bytes" else f'"{name}"' for name in columns)
    order = ", ".join(KEYS_IN_FILE[table])
    with connected(dsn).cursor() as cursor:
        question = f"COPY (SELECT {listed} FROM wh.{table} ORDER BY {order}) TO STDOUT (FORMAT csv, HEADER)"
        with cursor.copy(question.encode()) as copy:
            text = b"".join(copy).decode()
    return [tuple(row) for row in csv.reader(io.StringIO(text, newline=""))]


def report_of(dsn: str, view: str, column: str) -> list[Line]:
    """The lines of a report, asked of a view, that of the total last."""
    rows = ask(
        dsn,
        f"SELECT coalesce({column}, 'total'), count(*), sum(quantity), sum(amount), sum(cost), sum(margin)"
        f" FROM wh.{view} GROUP BY ROLLUP ({column}) ORDER BY grouping({column}), {column}",
    )
    return [Line(label, *map(str, sums)) for label, *sums in rows]


def versions_of(dsn: str, tables: list[str]) -> dict[tuple, str]:
    """By table and row the transaction that wrote it."""
    found = {}
    for table in tables:
        rows = ask(dsn, f"SELECT xmin::text, it::text FROM wh.{table} AS it")
        found |= {(table, row): version for version, row in rows}
    return found


def everything_in(dsn: str) -> str:
    """All that a database holds, as text."""
    text = subprocess.run(["pg_dump", "--dbname", dsn], capture_output=True, text=True, check=True).stdout
    # newer ones put a word of chance into two of the lines
    return re.sub(r"(?m)^\\(un)?restrict .*$", "", text)


@cache
def _shop_after_a_night() -> Shop:
    folder = TemporaryDirectory()
    atexit.register(folder.cleanup)
    shop = Shop(Path(folder.name))
    shop.night()
    return shop


class MirrorTest(unittest.TestCase):
    """What the tests have in common: a folder, and how a mirror is compared with its warehouse."""

    maxDiff = 2000

    def setUp(self) -> None:
        folder = TemporaryDirectory()
        self.addCleanup(folder.cleanup)
        self.addCleanup(disconnect)
        self.folder = Path(folder.name)

    def shop_after_a_night(self) -> Shop:
        """A shop in the test's folder; the night is worked out once."""
        return _shop_after_a_night().copy(self.folder)

    def mirrors(self, *words: str) -> str:
        """What a mirror prints that has to succeed."""
        done = call_mirror(*words)
        self.assertEqual((done.returncode, done.stderr), (0, ""))
        return done.stdout

    def refuses(self, status: int, line: str, *words: str) -> None:
        """A mirror has to end so."""
        done = call_mirror(*words)
        self.assertEqual((done.returncode, done.stdout), (status, ""))
        self.assertRegex(done.stderr, rf"\A{line}\n\Z")

    def assert_same_tables(self, shop: Shop, dsn: str) -> None:
        """Each table of the mirror has the rows that the program dumps."""
        for table in shop.tables:
            expected = shop.dump(table)
            self.assertEqual(sorted(dump_of(dsn, table, expected[0])), sorted(expected), table)

    def assert_same_reports(self, shop: Shop, dsn: str) -> None:
        """Each report has the lines that the program prints."""
        for dimension, name, mode in shop.readings():
            view = "sales_as_was" if mode == "was" else "sales_as_is"
            column = f"{'prior_' if mode == 'prior' else ''}{dimension}_{name}"
            expected = shop.report(f"{dimension}.{name}", mode)
            self.assertEqual(report_of(dsn, view, column), expected, f"{column} {mode}")
        for view in ("sales_as_was", "sales_as_is"):
            self.assertEqual(report_of(dsn, view, "month"), shop.report("date.month", "was"))
            self.assertEqual(report_of(dsn, view, "holiday"), shop.report("date.holiday", "was"))
        rows = ask(dsn, "SELECT month, lines, quantity, amount, cost, margin FROM wh.sales_by_month ORDER BY month")
        months = [Line(month, *map(str, sums)) for month, *sums in rows]
        self.assertEqual(months, shop.report("date.month", "was")[:-1])

    def assert_found_nights(self, reader: Reader, expected: set[tuple | None], least: int) -> None:
        """A reader found whole nights only, and so many of them at least."""
        reader.end()
        self.assertIsNone(reader.fault)
        self.assertLessEqual(reader.answers, expected)
        self.assertGreater(len(reader.answers), least)


def seconds_of(action: Callable[[], object]) -> float:
    """How long an action takes."""
    began = time.monotonic()
    action()
    return time.monotonic() - began
