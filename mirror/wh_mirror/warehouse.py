"""A warehouse's file, read with SQLite: read-only, and in one read transaction."""

import csv
import hashlib
import io
import sqlite3
from collections.abc import Iterator
from contextlib import contextmanager
from dataclasses import dataclass
from pathlib import Path
from urllib.parse import quote

from wh_mirror.faults import Failed
from wh_mirror.policy import Attribute, BadPolicy, read_policy
from wh_mirror.tables import NEWEST_FORMAT, Column, Kind, Table, sales_table_of, tables_of

_ROWS_AT_ONCE = 5000
# rows that hold the bytes of a command may have a megabyte each
_LARGE_ROWS_AT_ONCE = 10

_KINDS_OF_RECORDS = ("product", "store", "customer")


@dataclass(frozen=True)
class Command:
    """What is known of an accepted command without its bytes."""

    number: int
    kind: str
    records: int


@dataclass(frozen=True)
class CommandList:
    """The accepted commands: a digest of all that was sent, and of the first so many of it."""

    commands: tuple[Command, ...]
    digest: bytes
    # None where there are fewer commands
    digest_of_beginning: bytes | None

    @property
    def last(self) -> int:
        """The number of the last command; they count from 1."""
        return len(self.commands)

    def after(self, number: int) -> tuple[Command, ...]:
        """The commands behind the one of this number."""
        return self.commands[number:]

    def records_of(self, *kinds: str) -> int:
        """How many records the commands of these kinds had."""
        return sum(command.records for command in self.commands if command.kind in kinds)


def _line_of(table: Table) -> str:
    """An expression for a row in the text format of COPY; it is null where a value isn't of its type."""
    are_typed = " AND ".join(map(_is_typed, table.columns))
    places = "\t".join("%d" if column.kind is Kind.NUMBER else "%s" for column in table.columns)
    fields = ", ".join(map(_field, table.columns))
    return f"CASE WHEN {are_typed} THEN CAST(printf('{places}\n', {fields}) AS BLOB) END"


def _is_typed(column: Column) -> str:
    condition = f"typeof({column.name}) = '{column.kind.stored}'"
    # printf would end a text at a zero byte
    return f"{condition} AND instr({column.name}, char(0)) = 0" if column.kind is Kind.TEXT else condition


def _field(column: Column) -> str:
    if column.kind is Kind.NUMBER:
        return column.name
    if column.kind is Kind.BYTES:
        return rf"'\\x' || hex({column.name})"
    escaped = column.name
    for code, letter in ((92, "\\"), (9, "t"), (10, "n"), (13, "r")):
        escaped = rf"replace({escaped}, char({code}), '\{letter}')"
    return escaped


class Warehouse:
    """An open file, in one read transaction from here to its closing."""

    def __init__(self, path: str, wait: int) -> None:
        """Opens the file, and waits so many seconds at most for `wh` to leave it."""
        self._path = path
        with self._reading():
            self._connection = sqlite3.connect(
                f"file:{quote(str(Path(path).absolute()))}?mode=ro", uri=True, isolation_level=None, timeout=wait
            )
        try:
            with self._reading():
                self._connection.execute("BEGIN")
                self.format = self._read_format()
            self.tables = tables_of(self.format)
            with self._reading():
                self._look_for_tables()
        except BaseException:
            self._connection.close()
            raise

    def close(self) -> None:
        """Ends the read transaction, and closes the file."""
        self._connection.close()

    def damaged(self, what: str) -> Failed:
        """The fault of a file that holds what no warehouse does."""
        return Failed(f"{self._path}: damaged, {what}")

    @contextmanager
    def _reading(self) -> Iterator[None]:
        """Tells what SQLite refuses as a fault of the file."""
        try:
            yield
        except (sqlite3.DatabaseError, OverflowError) as error:
            what = "not a warehouse" if "not a database" in str(error) else "can't be read"
            raise Failed(f"{self._path}: {what} ({error})") from error

    def _columns_of(self, table: str) -> tuple[str, ...]:
        return tuple(name for (name,) in self._connection.execute("SELECT name FROM pragma_table_info(?)", (table,)))

    def _read_format(self) -> int:
        kept = None
        if self._columns_of("meta") == ("name", "value"):
            kept = self._connection.execute("SELECT value FROM meta WHERE name = 'format'").fetchone()
        if kept is None or not isinstance(kept[0], int):
            raise Failed(f"{self._path}: not a warehouse (no format is kept)")
        if not 1 <= kept[0] <= NEWEST_FORMAT:
            raise Failed(f"{self._path}: format {kept[0]} is none that this program knows")
        return kept[0]

    def _look_for_tables(self) -> None:
        for table in self.tables:
            if self._columns_of(table.name) != table.names:
                raise Failed(f"{self._path}: not a warehouse (the table {table.name} or a column of it is missing)")

    def command_list(self, beginning: int) -> CommandList:
        """The accepted commands, with a digest of all and one of as many as the beginning is long."""
        digest, digest_of_beginning = hashlib.sha256(), None
        commands = []
        with self._reading():
            rows = self._connection.execute(
                "SELECT number, id, kind, records, placeholders, length(bytes), bytes FROM command ORDER BY number"
            )
            for place, (*words, written) in enumerate(rows, start=1):
                number, _, kind, records, *_ = words
                if number != place or not isinstance(records, int) or not isinstance(written, bytes):
                    raise self.damaged("command")
                digest.update(repr(words).encode())
                digest.update(written)
                if place == beginning:
                    digest_of_beginning = digest.digest()
                commands.append(Command(number, kind, records))
        return CommandList(tuple(commands), digest.digest(), digest_of_beginning)

    def policy(self) -> list[Attribute]:
        """The attributes of the policy in force: that of the last command that gives one."""
        with self._reading():
            row = self._connection.execute(
                "SELECT bytes FROM command WHERE kind IN ('init', 'migrate') ORDER BY number DESC LIMIT 1"
            ).fetchone()
        try:
            return read_policy(row[0])
        except (BadPolicy, TypeError, AttributeError) as error:
            raise self.damaged(f"command: no policy is in force ({error})") from error

    def copy_lines(self, table: Table, condition: str = "true") -> Iterator[tuple[int, bytes]]:
        """The rows of a table for which a condition holds, some at a time: how many, and as text for COPY."""
        many = _LARGE_ROWS_AT_ONCE if any(it.kind is Kind.BYTES for it in table.columns) else _ROWS_AT_ONCE
        with self._reading():
            rows = self._connection.execute(f"SELECT {_line_of(table)} FROM {table.name} WHERE {condition}")
            while found := rows.fetchmany(many):
                lines = [line for (line,) in found]
                if None in lines:
                    raise self.damaged(table.name)
                yield len(lines), b"".join(lines)

    def months(self) -> list[int]:
        """The months of the calendar, as YYYYMM."""
        with self._reading():
            found = self._connection.execute("SELECT DISTINCT date_key / 100 FROM calendar ORDER BY 1").fetchall()
        if not all(isinstance(month, int) for (month,) in found):
            raise self.damaged("calendar")
        return [month for (month,) in found]

    def rows_expected(self, commands: CommandList) -> dict[str, int]:
        """How many rows the append-only tables and the sales have, by what the commands say."""
        with self._reading():
            voided = self._connection.execute("SELECT count(*) FROM void").fetchone()[0] if self.format == 2 else 0
        return {
            "command": commands.last,
            "change": commands.records_of(*_KINDS_OF_RECORDS),
            sales_table_of(self.format): commands.records_of("sales") - voided,
        }

    def touched_members(self, after: int) -> list[tuple[int, int]]:
        """Dimension and durable key of each member that the commands behind this number have records of."""
        with self._reading():
            return self._connection.execute(
                "SELECT DISTINCT dim, durable FROM change WHERE command > ?", (after,)
            ).fetchall()

    def condition_of_sales_since(self, after: int, touched: list[tuple[int, int]]) -> str:
        """The condition for the sales that the commands behind this number may have added or given other keys.

        They are the lines of their batches, and the sales of the touched members. The two lists are kept in temporary
        tables, which SQLite holds outside the file.
        """
        with self._reading():
            self._connection.execute("CREATE TEMP TABLE touched (dim, durable, PRIMARY KEY (dim, durable))")
            self._connection.executemany("INSERT INTO temp.touched VALUES (?, ?)", touched)
            self._connection.execute("CREATE TEMP TABLE new_line (ticket, line, PRIMARY KEY (ticket, line))")
            batches = self._connection.execute(
                "SELECT bytes FROM command WHERE number > ? AND kind = 'sales'", (after,)
            ).fetchall()
            for (written,) in batches:
                self._connection.executemany("INSERT INTO temp.new_line VALUES (?, ?)", self._lines_of(written))
            members = self._connection.execute("SELECT count(*) FROM member").fetchone()[0]
        # where many members are touched, all sales are looked at in turn: a plus keeps SQLite from using an index
        plus = "+" if len(touched) * 10 > members else ""
        of_dimension = "SELECT durable FROM temp.touched WHERE dim ="
        return (
            f"({plus}ticket, {plus}line) IN (SELECT ticket, line FROM temp.new_line)"
            f" OR {plus}product_durable IN ({of_dimension} 1) OR {plus}store_durable IN ({of_dimension} 2)"
            f" OR {plus}customer_durable IN ({of_dimension} 3)"
        )

    def _lines_of(self, written: bytes) -> Iterator[tuple[str, int]]:
        """The ticket and the line of each sale of a batch."""
        try:
            records = csv.reader(io.StringIO(written.decode("utf-8-sig"), newline=""))
            next(records)
            for ticket, line, *_ in filter(None, records):
                yield ticket, int(line)
        except (UnicodeDecodeError, ValueError, csv.Error, StopIteration) as error:
            raise self.damaged("command") from error
