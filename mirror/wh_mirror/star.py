"""The tables of a star in one schema of one server, and what brings them to the rows of a file.

The rows of a table that isn't there yet are copied straight into it. Those of a table that is there are copied into a
temporary one beside it (`staged_NAME`); one full join of the two finds the rows that differ (`difference_NAME`), and
only these are written.
"""

import re
from collections.abc import Iterable, Iterator
from dataclasses import dataclass
from typing import Protocol

from wh_mirror.comments import Comments
from wh_mirror.progress import Progress
from wh_mirror.server import Server, comment_on, listed, quoted
from wh_mirror.tables import Kind, Table


class Source(Protocol):
    """What tables are copied from: a warehouse's file, or for a chain what another mirror has."""

    def months(self) -> list[int]:
        """The months of the sales, as YYYYMM."""

    def copy_lines(self, table: Table, condition: str) -> Iterator[tuple[int, bytes]]:
        """The rows of a table for which a condition holds, some at a time: how many, and as text for COPY."""


@dataclass(frozen=True)
class Counts:
    """How many rows of a table were put, changed and taken away."""

    put: int
    changed: int
    removed: int


NOTHING = Counts(0, 0, 0)


@dataclass(frozen=True)
class Scope:
    """Which rows of a table are compared: a condition for the file, and one for the mirror."""

    in_file: str = "true"
    in_mirror: str = "true"


EVERYTHING = Scope()

# by the name of the table; a table that isn't there is compared whole
Scopes = dict[str, Scope]


def partition_of(table: str, month: int) -> str:
    """The name of the partition with the sales of a month, which is YYYYMM."""
    return f"{table}_{month // 100:04}_{month % 100:02}"


def bounds_of(month: int) -> str:
    """The days of a month as the bounds of a partition; the days are numbers YYYYMMDD."""
    return f"FOR VALUES FROM ({month * 100}) TO ({(month + 1) * 100})"


class Star:
    """Tables in a schema."""

    def __init__(self, server: Server, schema: str, tables: Iterable[Table], comments: Comments) -> None:
        self.server = server
        self.schema = schema
        self.tables = tuple(tables)
        self._comments = comments
        self._made: list[Table] = []
        self._months: list[int] = []

    def place(self, name: str) -> str:
        """A table of the schema as SQL names it."""
        return f"{quoted(self.schema)}.{quoted(name)}"

    def relations(self) -> set[str]:
        """The names of the tables and views in the schema."""
        return {
            name
            for (name,) in self.server.rows(
                "SELECT relname FROM pg_catalog.pg_class WHERE relkind IN ('r', 'p', 'v')"
                " AND relnamespace = (SELECT oid FROM pg_catalog.pg_namespace WHERE nspname = %s)",
                (self.schema,),
            )
        }

    def make_tables(self) -> None:
        """Makes the tables that aren't there, with their keys."""
        there = self.relations()
        self._made = [table for table in self.tables if table.name not in there]
        for table in self._made:
            keys = [f"PRIMARY KEY ({listed(table.mirror_key)})"]
            keys += [f"UNIQUE ({listed(names)}) DEFERRABLE INITIALLY DEFERRED" for names in table.unique]
            self._make_table(table, keys)

    def _make_table(self, table: Table, keys: list[str]) -> None:
        place = self.place(table.name)
        columns = [f"{quoted(it.name)} {it.kind.declared} NOT NULL" for it in table.columns]
        parted = " PARTITION BY RANGE (day)" if table.is_sales else ""
        self.server.run(f"CREATE TABLE {place} ({', '.join(columns + keys)}){parted}")
        comment_on(self.server, f"TABLE {place}", self._comments.get((table.name, None)))
        for column in table.columns:
            if column.kind is Kind.BYTES:
                # to press batches together would take longer than to copy everything else
                self.server.run(f"ALTER TABLE {place} ALTER COLUMN {quoted(column.name)} SET STORAGE EXTERNAL")
            text = self._comments.get((table.name, column.name))
            comment_on(self.server, f"COLUMN {place}.{quoted(column.name)}", text)

    def drop_tables(self, tables: Iterable[Table]) -> None:
        """Drops tables, those that name others first."""
        for table in reversed(tuple(tables)):
            self.server.run(f"DROP TABLE IF EXISTS {self.place(table.name)}")

    def months_of(self, table: Table) -> list[int]:
        """The months, as YYYYMM, that have a partition."""
        digits = re.compile(rf"{table.name}_(\d{{4}})_(\d\d)")
        found = filter(None, map(digits.fullmatch, sorted(self.relations())))
        return [int(year) * 100 + int(month) for year, month in (it.groups() for it in found)]

    def lacks_partitions(self) -> bool:
        """Whether a table that is there gets new partitions, for which its readers will have to wait."""
        return any(self._missing_months(table) for table in self.tables if table.is_sales)

    def _missing_months(self, table: Table) -> list[int]:
        there = self.relations()
        return [month for month in self._months if partition_of(table.name, month) not in there]

    def _make_partitions(self, table: Table) -> None:
        """Makes the partitions that aren't there.

        Until the transaction ends readers wait. One who had planned a question before, and asked it after, would
        otherwise miss the rows of a new partition.
        """
        for month in self._missing_months(table):
            part = self.place(partition_of(table.name, month))
            self.server.run(f"CREATE TABLE {part} PARTITION OF {self.place(table.name)} {bounds_of(month)}")

    def _finish_tables(self) -> None:
        """Makes the indexes and foreign keys of the tables that were made, now that they have their rows."""
        for table in self._made:
            place = self.place(table.name)
            for names in table.indexes:
                self.server.run(f"CREATE INDEX ON {place} ({listed(names)})")
            for key in table.foreign_keys:
                self.server.run(
                    f"ALTER TABLE {place} ADD FOREIGN KEY ({listed(key.columns)})"
                    f" REFERENCES {self.place(key.table)} ({listed(key.target)})"
                )

    def copy(self, source: Source, scopes: Scopes, progress: Progress) -> None:
        """Copies the rows of a file to the server."""
        self._months = source.months()
        for table in self.tables:
            place = self.place(table.name)
            if table in self._made:
                target = place
                if table.is_sales:
                    self._make_partitions(table)
            else:
                target = _staged(table)
                self.server.run(f"CREATE TEMP TABLE {target} (LIKE {place} INCLUDING STORAGE) ON COMMIT DROP")
            condition = scopes.get(table.name, EVERYTHING).in_file
            self.server.copy(target, table.names, self._lines(source, table, condition, progress))

    def _lines(self, source: Source, table: Table, condition: str, progress: Progress) -> Iterator[bytes]:
        copied = 0
        for many, some in source.copy_lines(table, condition):
            yield some
            copied += many
            progress.show(f"{table.name}: {copied:,} rows read")

    def write(self, scopes: Scopes, progress: Progress) -> dict[str, Counts]:
        """Writes the rows that differ, and answers for each table how many they were.

        A row is put after those that it names, and taken away before them.
        """
        counts = {}
        for table in self.tables:
            progress.show(f"{table.name}: comparing")
            counts[table.name] = self._compare(table, scopes.get(table.name, EVERYTHING))
            progress.show(f"{table.name}: writing")
            if table.is_sales:
                self._make_partitions(table)
            self._put_and_change(table, counts[table.name])
        for table in reversed(self.tables):
            self._remove(table, counts[table.name])
            # the next file of the same transaction has differences of its own
            self.server.run(f"DROP TABLE IF EXISTS {_difference(table)}")
        self._finish_tables()
        for table in self.tables:
            if counts[table.name] != NOTHING and self._has_grown(table):
                progress.show(f"{table.name}: counting for good plans")
                self.server.run(f"ANALYZE {self.place(table.name)}")
        return counts

    def _has_grown(self, table: Table) -> bool:
        """Whether a table has a fifth more rows than when the server last looked at them, or is new.

        The server looks itself at all but partitioned tables.
        """
        counted = self.server.value(
            "SELECT reltuples FROM pg_catalog.pg_class WHERE oid = to_regclass(%s)", (self.place(table.name),)
        )
        # the making of an index has counted the rows of a new table, and looked at nothing else
        return table in self._made or self.count(table) > counted * 1.2

    def _compare(self, table: Table, scope: Scope) -> Counts:
        """Finds the rows that differ, and answers how many; nothing is written yet."""
        if table in self._made:
            return Counts(self.count(table), 0, 0)
        staged, kept, difference = _staged(table), self.place(table.name), _difference(table)
        on = " AND ".join(f"new.{quoted(name)} = old.{quoted(name)}" for name in table.mirror_key)
        old_key = ", ".join(f"old.{quoted(name)} AS {quoted('old_' + name)}" for name in table.mirror_key)
        new_row, old_row = listed(table.names, "new."), listed(table.names, "old.")
        self.server.run(f"ANALYZE {staged}")
        self.server.run(
            f"CREATE TEMP TABLE {difference} ON COMMIT DROP AS SELECT {old_key}, new.*"
            f" FROM {staged} AS new FULL JOIN (SELECT * FROM {kept} WHERE {scope.in_mirror}) AS old ON {on}"
            f" WHERE ROW({new_row}) IS DISTINCT FROM ROW({old_row})"
        )
        self.server.run(f"DROP TABLE {staged}")
        self.server.run(f"ANALYZE {difference}")
        was, will = _is_there(table, "old_"), _is_there(table)
        counted = self.server.rows(
            f"SELECT count(*) FILTER (WHERE NOT {was}), count(*) FILTER (WHERE {was} AND {will}),"
            f" count(*) FILTER (WHERE NOT {will}) FROM {difference} AS difference"
        )
        return Counts(*counted[0])

    def count(self, table: Table) -> int:
        """How many rows a table of the mirror has."""
        return self.server.value(f"SELECT count(*) FROM {self.place(table.name)}")

    def _put_and_change(self, table: Table, counts: Counts) -> None:
        """Puts the rows that are new, and gives those that changed their values."""
        if table in self._made:
            # its rows were copied into it
            return
        kept, difference = self.place(table.name), _difference(table)
        if counts.changed:
            values = ", ".join(f"{quoted(name)} = difference.{quoted(name)}" for name in table.values)
            self.server.run(
                f"UPDATE {kept} AS kept SET {values} FROM {difference} AS difference"
                f" WHERE {_is_at(table, 'old_')} AND {_is_there(table)}"
            )
        if counts.put:
            self.server.run(
                f"INSERT INTO {kept} ({listed(table.names)}) SELECT {listed(table.names)}"
                f" FROM {difference} AS difference WHERE NOT {_is_there(table, 'old_')}"
            )

    def _remove(self, table: Table, counts: Counts) -> None:
        """Takes away the rows that the file hasn't got."""
        if counts.removed:
            self.server.run(
                f"DELETE FROM {self.place(table.name)} AS kept USING {_difference(table)} AS difference"
                f" WHERE {_is_at(table, 'old_')} AND NOT {_is_there(table)}"
            )


def _staged(table: Table) -> str:
    return f"pg_temp.{quoted('staged_' + table.name)}"


def _difference(table: Table) -> str:
    return f"pg_temp.{quoted('difference_' + table.name)}"


def _is_there(table: Table, prefix: str = "") -> str:
    """Whether a row of the differences has the new key, or with the prefix the old one."""
    return f"(difference.{quoted(prefix + table.mirror_key[0])} IS NOT NULL)"


def _is_at(table: Table, prefix: str) -> str:
    """Whether a kept row is that of a difference."""
    return " AND ".join(f"kept.{quoted(name)} = difference.{quoted(prefix + name)}" for name in table.mirror_key)
