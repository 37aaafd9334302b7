"""What a chain's views show of each file: its part of them.

A part is a view in the file's own schema, over the file's tables, with the columns that all files of the chain have
together: `part_as_was`, `part_as_is` and `part_by_month`. Its condition on the day says which months the file has, so
that a question about another month doesn't reach its tables.
"""

from collections.abc import Sequence
from dataclasses import dataclass, replace

from wh_mirror.note import read_note
from wh_mirror.policy import Attribute, Dimension, read_policy
from wh_mirror.server import Server, literal, quoted
from wh_mirror.star import Star, partition_of
from wh_mirror.tables import sales_table_of, tables_of
from wh_mirror.views import (
    COMMENTS,
    MONTH_COLUMNS,
    TEXT,
    Reading,
    View,
    ViewColumn,
    attribute_columns,
    columns_of,
    question_of,
    source_of,
)

# What a file shows of an attribute that it hasn't got, as of one that a record was sent without; and of a discount.
_MISSING_TEXT, _MISSING_MONEY = "'(none)'", "0"


@dataclass(frozen=True)
class Mirrored:
    """What the mirror of a file holds."""

    schema: str
    # whose it is, as the note says
    owner: str
    format: int
    attributes: tuple[Attribute, ...]
    # those with sales, as YYYYMM
    months: tuple[int, ...]
    commands: int
    digest: bytes


def read_mirrored(server: Server, schema: str) -> Mirrored | None:
    """What is mirrored in a schema; nothing where no file is yet."""
    note = read_note(server, schema)
    if note is None:
        return None
    policy = server.value(
        f"SELECT bytes FROM {quoted(schema)}.command WHERE kind IN ('init', 'migrate') ORDER BY number DESC LIMIT 1"
    )
    months = _months_with_sales(server, schema, note.format)
    return Mirrored(schema, note.owner, note.format, tuple(read_policy(policy)), months, note.commands, note.digest)


def _months_with_sales(server: Server, schema: str, warehouse_format: int) -> tuple[int, ...]:
    table = next(it for it in tables_of(warehouse_format) if it.name == sales_table_of(warehouse_format))
    star = Star(server, schema, [table], {})
    asked = (
        f"SELECT {month} WHERE EXISTS (SELECT FROM {star.place(partition_of(table.name, month))})"
        for month in star.months_of(table)
    )
    return tuple(month for (month,) in server.rows(" UNION ALL ".join(asked) + " ORDER BY 1"))


class Shape:
    """What the views of a chain look like, by the files that they show; the last one is the newest."""

    def __init__(self, files: Sequence[Mirrored]) -> None:
        self.files = tuple(files)
        self.newest = self.files[-1]
        self.columns: dict[str, tuple[ViewColumn, ...]] = {
            **{reading: self._columns(reading) for reading in Reading},
            "by_month": (_file_column(self.newest), *MONTH_COLUMNS),
        }
        # by dimension what the newest file says of a member now
        said = {it: attribute_columns(self.newest.attributes, it, Reading.AS_IS) for it in Dimension}
        self.of_the_newest = {dimension: columns for dimension, columns in said.items() if columns}

    def _columns(self, reading: Reading) -> tuple[ViewColumn, ...]:
        policies = [it.attributes for it in reversed(self.files)]
        newest_format = max(it.format for it in self.files)
        return (_file_column(self.newest), *columns_of(policies, newest_format, reading))

    @property
    def text(self) -> str:
        """What tells columns from any others."""
        own = {kind: [(it.name, it.type) for it in columns] for kind, columns in self.columns.items()}
        return repr((own, {it: [column.name for column in columns] for it, columns in self.of_the_newest.items()}))


def _file_column(file: Mirrored) -> ViewColumn:
    return ViewColumn("file", TEXT, literal(file.schema), "the schema of the file that has the sale")


def newest_table(dimension: Dimension) -> str:
    """The table with what the newest file says of each member."""
    return f"newest_{dimension}"


def parts_of(shape: Shape, file: Mirrored, schema: str) -> list[View]:
    """The parts of a file; the schema is the chain's, with what the newest file says of each member."""
    return [*(_part(shape, file, schema, reading) for reading in Reading), _part_by_month(file)]


def _part(shape: Shape, file: Mirrored, schema: str, reading: Reading) -> View:
    own = {it.name: it.expression for it in columns_of([file.attributes], file.format, reading)}
    own["file"] = literal(file.schema)
    source = source_of(file.schema, file.format, reading)
    if reading is Reading.AS_IS and file is not shape.newest:
        for dimension, columns in shape.of_the_newest.items():
            name, natural = newest_table(dimension), f"{dimension}.{quoted('natural')}"
            source += f" LEFT JOIN {quoted(schema)}.{name} AS {name} ON {name}.{dimension} = {natural}"
            for column in columns:
                own[column.name] = f"coalesce({name}.{quoted(column.name)}, {own.get(column.name, _MISSING_TEXT)})"
    columns = tuple(
        replace(it, expression=own.get(it.name, _MISSING_TEXT if it.type == TEXT else _MISSING_MONEY))
        for it in shape.columns[reading]
    )
    condition = condition_on_days("fact.day", file.months)
    return View(f"part_{reading}", COMMENTS[reading], columns, f"{question_of(columns, source)} WHERE {condition}")


def _part_by_month(file: Mirrored) -> View:
    """A question for each month, so that those which aren't asked for are left out."""
    columns = (_file_column(file), *MONTH_COLUMNS)
    sales = f"{quoted(file.schema)}.{sales_table_of(file.format)} AS fact"
    questions = []
    for month in file.months or (0,):
        named = [replace(it, expression=literal(_text_of(month))) if it.name == "month" else it for it in columns]
        condition = condition_on_days("fact.day", (month,) if month else ())
        questions.append(f"{question_of(named, sales)} WHERE {condition} HAVING count(*) > 0")
    return View("part_by_month", COMMENTS["by_month"], columns, " UNION ALL ".join(questions))


def condition_on_days(day: str, months: Sequence[int]) -> str:
    """That a day, as YYYYMMDD, is one of these months."""
    runs = (f"{day} BETWEEN {first * 100} AND {last * 100 + 99}" for first, last in _runs_of(months))
    return " OR ".join(runs) or "false"


def condition_on_months(month: str, months: Sequence[int]) -> str:
    """That a month, as YYYY-MM, is one of these."""
    runs = (f"{month} BETWEEN '{_text_of(first)}' AND '{_text_of(last)}'" for first, last in _runs_of(months))
    return " OR ".join(runs) or "false"


def _text_of(month: int) -> str:
    return f"{month // 100:04}-{month % 100:02}"


def _runs_of(months: Sequence[int]) -> list[tuple[int, int]]:
    """The first and last of months that follow each other."""
    runs: list[tuple[int, int]] = []
    for month in months:
        before = month - 1 if month % 100 > 1 else month - 89
        if runs and runs[-1][1] == before:
            runs[-1] = (runs[-1][0], month)
        else:
            runs.append((month, month))
    return runs
