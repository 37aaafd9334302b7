"""What a page asks. All of it stands in the address, so a link is a question."""

import re
from collections.abc import Iterable, Sequence
from dataclasses import dataclass, replace
from enum import StrEnum
from urllib.parse import urlencode

from werkzeug.datastructures import MultiDict

from wh_web.columns import MONTH, Column, Columns
from wh_web.session import NotAsked

MOST_FILTERS = 12
# What stands in the place of a second column: the attribute's other reading.
READINGS = "readings"
_DAY = re.compile(r"\d{4}-\d{2}-\d{2}", re.ASCII)
_WHERE = "where."


class Measure(StrEnum):
    """A figure of a query, under its name there."""

    AMOUNT = "amount"
    QUANTITY = "quantity"
    MARGIN = "margin"
    COST = "cost"
    LINES = "lines"

    @property
    def is_money(self) -> bool:
        """Whether it has two decimals."""
        return self in (Measure.AMOUNT, Measure.COST, Measure.MARGIN)


@dataclass(frozen=True)
class Filter:
    """Counts only sales with this label, or with another label given for the same column."""

    column: Column
    label: str


@dataclass(frozen=True)
class Range:
    """Days, both included."""

    first: str
    last: str


@dataclass(frozen=True)
class Question:
    """Rows by columns of a measure, for a slice of the sales."""

    rows: Column
    columns: Column | None
    by_readings: bool
    measure: Measure
    days: Range
    filters: tuple[Filter, ...] = ()
    sort: str = ""

    def address(self, **changed: str) -> str:
        """The part of the address behind the question mark."""
        columns = READINGS if self.by_readings else self.columns.word if self.columns else ""
        fixed = {"rows": self.rows.word, "columns": columns, "measure": self.measure, "from": self.days.first, "to": self.days.last, "sort": self.sort}
        pairs = [*(fixed | changed).items(), *((_WHERE + it.column.word, it.label) for it in self.filters)]
        return urlencode([(name, value) for name, value in pairs if value])

    def conditions(self) -> list[str]:
        """The words of a query that have the filters."""
        return [word for it in self.filters for word in ("--where", f"{it.column.word}={it.label}")]

    def filtered_columns(self) -> list[Column]:
        """The columns that have filters, each once."""
        return list(dict.fromkeys(it.column for it in self.filters))

    def narrowed(self, filters: Iterable[Filter]) -> "Question":
        """The same with these filters in the place of others of their columns."""
        added = tuple(filters)
        kept = tuple(it for it in self.filters if it.column not in [new.column for new in added])
        return replace(self, filters=(*kept, *added))

    def without(self, dropped: Filter) -> "Question":
        """The same without a filter."""
        return replace(self, filters=tuple(it for it in self.filters if it != dropped))

    def drilled(self, filters: Sequence[Filter], columns: Columns) -> "Question":
        """Narrowed, and by the next attribute, so that it can be seen what is in a figure."""
        narrow = self.narrowed(filters)
        fixed = {(it.column.group, it.column.name) for it in narrow.filters}
        place = columns.all.index(self.rows) + 1
        onwards = (*columns.all[place:], *columns.all[:place])
        rows = next((it for it in onwards if (it.group, it.name) not in fixed), self.rows)
        second = narrow.columns if narrow.columns and (narrow.columns.group, narrow.columns.name) not in fixed and narrow.columns != rows else None
        return replace(narrow, rows=rows, columns=second, by_readings=False, sort="")


def read_question(given: "MultiDict[str, str]", columns: Columns, sold: Range) -> Question:
    """The question of an address; what isn't given is by the first attribute that has a history, of all days that have sales."""
    tracked = next((it for it in columns.all if it.type not in (0, 1)), MONTH)
    rows = _column(given.get("rows") or tracked.word, columns)
    second = given.get("columns", "")
    by_readings = second == READINGS and len(columns.readings_of(rows)) == 2
    measure = given.get("measure") or Measure.AMOUNT.value
    if measure not in set(Measure):
        raise NotAsked(f"There is no figure {measure}.")
    question = Question(
        rows=rows,
        columns=_column(second, columns) if second not in ("", READINGS, rows.word) else None,
        by_readings=by_readings,
        measure=Measure(measure),
        days=Range(_day(given.get("from") or sold.first), _day(given.get("to") or sold.last)),
        filters=_filters(given, columns),
        sort=given.get("sort", ""),
    )
    if len(question.filters) > MOST_FILTERS:
        raise NotAsked(f"At most {MOST_FILTERS} labels can be chosen.")
    if question.days.first > question.days.last:
        raise NotAsked("The first day is after the last one.")
    return question


def _filters(given: "MultiDict[str, str]", columns: Columns) -> tuple[Filter, ...]:
    chosen = [(name.removeprefix(_WHERE), label) for name, label in given.items(multi=True) if name.startswith(_WHERE)]
    return tuple(dict.fromkeys(Filter(_column(word, columns), label) for word, label in chosen if label))


def _column(word: str, columns: Columns) -> Column:
    found = columns.find(word)
    if found is None:
        raise NotAsked(f"There is no {word} to ask by.")
    return found


def _day(text: str) -> str:
    if not _DAY.fullmatch(text):
        raise NotAsked(f"{text} is no day of the form 2024-01-31.")
    return text


def default_sort(question: Question) -> str:
    """Months in their order, else the greatest first."""
    if question.sort:
        return question.sort
    return "label" if question.rows.word == MONTH.word else "-chosen"
