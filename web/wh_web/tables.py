"""The table of a question. Each figure is one that the program printed; only differences are worked out here, exactly."""

import csv
from collections.abc import Sequence
from dataclasses import dataclass, replace
from decimal import Decimal

from wh_web.columns import MONTH, Column
from wh_web.question import Filter, Measure, Question, Range, default_sort
from wh_web.session import Asks, Keep, NoAnswer, NotAsked, every

# The figures of a query, in its order.
FIGURES = ("lines", "quantity", "amount", "cost", "margin")
_ALL_DAYS = ("1900-01-01", "9999-12-31")
_ANSWERS = {"refused: G3 bad range": "One of the two days isn't in the calendar."}

_READINGS = ("first", "second")
_DIFFERENCE = "difference"

Figures = dict[str, str]


@dataclass(frozen=True)
class Head:
    """The head of a column of figures: by which filters one of its figures is narrowed beside its row's label, and in which column that label stands."""

    key: str
    text: str
    narrows: Column | None
    filters: tuple[Filter, ...] = ()


@dataclass(frozen=True)
class Row:
    """A label and its figures by key; where nothing was sold there is none."""

    label: str
    figures: Figures


@dataclass(frozen=True)
class Table:
    """Rows under heads, and their total."""

    heads: tuple[Head, ...]
    rows: list[Row]
    total: Row
    # the key of the figures that are drawn, and by which the table is sorted unless it is said otherwise
    chosen: str
    sort: str = ""

    def filters_of(self, row: Row, head: Head) -> tuple[Filter, ...]:
        """What narrows the question to a figure; nothing for a difference."""
        return (Filter(head.narrows, row.label), *head.filters) if head.narrows else ()

    def drawn(self) -> list[Head]:
        """The heads of the figures that the chart shows."""
        several = [it for it in self.heads if it.filters or it.key in _READINGS]
        return several or [it for it in self.heads if it.key == self.chosen]


def asked(session: Asks, word: str, *rest: str, keep: Keep = every) -> list[str]:
    """The lines of an answer; any other than a good one is a sentence."""
    answer = session.ask(word, *rest, keep=keep)
    if answer.status == 0:
        return answer.lines
    said = answer.lines[-1] if answer.lines else f"status {answer.status}"
    if answer.status == 3:
        raise NoAnswer(said)
    raise NotAsked(_ANSWERS.get(said, said))


def query(session: Asks, question: Question, *by: Column) -> list[tuple[tuple[str, ...], Figures]]:
    """The labels and figures of a slice by some columns."""
    words = [question.days.first, question.days.last, *(it.word for it in by), *question.conditions()]
    lines = asked(session, "query", *words)
    return [(tuple(it[: len(by)]), dict(zip(FIGURES, it[len(by) :]))) for it in csv.reader(lines[1:])]


def months_sold(session: Asks) -> list[str]:
    """The months that have sales."""
    return [line.split(",")[0] for line in asked(session, "query", *_ALL_DAYS, "date.month")[1:]]


def labels_of(session: Asks, column: Column, days: Range) -> list[str]:
    """The labels that the sales of some days have."""
    return [it[0] for it in csv.reader(asked(session, "query", days.first, days.last, column.word)[1:])]


def total_of(session: Asks, question: Question) -> Figures:
    """The figures of the whole slice: the last line of its table, which is the total by any column. By month there are few lines before it."""
    words = [question.days.first, question.days.last, MONTH.word, *question.conditions(), "--table"]
    return dict(zip(FIGURES, asked(session, "query", *words)[-1].split()))


def table_of(session: Asks, question: Question, readings: Sequence[Column]) -> Table:
    """The table of a question."""
    if question.by_readings:
        table = _by_readings(session, question, readings)
    elif question.columns:
        table = _by_columns(session, question, question.columns)
    else:
        table = _by_rows(session, question)
    return sorted_by(table, default_sort(question))


def _by_rows(session: Asks, question: Question) -> Table:
    rows = [Row(label, figures) for (label,), figures in query(session, question, question.rows)]
    heads = tuple(Head(key, key.capitalize(), question.rows) for key in FIGURES)
    return Table(heads, rows, Row("Total", total_of(session, question)), question.measure)


def _by_columns(session: Asks, question: Question, columns: Column) -> Table:
    measure = question.measure
    across = [(label, figures[measure]) for (label,), figures in query(session, question, columns)]
    heads = [Head(f"={label}", label, question.rows, (Filter(columns, label),)) for label, _ in across]
    rows = {label: {"total": figures[measure]} for (label,), figures in query(session, question, question.rows)}
    for (label, second), figures in query(session, question, question.rows, columns):
        rows.setdefault(label, {})[f"={second}"] = figures[measure]
    total = {f"={label}": figure for label, figure in across} | {"total": total_of(session, question)[measure]}
    found = [Row(label, figures) for label, figures in rows.items()]
    return Table((*heads, Head("total", "Total", question.rows)), found, Row("Total", total), "total")


def _by_readings(session: Asks, question: Question, readings: Sequence[Column]) -> Table:
    rows: dict[str, Figures] = {}
    for key, column in zip(_READINGS, readings):
        for (label,), figures in query(session, question, column):
            rows.setdefault(label, {})[key] = figures[question.measure]
    heads = [Head(key, column.in_words.capitalize(), column) for key, column in zip(_READINGS, readings)]
    whole = total_of(session, question)[question.measure]
    return differing(heads, rows, (whole, whole), question.measure)


def differing(heads: Sequence[Head], rows: dict[str, Figures], totals: tuple[str, str], measure: Measure) -> Table:
    """Two columns of figures beside each other, and how the second differs from the first."""
    nothing = "0.00" if measure.is_money else "0"
    total = dict(zip(_READINGS, totals))
    for figures in (*rows.values(), total):
        first, second = (Decimal(figures.get(key, nothing)) for key in _READINGS)
        figures[_DIFFERENCE] = str(second - first)
    found = [Row(label, figures) for label, figures in sorted(rows.items(), key=lambda it: it[0].encode())]
    return Table((*heads, Head(_DIFFERENCE, "Difference", None)), found, Row("Total", total), _READINGS[0])


def sorted_by(table: Table, sort: str) -> Table:
    """The table with its rows in the order of a column; a minus in front turns it round."""
    key = sort.removeprefix("-")
    if key == "chosen":
        key = table.chosen
    if key != "label" and key not in [it.key for it in table.heads]:
        key, sort = "label", "label"
    is_down = sort.startswith("-")
    there = [it for it in table.rows if key == "label" or key in it.figures]
    there.sort(key=lambda it: (it.label.encode() if key == "label" else Decimal(it.figures[key])), reverse=is_down)
    rows = [*there, *(it for it in table.rows if key != "label" and key not in it.figures)]
    return replace(table, rows=rows, sort=("-" if is_down else "") + key)


def as_csv(question: Question, table: Table) -> list[list[str]]:
    """The table for a spreadsheet: a label that would be a formula gets an apostrophe in front."""
    def text(label: str) -> str:
        return f"'{label}" if label[:1] in ("=", "+", "-", "@") else label

    head = [question.rows.text, *(text(it.text) for it in table.heads)]
    lines = [*table.rows, table.total]
    return [head, *([text(row.label), *(row.figures.get(it.key, "") for it in table.heads)] for row in lines)]
