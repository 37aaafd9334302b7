"""What Chart.js draws of a table: the same rows in the same order."""

from wh_web.question import Question
from wh_web.tables import Head, Table

# More of them can't be told apart.
_MOST_SERIES = 8
_MOST_BARS = 60


def chart_of(question: Question, table: Table) -> dict[str, object]:
    """The labels and the series of a chart, and whether it has lines, as over months, or bars."""
    rows = table.rows[:_MOST_BARS]
    heads = table.drawn()
    if question.columns and question.columns.is_month:
        return _chart("line", [it.text for it in heads], [(row.label, [row.figures.get(it.key) for it in heads]) for row in rows[:_MOST_SERIES]], question)
    series = [(it.text, [row.figures.get(it.key) for row in rows]) for it in heads[:_MOST_SERIES]]
    is_line = question.rows.is_month and len(rows) > 1
    return _chart("line" if is_line else "bar", [it.label for it in rows], series, question)


def _chart(kind: str, labels: list[str], series: list[tuple[str, list[str | None]]], question: Question) -> dict[str, object]:
    named = [{"name": name, "figures": figures} for name, figures in series]
    return {"kind": kind, "labels": labels, "series": named, "decimals": 2 if question.measure.is_money else 0}


def left_out(question: Question, table: Table) -> str:
    """A sentence about what the table has and the chart has not."""
    heads: list[Head] = table.drawn()
    by_months = bool(question.columns and question.columns.is_month)
    rows = _MOST_SERIES if by_months else _MOST_BARS
    if len(table.rows) > rows:
        return f"The chart shows the first {rows} of {len(table.rows)} rows."
    if not by_months and len(heads) > _MOST_SERIES:
        return f"The chart shows the first {_MOST_SERIES} of {len(heads)} columns."
    return ""
