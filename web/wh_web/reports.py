"""A list of reports as one page that needs nothing else."""

import base64
import hashlib
import re
from collections.abc import Sequence
from dataclasses import dataclass
from pathlib import Path

from flask import Flask, render_template

from wh_web.chart import chart_of
from wh_web.columns import Column, Reading
from wh_web.question import Measure, Question, Range
from wh_web.tables import FIGURES, Head, Row, Table, sorted_by
from wh_web.words import CHART_JS, figure

_LINE = re.compile(r" *(\S+) +(\S+) +(\S+) +(\S+) +(\S+)  (.*)")


@dataclass(frozen=True)
class Report:
    """A report as a table, or the line of its refusal."""

    question: Question | None
    table: Table | None
    refused: str = ""


def reports_of(lines: Sequence[str]) -> list[Report]:
    """The reports of an answer, which stand apart by empty lines."""
    return [_report(part.split("\n")) for part in "\n".join(lines).split("\n\n") if part]


def page_of(title: str, reports: Sequence[Report]) -> str:
    """The page, with its style and scripts in it and a policy that allows no others."""
    app = Flask(__name__)
    app.jinja_env.trim_blocks = app.jinja_env.lstrip_blocks = True
    app.jinja_env.filters["figure"] = figure
    static = Path(__file__).parent / "static"
    style, chart = (static.joinpath(name).read_text(encoding="utf-8") for name in ("page.css", "chart.js"))
    library = (CHART_JS / "chart.min.js").read_text(encoding="utf-8")
    policy = f"default-src 'none'; style-src {_hash(style)}; script-src {_hash(library)} {_hash(chart)}"
    charts = [chart_of(it.question, it.table) if it.question and it.table else None for it in reports]
    with app.app_context():
        return render_template(
            "reports.html", title=title, reports=zip(reports, charts), style=style, library=library, script=chart, policy=policy
        )


def _hash(text: str) -> str:
    return f"'sha256-{base64.b64encode(hashlib.sha256(text.encode()).digest()).decode()}'"


def _report(lines: Sequence[str]) -> Report:
    if not lines[0].startswith("report "):
        return Report(None, None, lines[0])
    _, attribute, mode, first, last = lines[0].split()
    group, _, name = attribute.partition(".")
    column = Column(attribute, group, name, None if group == "date" else Reading(mode))
    rows = [_row(line) for line in lines[2:]]
    heads = tuple(Head(key, key.capitalize(), None) for key in FIGURES)
    question = Question(column, None, False, Measure.AMOUNT, Range(first, last))
    return Report(question, sorted_by(Table(heads, rows[:-1], Row("Total", rows[-1].figures), Measure.AMOUNT), "label" if column.is_month else "-chosen"))


def _row(line: str) -> Row:
    found = _LINE.fullmatch(line)
    assert found
    return Row(found[6], dict(zip(FIGURES, found.groups()[:5])))
