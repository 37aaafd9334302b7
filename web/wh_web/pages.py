"""The pages, and what each answers to what is sent."""

import csv
import functools
import io
import logging
import re
import threading
from collections.abc import Callable
from dataclasses import dataclass, replace
from pathlib import Path
from typing import Any
from urllib.parse import urlsplit

from flask import Flask, Response, abort, render_template, request, send_from_directory
from werkzeug.exceptions import HTTPException

from wh_web.batches import KINDS, OpenSession, Shelf, load, preview
from wh_web.chart import chart_of, left_out
from wh_web.columns import DIMENSIONS, Column, Columns, read_columns
from wh_web.question import Measure, Question, read_question
from wh_web.session import Asks, NoAnswer, NotAsked
from wh_web.star import Star, iso, money, told_of
from wh_web.tables import as_csv, asked, labels_of, months_sold, table_of, total_of
from wh_web.words import CHART_JS, figure, range_of_months

log = logging.getLogger("wh-web")
View = Callable[..., Any]

MOST_BYTES = 1 << 20
_TRIES = 3
_TICKET = re.compile(r"[A-Za-z0-9._-]{1,20}")
_MOST_ROWS = 1_000
_MOST_HEADS = 60
_MOST_LINES = 1_000
_MOST_BOXES = 40
_MOST_LABELS = 2_000
_HEADERS = {
    "Content-Security-Policy": "default-src 'none'; script-src 'self'; style-src 'self'; img-src 'self'; "
    "form-action 'self'; base-uri 'none'; frame-ancestors 'none'",
    "X-Content-Type-Options": "nosniff",
    "Referrer-Policy": "same-origin",
    "Cache-Control": "no-cache",
}


@dataclass(frozen=True)
class Site:
    """What the pages are about: who answers, the title, a folder for what is sent, and whether batches may be loaded."""

    session: Asks
    open_session: OpenSession
    title: str
    folder: Path
    may_load: bool


@dataclass(frozen=True)
class Choice:
    """The labels of a column that has filters: those that are chosen, and the others."""

    column: Column
    chosen: list[str]
    others: list[str]

    @property
    def is_long(self) -> bool:
        """Whether the others are too many for boxes."""
        return len(self.others) > _MOST_BOXES


class Pages:
    """The pages of a site."""

    def __init__(self, site: Site) -> None:
        self._site = site
        self._session = site.session
        self._sent = Shelf(site.folder / "sent")
        self._made = Shelf(site.folder / "made")
        self._trying = threading.Lock()

    def steady(self, view: View) -> View:
        """A page that is of one state of the file: it is made anew where the file changed meanwhile."""

        @functools.wraps(view)
        def made(**given: Any) -> Any:
            for _ in range(_TRIES):
                before = self._session.state()
                try:
                    page = view(**given)
                except (NoAnswer, KeyError):
                    if self._session.state() == before:
                        raise
                else:
                    if self._session.state() == before:
                        return page
            raise NoAnswer("the file changes while it is asked")

        return made

    def table(self) -> str:
        """The table of a question, with its chart."""
        columns, question = self._read()
        table = table_of(self._session, question, columns.readings_of(question.rows))
        return render_template(
            "table.html",
            **self._about(columns, question),
            table=replace(table, rows=table.rows[:_MOST_ROWS], heads=(*table.heads[:-1][:_MOST_HEADS], table.heads[-1])),
            is_cut=len(table.rows) > _MOST_ROWS or len(table.heads) > _MOST_HEADS + 1,
            chart=chart_of(question, table),
            left_out=left_out(question, table),
            total=total_of(self._session, question),
        )

    def table_csv(self) -> Response:
        """The same table for a spreadsheet."""
        columns, question = self._read()
        table = table_of(self._session, question, columns.readings_of(question.rows))
        text = io.StringIO()
        csv.writer(text).writerows(as_csv(question, table))
        name = f"{question.rows.group}-{question.rows.name}-{question.days.first}-{question.days.last}.csv"
        answer = Response(text.getvalue().encode("utf-8-sig"), mimetype="text/csv")
        answer.headers.set("Content-Disposition", "attachment", filename=name)
        return answer

    def lines(self) -> str:
        """The ticket lines of a slice, where they are not too many."""
        columns, question = self._read()
        total, star = total_of(self._session, question), Star(self._session)
        is_short = int(total["lines"]) <= _MOST_LINES
        sales = star.sales(star.is_within(question)) if is_short else []
        if is_short and len(sales) != int(total["lines"]):
            raise NoAnswer(f"{len(sales)} ticket lines were found, and {total['lines']} were counted.")
        sales.sort(key=lambda it: (it["day"], it["ticket"], int(it["line"])))
        return render_template(
            "lines.html", **self._about(columns, question), total=total, sales=sales, star=star, is_short=is_short, most=_MOST_LINES
        )

    def line(self, ticket: str, number: int) -> str:
        """One ticket line: what its product, store and customer were on that day, what they are now, and when each was told."""
        columns, star = self._columns(), Star(self._session)
        found = star.sales(lambda it: it["ticket"] == ticket and it["line"] == str(number))
        if not found:
            abort(404, " ".join([f"Ticket {ticket} has no standing line {number}.", *self._withdrawn(star, ticket, number)]))
        members = [it for it in DIMENSIONS if found[0][f"{it}_durable"] != "0"]
        told = told_of(self._session, found[0], members)
        return render_template("line.html", sale=found[0], star=star, columns=columns, members=members, told=told, origin=self._origin(star, found[0]))

    def batch(self) -> str:
        """Asks for a batch."""
        columns, question = self._read()
        return render_template("batch.html", **self._about(columns, question), kinds=KINDS)

    def tried(self) -> str:
        """What a batch would do."""
        columns, question = self._read()
        sent = request.files.get("file")
        if not sent or not sent.filename:
            raise NotAsked("No file was chosen.")
        batch = self._sent.put(request.form.get("kind", ""), sent.read())
        with self._trying:
            seen = preview(self._session, self._site.open_session, batch, question)
        return render_template("batch.html", **self._about(columns, question), kinds=KINDS, batch=batch, name=sent.filename, preview=seen)

    def loaded(self) -> str:
        """Loads a batch that was looked at before."""
        if not self._site.may_load:
            abort(403, "This page only looks: it was started without --load.")
        batch = self._sent.get(request.form.get("kind", ""), request.form.get("digest", ""))
        answer = load(self._session, batch, request.form.get("id", ""))
        columns, question = self._read()
        return render_template("batch.html", **self._about(columns, question), kinds=KINDS, answer=answer)

    def _columns(self) -> Columns:
        return read_columns(self._session, self._site.folder)

    def _read(self) -> tuple[Columns, Question]:
        columns = self._columns()
        return columns, read_question(request.values, columns, range_of_months(months_sold(self._session)))

    def _about(self, columns: Columns, question: Question) -> dict[str, object]:
        """What each page about a question shows."""
        wanted = question.filtered_columns()
        further = columns.find(request.values.get("add", ""))
        if further and further not in wanted:
            wanted.append(further)
        return {
            "columns": columns,
            "question": question,
            "measures": list(Measure),
            "choices": [self._choice(it, question) for it in wanted],
            "may_load": self._site.may_load,
        }

    def _choice(self, column: Column, question: Question) -> Choice:
        chosen = [it.label for it in question.filters if it.column == column]
        there = labels_of(self._session, column, question.days)
        return Choice(column, chosen, [it for it in there if it not in chosen][:_MOST_LABELS])

    def _withdrawn(self, star: Star, ticket: str, number: int) -> list[str]:
        """Which command withdrew a line: what the program says of it withdrawn once more."""
        if star.facts == "fact" or not _TICKET.fullmatch(ticket):
            return []
        return self._said("void", f"ticket,line\n{ticket},{number}\n")

    def _origin(self, star: Star, sale: dict[str, str]) -> list[str]:
        """Which command sold a line: what the program says of the same line sent once more."""
        header = asked(self._session, "explain", "sales")[0].split(",")
        figures = {name: sale[name] if name in ("ticket", "line", "quantity") else money(sale.get(name, "0")) for name in header}
        keys = {name: "" if sale[f"{name}_durable"] == "0" else star.member(sale, name)["natural"] for name in DIMENSIONS}
        record = figures | keys | {"day": iso(sale["day"])}
        return self._said("sales", f"{','.join(header)}\n{','.join(record[name] for name in header)}\n")

    def _said(self, kind: str, batch: str) -> list[str]:
        """What is explained of a batch of one line that has to be refused."""
        path = self._made.put(kind, batch.encode()).path
        return [line.partition(": ")[2] for line in self._session.ask("explain", kind, str(path)).lines[1:]]


def make_app(site: Site) -> Flask:
    """The application."""
    app, pages = Flask(__name__), Pages(site)
    app.config["MAX_CONTENT_LENGTH"] = MOST_BYTES
    app.jinja_env.trim_blocks = app.jinja_env.lstrip_blocks = True
    app.jinja_env.filters.update(figure=figure, iso=iso, money=money)
    app.jinja_env.globals.update(title=site.title)
    app.add_url_rule("/", view_func=pages.steady(pages.table))
    app.add_url_rule("/table.csv", view_func=pages.steady(pages.table_csv))
    app.add_url_rule("/lines", view_func=pages.steady(pages.lines))
    app.add_url_rule("/line/<ticket>/<int:number>", view_func=pages.steady(pages.line))
    app.add_url_rule("/batch", view_func=pages.steady(pages.batch))
    app.add_url_rule("/batch", view_func=pages.tried, methods=["POST"])
    app.add_url_rule("/load", view_func=pages.loaded, methods=["POST"])
    app.add_url_rule("/chart.min.js", "chart_js", lambda: send_from_directory(CHART_JS, "chart.min.js"))
    app.before_request(_refuse_strangers)
    app.after_request(_with_headers)
    app.register_error_handler(Exception, _fault)
    return app


def _refuse_strangers() -> None:
    """Another site's page may not send a batch."""
    origin = request.headers.get("Origin")
    if request.method == "POST" and origin and urlsplit(origin).netloc != request.host:
        abort(403, "This was sent by a page of another site.")


def _with_headers(answer: Response) -> Response:
    for name, value in _HEADERS.items():
        answer.headers.setdefault(name, value)
    return answer


def _fault(fault: Exception) -> tuple[str, int]:
    """A sentence and a status."""
    match fault:
        case NotAsked():
            said, status = str(fault), 400
        case NoAnswer():
            said, status = f"The warehouse gives no answer: {fault}", 503
        case HTTPException():
            said, status = fault.description or fault.name, fault.code or 500
        case _:
            log.exception("a page failed", exc_info=fault)
            said, status = "This page has failed; the server's log says why.", 500
    return render_template("fault.html", said=said), status
