"""Before and after: what a batch would write, and how a table would differ. It is loaded into a copy that is thrown away."""

import hashlib
import re
import tempfile
import threading
from collections import Counter
from collections.abc import Callable
from dataclasses import dataclass
from pathlib import Path

from wh_web.columns import DIMENSIONS
from wh_web.files import write_whole
from wh_web.question import Question
from wh_web.session import Answer, Asks, NotAsked
from wh_web.star import Star, iso
from wh_web.tables import Head, Table, differing, query, sorted_by, total_of

KINDS = (*DIMENSIONS, "sales", "void")
_ID = re.compile(r"[A-Za-z0-9][A-Za-z0-9._-]{0,39}")
_MOST_SENTENCES = 50
_MOST_KEPT = 20
_ROWS = {"fact": "ticket lines", "fact2": "ticket lines", "void": "withdrawn lines", "change": "records", "member": "new members"}

OpenSession = Callable[[Path], Asks]


@dataclass(frozen=True)
class Batch:
    """A batch that was sent to the page, kept until others push it out."""

    kind: str
    digest: str
    path: Path

    @property
    def id(self) -> str:
        """An id for it; the same bytes get the same."""
        return f"web-{self.kind}-{self.digest[:12]}"


@dataclass(frozen=True)
class Preview:
    """What a batch would do."""

    answer: Answer
    sentences: list[str]
    table: Table | None

    @property
    def is_good(self) -> bool:
        """Whether it would be accepted."""
        return self.answer.status == 0


class Shelf:
    """The newest batches that were sent, under the digest of their bytes."""

    def __init__(self, folder: Path) -> None:
        self._folder = folder
        self._folder.mkdir()
        self._putting = threading.Lock()

    def put(self, kind: str, content: bytes) -> Batch:
        """Keeps a batch."""
        batch = self._batch(kind, hashlib.sha256(content).hexdigest())
        with self._putting:
            write_whole(batch.path, content)
            kept = sorted(self._folder.glob("*.csv"), key=lambda it: it.stat().st_mtime_ns)
            for oldest in kept[:-_MOST_KEPT]:
                oldest.unlink()
        return batch

    def get(self, kind: str, digest: str) -> Batch:
        """A kept batch."""
        batch = self._batch(kind, digest)
        if not re.fullmatch(r"[0-9a-f]{64}", digest) or not batch.path.exists():
            raise NotAsked("This batch isn't kept any more. Choose the file again.")
        return batch

    def _batch(self, kind: str, digest: str) -> Batch:
        if kind not in KINDS:
            raise NotAsked(f"{kind} is no kind of batch.")
        return Batch(kind, digest, self._folder / f"{digest}.csv")


def preview(session: Asks, open_session: OpenSession, batch: Batch, question: Question) -> Preview:
    """What the program says of a batch; where it would be accepted, what it would write and how the table of a question would differ."""
    answer = session.ask("explain", batch.kind, str(batch.path))
    if answer.status:
        return Preview(answer, [], None)
    plan = session.ask("plan", batch.kind, batch.id, str(batch.path))
    with tempfile.TemporaryDirectory(prefix="wh-web-trial-") as folder:
        trial = open_session(session.copy_to(Path(folder)))
        try:
            trial.ask("load", batch.kind, batch.id, str(batch.path))
            table = _differing(session, trial, question)
            sentences = sentences_of(plan.lines, Star(session), Star(trial))
        finally:
            trial.close()
    return Preview(answer, sentences, table)


def load(session: Asks, batch: Batch, name: str) -> Answer:
    """Loads a batch under an id."""
    if not _ID.fullmatch(name):
        raise NotAsked("An id has 1 to 40 letters, digits, points, hyphens or underlines, the first a letter or a digit.")
    return session.ask("load", batch.kind, name, str(batch.path))


def _differing(before: Asks, after: Asks, question: Question) -> Table:
    rows: dict[str, dict[str, str]] = {}
    for key, session in (("first", before), ("second", after)):
        for (label,), figures in query(session, question, question.rows):
            rows.setdefault(label, {})[key] = figures[question.measure]
    heads = (Head("first", "Before", None), Head("second", "After", None))
    totals = (total_of(before, question)[question.measure], total_of(after, question)[question.measure])
    return sorted_by(differing(heads, rows, totals, question.measure), "label" if question.rows.is_month else "-chosen")


def sentences_of(plan: list[str], before: Star, after: Star) -> list[str]:
    """A plan's edits as sentences; where they are many, how many there are of each kind."""
    edits = [line.split() for line in plan if not line.startswith("edits ")]
    if not edits:
        return ["It was loaded before: nothing would be written."]
    if len(edits) > _MOST_SENTENCES:
        return [_several(count, *kind) for kind, count in Counter((it[0], it[1]) for it in edits).items()]
    return [_sentence(before if it[0] == "remove" else after, *it) for it in edits]


def _several(count: int, verb: str, table: str) -> str:
    done = {"put": "written", "remove": "taken out", "rekey": "moved to another row of their product, store or customer"}[verb]
    return f"{_ROWS.get(table, f'rows of {table}').capitalize()} that are {done}: {count}."


def _sentence(star: Star, verb: str, table: str, *key: str) -> str:
    match verb, table:
        case "put", "command":
            return f"The batch is kept as command {key[0]}."
        case "put", "member":
            return f"A {DIMENSIONS[int(key[0]) - 1]} is mentioned for the first time, and gets the number {key[1]}."
        case "put", "change":
            return f"Record {key[1]} of the batch is kept."
        case "put", ("fact" | "fact2"):
            return f"Ticket {key[0]}, line {key[1]}, is sold."
        case "remove", ("fact" | "fact2"):
            return f"Ticket {key[0]}, line {key[1]}, is no longer sold."
        case "put", "void":
            return f"Ticket {key[0]}, line {key[1]}, is withdrawn."
        case "rekey", _:
            return f"Ticket {key[0]}, line {key[1]}, counts under another row of its product, store or customer."
        case _, ("product" | "store" | "customer"):
            row = star.rows(table)[key[0]]
            until = "on" if row["is_current"] == "1" else f"to {iso(row['to_day'])}"
            done = "is taken out" if verb == "remove" else "is written"
            return f"{row['natural']}: the row that holds from {iso(row['from_day'])} {until} {done}."
    return f"Row {key[0]} of {table} is {'taken out' if verb == 'remove' else 'written'}."
