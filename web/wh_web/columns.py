"""What can be asked by: the attributes of the policy in force, each in the readings that its type has, and the dates."""

import csv
import hashlib
import re
from dataclasses import dataclass
from enum import StrEnum
from pathlib import Path

from wh_web.files import write_whole
from wh_web.session import Asks, NoAnswer

DIMENSIONS = ("product", "store", "customer")
_TYPE = re.compile(r"refused: G2 no reading, type (\d) prior")


class Reading(StrEnum):
    """Which value of a member counts."""

    WAS = "was"
    IS = "is"
    PRIOR = "prior"


# Types 0 and 1 have one value at all times.
READINGS = {
    0: (Reading.WAS,),
    1: (Reading.WAS,),
    2: (Reading.WAS,),
    3: (Reading.IS, Reading.PRIOR),
    4: (Reading.WAS,),
    5: (Reading.WAS, Reading.IS),
    6: (Reading.WAS, Reading.IS),
    7: (Reading.WAS, Reading.IS),
}
_IN_WORDS = {Reading.WAS: "as it was", Reading.IS: "as it is now", Reading.PRIOR: "prior value"}
_MEANING = {
    Reading.WAS: "Each sale counts under the value that held on its day.",
    Reading.IS: "Each sale counts under the value that holds now, also a sale of before the change.",
    Reading.PRIOR: "Each sale counts under the value before the newest one.",
}
_MEANING_OF_ONE_VALUE = {
    0: "Each sale counts under the first value that was told; it never changes.",
    1: "Each sale counts under the newest value; older ones are overwritten.",
}


@dataclass(frozen=True)
class Column:
    """A column of a query."""

    word: str
    group: str
    name: str
    reading: Reading | None = None
    type: int | None = None
    slot: int = 0

    @property
    def title(self) -> str:
        """The attribute's name as a person would write it."""
        return self.name.replace("_", " ").capitalize()

    @property
    def in_words(self) -> str:
        """The reading in words, where there is a choice of it."""
        return _IN_WORDS[self.reading] if self.reading and self.type not in _MEANING_OF_ONE_VALUE else ""

    @property
    def text(self) -> str:
        """The name and the reading."""
        return f"{self.title}, {self.in_words}" if self.in_words else self.title

    @property
    def meaning(self) -> str:
        """A sentence that says which value counts."""
        if self.type is None:
            return f"Each sale counts under the {self.name} of its day."
        assert self.reading
        return _MEANING_OF_ONE_VALUE.get(self.type, _MEANING[self.reading])

    @property
    def is_month(self) -> bool:
        """Whether its labels are months."""
        return self.word == "date.month"


MONTH = Column("date.month", "date", "month")
HOLIDAY = Column("date.holiday", "date", "holiday")


@dataclass(frozen=True)
class Columns:
    """All columns that can be asked by."""

    all: tuple[Column, ...]

    def find(self, word: str) -> Column | None:
        """The column of a word."""
        return next((it for it in self.all if it.word == word), None)

    def groups(self) -> dict[str, list[Column]]:
        """The columns by dimension."""
        found: dict[str, list[Column]] = {}
        for it in self.all:
            found.setdefault(it.group, []).append(it)
        return found

    def readings_of(self, column: Column) -> tuple[Column, ...]:
        """The columns of the same attribute."""
        return tuple(it for it in self.all if (it.group, it.name) == (column.group, column.name))


def read_columns(session: Asks, folder: Path) -> Columns:
    """Asks for the attributes and their types: what has no prior value says its type."""
    named = [(group, slot, name) for group in DIMENSIONS for slot, name in enumerate(_names(session, group), start=1)]
    asked = "".join(f"{group}.{name},prior,1900-01-01,1900-01-01\n" for group, _, name in named).encode("ascii")
    # named by what it holds, since an answer is remembered by the name
    wanted = folder / f"attributes-{hashlib.sha256(asked).hexdigest()}.csv"
    write_whole(wanted, asked)
    told = "\n".join(session.ask("reports", str(wanted)).lines).split("\n\n")
    if len(told) != len(named):
        raise NoAnswer(told[0])
    attributes = []
    for (group, slot, name), report in zip(named, told):
        found = _TYPE.match(report)
        kind = int(found[1]) if found else 3
        attributes += [Column(f"{group}.{name}:{it}", group, name, it, kind, slot) for it in READINGS[kind]]
    return Columns((*attributes, MONTH, HOLIDAY))


def _names(session: Asks, dimension: str) -> list[str]:
    """The names of a dimension's attributes, which stand in its header behind the id and the day."""
    answer = session.ask("explain", dimension)
    if answer.status:
        raise NoAnswer("\n".join(answer.lines))
    return next(csv.reader(answer.lines[:1]))[2:]
