"""A shop whose nights hold what a mirror has to follow: new and late records, sales with and without a card, migrations
under which each type from 0 to 7 occurs, an upgrade and voids.

The warehouse is made by the program `wh`, whose dumps and reports are what a mirror is compared with.
"""

import copy
import csv
import io
import os
import random
import re
import shutil
import subprocess
from collections.abc import Sequence
from dataclasses import dataclass
from pathlib import Path

ROOT = Path(__file__).resolve().parents[2]
PROGRAM = os.environ.get("WH", str(ROOT / "crates/wh/out/wh"))

KEYS_IN_FILE = {
    "meta": ["name"],
    "command": ["number"],
    "member": ["dim", "durable"],
    "change": ["command", "record"],
    "product": ["surrogate"],
    "store": ["surrogate"],
    "customer": ["surrogate"],
    "profile": ["number"],
    "calendar": ["date_key"],
    "fact": ["ticket", "line"],
    "fact2": ["ticket", "line"],
    "void": ["ticket", "line"],
}

# Texts that COPY, CSV and SQL write in a form of their own.
_VALUES = [
    "plain",
    "C:\\new\\table",
    "\\N",
    "\\.",
    'with "quotes", and a comma',
    "it's",
    "Käse 100 % ☕",
    " apart ",
    "",
]

# Dimension, name, and its type under each of the policies in turn.
_TYPES = [
    ("product", "description", [1, 1, 2, 1]),
    ("product", "brand", [2, 1, 2, 7]),
    ("product", "category", [6, 2, 6, 6]),
    ("product", "department", [7, 7, 3, 7]),
    ("product", "launched", [0, 0, 1, 0]),
    ("product", "supplier", [3, 6, 3, 3]),
    ("store", "city", [2, 2, 1, 2]),
    ("store", "region", [None, 3, 7, 6]),
    ("customer", "tier", [2, 6, 2, 2]),
    ("customer", "age_band", [5, 4, 1, 5]),
    ("customer", "spend_band", [5, 4, 2, 5]),
    ("customer", "club", [0, 0, 7, 1]),
]

READINGS = {
    0: ["was", "is"],
    1: ["was", "is"],
    2: ["was"],
    3: ["is", "prior"],
    4: ["was"],
    5: ["was", "is"],
    6: ["was", "is"],
    7: ["was", "is"],
}


@dataclass(frozen=True)
class Line:
    """A line of a report; money as it is printed."""

    label: str
    lines: str
    quantity: str
    amount: str
    cost: str
    margin: str


def wh(*words: str) -> str:
    """What the program prints; it has to do what it is told."""
    done = subprocess.run([PROGRAM, *words], capture_output=True, text=True, encoding="utf-8")
    if done.returncode != 0:
        raise AssertionError(f"wh {' '.join(words)}: {done.stdout}{done.stderr}")
    return done.stdout


class Shop:
    """A warehouse in a folder, to which nights can be added."""

    def __init__(self, folder: Path, name: str = "shop", months: Sequence[int] = range(1, 13)) -> None:
        """The sales are of these months of 2024."""
        self._months = months
        self.folder = folder
        self.path = str(folder / f"{name}.wh")
        self._chance = random.Random(name)
        self._night = 0
        self._policy = 0
        # how many commands were sent
        self.sent = 0
        self._tickets: list[str] = []
        # the kind and text of each batch of a dimension
        self.records: list[tuple[str, str]] = []
        self._is_migrated = False
        self._is_upgraded = False
        wh("init", self.path, self._written(self._policy_text()))

    def copy(self, folder: Path) -> "Shop":
        """The same shop in another folder, from where it goes on by itself."""
        other = copy.deepcopy(self)
        other.folder, other.path = folder, str(folder / Path(self.path).name)
        for ending in ("", "-wal"):
            if os.path.exists(self.path + ending):
                shutil.copyfile(self.path + ending, other.path + ending)
        return other

    def night(self) -> None:
        """One more night: each third one without records, and each sixth one with a migration."""
        self._night += 1
        if self._night % 6 == 0:
            self.migrate()
        if self._night == 20:
            self.upgrade()
        if self._night % 3:
            for dimension in ("product", "store", "customer"):
                self.records.append((dimension, self._records(dimension)))
                self.load(*self.records[-1])
        self.load("sales", self._sales())
        if self._is_upgraded:
            # a line of this night, and one of a night before
            chosen = [self._tickets.pop(), self._tickets.pop(self._chance.randrange(len(self._tickets)))]
            self.load("void", "ticket,line\n" + "".join(f"{ticket},1\n" for ticket in chosen))

    def carry_over(self, older: "Shop") -> None:
        """Loads the records that another warehouse has."""
        for kind, batch in older.records:
            self.load(kind, batch)

    def migrate(self) -> None:
        """Puts the next policy in force."""
        self._policy = (self._policy + 1) % 4
        self._is_migrated = True
        wh("migrate", self.path, self._id(), self._written(self._policy_text()))

    def upgrade(self) -> None:
        """Makes it a warehouse of format 2."""
        wh("upgrade", self.path, self._id())
        self._is_upgraded = True

    def load(self, kind: str, batch: str) -> None:
        """Loads a batch."""
        wh("load", self.path, kind, self._id(), self._written(batch))

    def dump(self, table: str) -> list[tuple[str, ...]]:
        """The rows of a table as the program writes them, with its columns in front."""
        return [tuple(row) for row in csv.reader(io.StringIO(wh("dump", self.path, table), newline=""))]

    def report(self, attribute: str, mode: str) -> list[Line]:
        """The lines of a report over all days, that of the total last."""
        return _lines_of(wh("report", self.path, attribute, mode, "1900-01-01", "9999-12-31"))

    def reports(self, asked: list[tuple[str, str]]) -> dict[tuple[str, str], list[Line]]:
        """The lines of the reports of some attributes and modes."""
        listed = "".join(f"{attribute},{mode},1900-01-01,9999-12-31\n" for attribute, mode in asked)
        text = wh("reports", self.path, self._written(listed))
        return dict(zip(asked, map(_lines_of, text.split("\n\n"))))

    def readings(self) -> list[tuple[str, str, str]]:
        """Dimension, name and mode of each reading that the policy in force offers."""
        return [
            (dimension, name, mode) for dimension, name, kind in self.attributes() for mode in READINGS[kind]
        ]

    @property
    def tables(self) -> list[str]:
        """The tables of the file's format."""
        return [name for name in KEYS_IN_FILE if self._is_upgraded or name not in ("fact2", "void")]

    def status(self) -> dict[str, int]:
        """The numbers of commands, changes and facts."""
        lines = (line.split() for line in wh("status", self.path).splitlines())
        return {words[0]: int(words[1]) for words in lines if len(words) == 2}

    def _id(self) -> str:
        self.sent += 1
        return f"b{self.sent}"

    def _written(self, text: str) -> str:
        path = self.folder / "input"
        path.write_text(text, encoding="utf-8", newline="")
        return str(path)

    def attributes(self) -> list[tuple[str, str, int]]:
        """Dimension, name and type of each attribute; one stays once a policy has named it."""
        typed = [(dimension, name, types[self._policy]) for dimension, name, types in _TYPES]
        return [
            (dimension, name, 1 if kind is None else kind)
            for dimension, name, kind in typed
            if kind is not None or self._is_migrated
        ]

    def _names(self, dimension: str) -> list[str]:
        return [name for owner, name, _ in self.attributes() if owner == dimension]

    def _policy_text(self) -> str:
        tables = [f'[[{owner}]]\nname = "{name}"\ntype = {kind}\n' for owner, name, kind in self.attributes()]
        last_year = 2024 if self._night < 12 else 2025
        holidays = '[[holiday]]\nday = "2024-12-25"\nname = "Christmas Day"\n'
        if self._policy % 2:
            holidays += '[[holiday]]\nday = "2024-05-01"\nname = "May Day"\n'
        return f"first_year = 2024\nlast_year = {last_year}\n{''.join(tables)}{holidays}"

    def _header(self, dimension: str) -> list[str]:
        return ["id", "day", *self._names(dimension)]

    def _record(self, dimension: str, member: str, day: str) -> list[str]:
        return [member, day, *(self._chance.choice(_VALUES) for _ in self._names(dimension))]

    def _day(self, year: str, months: Sequence[int] = range(1, 13)) -> str:
        return f"{year}-{self._chance.choice(months):02}-{self._chance.randrange(1, 29):02}"

    def _records(self, dimension: str) -> str:
        members = {"product": 15, "store": 4, "customer": 12}[dimension]
        chosen = set()
        for _ in range(6):
            member = f"{dimension[0].upper()}{self._chance.randrange(members)}"
            chosen.add((member, self._day(self._chance.choice(["2023", "2024"]))))
        return _csv([self._header(dimension), *(self._record(dimension, *it) for it in sorted(chosen))])

    def _sales(self) -> str:
        header = "ticket,line,day,store,product,customer,quantity,amount,cost".split(",")
        rows = [header + (["discount"] if self._is_upgraded else [])]
        for number in range(20):
            ticket, day, chance = f"T{self._night}-{number}", self._day("2024", self._months), self._chance
            self._tickets.append(ticket)
            for line in range(1, 3):
                card = f"C{chance.randrange(14)}" if number % 3 else ""
                keys = [f"S{chance.randrange(5)}", f"P{chance.randrange(18)}", card]
                money = [f"{chance.randrange(-500, 9000) / 100:.2f}", f"{chance.randrange(5000) / 100:.2f}"]
                discount = [f"{chance.randrange(300) / 100:.2f}"] if self._is_upgraded else []
                rows.append([ticket, str(line), day, *keys, str(chance.randrange(-3, 9)), *money, *discount])
        return _csv(rows)


def _lines_of(report: str) -> list[Line]:
    lines = []
    for line in report.splitlines()[2:]:
        # two spaces stand before the label, which may itself begin with one
        found = re.fullmatch(r" *(\S+) +(\S+) +(\S+) +(\S+) +(\S+)  (.*)", line)
        lines.append(Line(found[6], *found.groups()[:5]))
    return lines


def _csv(rows: list[list[str]]) -> str:
    text = io.StringIO()
    csv.writer(text, lineterminator="\n").writerows(rows)
    return text.getvalue()
