"""What the views of a chain have to show, worked out in Python from what the program prints of each file."""

from collections import defaultdict
from collections.abc import Iterable
from dataclasses import replace
from decimal import Decimal

from databases import ask
from shop import Line, Shop

DIMENSIONS = ("product", "store", "customer")
DATES = ("date.month", "date.holiday")
_TABLES = (*DIMENSIONS, "change", "profile", "fact", "fact2")

# lines, quantity, amount, cost
Sums = tuple[int, int, Decimal, Decimal]


def sums_of(dsn: str, view: str, label: str) -> dict[str, Sums]:
    """The sums of each label, asked of a chain's view."""
    rows = ask(dsn, f"SELECT {label}, count(*), sum(quantity), sum(amount), sum(cost) FROM wh.{view} GROUP BY 1")
    return {text: tuple(sums) for text, *sums in rows}


class FileSays:
    """What the program prints of a file."""

    def __init__(self, shop: Shop) -> None:
        self._readings = shop.readings()
        self._kinds = {(dimension, name): kind for dimension, name, kind in shop.attributes()}
        asked = [(f"{dimension}.{name}", mode) for dimension, name, mode in self._readings]
        self._reports = shop.reports([*asked, *((it, "was") for it in DATES)])
        self._tables = {table: _rows_of(shop, table) for table in shop.tables if table in _TABLES}
        self.facts = [*self._tables["fact"], *self._tables.get("fact2", [])]
        self._slots: dict[tuple[str, str], int] = {}
        # natural keys by dimension and durable key, current rows by dimension and natural key
        self.natural: dict[tuple[str, str], str] = {}
        self._current: dict[tuple[str, str], dict[str, str]] = {}
        for dimension in DIMENSIONS:
            names = [name for owner, name in self._kinds if owner == dimension]
            self._slots |= {(dimension, name): slot for slot, name in enumerate(names, start=1)}
            for row in self._tables[dimension]:
                self.natural[dimension, row["durable"]] = row["natural"]
                if row["is_current"] == "1":
                    self._current[dimension, row["natural"]] = row

    def reported(self, attribute: str, mode: str) -> list[Line]:
        """The lines of a report; where the file has no such reading, all at `(none)`."""
        if (attribute, mode) in self._reports:
            return self._reports[attribute, mode][:-1]
        return [replace(self._reports["date.month", "was"][-1], label="(none)")]

    def knows(self, dimension: str, natural: str) -> bool:
        """Whether the file has a record of a member, or it is the one of sales without a card."""
        number = str(DIMENSIONS.index(dimension) + 1)
        described = {row["durable"] for row in self._tables["change"] if row["dim"] == number} | {"0"}
        row = self._current.get((dimension, natural))
        return row is not None and row["durable"] in described

    def says(self, dimension: str, name: str, mode: str, natural: str) -> str | None:
        """A value as the mode reads it now; nothing where the file has no such reading."""
        if (dimension, name, mode) not in self._readings:
            return None
        row, slot = self._current[dimension, natural], self._slots[dimension, name]
        match self._kinds[dimension, name]:
            case 5:
                profiles = {it["number"]: it for it in self._tables["profile"]}
                return profiles[row["profile_now"]][f"v{slot}"]
            case 3 | 6 as kind:
                return row[f"{'a' if kind == 3 and mode == 'is' else 'b'}{slot}"]
            case _:
                return row[f"a{slot}"]


_said: dict[tuple[str, int], FileSays] = {}


def file_says(shop: Shop) -> FileSays:
    """What the program prints of a file, asked once until a command is sent."""
    key = (shop.path, shop.sent)
    if key not in _said:
        _said[key] = FileSays(shop)
    return _said[key]


def sums_of_reports(files: Iterable[FileSays], attribute: str, mode: str) -> dict[str, Sums]:
    """The sums of each label over the reports of all files."""
    found: dict[str, list[Sums]] = defaultdict(list)
    for file in files:
        for line in file.reported(attribute, mode):
            found[line.label].append((int(line.lines), int(line.quantity), Decimal(line.amount), Decimal(line.cost)))
    return _summed(found)


def sums_as_is(files: list[FileSays], dimension: str, name: str, mode: str) -> dict[str, Sums]:
    """By what the newest file, the last one, says of the members that it knows; else by what a sale's own file says."""
    newest = files[-1]
    found: dict[str, list[Sums]] = defaultdict(list)
    for own in files:
        for fact in own.facts:
            natural = own.natural[dimension, fact[f"{dimension}_durable"]]
            label = newest.says(dimension, name, mode, natural) if newest.knows(dimension, natural) else None
            if label is None:
                label = own.says(dimension, name, mode, natural)
            money = [Decimal(fact[it]) / 100 for it in ("amount", "cost")]
            found["(none)" if label is None else label].append((1, int(fact["quantity"]), *money))
    return _summed(found)


def _summed(found: dict[str, list[Sums]]) -> dict[str, Sums]:
    return {label: tuple(map(sum, zip(*figures))) for label, figures in found.items()}


def _rows_of(shop: Shop, table: str) -> list[dict[str, str]]:
    """The rows of a table by the names of its columns."""
    names, *rows = shop.dump(table)
    return [dict(zip(names, row)) for row in rows]
