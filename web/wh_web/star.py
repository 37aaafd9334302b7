"""Ticket lines with the members that they name, as the tables have them. Nothing is summed here."""

import csv
from collections.abc import Callable, Iterable, Sequence
from dataclasses import dataclass, replace
from functools import cached_property

from wh_web.columns import DIMENSIONS, Column, Reading
from wh_web.question import Filter, Question
from wh_web.session import Asks
from wh_web.tables import asked

Fields = dict[str, str]
_TABLE_OF_FORMAT = {"1": "fact", "2": "fact2"}


class Star:
    """The rows of the dimensions, each table read once it is needed."""

    def __init__(self, session: Asks) -> None:
        self._session = session
        self._rows: dict[str, dict[str, Fields]] = {}

    @cached_property
    def facts(self) -> str:
        """The table of the format in force that has the sales."""
        return _TABLE_OF_FORMAT[asked(self._session, "status")[0].split()[1]]

    @cached_property
    def _current(self) -> dict[tuple[str, str], Fields]:
        return {(name, row["durable"]): row for name in DIMENSIONS for row in self.rows(name).values() if row["is_current"] == "1"}

    def rows(self, table: str) -> dict[str, Fields]:
        """The rows of a table by their key, where that is one column."""
        if table not in self._rows:
            reader = csv.DictReader(asked(self._session, "dump", table))
            key = (reader.fieldnames or [""])[0]
            self._rows[table] = {row[key]: row for row in reader}
        return self._rows[table]

    def sales(self, is_wanted: Callable[[Fields], bool]) -> list[Fields]:
        """The wanted sales; the others are passed over as they come."""
        names: list[str] = []

        def keep(line: str) -> bool:
            fields = line.split(",")
            if not names or fields == names:
                names[:] = fields
                return True
            return is_wanted(dict(zip(names, fields)))

        return list(csv.DictReader(asked(self._session, "dump", self.facts, keep=keep)))

    def member(self, sale: Fields, dimension: str) -> Fields:
        """The row that held on the day of sale."""
        return self.rows(dimension)[sale[f"{dimension}_key"]]

    def label(self, sale: Fields, column: Column) -> str:
        """What a sale counts under in a column: the newest row, the second column or the profile, as the attribute's type has it."""
        if column.is_month:
            return iso(sale["day"])[:7]
        if column.type is None:
            return self.rows("calendar")[sale["day"]]["holiday"]
        row = self.member(sale, column.group)
        newest = self._current[column.group, row["durable"]]
        match column.type, column.reading:
            case (4 | 5), Reading.WAS:
                return self.rows("profile")[sale["profile"]][f"v{column.slot}"]
            case 5, _:
                return self.rows("profile")[newest["profile_now"]][f"v{column.slot}"]
            case (3, Reading.PRIOR) | (6, Reading.IS):
                return row[f"b{column.slot}"]
            case 7, Reading.IS:
                return newest[f"a{column.slot}"]
        return row[f"a{column.slot}"]

    def newest(self, sale: Fields, column: Column, told: Sequence["Told"]) -> str:
        """The value that an attribute of a sale's member has now; of type 4 only the member's records have it, which are told in order."""
        match column.type:
            case 4:
                return told[-1].values[column.slot - 1] if told else self.label(sale, column)
            case 5:
                return self.label(sale, replace(column, reading=Reading.IS))
        return self._current[column.group, sale[f"{column.group}_durable"]][f"a{column.slot}"]

    def is_within(self, question: Question) -> Callable[[Fields], bool]:
        """Whether a sale is of the slice of a question."""
        first, last = (day.replace("-", "") for day in (question.days.first, question.days.last))
        labels = {column: _labels(question.filters, column) for column in question.filtered_columns()}
        # a table is read before the sales are, since one question is answered at a time
        for column in labels:
            self._read_for(column)

        def is_wanted(sale: Fields) -> bool:
            return first <= sale["day"] <= last and all(self.label(sale, column) in among for column, among in labels.items())

        return is_wanted

    def _read_for(self, column: Column) -> None:
        for table in ("profile", "calendar", *DIMENSIONS) if column.type is not None else ("calendar",):
            self.rows(table)


def _labels(filters: Iterable[Filter], column: Column) -> set[str]:
    return {it.label for it in filters if it.column == column}


def iso(day: str) -> str:
    """A day of a table as `YYYY-MM-DD`."""
    return f"{day[:4]}-{day[4:6]}-{day[6:]}"


def money(hundredths: str) -> str:
    """An amount of a table with its two decimals."""
    sign = "-" if hundredths.startswith("-") else ""
    digits = hundredths.removeprefix("-").rjust(3, "0")
    return f"{sign}{digits[:-2]}.{digits[-2:]}"


@dataclass(frozen=True)
class Told:
    """A record of a member: its effective day, the command that brought it, its values, and whether it held on the day of sale."""

    day: str
    command: str
    values: list[str]
    is_of_day: bool


def told_of(session: Asks, sale: Fields, dimensions: Sequence[str]) -> dict[str, list[Told]]:
    """All records of the members of a sale, in order of their days; of a day the one that was accepted last counts."""
    members = {(str(DIMENSIONS.index(it) + 1), sale[f"{it}_durable"]): it for it in dimensions}

    def keep(line: str) -> bool:
        return line.startswith("command,") or tuple(line.split(",", 4)[2:4]) in members

    changes: dict[str, list[Fields]] = {it: [] for it in dimensions}
    for change in csv.DictReader(asked(session, "dump", "change", keep=keep)):
        changes[members[change["dim"], change["durable"]]].append(change)
    ids = _ids_of(session, {it["command"] for found in changes.values() for it in found})
    return {it: _in_order(found, sale["day"], ids) for it, found in changes.items()}


def _in_order(changes: list[Fields], day: str, ids: dict[str, str]) -> list[Told]:
    """The records of one member; before its earliest day the earliest counts."""
    changes.sort(key=lambda it: (it["day"], int(it["command"]), int(it["record"])))
    holds = max((it["day"] for it in changes if it["day"] <= day), default=changes[0]["day"] if changes else "")
    of_day = max((place for place, it in enumerate(changes) if it["day"] == holds), default=0)
    return [
        Told(iso(it["day"]), f"{it['command']}, {ids[it['command']]}", [it[f"v{slot}"] for slot in range(1, 7)], place == of_day)
        for place, it in enumerate(changes)
    ]


def _ids_of(session: Asks, numbers: set[str]) -> dict[str, str]:
    def keep(line: str) -> bool:
        return line.split(",", 1)[0] in numbers

    return dict(line.split(",", 2)[:2] for line in asked(session, "dump", "command", keep=keep))
