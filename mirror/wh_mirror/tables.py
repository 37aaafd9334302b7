"""The tables of a warehouse's file, as docs/schema.md describes them, and what the star promises of them."""

from dataclasses import dataclass
from enum import Enum

NEWEST_FORMAT = 2


class Kind(Enum):
    """What a column holds: the word of SQLite's typeof(), and the type in PostgreSQL."""

    NUMBER = ("integer", "integer")
    # texts are compared by their bytes, as `wh` orders them
    TEXT = ("text", 'text COLLATE "C"')
    BYTES = ("blob", "bytea")

    def __init__(self, stored: str, declared: str) -> None:
        self.stored = stored
        self.declared = declared


@dataclass(frozen=True)
class Column:
    """A column; none of a warehouse is ever null."""

    name: str
    kind: Kind


@dataclass(frozen=True)
class ForeignKey:
    """Columns that name a row of another table."""

    columns: tuple[str, ...]
    table: str
    target: tuple[str, ...]


@dataclass(frozen=True)
class Table:
    """A table of the file, and how its mirror is declared."""

    name: str
    key: tuple[str, ...]
    columns: tuple[Column, ...]
    foreign_keys: tuple[ForeignKey, ...] = ()
    unique: tuple[tuple[str, ...], ...] = ()
    indexes: tuple[tuple[str, ...], ...] = ()
    # the column with the command that a row came with, where rows are only ever added
    appended_by: str | None = None
    # whether its rows are sales, which are partitioned by month
    is_sales: bool = False

    @property
    def names(self) -> tuple[str, ...]:
        """The names of the columns, in their order."""
        return tuple(column.name for column in self.columns)

    @property
    def mirror_key(self) -> tuple[str, ...]:
        """The key in the mirror: that of a partitioned table has to hold the column by which it is partitioned."""
        return (*self.key, "day") if self.is_sales else self.key

    @property
    def values(self) -> tuple[str, ...]:
        """The columns beside the key of the mirror."""
        return tuple(name for name in self.names if name not in self.mirror_key)


def _numbers(*names: str) -> tuple[Column, ...]:
    return tuple(Column(name, Kind.NUMBER) for name in names)


def _texts(*names: str) -> tuple[Column, ...]:
    return tuple(Column(name, Kind.TEXT) for name in names)


def _slots(letter: str) -> tuple[Column, ...]:
    return _texts(*(f"{letter}{slot}" for slot in range(1, 7)))


def _dimension(name: str, foreign_keys: tuple[ForeignKey, ...] = ()) -> Table:
    return Table(
        name=name,
        key=("surrogate",),
        columns=(
            *_numbers("surrogate", "durable"),
            *_texts("natural"),
            *_numbers("from_day", "to_day", "is_current"),
            *_slots("a"),
            *_slots("b"),
            *_numbers("profile_now"),
        ),
        foreign_keys=foreign_keys,
        indexes=(("durable",),),
    )


_MEASURES = ("quantity", "amount", "cost")


def _sales(name: str, measures: tuple[str, ...]) -> Table:
    return Table(
        name=name,
        key=("ticket", "line"),
        columns=(
            *_texts("ticket"),
            *_numbers("line", "day", "store_key", "product_key", "customer_key"),
            *_numbers("store_durable", "product_durable", "customer_durable", "profile"),
            *_numbers(*measures),
        ),
        foreign_keys=(
            ForeignKey(("day",), "calendar", ("date_key",)),
            ForeignKey(("store_key",), "store", ("surrogate",)),
            ForeignKey(("product_key",), "product", ("surrogate",)),
            ForeignKey(("customer_key",), "customer", ("surrogate",)),
            ForeignKey(("profile",), "profile", ("number",)),
        ),
        indexes=(("store_key",), ("product_key",), ("customer_key",), ("profile",)),
        is_sales=True,
    )


_OF_A_COMMAND = ForeignKey(("command",), "command", ("number",))

# Each table stands after those that its foreign keys name.
_TABLES_OF_FORMAT_1 = (
    Table("meta", ("name",), (*_texts("name"), *_numbers("value"))),
    Table(
        name="command",
        key=("number",),
        columns=(
            *_numbers("number"),
            *_texts("id", "kind"),
            Column("bytes", Kind.BYTES),
            *_numbers("records", "placeholders"),
        ),
        unique=(("id",),),
        appended_by="number",
    ),
    Table(
        name="member",
        key=("dim", "durable"),
        columns=(*_numbers("dim", "durable"), *_texts("natural"), *_numbers("opening")),
        unique=(("dim", "natural"),),
    ),
    Table(
        name="change",
        key=("command", "record"),
        columns=(*_numbers("command", "record", "dim", "durable", "day", "anchor"), *_slots("v")),
        foreign_keys=(_OF_A_COMMAND, ForeignKey(("dim", "durable"), "member", ("dim", "durable"))),
        indexes=(("dim", "durable"),),
        appended_by="command",
    ),
    Table("profile", ("number",), (*_numbers("number"), *_slots("v"))),
    Table(
        name="calendar",
        key=("date_key",),
        columns=(
            *_numbers("date_key"),
            *_texts("iso"),
            *_numbers("year", "quarter", "month", "day", "day_of_year", "weekday"),
            *_texts("weekday_name"),
            *_numbers("weekend"),
            *_texts("holiday"),
        ),
    ),
    _dimension("product"),
    _dimension("store"),
    _dimension("customer", (ForeignKey(("profile_now",), "profile", ("number",)),)),
    _sales("fact", _MEASURES),
)

_TABLES_OF_FORMAT_2 = (
    *_TABLES_OF_FORMAT_1,
    _sales("fact2", (*_MEASURES, "discount")),
    Table(
        name="void",
        key=("ticket", "line"),
        columns=(*_texts("ticket"), *_numbers("line", "command")),
        foreign_keys=(_OF_A_COMMAND,),
    ),
)

# What a star is asked with beside its sales; the other tables say what was sent.
DIMENSIONS = ("profile", "calendar", "product", "store", "customer")


def tables_of(warehouse_format: int) -> tuple[Table, ...]:
    """The tables of a format, each after those that its foreign keys name."""
    return _TABLES_OF_FORMAT_1 if warehouse_format == 1 else _TABLES_OF_FORMAT_2


def sales_table_of(warehouse_format: int) -> str:
    """The table with the sales of a format; in format 2 `fact` is empty."""
    return "fact" if warehouse_format == 1 else "fact2"


def tables_after(warehouse_format: int) -> tuple[Table, ...]:
    """The tables that newer formats have beside those of a format."""
    return tables_of(NEWEST_FORMAT)[len(tables_of(warehouse_format)) :]
