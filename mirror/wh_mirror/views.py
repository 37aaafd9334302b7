"""The views for those who don't know surrogate keys: one wide row a sale, and one row a month."""

import hashlib
from collections.abc import Iterable
from dataclasses import dataclass
from enum import StrEnum

from wh_mirror.policy import Attribute, Dimension
from wh_mirror.server import Server, comment_on, quoted
from wh_mirror.tables import sales_table_of

# What the views are, by what follows `sales_` in their names.
COMMENTS = {
    "as_was": "one row a sale, with what held on its day",
    "as_is": "one row a sale, with what holds now",
    "by_month": "what was sold, one row a month",
}

TEXT = 'text COLLATE "C"'
_MONEY = "numeric(12, 2)"
_SUM_OF_MONEY = "numeric(20, 2)"


class Reading(StrEnum):
    """Whose values a row a sale has: those of its day, or those of now."""

    AS_WAS = "as_was"
    AS_IS = "as_is"


@dataclass(frozen=True)
class ViewColumn:
    """A column of a view: its name and type, what it shows, and what that is in plain words."""

    name: str
    type: str
    expression: str
    comment: str


@dataclass(frozen=True)
class View:
    """A view of a schema: its columns, and the question that it answers."""

    name: str
    comment: str
    columns: tuple[ViewColumn, ...]
    question: str


def question_of(columns: Iterable[ViewColumn], source: str) -> str:
    """What asks a source for the columns."""
    shown = ", ".join(f"({it.expression})::{it.type} AS {quoted(it.name)}" for it in columns)
    return f"SELECT {shown} FROM {source}"


def _as_was(attribute: Attribute) -> list[ViewColumn]:
    """What held on the day of sale. Types 0 and 1 have one value at all times; type 3 keeps none of that day."""
    dimension, slot = attribute.dimension, attribute.slot
    if attribute.type == 3:
        return []
    # the fact names the row, and the profile, of its day
    expression = f"profile.v{slot}" if attribute.type in (4, 5) else f"{dimension}.a{slot}"
    when = {0: "the original one", 1: "the newest one"}.get(attribute.type, "on the day of sale")
    return [_attribute_column("", attribute, expression, when)]


def _as_is(attribute: Attribute) -> list[ViewColumn]:
    """The newest value, for the types that offer it, and of type 3 also the one before."""
    dimension, slot = attribute.dimension, attribute.slot
    match attribute.type:
        case 2 | 4:
            return []
        case 3:
            return [
                _attribute_column("", attribute, f"{dimension}.a{slot}", "the newest one"),
                _attribute_column("prior_", attribute, f"{dimension}.b{slot}", "the one before the newest"),
            ]
        case 5:
            return [_attribute_column("", attribute, f"profile.v{slot}", "the newest one")]
        case 6:
            return [_attribute_column("", attribute, f"{dimension}.b{slot}", "the newest one")]
        case _:
            when = "the original one" if attribute.type == 0 else "the newest one"
            return [_attribute_column("", attribute, f"{dimension}.a{slot}", when)]


def _attribute_column(prefix: str, attribute: Attribute, expression: str, when: str) -> ViewColumn:
    return ViewColumn(
        f"{prefix}{attribute.dimension}_{attribute.name}",
        TEXT,
        expression,
        f"{attribute.name} of the {attribute.dimension} (type {attribute.type}): {when}",
    )


DAY_COLUMNS = (
    ViewColumn("ticket", TEXT, "fact.ticket", "the ticket"),
    ViewColumn("line", "integer", "fact.line", "the line of the ticket"),
    ViewColumn("day", "integer", "fact.day", "the day of sale, YYYYMMDD; months that it leaves out are not read"),
    ViewColumn(
        "sale_date", "date", "make_date(calendar.year, calendar.month, calendar.day)", "the day of sale, as a date"
    ),
    ViewColumn("month", TEXT, "left(calendar.iso, 7)", "the month of sale, YYYY-MM"),
    ViewColumn("weekday", TEXT, "calendar.weekday_name", "the name of the weekday"),
    ViewColumn("is_weekend", "boolean", "calendar.weekend = 1", "whether it was a Saturday or Sunday"),
    ViewColumn("holiday", TEXT, "calendar.holiday", "the holiday, or (none)"),
)


def natural_key(dimension: Dimension) -> ViewColumn:
    """The column by which a view names a member."""
    comment = f"the natural key of the {dimension}" + (", or (no card)" if dimension is Dimension.CUSTOMER else "")
    return ViewColumn(dimension.value, TEXT, f"{dimension}.{quoted('natural')}", comment)


def measures_of(warehouse_format: int) -> tuple[ViewColumn, ...]:
    """The figures of a sale; the discount belongs to format 2."""

    def money(name: str, expression: str, comment: str) -> ViewColumn:
        return ViewColumn(name, _MONEY, f"({expression}) / 100.0", comment)

    discount = (money("discount", "fact.discount", "the discount"),) if warehouse_format == 2 else ()
    return (
        ViewColumn("quantity", "integer", "fact.quantity", "pieces, negative for a return"),
        money("amount", "fact.amount", "what was paid"),
        money("cost", "fact.cost", "what it cost"),
        money("margin", "fact.amount - fact.cost", "the amount less the cost"),
        *discount,
    )


def _sales_with_days(schema: str, warehouse_format: int) -> str:
    return (
        f"{quoted(schema)}.{sales_table_of(warehouse_format)} AS fact"
        f" JOIN {quoted(schema)}.calendar AS calendar ON calendar.date_key = fact.day"
    )


def _with_rows_of_the_day(schema: str) -> str:
    """The rows that a sale names: those that held its day."""
    joins = (
        f" JOIN {quoted(schema)}.{dimension} AS {dimension} ON {dimension}.surrogate = fact.{dimension}_key"
        for dimension in Dimension
    )
    return f"{''.join(joins)} JOIN {quoted(schema)}.profile AS profile ON profile.number = fact.profile"


def _with_current_rows(schema: str) -> str:
    """The current rows of the members that a sale names by their durable keys."""
    joins = (
        f" JOIN {quoted(schema)}.{dimension} AS {dimension}"
        f" ON {dimension}.durable = fact.{dimension}_durable AND {dimension}.is_current = 1"
        for dimension in Dimension
    )
    return f"{''.join(joins)} JOIN {quoted(schema)}.profile AS profile ON profile.number = customer.profile_now"


def attribute_columns(
    attributes: Iterable[Attribute], dimension: Dimension, reading: Reading
) -> list[ViewColumn]:
    """The columns of a dimension's attributes, but for its natural key."""
    read = _as_was if reading is Reading.AS_WAS else _as_is
    return [column for it in attributes if it.dimension is dimension for column in read(it)]


def columns_of(
    policies: Iterable[Iterable[Attribute]], warehouse_format: int, reading: Reading
) -> tuple[ViewColumn, ...]:
    """The columns under one policy or several; what several name alike is described as in the first one."""
    kept = [list(attributes) for attributes in policies]
    columns = list(DAY_COLUMNS)
    for dimension in Dimension:
        named: dict[str, ViewColumn] = {}
        for attributes in kept:
            for column in attribute_columns(attributes, dimension, reading):
                named.setdefault(column.name, column)
        columns += [natural_key(dimension), *named.values()]
    return (*columns, *measures_of(warehouse_format))


def source_of(schema: str, warehouse_format: int, reading: Reading) -> str:
    """The sales of a schema, with the rows that hold the values."""
    rows = _with_rows_of_the_day(schema) if reading is Reading.AS_WAS else _with_current_rows(schema)
    return _sales_with_days(schema, warehouse_format) + rows


def _summed(name: str, expression: str, comment: str) -> ViewColumn:
    return ViewColumn(name, _SUM_OF_MONEY, f"sum({expression}) / 100.0", comment)


MONTH_COLUMNS = (
    ViewColumn("month", TEXT, "left(calendar.iso, 7)", "the month of sale, YYYY-MM"),
    ViewColumn("lines", "bigint", "count(*)", "how many lines of tickets"),
    ViewColumn("quantity", "bigint", "sum(fact.quantity)", "pieces"),
    _summed("amount", "fact.amount", "what was paid"),
    _summed("cost", "fact.cost", "what it cost"),
    _summed("margin", "fact.amount - fact.cost", "the amount less the cost"),
)


def views_of(schema: str, warehouse_format: int, attributes: list[Attribute]) -> list[View]:
    """The views over the tables of a schema, under a policy."""
    months = question_of(MONTH_COLUMNS, _sales_with_days(schema, warehouse_format)) + " GROUP BY left(calendar.iso, 7)"
    return [
        *(_sales_view(schema, warehouse_format, attributes, reading) for reading in Reading),
        View("sales_by_month", COMMENTS["by_month"], MONTH_COLUMNS, months),
    ]


def _sales_view(schema: str, warehouse_format: int, attributes: list[Attribute], reading: Reading) -> View:
    columns = columns_of([attributes], warehouse_format, reading)
    question = question_of(columns, source_of(schema, warehouse_format, reading))
    return View(f"sales_{reading}", COMMENTS[reading], columns, question)


def digest_of(views: Iterable[View]) -> bytes:
    """What tells the texts of views from any others."""
    return hashlib.sha256("\n".join(map(repr, views)).encode()).digest()


def drop_views(server: Server, schema: str, prefix: str = "sales") -> None:
    """Drops the views that are there."""
    for kind in COMMENTS:
        server.run(f"DROP VIEW IF EXISTS {quoted(schema)}.{prefix}_{kind}")


def make_views(server: Server, schema: str, views: list[View]) -> None:
    """Makes the views anew. Readers of the old ones are waited for."""
    drop_views(server, schema)
    for view in views:
        put_view(server, schema, view)


def put_view(server: Server, schema: str, view: View) -> None:
    """Makes a view, also in the place of one with the same columns, which others may stand on."""
    place = f"{quoted(schema)}.{quoted(view.name)}"
    server.run(f"CREATE OR REPLACE VIEW {place} AS {view.question}")
    comment_on(server, f"VIEW {place}", view.comment)
    for column in view.columns:
        comment_on(server, f"COLUMN {place}.{quoted(column.name)}", column.comment)
