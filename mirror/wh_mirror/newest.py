"""What the newest file of a chain says of each member now, on each server that has other files.

It stands in tables of the chain's schema, one for each dimension, by natural key: the sales of all files are shown with
it. A placeholder isn't in them, since the newest file says nothing of it.
"""

from collections.abc import Iterator
from functools import cached_property

from wh_mirror.made import Made
from wh_mirror.parts import Shape, newest_table
from wh_mirror.policy import Dimension
from wh_mirror.progress import Progress
from wh_mirror.server import Server, quoted
from wh_mirror.star import Star
from wh_mirror.tables import Column, Kind, Table

_UNKNOWN = "'(unknown)'"


class Newest:
    """The members of the newest file, read once from its mirror and written to any number of servers."""

    def __init__(self, server: Server, shape: Shape) -> None:
        """The server has the newest file's mirror."""
        self._server = server
        self._shape = shape
        # by table, as text for COPY
        self._rows: dict[str, bytes] = {}

    def bring(self, made: Made, is_whole: bool, progress: Progress) -> None:
        """Writes what differs on a server, where the newest file has changed."""
        newest = self._shape.newest
        how = (newest.schema, newest.commands, newest.digest)
        if not is_whole and not made.differs("members", how):
            return
        # before the first copy: the server may be the same, and copies one way at a time
        self._read()
        star = Star(made.server, made.schema, self._tables, {})
        star.make_tables()
        star.copy(self, {}, progress)
        star.write({}, progress)
        made.keep("members", how)

    @cached_property
    def _tables(self) -> list[Table]:
        return [
            Table(
                name=newest_table(dimension),
                key=(dimension.value,),
                columns=tuple(Column(name, Kind.TEXT) for name in (dimension.value, *(it.name for it in columns))),
            )
            for dimension, columns in self._shape.of_the_newest.items()
        ]

    def _read(self) -> None:
        if not self._rows:
            for dimension in self._shape.of_the_newest:
                self._rows[newest_table(dimension)] = self._server.copy_out(self._question(dimension))

    def _question(self, dimension: Dimension) -> str:
        schema, columns = quoted(self._shape.newest.schema), self._shape.of_the_newest[dimension]
        source = f"{schema}.{dimension} AS {dimension}"
        if dimension is Dimension.CUSTOMER:
            source += f" JOIN {schema}.profile AS profile ON profile.number = customer.profile_now"
        shown = ", ".join(it.expression for it in columns)
        # each value of a placeholder says so; no source can send this text
        return (
            f"SELECT {dimension}.{quoted('natural')}, {shown} FROM {source}"
            f" WHERE {dimension}.is_current = 1 AND {columns[0].expression} <> {_UNKNOWN}"
        )

    # What follows is what a star copies from.

    def months(self) -> list[int]:
        """There are no sales among the tables."""
        return []

    def copy_lines(self, table: Table, _condition: str) -> Iterator[tuple[int, bytes]]:
        """The rows of a table: how many, and as text for COPY."""
        lines = self._rows[table.name]
        yield lines.count(b"\n"), lines
