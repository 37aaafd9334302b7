"""A mirror of a file in one schema of a server: what is copied, compared, written and noted, in one transaction."""

from collections.abc import Callable
from contextlib import closing
from dataclasses import dataclass
from functools import cached_property
from pathlib import Path

from wh_mirror.comments import Comments, read_comments
from wh_mirror.faults import Failed, Refused
from wh_mirror.note import LAYOUT, Note, make_note, read_note, write_note
from wh_mirror.policy import Attribute
from wh_mirror.progress import Progress
from wh_mirror.server import Server, quoted
from wh_mirror.star import Counts, Scope, Scopes, Star
from wh_mirror.tables import sales_table_of, tables_after
from wh_mirror.views import digest_of, drop_views, make_views, views_of
from wh_mirror.warehouse import CommandList, Warehouse

# What commands of these kinds change of the sales that are there follows from their records' members.
_KINDS_WITH_RECORDS = ("product", "store", "customer", "sales")


@dataclass(frozen=True)
class Request:
    """What a run was asked for."""

    path: str
    schema: str
    # whose schema it is: that of a single file belongs to itself
    owner: str
    # compare all rows, also of what is only ever added to
    is_whole: bool = False
    # follow the file also where the mirror is ahead of it, or is of other commands
    is_restored: bool = False
    # seconds for `wh`, other mirrors, and readers who are in the way
    wait: int = 60


@dataclass(frozen=True)
class Outcome:
    """How many rows of each table were written, and how many commands are mirrored."""

    counts: dict[str, Counts]
    commands: int


def mirror(request: Request, dsn: str, progress: Progress) -> Outcome:
    """Brings the mirror to the file. On any fault nothing is changed."""
    with closing(Server(dsn, request.wait)) as server:
        outcome = bring(request, server, progress)
        server.commit()
    return outcome


def bring(
    request: Request, server: Server, progress: Progress, before_drops: Callable[[], None] = lambda: None
) -> Outcome:
    """The same within a transaction of the server, which the caller commits.

    The callable drops what others have made of the schema's tables; it is called where a table or a view is about to be
    dropped, or gets partitions.
    """
    if not Path(request.path).is_file():
        raise Failed(f"{request.path}: no such file")
    server.lock(request.schema)
    note = read_note(server, request.schema)
    # a chain takes over the mirror of a single file
    if note is not None and note.owner not in (request.owner, request.schema):
        raise Refused(f"the schema {request.schema} belongs to {note.owner}")
    return _Mirroring(request, server, note, progress, before_drops).run()


class _Mirroring:
    """One run, over an open connection to the mirror's server."""

    def __init__(
        self, request: Request, server: Server, note: Note | None, progress: Progress, before_drops: Callable[[], None]
    ) -> None:
        self._request = request
        self._server = server
        self._note = note
        self._progress = progress
        self._before_drops = before_drops
        # whether the rows that were mirrored of what is only ever added to can stay as they are
        self._is_continued = note is not None and not request.is_whole and not request.is_restored

    def run(self) -> Outcome:
        """Copies, compares, writes and notes."""
        with closing(Warehouse(self._request.path, self._request.wait)) as warehouse:
            commands = warehouse.command_list(self._note.commands if self._note else 0)
            self._refuse_other_commands(commands)
            attributes = warehouse.policy()
            note = self._note_of(warehouse, commands, attributes)
            expected = warehouse.rows_expected(commands)
            star = None
            if note != self._note or not self._is_continued:
                star = self._make_star(warehouse)
                scopes = self._scopes(warehouse, commands, star)
                star.copy(warehouse, scopes, self._progress)
        counts = self._write(star, scopes, note, attributes) if star else {}
        for name, rows in expected.items():
            self._compare_count(name, rows)
        write_note(self._server, self._request.schema, note)
        return Outcome(counts, note.commands)

    def _write(self, star: Star, scopes: Scopes, note: Note, attributes: list[Attribute]) -> dict[str, Counts]:
        """Writes the rows that differ, and the views where their texts are others."""
        schema = self._request.schema
        are_other_views = self._note is None or self._note.views != note.views
        if star.lacks_partitions():
            # a reader waits for a view before its tables, and so has a mirror to do
            self._drop_views()
            are_other_views = True
        counts = star.write(scopes, self._progress)
        if are_other_views:
            make_views(self._server, schema, views_of(schema, note.format, attributes))
        return counts

    def _drop_views(self) -> None:
        self._before_drops()
        drop_views(self._server, self._request.schema)

    @cached_property
    def _comments(self) -> Comments:
        return read_comments()

    def _refuse_other_commands(self, commands: CommandList) -> None:
        """A mirror follows a file that goes on from what was mirrored, and no other unless it is told to."""
        note = self._note
        if note is None or self._request.is_restored:
            return
        if commands.last < note.commands:
            raise Refused(
                f"the mirror is ahead of the file: it holds {note.commands} commands, and the file {commands.last};"
                " --restored takes it back"
            )
        if commands.digest_of_beginning != note.digest:
            raise Refused(
                f"the mirror is of another file: the first {note.commands} commands differ;"
                " --restored makes it this file's"
            )

    def _note_of(self, warehouse: Warehouse, commands: CommandList, attributes: list[Attribute]) -> Note:
        """What the mirror will note of the file."""
        return Note(
            layout=LAYOUT,
            owner=self._request.owner,
            format=warehouse.format,
            commands=commands.last,
            digest=commands.digest,
            views=digest_of(views_of(self._request.schema, warehouse.format, attributes)),
        )

    def _make_star(self, warehouse: Warehouse) -> Star:
        """The tables, of which those are made that aren't there; those of a newer format go."""
        schema = self._request.schema
        if self._note is None:
            make_note(self._server, schema)
        star = Star(self._server, schema, warehouse.tables, self._comments)
        if self._note is not None and self._note.format > warehouse.format:
            self._drop_views()
            star.drop_tables(tables_after(warehouse.format))
        star.make_tables()
        return star

    def _scopes(self, warehouse: Warehouse, commands: CommandList, star: Star) -> Scopes:
        """What is compared of the tables that aren't compared whole."""
        if self._note is None or not self._is_continued:
            return {}
        after = self._note.commands
        scopes = {}
        for table in star.tables:
            if table.appended_by:
                is_new = f"{table.appended_by} > {after}"
                scopes[table.name] = Scope(is_new, is_new)
        if all(command.kind in _KINDS_WITH_RECORDS for command in commands.after(after)):
            touched = warehouse.touched_members(after)
            # another file of the same transaction may have left its own
            self._server.run("DROP TABLE IF EXISTS pg_temp.touched")
            self._server.run("CREATE TEMP TABLE touched (dim integer, durable integer) ON COMMIT DROP")
            self._server.insert("pg_temp.touched", touched)
            members = "SELECT durable FROM pg_temp.touched WHERE dim ="
            scopes[sales_table_of(warehouse.format)] = Scope(
                warehouse.condition_of_sales_since(after, touched),
                f"product_durable IN ({members} 1) OR store_durable IN ({members} 2)"
                f" OR customer_durable IN ({members} 3)",
            )
        return scopes

    def _compare_count(self, name: str, rows: int) -> None:
        """The commands say how many rows a table has: another number is told, whoever is to blame."""
        found = self._server.value(f"SELECT count(*) FROM {quoted(self._request.schema)}.{quoted(name)}")
        if found == rows:
            return
        if self._is_continued:
            raise Refused(
                f"the mirror's table {name} has {found} rows, where the commands give {rows}; --whole compares them all"
            )
        raise Failed(f"{self._request.path}: damaged, {name} has {found} rows, where the commands give {rows}")
