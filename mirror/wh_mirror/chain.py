"""A chain of files, each mirrored into a schema of its own, and all of them shown as one.

The chain's schema is on one server, the front; a file's schema is there too, or on another server. Each file is a
transaction of its own, in which also what shows it is brought to its new columns and months; or all files are one.
"""

from collections.abc import Callable
from contextlib import ExitStack, closing
from dataclasses import dataclass

from wh_mirror.faults import Failed, Fault, Refused
from wh_mirror.made import Made
from wh_mirror.mirroring import Outcome, Request, bring
from wh_mirror.newest import Newest
from wh_mirror.parts import Mirrored, Shape, newest_table, parts_of, read_mirrored
from wh_mirror.policy import Dimension
from wh_mirror.progress import Progress
from wh_mirror.server import Server, quoted
from wh_mirror.totals import Totals
from wh_mirror.views import drop_views


@dataclass(frozen=True)
class Link:
    """A file of a chain, the schema of its mirror, and the server that has it: none is the chain's own."""

    path: str
    schema: str
    dsn: str | None = None


@dataclass(frozen=True)
class ChainRequest:
    """What a run was asked for; the last file is the newest."""

    dsn: str
    schema: str
    links: tuple[Link, ...]
    # whether all files are one transaction
    is_together: bool = False
    # as of a single file
    is_whole: bool = False
    is_restored: bool = False
    wait: int = 60


def mirror_chain(request: ChainRequest, progress: Progress, tell: Callable[[Link, Outcome], None]) -> None:
    """Brings the mirrors to their files, the newest one first, and tells of each once it is kept.

    A fault changes nothing of its own file, and ends the run.
    """
    with ExitStack() as stack:
        _Run(request, progress, stack).run(tell)


@dataclass(frozen=True)
class _Place:
    """A server with files of the chain."""

    server: Server
    made: Made


class _Run:
    """One run, over open connections to all servers."""

    def __init__(self, request: ChainRequest, progress: Progress, stack: ExitStack) -> None:
        self._request = request
        self._progress = progress
        self._stack = stack
        # whose the files' schemas are
        self._owner = f"the chain {request.schema}"
        self._are_readers_waited_for = False
        self._front = self._open(request.dsn)
        self._totals = Totals(self._front.made, self._wait_for_readers)
        self._places = self._open_all()
        self._is_elsewhere = any(place is not self._front for place in self._places.values())
        self._mirrored: dict[str, Mirrored] = {}

    def _open(self, dsn: str) -> _Place:
        server = self._stack.enter_context(closing(Server(dsn, self._request.wait)))
        server.hold(self._request.schema)
        return _Place(server, Made(server, self._request.schema))

    def _open_all(self) -> dict[str, _Place]:
        """By schema the server of each file; two names of one database are one server."""
        opened: dict[str | None, _Place] = {None: self._front}
        for dsn in dict.fromkeys(link.dsn for link in self._request.links if link.dsn):
            opened[dsn] = self._open_another(dsn, list(opened.values()))
        return {link.schema: opened[link.dsn] for link in self._request.links}

    def _open_another(self, dsn: str, opened: list[_Place]) -> _Place:
        with closing(Server(dsn, self._request.wait)) as server:
            same = next((place for place in opened if place.server.is_same_database_as(server)), None)
        if same:
            return same
        place = self._open(dsn)
        owner = self._front.made.name_of_chain()
        if place.made.differs("owner", owner):
            if place.made.schemas_of_files() and not self._request.is_restored:
                raise Refused(
                    f"{place.server.name}: the schema {self._request.schema} belongs to another chain;"
                    " --restored makes it this one's"
                )
            place.made.keep("owner", owner)
        return place

    def run(self, tell: Callable[[Link, Outcome], None]) -> None:
        """Mirrors, shows and commits."""
        self._look()
        outcomes = {}
        # what happened last is wanted most
        for link in (self._request.links[-1], *self._request.links[:-1]):
            outcomes[link] = self._bring(link)
            if not self._request.is_together:
                self._show()
                self._commit()
                tell(link, outcomes[link])
        if self._request.is_together:
            self._show()
            if self._is_elsewhere and any(outcome.counts for outcome in outcomes.values()):
                self._wait_for_readers()
            self._commit()
            for link, outcome in outcomes.items():
                tell(link, outcome)
        if self._is_elsewhere:
            self._compare_with_what_readers_find({link.schema: it.commands for link, it in outcomes.items()})

    def _look(self) -> None:
        """Looks what is mirrored already. A file that isn't given is refused, since the views would lose it."""
        for place in self._all_places():
            given = {schema for schema, its_place in self._places.items() if its_place is place}
            self._refuse_missing(place.made.schemas_of_files() - given, place.server, "SCHEMA")
        self._refuse_missing(self._totals.files_elsewhere() - self._places.keys(), self._front.server, "SERVER")
        for schema, place in self._places.items():
            mirrored = read_mirrored(place.server, schema)
            if mirrored and mirrored.owner not in (self._owner, schema):
                raise Refused(f"{place.server.name}: the schema {schema} belongs to {mirrored.owner}")
            if mirrored:
                self._mirrored[schema] = mirrored

    def _refuse_missing(self, schemas: set[str], server: Server, what: str) -> None:
        for name in sorted(schemas):
            raise Refused(
                f"{server.name}: {name} is in the chain, and isn't given; DROP {what} {name} CASCADE takes it out"
            )

    def _bring(self, link: Link) -> Outcome:
        """Mirrors a file, in its server's transaction."""
        asked, place = self._request, self._places[link.schema]
        request = Request(link.path, link.schema, self._owner, asked.is_whole, asked.is_restored, asked.wait)
        try:
            outcome = bring(request, place.server, self._progress, lambda: self._drop_parts(link.schema))
        except Fault as fault:
            raise type(fault)(f"{link.schema}: {fault}") from fault
        if outcome.counts:
            before, mirrored = self._mirrored.get(link.schema), read_mirrored(place.server, link.schema)
            assert mirrored is not None
            self._mirrored[link.schema] = mirrored
            if before and not set(mirrored.months) <= set(before.months):
                self._forget_months(link.schema)
        return outcome

    def _forget_months(self, schema: str) -> None:
        """Keeps the front from passing over months that another server is about to get.

        Servers don't commit together: whatever happens between their commits, no sale may be left out.
        """
        if schema in self._totals.files_elsewhere():
            with closing(Server(self._request.dsn, self._request.wait)) as server:
                Totals(Made(server, self._request.schema), lambda: None).forget_months(schema)
                server.commit()

    def _drop_parts(self, schema: str) -> None:
        """Drops a file's parts, before its tables are dropped or get partitions; and what stands on them."""
        self._wait_for_readers()
        if not self._is_elsewhere:
            self._totals.drop_views()
        drop_views(self._places[schema].server, schema, "part")

    def _show(self) -> None:
        """Makes what shows the files as one, as far as it differs from what is there."""
        links = [link for link in self._request.links if link.schema in self._mirrored]
        shape = Shape([self._mirrored[link.schema] for link in links])
        for place in self._all_places():
            place.made.look()
        if self._front.made.differs("columns", shape.text):
            self._drop_all()
            self._front.made.keep("columns", shape.text)
        newest = Newest(self._places[shape.newest.schema].server, shape)
        for place in self._all_places():
            if any(self._places[file.schema] is place for file in shape.files[:-1]):
                newest.bring(place.made, self._request.is_whole, self._progress)
        for file in shape.files:
            for view in parts_of(shape, file, self._request.schema):
                self._places[file.schema].made.put_view(file.schema, view, self._wait_for_readers)
        if self._is_elsewhere:
            servers = {schema: place.server for schema, place in self._places.items()}
            self._totals.make_over_servers(shape, servers)
        else:
            self._totals.make_over_parts(shape)

    def _all_places(self) -> list[_Place]:
        """Each server once, the front last: what it shows has to be there before it."""
        others = {id(place): place for place in self._places.values() if place is not self._front}
        return [*others.values(), self._front]

    def _drop_all(self) -> None:
        """Drops all that has the columns of the chain."""
        self._wait_for_readers()
        self._totals.drop()
        for place in self._all_places():
            for schema in place.made.schemas_of_files():
                drop_views(place.server, schema, "part")
            for dimension in Dimension:
                place.server.run(f"DROP TABLE IF EXISTS {quoted(self._request.schema)}.{newest_table(dimension)}")
            place.made.forget("members")
            place.made.look()

    def _wait_for_readers(self) -> None:
        """Has those wait who read the chain's views, until all servers have committed."""
        if not self._are_readers_waited_for:
            self._totals.wait_for_readers()
            self._are_readers_waited_for = True

    def _commit(self) -> None:
        for place in self._all_places():
            place.server.commit()
        self._are_readers_waited_for = False

    def _compare_with_what_readers_find(self, commands: dict[str, int]) -> None:
        """Asks the front, which has to reach each server by itself."""
        found = self._totals.commands()
        for schema, number in commands.items():
            if found.get(schema) != number:
                raise Failed(
                    f"{schema}: {self._front.server.name} finds {found.get(schema)} commands, and {number} are mirrored"
                )

