"""The chain's views over the parts of all files: `sales_as_was`, `sales_as_is`, `sales_by_month`, and `mirror`.

Where all files are on the chain's own server, the views stand on their parts. Else they stand on foreign tables, one for
each file, as partitions by file (`all_as_was` and so on): each server then joins its own files, and sums them where a
question groups by file, all of them at once. A check says which months a foreign table has, so that a question about
others doesn't ask its server.
"""

from collections.abc import Callable, Mapping

from wh_mirror.made import Made
from wh_mirror.parts import Mirrored, Shape, condition_on_days, condition_on_months
from wh_mirror.server import Server, listed, literal, quoted
from wh_mirror.views import COMMENTS, TEXT, View, ViewColumn, drop_views

# What of a connection to a server the chain's own one needs to know, and what speeds its questions up.
_OPTIONS_OF_A_SERVER = ("host", "hostaddr", "port", "dbname", "sslmode", "sslrootcert", "connect_timeout")
_MORE_OPTIONS = {"fetch_size": "10000", "async_capable": "true", "fdw_tuple_cost": "0.2"}

_MIRROR_COLUMNS = (
    ViewColumn("file", TEXT, "", "the schema of the file's mirror"),
    ViewColumn("commands", "integer", "", "the last mirrored command"),
    ViewColumn("mirrored_at", "timestamp with time zone", "", "when it was mirrored"),
)


class Totals:
    """The views, on the chain's own server."""

    def __init__(self, made: Made, before: Callable[[], None]) -> None:
        """The callable is called before anything is made anew."""
        self._made = made
        self._front = made.server
        self._before = before

    def wait_for_readers(self) -> None:
        """Takes the locks of the views, so that nobody reads them until the transaction ends."""
        names = (*(f"sales_{kind}" for kind in COMMENTS), "mirror")
        # LOCK would take those of all tables below as well
        self._front.run_patiently(
            [f"ALTER VIEW IF EXISTS {self._place(name)} RESET (security_barrier)" for name in names]
        )

    def drop(self) -> None:
        """Drops the views, and what they stand on here."""
        drop_views(self._front, self._made.schema)
        for kind in COMMENTS:
            self._front.run(f"DROP TABLE IF EXISTS {self._place(f'all_{kind}')}")

    def drop_views(self) -> None:
        """Drops the views alone."""
        drop_views(self._front, self._made.schema)

    def make_over_parts(self, shape: Shape) -> None:
        """Makes the views over the parts that stand on this server."""
        for kind, columns in shape.columns.items():
            names = listed([it.name for it in columns])
            sources = (f"SELECT {names} FROM {quoted(file.schema)}.part_{kind}" for file in shape.files)
            self._put(kind, columns, " UNION ALL ".join(sources))
        self._put_mirror([(file, f"{quoted(file.schema)}.mirror") for file in shape.files])

    def make_over_servers(self, shape: Shape, servers: Mapping[str, Server]) -> None:
        """Makes the views over the servers that have the files, by their schemas."""
        if not self._front.rows("SELECT FROM pg_catalog.pg_extension WHERE extname = 'postgres_fdw'"):
            self._front.run("CREATE EXTENSION postgres_fdw")
        for file in shape.files:
            self._make_server(file, servers[file.schema])
        for kind, columns in shape.columns.items():
            self._make_parent(kind, columns)
            for file in shape.files:
                self._make_partition(kind, file, columns)
            names = listed([it.name for it in columns])
            self._put(kind, columns, f"SELECT {names} FROM {self._place(f'all_{kind}')}")
        self._put_mirror([(file, self._make_foreign_note(file)) for file in shape.files])

    def forget_months(self, schema: str) -> None:
        """Has all questions ask a file's server, until its months are known anew."""
        places = [self._place(f"{schema}_{kind}") for kind in COMMENTS]
        self._front.run_patiently(
            [f"ALTER FOREIGN TABLE IF EXISTS {place} DROP CONSTRAINT IF EXISTS months" for place in places]
        )
        for place in places:
            self._made.forget(place)

    def files_elsewhere(self) -> set[str]:
        """The files that the views have from other servers: their servers are named after their schemas."""
        rows = self._front.rows(
            "SELECT DISTINCT srvname FROM pg_catalog.pg_foreign_table"
            " JOIN pg_catalog.pg_foreign_server ON pg_foreign_server.oid = ftserver"
            " JOIN pg_catalog.pg_class ON pg_class.oid = ftrelid"
            " WHERE relnamespace = (SELECT oid FROM pg_catalog.pg_namespace WHERE nspname = %s)",
            (self._made.schema,),
        )
        return {name for (name,) in rows}

    def commands(self) -> dict[str, int]:
        """By file the last command that readers find, which asks each server."""
        return dict(self._front.rows(f"SELECT file, commands FROM {self._place('mirror')}"))

    def _place(self, name: str) -> str:
        return f"{quoted(self._made.schema)}.{quoted(name)}"

    def _put(self, kind: str, columns: tuple[ViewColumn, ...], source: str) -> None:
        """Makes a view over a source that has a column for the file."""
        if kind == "by_month":
            columns = columns[1:]
            sums = ", ".join(f"sum({quoted(it.name)})::{it.type} AS {quoted(it.name)}" for it in columns[1:])
            source = f"SELECT month, {sums} FROM ({source}) AS part GROUP BY month"
        self._made.put_view(self._made.schema, View(f"sales_{kind}", COMMENTS[kind], columns, source), self._before)

    def _put_mirror(self, places: list[tuple[Mirrored, str]]) -> None:
        sources = (
            f"SELECT {literal(file.schema)}::text COLLATE \"C\" AS file, commands, mirrored_at FROM {place}"
            for file, place in places
        )
        view = View("mirror", "how far each file's mirror is", _MIRROR_COLUMNS, " UNION ALL ".join(sources))
        self._made.put_view(self._made.schema, view, self._before)

    def _make_parent(self, kind: str, columns: tuple[ViewColumn, ...]) -> None:
        place = self._place(f"all_{kind}")
        declared = _declared(columns)
        if self._made.differs(place, declared):
            self._before()
            self._front.run(f"CREATE TABLE {place} ({declared}) PARTITION BY LIST (file)")
            self._made.keep(place, declared)

    def _make_partition(self, kind: str, file: Mirrored, columns: tuple[ViewColumn, ...]) -> None:
        months = file.months
        check = condition_on_months("month", months) if kind == "by_month" else condition_on_days("day", months)
        parent = f"PARTITION OF {self._place(f'all_{kind}')} (CONSTRAINT months CHECK ({check}))"
        self._make_foreign_table(
            file, f"{file.schema}_{kind}", f"{parent} FOR VALUES IN ({literal(file.schema)})", f"part_{kind}"
        )

    def _make_foreign_note(self, file: Mirrored) -> str:
        declared = f"({_declared(_MIRROR_COLUMNS[1:])})"
        return self._make_foreign_table(file, f"{file.schema}_mirror", declared, "mirror")

    def _make_foreign_table(self, file: Mirrored, name: str, declared: str, there: str) -> str:
        """Makes a foreign table where it differs, and answers its place."""
        place = self._place(name)
        options = _options({"schema_name": file.schema, "table_name": there})
        how = f"{declared} SERVER {quoted(file.schema)} {options}"
        if self._made.differs(place, how):
            self._before()
            self._front.run(f"DROP FOREIGN TABLE IF EXISTS {place}")
            self._front.run(f"CREATE FOREIGN TABLE {place} {how}")
            self._made.keep(place, how)
        return place

    def _make_server(self, file: Mirrored, server: Server) -> None:
        """Tells the front how to reach a server; each file has a connection of its own."""
        name, given = quoted(file.schema), server.parameters()
        options = {key: given[key] for key in _OPTIONS_OF_A_SERVER if key in given} | _MORE_OPTIONS
        kept = self._options_of_a_server(file.schema)
        if not kept:
            self._front.run(f"CREATE SERVER {name} FOREIGN DATA WRAPPER postgres_fdw {_options(options)}")
        elif kept != options:
            changes: dict[str, str | None] = {f"DROP {key}": None for key in kept if key not in options}
            for key, value in options.items():
                changes[f"{'SET' if key in kept else 'ADD'} {key}"] = value
            self._front.run(f"ALTER SERVER {name} {_options(changes)}")
        login = {key: given[key] for key in ("user", "password") if key in given}
        if self._login_to_a_server(file.schema) != login:
            self._front.run(f"DROP USER MAPPING IF EXISTS FOR CURRENT_USER SERVER {name}")
            self._front.run(f"CREATE USER MAPPING FOR CURRENT_USER SERVER {name} {_options(login)}")

    def _options_of_a_server(self, name: str) -> dict[str, str]:
        """What the front knows of a server; nothing where it doesn't know it."""
        rows = self._front.rows(
            "SELECT option_name, option_value FROM pg_catalog.pg_foreign_server,"
            " pg_catalog.pg_options_to_table(srvoptions) WHERE srvname = %s",
            (name,),
        )
        return dict(rows)

    def _login_to_a_server(self, name: str) -> dict[str, str]:
        rows = self._front.rows(
            "SELECT option_name, option_value FROM pg_catalog.pg_user_mappings,"
            " pg_catalog.pg_options_to_table(umoptions) WHERE srvname = %s AND usename = CURRENT_USER",
            (name,),
        )
        return dict(rows)


def _declared(columns: tuple[ViewColumn, ...]) -> str:
    return ", ".join(f"{quoted(it.name)} {it.type}" for it in columns)


def _options(options: Mapping[str, str | None]) -> str:
    """Options as SQL writes them; those that are dropped have no value."""
    written = (key if value is None else f"{key} {literal(value)}" for key, value in options.items())
    return f"OPTIONS ({', '.join(written)})"
