"""What a chain has made on a server, with a digest of how: the table `chain` in the chain's schema.

It tells the chain's schema from any other, and what has to be made anew.
"""

import hashlib
import secrets
from collections.abc import Callable

from wh_mirror.faults import Refused
from wh_mirror.server import Server, comment_on, quoted
from wh_mirror.views import View, put_view

_LAYOUT = 1


class Made:
    """The table of one server."""

    def __init__(self, server: Server, schema: str) -> None:
        """Looks for the table, or makes it where the schema is empty. Any other schema is refused."""
        self.server = server
        self.schema = schema
        self._table = f"{quoted(schema)}.chain"
        self._kept: dict[str, bytes] = {}
        if self._is_empty():
            server.run(f"CREATE SCHEMA IF NOT EXISTS {quoted(schema)}")
            comment_on(server, f"SCHEMA {quoted(schema)}", "A chain of warehouses, which wh-mirror alone writes")
            server.run(f"CREATE TABLE {self._table} (name text PRIMARY KEY, digest bytea NOT NULL)")
            comment_on(server, f"TABLE {self._table}", "what wh-mirror has made for the chain, and a digest of how")
            self.keep("layout", _LAYOUT)
        elif self._columns() != ["name", "digest"]:
            raise Refused(f"{server.name}: the schema {schema} is there, and isn't a chain's")
        self.look()
        if self.differs("layout", _LAYOUT):
            raise Refused(f"{server.name}: the schema {schema} is a chain's of another layout than {_LAYOUT}")

    def name_of_chain(self) -> str:
        """What no other chain is called, from when it is first asked for."""
        if "id" not in self._kept:
            self.keep("id", secrets.token_hex())
        return f"the chain {self.schema} {self._kept['id'].hex()[:12]}"

    def _is_empty(self) -> bool:
        return not self.server.rows(
            "SELECT FROM pg_catalog.pg_class JOIN pg_catalog.pg_namespace ON pg_namespace.oid = relnamespace"
            " WHERE nspname = %s LIMIT 1",
            (self.schema,),
        )

    def _columns(self) -> list[str]:
        rows = self.server.rows(
            "SELECT attname FROM pg_catalog.pg_attribute"
            " WHERE attnum > 0 AND attrelid = to_regclass(%s) ORDER BY attnum",
            (self._table,),
        )
        return [name for (name,) in rows]

    def look(self) -> None:
        """Reads what is kept, but for tables and views that aren't there any more."""
        rows = self.server.rows(
            f"SELECT name, digest FROM {self._table} WHERE name NOT LIKE '\"%' OR to_regclass(name) IS NOT NULL"
        )
        self._kept = dict(rows)

    def differs(self, name: str, how: object) -> bool:
        """Whether a thing isn't there, or was made in another way."""
        return self._kept.get(name) != _digest_of(how)

    def keep(self, name: str, how: object) -> None:
        """Keeps how a thing was made."""
        self._kept[name] = _digest_of(how)
        self.server.run(
            f"INSERT INTO {self._table} VALUES (%s, %s) ON CONFLICT (name) DO UPDATE SET digest = excluded.digest",
            (name, self._kept[name]),
        )

    def forget(self, name: str) -> None:
        """Has a thing made anew."""
        self._kept.pop(name, None)
        self.server.run(f"DELETE FROM {self._table} WHERE name = %s", (name,))

    def put_view(self, schema: str, view: View, before: Callable[[], None]) -> None:
        """Makes a view where it differs, and calls something before."""
        name = f"{quoted(schema)}.{quoted(view.name)}"
        if self.differs(name, view):
            before()
            put_view(self.server, schema, view)
            self.keep(name, view)

    def schemas_of_files(self) -> set[str]:
        """The schemas of this server with a part of the chain."""
        rows = self.server.rows(
            f"SELECT nspname FROM {self._table} JOIN pg_catalog.pg_class ON pg_class.oid = to_regclass(name)"
            " JOIN pg_catalog.pg_namespace ON pg_namespace.oid = relnamespace WHERE relname = 'part_as_was'"
        )
        return {name for (name,) in rows}


def _digest_of(how: object) -> bytes:
    return hashlib.sha256(repr(how).encode()).digest()
