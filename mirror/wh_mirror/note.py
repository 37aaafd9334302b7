"""The note that a mirror keeps of itself: the table `mirror`, of one row, in its schema.

It tells a mirror's schema from any other, and how far the mirror is.
"""

from dataclasses import astuple, dataclass, fields

from wh_mirror.faults import Refused
from wh_mirror.server import Server, comment_on, listed, quoted

LAYOUT = 2

_TYPES = {int: "integer", str: "text", bytes: "bytea"}


@dataclass(frozen=True)
class Note:
    """How far a mirror is."""

    # of the mirror's own tables and views
    layout: int
    # whose mirror it is: the schema itself, or a chain
    owner: str
    # of the file
    format: int
    # the number of the last command that is mirrored, and a digest of all up to it
    commands: int
    digest: bytes
    # a digest of the texts that made the views
    views: bytes


_NAMES = tuple(field.name for field in fields(Note))


def read_note(server: Server, schema: str) -> Note | None:
    """The note of a mirror; none where the schema isn't there or is empty. Any other schema is refused."""
    relations = server.rows(
        "SELECT relname FROM pg_catalog.pg_class JOIN pg_catalog.pg_namespace ON pg_namespace.oid = relnamespace"
        " WHERE nspname = %s",
        (schema,),
    )
    if not relations:
        return None
    columns = server.rows(
        "SELECT attname FROM pg_catalog.pg_attribute WHERE attnum > 0 AND attrelid = to_regclass(%s) ORDER BY attnum",
        (f"{quoted(schema)}.mirror",),
    )
    names = tuple(name for (name,) in columns)
    if not {"layout", "mirrored_at"} <= set(names):
        raise Refused(f"the schema {schema} is there, and isn't a mirror's")
    rows = server.rows(f"SELECT * FROM {quoted(schema)}.mirror WHERE layout = {LAYOUT}")
    if len(rows) != 1 or names != (*_NAMES, "mirrored_at"):
        raise Refused(
            f"the schema {schema} is a mirror's of another layout than {LAYOUT}, or has no note; drop it to mirror anew"
        )
    return Note(*rows[0][:-1])


def make_note(server: Server, schema: str) -> None:
    """Makes the schema, and the table of the note."""
    server.run(f"CREATE SCHEMA IF NOT EXISTS {quoted(schema)}")
    comment_on(server, f"SCHEMA {quoted(schema)}", "A mirror of a warehouse, which wh-mirror alone writes")
    columns = ", ".join(f"{quoted(field.name)} {_TYPES[field.type]} NOT NULL" for field in fields(Note))
    server.run(f"CREATE TABLE {quoted(schema)}.mirror ({columns}, mirrored_at timestamp with time zone NOT NULL)")
    comment_on(server, f"TABLE {quoted(schema)}.mirror", "how far the mirror is: one row")


def write_note(server: Server, schema: str, note: Note) -> None:
    """Keeps a note in the place of the one before."""
    server.run(f"DELETE FROM {quoted(schema)}.mirror")
    places = ", ".join(["%s"] * len(_NAMES))
    server.run(
        f"INSERT INTO {quoted(schema)}.mirror ({listed(_NAMES)}, mirrored_at) VALUES ({places}, clock_timestamp())",
        astuple(note),
    )
