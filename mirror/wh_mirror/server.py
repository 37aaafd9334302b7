"""A connection to a PostgreSQL server, in the one transaction of a mirror."""

import secrets
import time
from collections.abc import Iterator, Sequence
from contextlib import contextmanager
from typing import Any

import psycopg
from psycopg.conninfo import conninfo_to_dict

from wh_mirror.faults import Failed, Fault, Refused

_SETTINGS = {
    # joins of whole tables and the making of indexes stay in memory
    "work_mem": "'256MB'",
    "maintenance_work_mem": "'256MB'",
    # to compile a question over many partitions takes longer than it saves
    "jit": "off",
    # a server whose mirror was killed notices it, and takes its changes back
    "client_connection_check_interval": "'1s'",
}


def quoted(name: str) -> str:
    """A name as SQL writes it."""
    return '"' + name.replace('"', '""') + '"'


def literal(text: str) -> str:
    """A text as SQL writes it, whatever the server's settings are."""
    return "E'" + text.replace("\\", "\\\\").replace("'", "''") + "'"


def listed(names: Sequence[str], prefix: str = "") -> str:
    """Columns, separated by commas."""
    return ", ".join(prefix + quoted(name) for name in names)


def comment_on(server: "Server", thing: str, text: str | None) -> None:
    """Puts a comment on a thing, where there is one."""
    if text:
        server.run(f"COMMENT ON {thing} IS {literal(text)}")


class Server:
    """An open connection; what wasn't committed is taken back when it is closed."""

    def __init__(self, dsn: str, wait: int) -> None:
        """Connects; a statement waits so many seconds at most for those who read or write the same."""
        # what faults call it
        self.name = _name_of(dsn)
        self._wait = wait
        try:
            self._connection = psycopg.connect(dsn, client_encoding="utf8", application_name="wh-mirror")
        except (psycopg.Error, UnicodeError) as error:
            raise Failed(f"{self.name}: {_first_line(error)}") from error
        try:
            # what another mirror committed while its lock was waited for is seen then
            self._connection.isolation_level = psycopg.IsolationLevel.READ_COMMITTED
            for name, value in (_SETTINGS | {"lock_timeout": f"'{wait}s'"}).items():
                self.run(f"SET {name} = {value}")
            if self.value("SHOW server_encoding") != "UTF8":
                raise Refused(f"{self.name}: the encoding of the database isn't UTF8")
            # a transaction that is taken back doesn't take the settings with it
            self.commit()
        except BaseException:
            self.close()
            raise

    def parameters(self) -> dict[str, str]:
        """What the connection was made with, as a connection string names it."""
        info = self._connection.info
        return {"user": info.user} | info.get_parameters() | ({"password": info.password} if info.password else {})

    def close(self) -> None:
        """Takes back what wasn't committed."""
        self._connection.close()

    def commit(self) -> None:
        """Makes all changes seen at once."""
        with self._telling():
            self._connection.commit()

    def run(self, text: str, values: Sequence[Any] | None = None) -> int:
        """Runs a statement, and answers how many rows it concerned."""
        with self._telling():
            return self._connection.execute(text.encode(), values).rowcount

    def run_patiently(self, statements: Sequence[str]) -> None:
        """Runs statements that take locks, all or none at a time.

        None is kept while another is waited for. So nobody who has one of the things and wants the next is waited for
        in a circle, and those who come later needn't wait for long.
        """
        end = time.monotonic() + self._wait
        while True:
            self.run("SAVEPOINT patience")
            try:
                self.run("SET LOCAL lock_timeout = '300ms'")
                for text in statements:
                    self.run(text)
                self.run(f"SET LOCAL lock_timeout = '{self._wait}s'")
                return
            except Refused:
                if time.monotonic() > end:
                    raise
                self.run("ROLLBACK TO SAVEPOINT patience")
                time.sleep(0.1)

    def rows(self, text: str, values: Sequence[Any] | None = None) -> list[tuple[Any, ...]]:
        """The rows of a question."""
        with self._telling():
            return self._connection.execute(text.encode(), values).fetchall()

    def value(self, text: str, values: Sequence[Any] | None = None) -> Any:
        """The first value of the only row of a question."""
        return self.rows(text, values)[0][0]

    def copy(self, target: str, names: Sequence[str], lines: Iterator[bytes]) -> None:
        """Copies lines in the text format of COPY into a table."""
        with self._telling(), self._connection.cursor() as cursor:
            with cursor.copy(f"COPY {target} ({listed(names)}) FROM STDIN".encode()) as copy:
                for some in lines:
                    copy.write(some)

    def copy_out(self, question: str) -> bytes:
        """The rows of a question in the text format of COPY."""
        with self._telling(), self._connection.cursor() as cursor:
            with cursor.copy(f"COPY ({question}) TO STDOUT".encode()) as copy:
                return b"".join(copy)

    def insert(self, target: str, rows: Sequence[tuple[Any, ...]]) -> None:
        """Puts a few rows of numbers into a table."""
        with self._telling(), self._connection.cursor() as cursor:
            with cursor.copy(f"COPY {target} FROM STDIN".encode()) as copy:
                for row in rows:
                    copy.write_row(row)

    def lock(self, name: str) -> None:
        """Waits until no other mirror has this name, and keeps it to the end of the transaction."""
        self.run("SELECT pg_advisory_xact_lock(hashtextextended(%s, 0))", (f"wh-mirror {name}",))

    def hold(self, name: str) -> None:
        """The same to the end of the connection."""
        self.run("SELECT pg_advisory_lock(hashtextextended(%s, 0))", (f"wh-mirror {name}",))

    def is_same_database_as(self, other: "Server") -> bool:
        """Whether two connections are to one database: only there is a lock of one in the other's way."""
        key = secrets.randbits(62)
        self.run("SELECT pg_advisory_lock(%s)", (key,))
        is_free = other.value("SELECT pg_try_advisory_lock(%s)", (key,))
        for server in (self, other) if is_free else (self,):
            server.run("SELECT pg_advisory_unlock(%s)", (key,))
        return not is_free

    @contextmanager
    def _telling(self) -> Iterator[None]:
        """Tells what the server refuses in one line."""
        try:
            yield
        except psycopg.errors.LockNotAvailable as error:
            raise Refused("timed out waiting for another mirror, or for a reader; --wait tells how long") from error
        except (psycopg.errors.IntegrityError, psycopg.errors.DataError) as error:
            raise Failed(f"a row isn't what the star promises: {_first_line(error)}") from error
        except psycopg.Error as error:
            if isinstance(error.__context__, Fault):
                # the server only says that a copy was given up, and not why
                raise error.__context__ from None
            raise Failed(f"{self.name}: {_first_line(error)}") from error


def _name_of(dsn: str) -> str:
    """The server and database of a connection string, without who connects and how."""
    try:
        given = conninfo_to_dict(dsn)
    except psycopg.Error:
        given = {}
    named = (f"{key}={given[key]}" for key in ("host", "hostaddr", "port", "dbname") if key in given)
    return " ".join(["server", *named])


def _first_line(error: Exception) -> str:
    """What a server says, without the lines that explain it further."""
    diagnosed = getattr(getattr(error, "diag", None), "message_primary", None)
    return diagnosed or (str(error).strip().splitlines() or [type(error).__name__])[0]
