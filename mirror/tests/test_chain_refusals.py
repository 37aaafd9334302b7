"""What is told where a chain can't be mirrored, and what of it is changed then."""

import os
import sqlite3
from contextlib import closing
from decimal import Decimal
from pathlib import Path

import psycopg
from databases import MirrorTest, ask, call_mirror, everything_in, new_database, run
from worked_chain import delivered, worked_files

NO_SERVER = "host=/nonexistent dbname=none"
SALES = "ticket,line,day,store,product,customer,quantity,amount,cost"


class Words(MirrorTest):
    """Words that are no chain."""

    def mistakes(self, line: str, *words: str) -> None:
        self.refuses(4, f"error: {line}", "--chain", NO_SERVER, *words)

    def test_a_file_that_is_given_twice(self) -> None:
        self.mistakes(r"b/\.\./a\.wh: the file is given twice", "a.wh", "b/../a.wh")

    def test_two_files_of_one_name(self) -> None:
        self.mistakes(r"a/1\.wh and b/1\.wh would both be wh_1; --name gives another", "a/1.wh", "b/1.wh")
        self.mistakes(r"a\.wh and b\.wh would both be wh_a; .*", "a.wh", "b.wh", "--name", "b.wh=wh_a")

    def test_a_name_that_is_no_identifier(self) -> None:
        for file in ("Januar.wh", "may 2026.wh", "käse.wh", "a" * 40 + ".wh"):
            with self.subTest(file=file):
                self.mistakes(r".*\.wh: .* is no name for a schema .*; --name gives another", file)
        for name in ("wh", "pg_a", "1a", "A", ""):
            with self.subTest(name=name):
                self.mistakes(r"a\.wh: .* is no name for a schema .*", "a.wh", "--name", f"a.wh={name}")

    def test_files_that_are_not_in_the_chain(self) -> None:
        self.mistakes(r"--name b\.wh=wh_b: no file of the chain stands before a `=`", "a.wh", "--name", "b.wh=wh_b")
        self.mistakes(r"--on host=two: no file of the chain stands behind a `=`", "a.wh", "--on", "host=two")
        self.mistakes(r"--on b\.wh: the file isn't in the chain", "a.wh", "--on", "host=two=a.wh", "b.wh")
        self.mistakes(r"--on: a\.wh is given two servers", "a.wh", "--on", "host=x=a.wh", "--on", "host=y=a.wh")

    def test_no_chain(self) -> None:
        for words in (["--together"], ["--name", "a=b"], ["--on", "x=a"], ["c"]):
            self.refuses(4, "error: the words are FILE and DSN, or --chain DSN and files; .*", "a", "b", *words)


class Servers(MirrorTest):
    """Servers, schemas and files that can't be used."""

    def setUp(self) -> None:
        super().setUp()
        self.january, self.february = worked_files(self.folder)
        self.dsn = new_database()

    def chain(self, *more: str) -> tuple[str, ...]:
        return "--chain", self.dsn, self.january, self.february, *more

    def unchanged(self, status: int, line: str, *words: str) -> None:
        """The mirror ends so, and the database holds what it held."""
        before = everything_in(self.dsn)
        self.refuses(status, line, *words)
        self.assertEqual(everything_in(self.dsn), before)

    def test_a_server_that_is_down(self) -> None:
        line = "failed: server host=/nonexistent dbname=none: connection is bad: No such file or directory"
        self.unchanged(3, line, *self.chain("--on", f"{NO_SERVER}={self.january}"))
        self.mirrors(*self.chain())
        self.unchanged(3, line, *self.chain("--on", f"{NO_SERVER}={self.january}"))

    def test_a_server_that_readers_do_not_reach(self) -> None:
        words = self.chain("--on", f"{new_database(1)}={self.january}")
        self.mirrors(*words)
        run(self.dsn, "ALTER SERVER wh_2026_01 OPTIONS (SET host '/nonexistent')")
        with self.assertRaises(psycopg.OperationalError):
            ask(self.dsn, "SELECT count(*) FROM wh.sales_as_was")
        # what nothing is new in is looked at, and put right
        self.assertIn("wh_2026_01 nothing new: 5 commands\n", self.mirrors(*words))
        self.assertEqual(ask(self.dsn, "SELECT count(*) FROM wh.sales_as_was"), [(8,)])

    def test_a_server_that_asks_for_no_password(self) -> None:
        """Only a superuser may have it read for others."""
        other, role = new_database(1), f"writer_{os.getpid()}"
        run(self.dsn, f"CREATE ROLE {role} LOGIN")
        run(other, f"CREATE ROLE {role} LOGIN")
        for dsn in (self.dsn, other):
            run(dsn, f"GRANT CREATE ON DATABASE {dsn.partition('dbname=')[2]} TO {role}")
        run(self.dsn, "CREATE EXTENSION postgres_fdw")
        run(self.dsn, f"GRANT USAGE ON FOREIGN DATA WRAPPER postgres_fdw TO {role}")
        dsn, other = (it.replace("user=postgres", f"user={role}") for it in (self.dsn, other))
        done = call_mirror("--chain", dsn, self.january, "--on", f"{other}={self.january}")
        self.assertEqual(done.returncode, 3)
        self.assertRegex(done.stderr, r"\Afailed: server .*: password .* required\n\Z")

    def test_another_schema_of_the_name(self) -> None:
        run(self.dsn, "CREATE SCHEMA wh CREATE TABLE chain (name text)")
        self.unchanged(2, "refused: server .*: the schema wh is there, and isn't a chain's", *self.chain())

    def test_a_single_mirror_in_the_way(self) -> None:
        self.mirrors(self.january, self.dsn)
        self.unchanged(2, "refused: server .*: the schema wh is there, and isn't a chain's", *self.chain())
        self.mirrors(*self.chain("--schema", "shop"))

    def test_a_single_mirror_of_a_file_of_the_chain(self) -> None:
        self.mirrors(self.january, self.dsn, "--schema", "wh_2026_01")
        self.mirrors(*self.chain())
        self.assertEqual(ask(self.dsn, "SELECT count(*) FROM wh.sales_as_was"), [(8,)])
        line = "refused: the schema wh_2026_01 belongs to the chain wh"
        self.unchanged(2, line, self.january, self.dsn, "--schema", "wh_2026_01")
        self.unchanged(2, "refused: the schema wh is there, and isn't a mirror's", self.january, self.dsn)

    def test_two_chains_in_one_database(self) -> None:
        self.mirrors(*self.chain())
        words = ("--chain", self.dsn, self.january, "--schema", "shop", "--name", f"{self.january}=wh_2026_01")
        self.unchanged(2, "refused: server .*: the schema wh_2026_01 belongs to the chain wh", *words)
        self.mirrors(*self.chain("--schema", "shop"))
        files = ask(self.dsn, "SELECT DISTINCT file FROM shop.sales_as_was ORDER BY 1")
        self.assertEqual(files, [("shop_2026_01",), ("shop_2026_02",)])

    def test_another_chain(self) -> None:
        other = new_database(1)
        self.mirrors(*self.chain("--on", f"{other}={self.january}"))
        words = ("--chain", new_database(), self.january, "--on", f"{other}={self.january}")
        self.refuses(2, "refused: server .*: the schema wh belongs to another chain; --restored .*", *words)
        self.mirrors(*words, "--restored")

    def test_a_file_that_is_not_given_any_more(self) -> None:
        self.mirrors(*self.chain())
        line = "refused: server .*: wh_2026_01 is in the chain, and isn't given; DROP SCHEMA wh_2026_01 CASCADE .*"
        self.unchanged(2, line, "--chain", self.dsn, self.february)
        run(self.dsn, "DROP SCHEMA wh_2026_01 CASCADE")
        self.mirrors("--chain", self.dsn, self.february)
        self.assertEqual(ask(self.dsn, "SELECT DISTINCT file FROM wh.sales_as_was"), [("wh_2026_02",)])

    def test_a_file_elsewhere_that_is_not_given_any_more(self) -> None:
        self.mirrors(*self.chain("--on", f"{new_database(1)}={self.january}"))
        line = "refused: server .*: wh_2026_01 is in the chain, and isn't given; DROP SERVER wh_2026_01 CASCADE .*"
        self.unchanged(2, line, "--chain", self.dsn, self.february)
        run(self.dsn, "DROP SERVER wh_2026_01 CASCADE")
        # the chain has one server now
        self.mirrors("--chain", self.dsn, self.february)
        self.assertEqual(ask(self.dsn, "SELECT DISTINCT file FROM wh.sales_as_is"), [("wh_2026_02",)])

    def test_a_damaged_file(self) -> None:
        """The newest file has its night, the damaged one none; and together none has."""
        self.mirrors(*self.chain())
        delivered(self.february, {"store": "id,day,city,region\nBERN,2026-01-01,Bern,East\n"})
        delivered(self.january, {"sales": f"{SALES}\nJ9,1,2026-01-20,BERN,COLA,,1,256.00,128.00\n"})
        with closing(sqlite3.connect(self.january)) as connection, connection:
            connection.execute("UPDATE fact SET amount = 1.5 WHERE ticket = 'J9'")
        line = rf"failed: wh_2026_01: {self.january}: damaged, fact"
        self.unchanged(3, line, *self.chain("--together"))
        done = call_mirror(*self.chain())
        self.assertEqual((done.returncode, done.stderr), (3, f"{line}\n"))
        self.assertEqual(done.stdout.splitlines()[-1], "wh_2026_02 mirrored: 7 commands")
        rows = ask(self.dsn, "SELECT store_region, count(*), sum(amount) FROM wh.sales_as_is GROUP BY 1")
        self.assertEqual(rows, [("East", 8, Decimal("255.00"))])

    def test_rows_that_are_missing(self) -> None:
        self.mirrors(*self.chain())
        run(self.dsn, "DELETE FROM wh_2026_01.fact WHERE ticket = 'J2'")
        line = "refused: wh_2026_01: the mirror's table fact has 3 rows, where the commands give 4; --whole .*"
        done = call_mirror(*self.chain())
        self.assertEqual((done.returncode, done.stdout), (2, "wh_2026_02 nothing new: 6 commands\n"))
        self.assertRegex(done.stderr, rf"\A{line}\n\Z")
        self.mirrors(*self.chain("--whole"))
        self.assertEqual(ask(self.dsn, "SELECT count(*) FROM wh.sales_as_was"), [(8,)])

    def test_no_file(self) -> None:
        Path(self.january).unlink()
        self.refuses(3, r"failed: wh_2026_01: .*2026-01\.wh: no such file", *self.chain("--together"))
        self.assertEqual(ask(self.dsn, "SELECT to_regnamespace('wh')::text"), [(None,)])
