"""What readers of a chain find, and wait for: while it is mirrored, after a kill, and which servers a question asks."""

import os
import random
import re
import subprocess
import time
from decimal import Decimal
from unittest.mock import patch

import psycopg
from databases import MIRROR, MirrorTest, ask, connected, new_database, run, run_mirror, seconds_of
from reader import Reader
from worked_chain import delivered, worked_files

# databases has put the mirror's own folder on the path
from wh_mirror.chain import _Run
from wh_mirror.faults import Failed

NIGHTS = 8
KILLS = 8
OLD_SALES = "ticket,line,day,store,product,customer,quantity,amount,cost"
NEW_SALES = f"{OLD_SALES},discount"

# By file the last command, and the lines and the amount that go with it.
OF_EACH_FILE = """
    SELECT string_agg(concat_ws(' ', file, commands, lines, amount), ', ' ORDER BY file)
    FROM (SELECT file, count(*) AS lines, sum(amount) AS amount FROM wh.sales_as_was GROUP BY file) AS sold
    JOIN wh.mirror USING (file)
"""


class ReadersTest(MirrorTest):
    """A chain of two files on one server or several."""

    def setUp(self) -> None:
        super().setUp()
        self.january, self.february = worked_files(self.folder)
        self.dsn = new_database()
        self.sent = 0
        # lines and amounts, by the worked example
        self.sold = {"wh_2026_01": [5, 4, Decimal("15.00")], "wh_2026_02": [6, 4, Decimal("240.00")]}

    def words(self, *more: str) -> tuple[str, ...]:
        return "--chain", self.dsn, self.january, self.february, *more

    def on_two_more(self) -> list[str]:
        """The words for a server each."""
        return ["--on", f"{new_database(1)}={self.january}", "--on", f"{new_database(2)}={self.february}"]

    def sell(self, schema: str, day: str) -> None:
        """One more sale, of 1.00, in a file."""
        self.sent += 1
        path, header, rest = (
            (self.january, OLD_SALES, "") if schema == "wh_2026_01" else (self.february, NEW_SALES, ",0")
        )
        delivered(path, {"sales": f"{header}\nN{self.sent},1,{day},BERN,COLA,ANNA,1,1.00,0.50{rest}\n"})
        figures = self.sold[schema]
        self.sold[schema] = [figures[0] + 1, figures[1] + 1, figures[2] + 1]

    def text_of(self, schema: str) -> str:
        return " ".join(map(str, (schema, *self.sold[schema])))

    def state(self) -> str:
        """What a reader finds once all is mirrored."""
        return ", ".join(map(self.text_of, sorted(self.sold)))


class Waiting(ReadersTest):
    """Who waits for whom."""

    def test_a_night_waits_for_no_reader(self) -> None:
        self.mirrors(*self.words())
        self.sell("wh_2026_02", "2026-02-24")
        with psycopg.connect(self.dsn) as reader:
            reader.execute("SELECT count(*) FROM wh.sales_as_was, wh.sales_as_is, wh.sales_by_month")
            self.mirrors(*self.words("--wait", "1"))
        self.assertEqual(ask(self.dsn, OF_EACH_FILE), [(self.state(),)])

    def test_a_file_waits_for_no_other(self) -> None:
        """Somebody's unfinished work on one file's tables is in the way of its own mirror alone."""
        self.mirrors(*self.words())
        before = self.text_of("wh_2026_01")
        for schema in self.sold:
            self.sell(schema, "2026-02-24" if schema == "wh_2026_02" else "2026-01-24")
        with psycopg.connect(self.dsn) as another:
            another.execute("LOCK TABLE wh_2026_01.fact IN SHARE MODE")
            line = "refused: wh_2026_01: timed out waiting for another mirror, or for a reader; .*"
            done = run_mirror(*self.words("--wait", "1"))
            self.assertRegex(done.stderr, rf"\A{line}\n\Z")
            self.assertEqual(ask(self.dsn, OF_EACH_FILE), [(f"{before}, {self.text_of('wh_2026_02')}",)])
        self.mirrors(*self.words("--wait", "1"))
        self.assertEqual(ask(self.dsn, OF_EACH_FILE), [(self.state(),)])

    def test_a_new_month_waits_for_a_reader(self) -> None:
        """And nobody else waits for long meanwhile."""
        self.mirrors(*self.words())
        before = self.state()
        self.sell("wh_2026_02", "2026-03-24")
        with psycopg.connect(self.dsn) as reader:
            reader.execute("SELECT count(*) FROM wh.sales_as_is")
            process = subprocess.Popen([MIRROR, *self.words("--wait", "3")], stderr=subprocess.PIPE, text=True)
            slowest = 0.0
            while process.poll() is None:
                slowest = max(slowest, seconds_of(lambda: self.assertEqual(ask(self.dsn, OF_EACH_FILE), [(before,)])))
            self.assertRegex(process.communicate()[1], r"\Arefused: timed out waiting for .*\n\Z")
            self.assertLess(slowest, 1.5)
        self.mirrors(*self.words())
        self.assertEqual(ask(self.dsn, OF_EACH_FILE), [(self.state(),)])

    def test_nothing_is_made_anew(self) -> None:
        """Neither where nothing is new nor in a night of known months."""
        chains = {self.dsn: self.words(), (other := new_database()): ("--chain", other, *self.words()[2:])}
        chains[other] = (*chains[other], *self.on_two_more())
        made = "SELECT oid::text, xmin::text FROM pg_class WHERE relnamespace = to_regnamespace('wh') ORDER BY oid"
        for dsn, words in chains.items():
            self.mirrors(*words)
            before = ask(dsn, made)
            self.mirrors(*words)
            self.assertEqual(ask(dsn, made), before)
        self.sell("wh_2026_02", "2026-02-24")
        for dsn, words in chains.items():
            before = ask(dsn, made)
            self.mirrors(*words)
            self.assertEqual(ask(dsn, made), before)

    def test_a_view_that_others_stand_on(self) -> None:
        """It stays where a file or a month comes, which have no other columns."""
        self.mirrors(*self.words())
        run(self.dsn, "CREATE VIEW own AS SELECT sum(amount) FROM wh.sales_as_was")
        self.sell("wh_2026_02", "2026-03-01")
        march = str(self.folder / "2026-03.wh")
        os.link(self.january, march)
        self.mirrors(*self.words()[:3], march, self.february)
        self.assertEqual(ask(self.dsn, "SELECT * FROM own"), [(Decimal("271.00"),)])

    def test_a_reader_with_rights_to_the_chain_alone(self) -> None:
        role = f"reader_{os.getpid()}"
        run(self.dsn, f"CREATE ROLE {role} LOGIN")
        for more in ([], ["--on", f"{new_database(1)}={self.january}"]):
            dsn = self.dsn = new_database()
            self.mirrors(*self.words(*more))
            run(dsn, f"GRANT USAGE ON SCHEMA wh TO {role}")
            run(dsn, f"GRANT SELECT ON ALL TABLES IN SCHEMA wh TO {role}")
            self.assertEqual(ask(dsn.replace("user=postgres", f"user={role}"), OF_EACH_FILE), [(self.state(),)])


class Whole(ReadersTest):
    """Readers find whole nights."""

    def nights(self, *more: str) -> tuple[set[str], list[set[str]]]:
        """Nights while somebody reads: the states of all files after each, and by file the states of each."""
        self.mirrors(*self.words(*more))
        nights, files = {self.state()}, [{self.text_of(it)} for it in sorted(self.sold)]
        reader = Reader(self.dsn, OF_EACH_FILE)
        reader.start()
        self.addCleanup(reader.end)
        for night in range(NIGHTS):
            # a new month in each
            self.sell("wh_2026_01", f"2026-{night + 3:02}-01")
            self.sell("wh_2026_02", f"2026-{night + 4:02}-01")
            self.mirrors(*self.words(*more))
            nights.add(self.state())
            for states, schema in zip(files, sorted(self.sold)):
                states.add(self.text_of(schema))
        reader.end()
        self.assertIsNone(reader.fault)
        self.found = {answer for (answer,) in reader.answers}
        self.assertGreater(len(self.found), NIGHTS // 3)
        return nights, files

    def of_each_file(self, *more: str) -> None:
        _, files = self.nights(*more)
        for states, found in zip(files, zip(*(answer.split(", ") for answer in self.found))):
            self.assertLessEqual(set(found), states)

    def together(self, *more: str) -> None:
        nights, _ = self.nights("--together", *more)
        self.assertLessEqual(self.found, nights)

    def test_one_server(self) -> None:
        self.of_each_file()

    def test_three_servers(self) -> None:
        self.of_each_file(*self.on_two_more())

    def test_together(self) -> None:
        self.together()

    def test_together_on_three_servers(self) -> None:
        self.together(*self.on_two_more())


class Kills(ReadersTest):
    """Mirrors that are killed at random moments."""

    def killed(self, *more: str) -> None:
        """Each file has the night before or after, no question leaves sales out, and the next mirror ends it."""
        chance = random.Random(len(more))
        took = seconds_of(lambda: run_mirror(*self.words(*more)))
        killed = 0
        for night in range(KILLS):
            before = {schema: self.text_of(schema) for schema in self.sold}
            self.sell("wh_2026_01", f"2026-{night + 3:02}-01")
            self.sell("wh_2026_02", f"2026-{night + 4:02}-01")
            silent = {"stdout": subprocess.DEVNULL, "stderr": subprocess.DEVNULL}
            process = subprocess.Popen([MIRROR, *self.words(*more)], **silent)
            time.sleep(chance.uniform(0.2, took))
            killed += process.poll() is None
            process.kill()
            process.wait()
            with self.subTest(night=night):
                for found, schema in zip(ask(self.dsn, OF_EACH_FILE)[0][0].split(", "), sorted(self.sold)):
                    self.assertIn(found, (before[schema], self.text_of(schema)))
                self.assert_no_month_is_left_out()
                took = seconds_of(lambda: self.mirrors(*self.words(*more)))
                self.assertEqual(ask(self.dsn, OF_EACH_FILE), [(self.state(),)])
                self.assert_no_month_is_left_out()
        self.assertGreater(killed, KILLS / 3)

    def assert_no_month_is_left_out(self) -> None:
        """Questions that bound the day have the sales that the one without bounds has."""
        bounded = " UNION ALL ".join(
            f"SELECT {month}, count(*) FROM wh.sales_as_was WHERE day BETWEEN {month * 100} AND {month * 100 + 99}"
            for month in range(202601, 202613)
        )
        expected = dict(ask(self.dsn, "SELECT day / 100, count(*) FROM wh.sales_as_was GROUP BY 1"))
        self.assertEqual({month: lines for month, lines in ask(self.dsn, bounded) if lines}, expected)
        by_month = ask(self.dsn, "SELECT replace(month, '-', '')::integer, lines FROM wh.sales_by_month")
        self.assertEqual(dict(by_month), expected)

    def test_one_server(self) -> None:
        self.killed()

    def test_three_servers(self) -> None:
        self.killed(*self.on_two_more())

    def test_a_stop_between_the_servers(self) -> None:
        """Servers don't commit together: one has the sale of a new month, of which the chain's own doesn't know."""
        words = self.words(*self.on_two_more())
        self.mirrors(*words)
        before = self.text_of("wh_2026_01")
        self.sell("wh_2026_02", "2026-07-01")
        with patch("wh_mirror.chain._Run._commit", _commit_of_the_others):
            self.refuses(3, "failed: stopped", *words)
        self.assertEqual(ask(self.dsn, OF_EACH_FILE), [(f"{before}, {self.text_of('wh_2026_02')}",)])
        self.assert_no_month_is_left_out()
        self.mirrors(*words)
        self.assertEqual(ask(self.dsn, OF_EACH_FILE), [(self.state(),)])
        self.assert_no_month_is_left_out()


def _commit_of_the_others(run: _Run) -> None:
    for place in run._all_places()[:-1]:
        place.server.commit()
    raise Failed("stopped")


class Plans(ReadersTest):
    """Which schemas and servers a question reaches."""

    def plan(self, question: str, by_file: str = "on") -> str:
        connected(self.dsn).execute(f"SET enable_partitionwise_aggregate = {by_file}")
        return "\n".join(line for (line,) in ask(self.dsn, f"EXPLAIN VERBOSE {question}"))

    def assert_schemas(self, question: str, schemas: set[str]) -> None:
        """A question reaches the tables or foreign tables of these files alone."""
        found = re.findall(r"(?:on|from|FROM) (?:wh\.)?(wh_2026_\d\d)", self.plan(question))
        self.assertEqual(set(found), schemas, self.plan(question))

    def assert_months_are_sought_where_they_are(self) -> None:
        january, february = {"wh_2026_01"}, {"wh_2026_02"}
        for view in ("sales_as_was", "sales_as_is"):
            asked = f"SELECT product_brand, sum(amount) FROM wh.{view} WHERE day BETWEEN"
            self.assert_schemas(f"{asked} 20260201 AND 20260228 GROUP BY 1", february)
            # February's file has a late sale of January
            self.assert_schemas(f"{asked} 20260101 AND 20260131 GROUP BY 1", january | february)
            self.assert_schemas(f"{asked} 20260301 AND 20261231 GROUP BY 1", set())
        self.assert_schemas("SELECT * FROM wh.sales_by_month WHERE month = '2026-02'", february)

    def test_months_on_one_server(self) -> None:
        self.mirrors(*self.words())
        self.assert_months_are_sought_where_they_are()

    def test_months_on_three_servers(self) -> None:
        self.mirrors(*self.words(*self.on_two_more()))
        self.assert_months_are_sought_where_they_are()

    def test_sums_on_all_servers_at_once(self) -> None:
        self.mirrors(*self.words(*self.on_two_more()))
        year = "FROM wh.sales_as_is WHERE day BETWEEN 20260101 AND 20261231"
        by_file = f"SELECT file, product_brand, sum(amount) AS amount {year} GROUP BY file, product_brand"
        plan = self.plan(f"SELECT product_brand, sum(amount) FROM ({by_file}) AS by_file GROUP BY product_brand")
        self.assertEqual(plan.count("Async Foreign Scan"), 2, plan)
        remote = re.findall(r"Remote SQL: SELECT file, product_brand, sum\(amount\) .* GROUP BY 1, 2", plan)
        self.assertEqual(len(remote), 2, plan)
        plan = self.plan(f"SELECT product_brand, sum(amount) {year} GROUP BY 1", "off")
        self.assertEqual(plan.count("Async Foreign Scan"), 2, plan)

