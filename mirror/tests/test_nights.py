"""A mirror after each of thirty nights: the same tables and reports, nothing written twice, no reader in between."""

import re

from databases import MirrorTest, ask, new_database, versions_of
from reader import Reader, totals_of
from shop import Shop

NIGHTS = 30
class Nights(MirrorTest):
    """Thirty nights of a shop."""

    def test_every_night(self) -> None:
        shop, dsn = Shop(self.folder), new_database()
        self.mirrors(shop.path, dsn)
        before = versions_of(dsn, shop.tables)
        reader = Reader(dsn)
        # what a reader finds before the first sale
        expected = {None, (1, 0, None)}
        reader.start()
        self.addCleanup(reader.end)
        for night in range(1, NIGHTS + 1):
            tables, commands = shop.tables, shop.status()["commands"]
            shop.night()
            if shop.tables != tables:
                # the views change over to another table, in which a snapshot of before finds no sales
                expected.add((commands, 0, None))
            self.mirrors(shop.path, dsn)
            expected.add(totals_of(shop))
            with self.subTest(night=night):
                self.assert_same_tables(shop, dsn)
                self.assert_same_reports(shop, dsn)
                after = versions_of(dsn, shop.tables)
                same = before.keys() & after.keys()
                self.assertEqual([row for row in same if before[row] != after[row]], [], "written again")
                before = after
        self.assert_found_nights(reader, expected, NIGHTS // 3)

    def test_nothing_new(self) -> None:
        shop, dsn = self.shop_after_a_night(), new_database()
        self.mirrors(shop.path, dsn)
        self.assertEqual(self.mirrors(shop.path, dsn), f"nothing new: {shop.status()['commands']} commands\n")

    def test_counts(self) -> None:
        """A late record puts a command, a change and perhaps a row, and is told so."""
        shop, dsn = Shop(self.folder), new_database()
        header = "id,day,description,brand,category,department,launched,supplier\n"
        shop.load("product", header + "P1,2024-01-01,a,b,c,d,e,f\n")
        shop.load(
            "sales",
            "ticket,line,day,store,product,customer,quantity,amount,cost\n"
            "T1,1,2024-01-31,S1,P1,,1,2.00,1.00\nT1,2,2024-03-01,S1,P1,,1,2.00,1.00\n",
        )
        self.mirrors(shop.path, dsn)
        shop.load("product", header + "P1,2024-02-01,a,B,c,d,e,f\n")
        self.assertEqual(
            self.mirrors(shop.path, dsn),
            "command: 1 put, 0 changed, 0 removed\n"
            "change: 1 put, 0 changed, 0 removed\n"
            "product: 1 put, 1 changed, 0 removed\n"
            "fact: 0 put, 1 changed, 0 removed\n"
            "mirrored: 4 commands\n",
        )

    def test_void(self) -> None:
        """A void takes a sale away, and is told so."""
        shop, dsn = Shop(self.folder), new_database()
        shop.load(
            "sales",
            "ticket,line,day,store,product,customer,quantity,amount,cost\n"
            "T1,1,2024-01-31,S1,P1,,1,2.00,1.00\nT1,2,2024-03-01,S1,P1,,1,2.00,1.00\n",
        )
        shop.upgrade()
        self.mirrors(shop.path, dsn)
        shop.load("void", "ticket,line\nT1,2\n")
        self.assertEqual(
            self.mirrors(shop.path, dsn),
            "command: 1 put, 0 changed, 0 removed\n"
            "fact2: 0 put, 0 changed, 1 removed\n"
            "void: 1 put, 0 changed, 0 removed\n"
            "mirrored: 4 commands\n",
        )
        self.assert_same_tables(shop, dsn)
        self.assert_same_reports(shop, dsn)

    def test_promises(self) -> None:
        """Keys are declared, tables and columns say what they are, and months are read by themselves."""
        shop, dsn = self.shop_after_a_night(), new_database()
        self.mirrors(shop.path, dsn)
        keys = ask(
            dsn,
            "SELECT conrelid::regclass::text, confrelid::regclass::text, count(*) FROM pg_constraint"
            " WHERE contype = 'f' AND conparentid = 0 AND connamespace = 'wh'::regnamespace"
            " GROUP BY 1, 2 ORDER BY 1, 2",
        )
        self.assertEqual(
            keys,
            [
                ("wh.change", "wh.command", 1),
                ("wh.change", "wh.member", 1),
                ("wh.customer", "wh.profile", 1),
                *(("wh.fact", f"wh.{name}", 1) for name in ("calendar", "customer", "product", "profile", "store")),
            ],
        )
        silent = ask(
            dsn,
            "SELECT relname, attname FROM pg_class JOIN pg_attribute ON attrelid = pg_class.oid AND attnum > 0"
            " WHERE relnamespace = 'wh'::regnamespace AND relkind IN ('r', 'p', 'v') AND NOT relispartition"
            " AND relname NOT IN ('mirror', 'meta') AND col_description(pg_class.oid, attnum) IS NULL"
            " AND attname NOT IN ('iso', 'to_day', 'line')",
        )
        self.assertEqual(silent, [])
        whole = ask(
            dsn,
            "SELECT relname FROM pg_class WHERE relnamespace = 'wh'::regnamespace AND relkind IN ('r', 'p', 'v')"
            " AND NOT relispartition AND obj_description(oid) IS NULL",
        )
        self.assertEqual(whole, [])
        months = ask(
            dsn, "SELECT DISTINCT relname::text FROM wh.fact JOIN pg_class ON pg_class.oid = fact.tableoid ORDER BY 1"
        )
        days = {f"fact_{day[:4]}_{day[4:6]}" for _, _, day, *_ in shop.dump("fact")[1:]}
        self.assertEqual([name for (name,) in months], sorted(days))
        plan = "\n".join(
            line
            for (line,) in ask(
                dsn, "EXPLAIN SELECT sum(amount) FROM wh.sales_as_was WHERE day BETWEEN 20240301 AND 20240430"
            )
        )
        self.assertEqual(set(re.findall(r"fact_\d{4}_\d\d", plan)), {"fact_2024_03", "fact_2024_04"})
