"""Files of format 2, which `fact2` and `void` belong to.

They are made by hand here, so the mirror is compared with what SQLite reads of them. The nights have an upgrade and voids of
the program too.
"""

import sqlite3
from contextlib import closing
from pathlib import Path

from databases import MirrorTest, ask, new_database
from shop import KEYS_IN_FILE, Shop

_MADE = """
    CREATE TABLE fact2 (ticket TEXT NOT NULL, line INTEGER NOT NULL, day INTEGER NOT NULL, store_key INTEGER NOT NULL,
        product_key INTEGER NOT NULL, customer_key INTEGER NOT NULL, store_durable INTEGER NOT NULL,
        product_durable INTEGER NOT NULL, customer_durable INTEGER NOT NULL, profile INTEGER NOT NULL,
        quantity INTEGER NOT NULL, amount INTEGER NOT NULL, cost INTEGER NOT NULL, discount INTEGER NOT NULL,
        PRIMARY KEY (ticket, line));
    CREATE TABLE void (ticket TEXT NOT NULL, line INTEGER NOT NULL, command INTEGER NOT NULL,
        PRIMARY KEY (ticket, line));
    INSERT INTO fact2 SELECT *, 0 FROM fact;
    DELETE FROM fact;
    UPDATE meta SET value = 2 WHERE name = 'format';
    INSERT INTO command SELECT max(number) + 1, 'u1', 'upgrade', x'', 0, 0 FROM command;
"""

_VOIDED = """
    INSERT INTO command
        SELECT max(number) + 1, 'v1', 'void', CAST('ticket,line' || char(10) || 'T1-1,1' AS BLOB), 1, 0 FROM command;
    DELETE FROM fact2 WHERE ticket = 'T1-1' AND line = 1;
    INSERT INTO void SELECT 'T1-1', 1, max(number) FROM command;
"""

_SOLD = """
    INSERT INTO command SELECT max(number) + 1, 's2', 'sales',
        CAST('ticket,line,day,store,product,customer,quantity,amount,cost,discount' || char(10) ||
            '"N1",007,2024-02-01,S1,P1,,1,2.00,1.00,0.50' AS BLOB), 1, 0 FROM command;
    INSERT INTO fact2 SELECT 'N1', 7, 20240201, 1, 1, 0, 1, 1, 0, 0, 1, 200, 100, 50;
"""


class Format2(MirrorTest):
    """An upgrade, a void and a sale with a discount."""

    def changed(self, shop: Shop, statements: str) -> None:
        with closing(sqlite3.connect(shop.path)) as connection:
            connection.executescript(statements)

    def assert_mirrored(self, shop: Shop, dsn: str) -> None:
        """The twelve tables, and the views over the sales that aren't withdrawn."""
        with closing(sqlite3.connect(shop.path)) as connection:
            for table in KEYS_IN_FILE:
                self.assertEqual(
                    sorted(ask(dsn, f"SELECT * FROM wh.{table}")),
                    sorted(connection.execute(f"SELECT * FROM {table}").fetchall()),
                    table,
                )
            sums = "count(*), sum(quantity), sum(amount), sum(cost), sum(amount - cost), sum(discount)"
            expected = connection.execute(f"SELECT {sums} FROM fact2").fetchall()
        sums = sums.replace("amount - cost", "margin")
        for view in ("sales_as_was", "sales_as_is"):
            lines, quantity, *money = ask(dsn, f"SELECT {sums} FROM wh.{view}")[0]
            self.assertEqual([(lines, quantity, *(it * 100 for it in money))], expected)
        self.assertEqual(ask(dsn, "SELECT sum(lines) FROM wh.sales_by_month"), [expected[0][:1]])

    def test_nights(self) -> None:
        shop, dsn = self.shop_after_a_night(), new_database()
        self.mirrors(shop.path, dsn)
        backup = Path(shop.path).read_bytes()
        for statements in (_MADE, _VOIDED, _SOLD):
            self.changed(shop, statements)
            told = self.mirrors(shop.path, dsn)
            self.assert_mirrored(shop, dsn)
        self.assertEqual(
            told, "command: 1 put, 0 changed, 0 removed\nfact2: 1 put, 0 changed, 0 removed\nmirrored: 8 commands\n"
        )
        Path(shop.path).write_bytes(backup)
        self.mirrors(shop.path, dsn, "--restored")
        self.assert_same_tables(shop, dsn)
        self.assert_same_reports(shop, dsn)
        self.assertEqual(ask(dsn, "SELECT to_regclass('wh.fact2')::text, to_regclass('wh.void')::text"), [(None, None)])
