"""A chain of files: each in a schema of its own, and the views that show them as one."""

from decimal import Decimal

from chains import DATES, file_says, sums_as_is, sums_of, sums_of_reports
from databases import MirrorTest, ask, new_database
from shop import Shop
from worked_chain import worked_files

_AS_WAS = """\
J1,1,COLA,Acme,Drinks,(none),Gold,(none),0.00
J1,2,TEA,Leaf,Drinks,(none),Gold,(none),0.00
J2,1,JAM,Orchard,Breakfast,(none),(no card),(none),0.00
J3,1,NEWS,(unknown),(unknown),(none),Silver,(none),0.00
F1,1,COLA,Acme,Drinks,West,Gold,yes,0.25
F1,2,COLA,Bolt,Soft drinks,West,Gold,yes,0.00
F2,1,JAM,(unknown),(unknown),West,(no card),(no card),0.00
F3,1,NEWS,Post,Papers,West,(no card),(no card),0.00
"""
# TEA and EVE are January's alone, and JAM too as far as a record goes; the brand of January has no reading of now
_AS_IS = """\
J1,1,COLA,Bolt,Soft drinks,North,(none),West,Gold,yes
J1,2,TEA,(none),Drinks,East,(none),West,Gold,yes
J2,1,JAM,(none),Breakfast,East,(none),West,(no card),(no card)
J3,1,NEWS,Post,Papers,(unknown),(none),West,Silver,(none)
F1,1,COLA,Bolt,Soft drinks,(none),(none),West,Gold,yes
F1,2,COLA,Bolt,Soft drinks,(none),(none),West,Gold,yes
F2,1,JAM,(unknown),(unknown),(none),(none),West,(no card),(no card)
F3,1,NEWS,Post,Papers,(none),(none),West,(no card),(no card)
"""


class ChainTest(MirrorTest):
    """What the tests of chains have in common."""

    def assert_same_sums(self, shops: list[Shop], dsn: str) -> None:
        """Each reading of each attribute has the sums that follow from what the program prints of the files."""
        files = [file_says(shop) for shop in shops]
        for dimension, name, mode in {it: None for shop in shops for it in shop.readings()}:
            label = f"{'prior_' if mode == 'prior' else ''}{dimension}_{name}"
            with self.subTest(label=label, mode=mode):
                if mode == "was":
                    expected = sums_of_reports(files, f"{dimension}.{name}", mode)
                    self.assertEqual(sums_of(dsn, "sales_as_was", label), expected)
                else:
                    expected = sums_as_is(files, dimension, name, mode)
                    self.assertEqual(sums_of(dsn, "sales_as_is", label), expected)
        for attribute in DATES:
            for view in ("sales_as_was", "sales_as_is"):
                label = attribute.removeprefix("date.")
                self.assertEqual(sums_of(dsn, view, label), sums_of_reports(files, attribute, "was"))
        months = ask(dsn, "SELECT month, lines, quantity, amount, cost FROM wh.sales_by_month")
        self.assertEqual({it: tuple(sums) for it, *sums in months}, sums_of_reports(files, "date.month", "was"))


class Worked(ChainTest):
    """Two files of another policy and format each, worked out by hand."""

    def assert_worked(self, dsn: str) -> None:
        was = "product, product_brand, product_category, store_region, customer_tier, customer_club, discount"
        now = (
            "product, product_brand, product_category, product_supplier, prior_product_supplier, store_region,"
            " customer_tier, customer_club"
        )
        for view, columns, expected in (("sales_as_was", was, _AS_WAS), ("sales_as_is", now, _AS_IS)):
            rows = ask(dsn, f"SELECT ticket, line, {columns} FROM wh.{view} ORDER BY amount")
            self.assertEqual("".join(",".join(map(str, row)) + "\n" for row in rows), expected)
        self.assertEqual(
            ask(dsn, "SELECT * FROM wh.sales_by_month ORDER BY month"),
            [
                ("2026-01", 5, 5, Decimal("143.00"), Decimal("71.50"), Decimal("71.50")),
                ("2026-02", 3, 3, Decimal("112.00"), Decimal("56.00"), Decimal("56.00")),
            ],
        )
        self.assertEqual(
            ask(dsn, "SELECT file, sum(amount) FROM wh.sales_as_is GROUP BY file ORDER BY file"),
            [("wh_2026_01", Decimal("15.00")), ("wh_2026_02", Decimal("240.00"))],
        )
        self.assertEqual(
            ask(dsn, "SELECT file, commands FROM wh.mirror ORDER BY file"), [("wh_2026_01", 5), ("wh_2026_02", 6)]
        )

    def test_by_hand(self) -> None:
        january, february = worked_files(self.folder)
        with self.subTest("one server"):
            dsn = new_database()
            self.mirrors("--chain", dsn, january, february)
            self.assert_worked(dsn)
        with self.subTest("together"):
            dsn = new_database()
            self.mirrors("--chain", dsn, january, february, "--together")
            self.assert_worked(dsn)
        with self.subTest("three servers"):
            dsn = new_database()
            on = ["--on", f"{new_database(1)}={january}", "--on", f"{new_database(2)}={february}"]
            self.mirrors("--chain", dsn, january, february, *on)
            self.assert_worked(dsn)
        with self.subTest("the first file on another server"):
            dsn = new_database()
            self.mirrors("--chain", dsn, january, february, "--on", f"{new_database(1)}={january}", "--together")
            self.assert_worked(dsn)


class Nights(ChainTest):
    """Three files whose nights hold what a chain has to follow."""

    def shops(self) -> list[Shop]:
        """Files of two months each; the second and third begin with the records of the one before."""
        names = {"2024-01": (1, 2), "2024-03": (3, 4), "2024-05": (5, 6)}
        shops = [Shop(self.folder, name, months) for name, months in names.items()]
        for older, newer in zip(shops, shops[1:]):
            older.night()
            newer.carry_over(older)
        shops[-1].night()
        return shops

    def test_one_server_and_three(self) -> None:
        shops, front, dsn = self.shops(), new_database(), new_database()
        paths = [shop.path for shop in shops]
        on = ("--on", f"{new_database(1)}={paths[0]}", "--on", f"{new_database(2)}={paths[1]}")
        chains = {dsn: ("--chain", dsn, *paths), front: ("--chain", front, *paths, *on)}
        steps = {
            "the first mirror": lambda: None,
            "late records in the first": shops[0].night,
            "another policy in the second": shops[1].migrate,
            "an upgrade and voids in the first": lambda: (shops[0].upgrade(), shops[0].night()),
            "another policy and sales in the newest": lambda: (shops[2].migrate(), shops[2].night()),
        }
        for name, step in steps.items():
            step()
            for where, words in chains.items():
                with self.subTest(step=name, where=where):
                    self.mirrors(*words)
                    self.assert_same_sums(shops, where)
        held = [shop.status()["commands"] for shop in shops]
        lines = [f"wh_2024_0{month} nothing new: {it} commands\n" for month, it in zip((1, 3, 5), held)]
        for words in chains.values():
            self.assertEqual(self.mirrors(*words), "".join([lines[2], *lines[:2]]))

    def test_a_file_that_has_just_begun(self) -> None:
        """The newest file knows nobody, and has no month."""
        shop = Shop(self.folder, "2024-01", (1,))
        shop.night()
        begun = Shop(self.folder, "2024-02", (2,))
        on = ["--on", f"{new_database(1)}={begun.path}", "--on", f"{new_database(2)}={shop.path}"]
        for more in ([], on):
            dsn = new_database()
            self.mirrors("--chain", dsn, shop.path, begun.path, *more)
            self.assert_same_sums([shop, begun], dsn)
            self.assertEqual(ask(dsn, "SELECT count(*) FROM wh.sales_as_was WHERE day > 20240131"), [(0,)])
