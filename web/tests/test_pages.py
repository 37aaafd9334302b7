"""The pages over real warehouses: each figure is one that the program prints when it is asked apart."""

import io
import re
import shutil
import subprocess
import sys
import tempfile
from html.parser import HTMLParser
from pathlib import Path
from unittest import TestCase, mock
from urllib.parse import parse_qs, urlencode

from shops import PROGRAM, ROOT, STRANGE, WithFolder, make_shop, make_shop_of_profiles, make_strange, rows_of, wh
from wh_web.columns import Column
from wh_web.pages import Site, make_app
from wh_web.question import Filter, Measure, Question, Range
from wh_web.session import Answer, Session
from wh_web.tables import total_of

FIGURES = ["lines", "quantity", "amount", "cost", "margin"]
YEAR = ("2024-01-01", "2024-12-31")


class Page(HTMLParser):
    """The cells of a page's tables, the links of their figures, and all texts."""

    def __init__(self, text: str) -> None:
        super().__init__()
        self.rows: list[list[str]] = []
        self.links: list[str] = []
        self.tags: list[str] = []
        self._cell: list[str] | None = None
        self.feed(text)

    def handle_starttag(self, tag: str, attrs: list[tuple[str, str | None]]) -> None:
        self.tags.append(tag)
        if tag == "tr":
            self.rows.append([])
        if tag in ("td", "th"):
            self._cell = []
        if tag == "a":
            self.links.append(dict(attrs).get("href") or "")

    def handle_endtag(self, tag: str) -> None:
        if tag in ("td", "th") and self._cell is not None:
            self.rows[-1].append("".join(self._cell).strip("\n"))
            self._cell = None

    def handle_data(self, data: str) -> None:
        if self._cell is not None:
            self._cell.append(data)


def plain(text: str) -> str:
    """A figure of a page as the program prints it."""
    return text.replace("\u202f", "").replace("\u2212", "-")


class Totals(TestCase):
    """The total of a slice, where the program prints this table; it needs no program."""

    TABLE = """\
   lines   quantity         amount           cost         margin  date.month
       2          1           9.50           6.20           3.30  2024-01
       2 -123456789012     -17.50           5.75         -23.25  2024-02
       4 -123456789011      -8.00          11.95         -19.95  total
"""

    def test_it_is_the_last_line(self) -> None:
        session = mock.Mock()
        session.ask.return_value = Answer(self.TABLE.splitlines(), 0)
        brand = Column("product.brand:was", "product", "brand")
        question = Question(brand, None, False, Measure.AMOUNT, Range(*YEAR), (Filter(brand, "total"), Filter(brand, "a b")))
        self.assertEqual(total_of(session, question), dict(zip(FIGURES, ["4", "-123456789011", "-8.00", "11.95", "-19.95"])))
        words = ["query", *YEAR, "date.month", "--where", "product.brand:was=total", "--where", "product.brand:was=a b", "--table"]
        self.assertEqual(list(session.ask.call_args.args), words)


class Asked(WithFolder):
    """A shop, and its pages."""

    make = staticmethod(make_shop)
    may_load = False

    @classmethod
    def setUpClass(cls) -> None:
        super().setUpClass()
        cls.path = cls.folder / "shop.wh"
        cls.make(cls.path)
        # a session keeps its file to itself
        cls.served = cls.folder / "served.wh"
        shutil.copyfile(cls.path, cls.served)
        cls.session = Session(PROGRAM, cls.served, cls.may_load)
        cls.addClassCleanup(cls.session.close)
        kept = Path(cls.enterClassContext(tempfile.TemporaryDirectory()))
        site = Site(cls.session, lambda path: Session(PROGRAM, path, may_load=True), "Shop", kept, cls.may_load)
        cls.client = make_app(site).test_client()

    def page(self, **asked: str | list[str]) -> Page:
        """The page of a question."""
        answer = self.client.get("/?" + urlencode(asked, doseq=True))
        self.assertEqual(answer.status_code, 200, answer.text)
        return Page(answer.text)

    def query(self, *words: str) -> list[list[str]]:
        """What the program says, in a process of its own."""
        return rows_of(wh("query", str(self.path), *YEAR, *words))[1:]

    def figures(self, page: Page) -> dict[str, list[str]]:
        """The figures of a page by label."""
        return {row[0]: [plain(it) for it in row[1:]] for row in page.rows[1:]}


class Tables(Asked):
    """The tables of the shop of the tutorial."""

    def test_rows_of_each_column(self) -> None:
        for column, mode in [("product.brand:was", "was"), ("product.category:is", "is"), ("product.supplier:prior", "prior"), ("date.month", "was")]:
            with self.subTest(column=column):
                report = wh("report", str(self.path), column.split(":")[0], mode, *YEAR).splitlines()[2:]
                wanted = {line[66:]: line[:64].split() for line in report}
                shown = self.figures(self.page(rows=column, **{"from": YEAR[0], "to": YEAR[1]}))
                self.assertEqual({label.replace("Total", "total"): row for label, row in shown.items()}, wanted)

    def test_rows_by_columns(self) -> None:
        for place, measure in enumerate(FIGURES):
            with self.subTest(measure=measure):
                shown = self.page(rows="product.brand:was", columns="date.month", measure=measure, **{"from": YEAR[0], "to": YEAR[1]})
                heads = shown.rows[0][1:]
                cells = {(row[0], head): plain(it) for row in shown.rows[1:] for head, it in zip(heads, row[1:]) if it}
                wanted = {(row[0], row[1]): row[2 + place] for row in self.query("product.brand", "date.month")}
                wanted |= {(row[0], "Total"): row[1 + place] for row in self.query("product.brand")}
                wanted |= {("Total", row[0]): row[1 + place] for row in self.query("date.month")}
                total = wh("report", str(self.path), "date.month", "was", *YEAR).splitlines()[-1].split()
                self.assertEqual(cells, wanted | {("Total", "Total"): total[place]})

    def test_readings_beside_each_other(self) -> None:
        shown = self.figures(self.page(rows="product.category:was", columns="readings"))
        self.assertEqual(shown["Drinks"], ["24.50", "4.50", "-20.00"])
        self.assertEqual(shown["Soft drinks"], ["", "20.00", "20.00"])
        self.assertEqual(shown["Total"], ["43.00", "43.00", "0.00"])

    def test_filters(self) -> None:
        shown = self.figures(self.page(**{"rows": "date.month", "where.product.brand:was": ["Bolt", "Acme"], "where.customer.tier:was": "Gold"}))
        words = ["--where", "product.brand=Bolt", "--where", "product.brand=Acme", "--where", "customer.tier=Gold"]
        self.assertEqual({it: row for it, row in shown.items() if it != "Total"}, {row[0]: row[1:] for row in self.query("date.month", *words)})
        self.assertEqual(shown["Total"], ["2", "12", "18.60", "10.80", "7.80"])

    def test_many_labels(self) -> None:
        with mock.patch("wh_web.pages._MOST_BOXES", 4):
            text = self.client.get("/?add=product.brand:was").text
        self.assertIn('<option value="Orchard"></option>', text)
        self.assertNotIn('value="Orchard">', self.client.get("/?add=store.city:was").text)

    def test_a_figure_leads_to_what_is_in_it(self) -> None:
        page = self.page(rows="product.brand:was", columns="date.month")
        link = next(it for it in page.links if it.endswith("where.product.brand%3Awas=Bolt&where.date.month=2024-03"))
        asked = parse_qs(link.removeprefix("?"))
        self.assertEqual((asked["where.product.brand:was"], asked["where.date.month"]), (["Bolt"], ["2024-03"]))
        self.assertEqual(self.figures(Page(self.client.get("/" + link).text))["Total"][2], "8.00")

    def test_sorted_by_a_column(self) -> None:
        for sort, first in [("label", "Acme"), ("-label", "Pure"), ("-margin", "Orchard"), ("margin", "Pure"), ("nothing", "Acme")]:
            with self.subTest(sort=sort):
                self.assertEqual(self.page(rows="product.brand:was", sort=sort).rows[1][0], first)

    def test_download(self) -> None:
        answer = self.client.get("/table.csv?rows=product.brand:was&sort=label")
        self.assertIn("attachment", answer.headers["Content-Disposition"])
        rows = rows_of(answer.data.decode("utf-8-sig"))
        self.assertEqual(rows[1:-1], self.query("product.brand"))

    def test_ticket_lines(self) -> None:
        page = Page(self.client.get("/lines?rows=product.brand:was&where.product.category:is=Soft+drinks&where.customer.age_band:is=40-49").text)
        self.assertEqual([row[0] for row in page.rows], ["Ticket, line", "1001, 1", "1004, 1", "Total"])
        self.assertEqual([plain(it) for it in page.rows[-1][2:]], ["12", "18.60", "10.80"])

    def test_one_ticket_line(self) -> None:
        text = self.client.get("/line/1002/1").text
        page = Page(text)
        self.assertIn(["Brand", "Bolt", "Bolt", ""], page.rows)
        self.assertIn(["Category", "Drinks", "Soft drinks", ""], page.rows)
        self.assertIn(["Supplier", "", "South", "North"], page.rows)
        self.assertIn(["2024-02-10", "Cola 1 l", "Bolt", "Drinks", "Food", "South", "9, p3 (held on 2024-02-15)"], page.rows)
        self.assertIn("sold by command 5, s1", text)
        self.assertEqual(self.client.get("/line/1002/2").status_code, 404)


class Strange(Asked):
    """Labels as strange as they can be."""

    make = staticmethod(make_strange)

    def test_each_label_stands_as_it_is(self) -> None:
        page = self.page(rows="product.brand:was", sort="label")
        self.assertEqual(self.figures(page) | {"Total": []}, {row[0]: row[1:] for row in self.query("product.brand")} | {"Total": []})
        self.assertEqual(page.tags.count("script"), 2)

    def test_each_label_can_be_chosen(self) -> None:
        for label in STRANGE:
            with self.subTest(label=label):
                shown = self.figures(self.page(**{"rows": "product.description:was", "where.product.brand:was": label}))
                wanted = self.query("product.brand", "--where", f"product.brand={label}")[0]
                self.assertEqual({it: row for it, row in shown.items() if it != "Total"}, {label: wanted[1:]})
                lines = Page(self.client.get("/lines?" + urlencode({"where.product.brand:was": label})).text)
                self.assertEqual(len(lines.rows), 3)

    def test_a_line_end_is_never_sent(self) -> None:
        answer = self.client.get("/?" + urlencode({"where.product.brand:was": "x\nload sales s9 y"}))
        self.assertEqual(answer.status_code, 400)
        self.assertIn("control character", answer.text)

    def test_no_formula_in_a_spreadsheet(self) -> None:
        rows = rows_of(self.client.get("/table.csv?rows=product.brand:was").data.decode("utf-8-sig"))
        self.assertIn("'=1+2", [row[0] for row in rows])


class Safe(Asked):
    """What is refused, and how."""

    def test_headers(self) -> None:
        for page in ("/", "/table.csv", "/nothing", "/static/page.css"):
            headers = self.client.get(page).headers
            with self.subTest(page=page):
                self.assertTrue(headers["Content-Security-Policy"].startswith("default-src 'none'; script-src 'self'"))
                self.assertNotIn("Set-Cookie", headers)
        self.assertIsNone(re.search(r" on\w+=| style=|<script>", self.client.get("/").text))

    def test_a_fault_is_a_sentence(self) -> None:
        for asked, status, said in [
            ("/?rows=product.nothing", 400, "There is no product.nothing to ask by."),
            ("/?measure=tax", 400, "There is no figure tax."),
            ("/?from=yesterday", 400, "yesterday is no day"),
            ("/?from=2024-02-30&to=2024-03-01", 400, "One of the two days"),
            ("/?from=2024-03-02&to=2024-03-01", 400, "The first day is after the last one."),
            ("/?" + "&".join(f"where.product.brand:was={it}" for it in range(13)), 400, "At most 12 labels"),
            ("/nothing", 404, "not found"),
        ]:
            with self.subTest(asked=asked):
                answer = self.client.get(asked)
                self.assertEqual(answer.status_code, status)
                self.assertIn(said, answer.text)

    def test_no_more_than_a_megabyte(self) -> None:
        answer = self.client.post("/batch", data={"kind": "sales", "file": (io.BytesIO(b"x" * (1 << 20)), "x.csv")})
        self.assertEqual(answer.status_code, 413)

    def test_no_page_of_another_site_sends(self) -> None:
        answer = self.client.post("/batch", headers={"Origin": "https://elsewhere.example"})
        self.assertEqual(answer.status_code, 403)

    def test_it_only_looks(self) -> None:
        before = self.served.read_bytes()
        sent = {"kind": "product", "file": (io.BytesIO((ROOT / "examples/shop/late.csv").read_bytes()), "late.csv")}
        self.assertEqual(self.client.post("/batch?rows=product.brand:was", data=sent).status_code, 200)
        self.assertEqual(self.client.post("/load", data={"kind": "product"}).status_code, 403)
        self.assertEqual(self.served.read_bytes(), before)


class Before(Asked):
    """Before and after a batch, which is then loaded."""

    may_load = True

    def looked(self, kind: str, content: bytes) -> str:
        """The page of a batch."""
        return self.client.post("/batch?rows=product.brand:was", data={"kind": kind, "file": (io.BytesIO(content), "night.csv")}).text

    def test_a_refused_batch(self) -> None:
        text = self.looked("sales", (ROOT / "examples/shop/torn.csv").read_bytes())
        self.assertIn("line 3: the number of fields is 5, 9 are wanted", text)
        self.assertNotIn("What it would write", text)

    def test_a_late_record(self) -> None:
        header = (ROOT / "examples/shop/late.csv").read_text().split("\n", 1)[0]
        text = self.looked("product", f"{header}\nTEA,2024-02-01,Black tea 50,Oak,Drinks,Food,North\n".encode())
        self.assertIn("TEA: the row that holds from 1900-01-01 to 2024-01-31 is written.", text)
        self.assertIn("TEA: the row that holds from 2024-02-01 on is written.", text)
        self.assertIn("Ticket 1003, line 1, counts under another row of its product, store or customer.", text)
        shown = self.figures(Page(text))
        self.assertEqual((shown["Leaf"], shown["Oak"], shown["Total"]), (["4.50", "", "-4.50"], ["", "4.50", "4.50"], ["43.00", "43.00", "0.00"]))
        digest = re.search(r'name="digest" value="(\w+)"', text)
        assert digest
        loaded = self.client.post("/load", data={"kind": "product", "digest": digest[1], "id": "oak"})
        self.assertIn("accepted 11 oak: 1 records, 0 placeholders", loaded.text)
        self.assertEqual(self.client.post("/load", data={"kind": "product", "digest": digest[1], "id": "a b"}).status_code, 400)
        self.assertEqual(self.figures(self.page(rows="product.brand:was"))["Oak"][2], "4.50")


class Discounts(Asked):
    """A warehouse of format 2, with a discount and a line that was withdrawn."""

    @staticmethod
    def make(path: Path) -> None:
        make_shop(path)
        wh("upgrade", str(path), "u1")
        sales, voids = path.with_name("sales"), path.with_name("voids")
        header = "ticket,line,day,store,product,customer,quantity,amount,cost,discount"
        sales.write_text(f"{header}\n1006,1,2024-04-02,BERN,SOAP,,2,6.40,3.80,0.05\n", encoding="ascii")
        voids.write_text("ticket,line\n1004,2\n", encoding="ascii")
        wh("load", str(path), "sales", "s3", str(sales))
        wh("load", str(path), "void", "v1", str(voids))

    def test_a_line_with_a_discount(self) -> None:
        text = self.client.get("/line/1006/1").text
        self.assertIn("<dt>Discount</dt><dd>0.05</dd>", text)
        self.assertIn("sold by command 12, s3", text)
        self.assertNotIn("Customer", text)

    def test_a_line_that_was_withdrawn(self) -> None:
        answer = self.client.get("/line/1004/2")
        self.assertEqual(answer.status_code, 404)
        self.assertIn("withdrawn by command 13, v1", answer.text)
        self.assertNotIn("1004, 2", self.client.get("/lines").text)


class Profiles(Asked):
    """An attribute that only the profile of the day and the records have."""

    make = staticmethod(make_shop_of_profiles)

    def test_the_newest_record_is_as_it_is_now(self) -> None:
        self.assertIn(["Age band", "30-39", "40-49", ""], Page(self.client.get("/line/1001/1").text).rows)


class Nights(WithFolder):
    """The page that is written each night."""

    def test_a_page_of_reports(self) -> None:
        path, out, listed = (self.folder / name for name in ("shop.wh", "morning.html", "list.csv"))
        make_shop(path)
        listed.write_text("product.brand,was,2024-01-01,2024-12-31\nproduct.brand,is,2024-01-01,2024-12-31\n")
        words = [sys.executable, str(ROOT / "web/wh-page"), str(path), str(out), "--wh", PROGRAM, "--list"]
        self.assertEqual(subprocess.run([*words, str(listed)], check=False).returncode, 2)
        text = out.read_text()
        self.assertIn("refused: G2 no reading, type 2 is", text)
        self.assertNotRegex(text, r'(src|href)="')
        page = Page(text)
        self.assertIn(["Orchard", "2", "3", "15.30", "9.90", "5.40"], page.rows)
        self.assertIn(["Total", "8", "18", "43.00", "26.25", "16.75"], page.rows)
        listed.write_text("product.brand\n")
        self.assertEqual(subprocess.run([*words, str(listed)], capture_output=True, check=False).returncode, 2)
        self.assertEqual(out.read_text(), text)
