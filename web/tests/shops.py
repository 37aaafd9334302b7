"""Warehouses that the tests ask: the shop of examples/, and one whose labels are as strange as labels can be."""

import csv
import io
import os
import subprocess
import tempfile
import unittest
from pathlib import Path

ROOT = Path(__file__).resolve().parents[2]
PROGRAM = os.environ.get("WH", str(ROOT / "crates/wh/out/wh"))
STAND_IN = str(Path(__file__).with_name("stand_in.py"))

# 60 bytes of UTF-8, signs of HTML, of CSV, of a query's words and of spreadsheets, and two ends of lines that aren't LF.
STRANGE = [
    "<script>alert(1)</script>",
    'says "hello", twice',
    "it's & <b>bold</b>",
    "=1+2",
    "--where store.city=Bern",
    "a\u2028b\u0085c",
    " apart ",
    "\u00e9" * 30,
    "\u2615" * 20,
    "status 0",
]


def wh(*words: str, status: int = 0) -> str:
    """What the program prints, with the status that it has to have."""
    done = subprocess.run([PROGRAM, *words], cwd=ROOT, capture_output=True, text=True, encoding="utf-8", check=False)
    if done.returncode != status:
        raise AssertionError(f"wh {' '.join(words)}: {done.returncode} {done.stdout}{done.stderr}")
    return done.stdout


def rows_of(text: str) -> list[list[str]]:
    """The rows of a CSV text."""
    return list(csv.reader(io.StringIO(text, newline="")))


def make_shop(path: Path) -> None:
    """The shop of docs/tutorial.md, up to the day on which the cola became a soft drink."""
    wh("init", str(path), "examples/shop/policy.toml")
    wh("deliver", str(path), "examples/shop/nights.csv")


def make_shop_of_profiles(path: Path) -> None:
    """The same shop, in which a customer's age band is of type 4."""
    policy = (ROOT / "examples/shop/policy.toml").read_text(encoding="ascii")
    path.with_name("policy.toml").write_text(policy.replace("type = 5", "type = 4"), encoding="ascii")
    wh("init", str(path), str(path.with_name("policy.toml")))
    wh("deliver", str(path), "examples/shop/nights.csv")


def make_strange(path: Path) -> None:
    """A shop with a product of each strange description and brand, each sold once."""
    wh("init", str(path), "examples/shop/policy.toml")
    products, sales = io.StringIO(), io.StringIO()
    records, lines = csv.writer(products, lineterminator="\n"), csv.writer(sales, lineterminator="\n")
    records.writerow(["id", "day", "description", "brand", "category", "department", "supplier"])
    lines.writerow("ticket,line,day,store,product,customer,quantity,amount,cost".split(","))
    for number, label in enumerate(STRANGE):
        records.writerow([f"P{number}", "2024-01-01", label, label, label, "Food", "North"])
        lines.writerow([f"T{number}", 1, f"2024-0{number % 3 + 1}-10", "BERN", f"P{number}", "", 1, f"{number}.50", "0.25"])
    night = path.with_name("night.csv")
    night.write_text("".join(f"{kind},{kind},{path.with_name(kind)}\n" for kind in ("product", "sales")), encoding="utf-8")
    path.with_name("product").write_text(products.getvalue(), encoding="utf-8")
    path.with_name("sales").write_text(sales.getvalue(), encoding="utf-8")
    wh("deliver", str(path), str(night))


class WithFolder(unittest.TestCase):
    """Tests that share a folder."""

    @classmethod
    def setUpClass(cls) -> None:
        cls.folder = Path(cls.enterClassContext(tempfile.TemporaryDirectory(prefix="wh-web-test-")))
