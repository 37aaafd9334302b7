"""The server as a user starts it: many readers, a session that is killed, a file that is replaced, and a large warehouse."""

import os
import shutil
import signal
import subprocess
import sys
from concurrent.futures import ThreadPoolExecutor
from pathlib import Path
from unittest import mock

from serving import Server
from shops import PROGRAM, ROOT, STAND_IN, WithFolder, make_shop, rows_of, wh
from test_pages import Page, plain

sys.path.insert(0, str(ROOT / "bench"))

import deliver  # noqa: E402

FACTS = int(os.environ.get("WEB_FACTS", "195000"))


def children(process: int) -> list[int]:
    """The processes that a process has started."""
    return [int(it) for it in Path(f"/proc/{process}/task/{process}/children").read_text(encoding="ascii").split()]


class Served(WithFolder):
    """The shop of examples/."""

    @classmethod
    def setUpClass(cls) -> None:
        super().setUpClass()
        cls.path = cls.folder / "shop.wh"
        make_shop(cls.path)

    def test_fifty_readers_at_once(self) -> None:
        asked = [f"/?rows=product.brand:was&measure={it}" for it in ("amount", "lines", "cost", "margin", "quantity")]
        for program in (STAND_IN, PROGRAM):
            server = Server(self, self.path, program=program)
            with self.subTest(program=program), ThreadPoolExecutor(50) as readers:
                answers = list(readers.map(server.get, asked * 10))
                self.assertEqual([status for status, _ in answers], [200] * 50)
                self.assertEqual(answers, answers[:5] * 10)
            server.stop()

    def test_a_killed_session(self) -> None:
        server = Server(self, self.path)
        status, before = server.get("/")
        self.assertEqual(status, 200)
        (session,) = children(server.process.pid)
        os.kill(session, signal.SIGKILL)
        self.assertEqual(server.get("/lines")[0], 200)
        self.assertNotEqual(children(server.process.pid), [session])
        self.assertEqual(server.get("/"), (200, before))

    def test_a_file_that_is_replaced(self) -> None:
        path, newer = self.folder / "replaced.wh", self.folder / "newer.wh"
        shutil.copyfile(self.path, path)
        own = self.folder / "own"
        own.mkdir()
        with mock.patch.dict(os.environ, TMPDIR=str(own)):
            server = Server(self, path, "--copy")
        self.assertIn("Acme", server.get("/?rows=product.brand:was")[1])
        wh("init", str(newer), "examples/shop/policy.toml")
        wh("load", str(newer), "product", "p1", "examples/shop/products-1.csv")
        wh("load", str(newer), "sales", "s1", "examples/shop/sales-2.csv")
        newer.replace(path)
        status, text = server.get("/?rows=product.brand:was")
        self.assertEqual((status, [row[0] for row in Page(text).rows]), (200, ["Brand", "(unknown)", "Acme", "Total"]))
        self.assertIn("accepted", wh("load", str(path), "product", "p2", "examples/shop/products-2.csv"))
        self.assertEqual([row[0] for row in Page(server.get("/?rows=product.brand:was")[1]).rows], ["Brand", "Orchard", "Bolt", "Total"])
        wh("check", str(path))
        self.assertEqual(len(list(own.glob("*copy*"))), 1)
        server.stop()
        self.assertEqual(list(own.iterdir()), [])

    def test_words_that_are_none(self) -> None:
        for words, status in [(["--copy", "--load"], 4), (["--nothing"], 4), (["--wh", PROGRAM], 3)]:
            done = subprocess.run([sys.executable, ROOT / "web/wh-web", str(self.folder / "none.wh"), *words], capture_output=True, text=True, check=False)
            with self.subTest(words=words):
                self.assertEqual(done.returncode, status, done.stderr)
                self.assertNotIn("Traceback", done.stderr)


class Large(WithFolder):
    """As many facts as a shop has in months."""

    def test_a_large_warehouse(self) -> None:
        path, night = self.folder / "large.wh", self.folder / "night.csv"
        night.write_text("".join(f"{','.join(it)}\n" for it in deliver.commands(str(self.folder), FACTS // deliver.SIZE)), encoding="ascii")
        wh("init", str(path), deliver.POLICY)
        wh("deliver", str(path), str(night))
        wanted = wh("query", str(path), "2024-01-01", "2025-12-31", "product.category", "date.month").splitlines()[1:]
        server = Server(self, path, "--copy", program=PROGRAM)
        status, text = server.get("/?rows=product.category:was&columns=date.month&from=2024-01-01&to=2025-12-31")
        self.assertEqual(status, 200)
        rows = Page(text).rows
        shown = [(row[0], head, plain(it)) for row in rows[1:-1] for head, it in zip(rows[0][1:-1], row[1:]) if it]
        self.assertEqual(sorted(shown), sorted((it.split(",")[0], it.split(",")[1], it.split(",")[4]) for it in wanted))
        status, text = server.get("/lines?where.product.category:was=Category+3&from=2024-01-01&to=2024-01-01")
        counted = wh("query", str(path), "2024-01-01", "2024-01-01", "product.category", "--where", "product.category=Category 3")
        self.assertEqual((status, len(Page(text).rows) - 2), (200, int(rows_of(counted)[1][1])))
