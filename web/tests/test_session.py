"""The session: its lines, what is remembered, and what happens when it ends."""

import logging
import os
import signal
import subprocess
import sys
import threading
from pathlib import Path
from unittest import mock

from shops import PROGRAM, STAND_IN, STRANGE, WithFolder, make_strange, wh
from wh_web.copies import CopiedSession
from wh_web.files import is_held, write_whole
from wh_web.session import NoAnswer, NotAsked, Session, line_of

# Locks a file as the program does, until its input ends.
HOLD = "import fcntl, sys; file = open(sys.argv[1], 'r+b'); fcntl.lockf(file, fcntl.LOCK_EX, 512, 1 << 30); print(flush=True); sys.stdin.read()"
WHOLE = ("1900-01-01", "9999-12-31")


def answered(path: Path, text: str, status: int) -> str:
    """A program that prints a text, whatever it is asked, and ends with a status."""
    path.write_text(f"#!/bin/sh\n[ \"$1\" != help ] || exit 0\nprintf '{text}'\nexit {status}\n", encoding="ascii")
    path.chmod(0o755)
    return str(path)


class Lines(WithFolder):
    """How words become a line."""

    def test_quotes(self) -> None:
        for words, line in [
            (["status"], b"status\n"),
            (["query", "2024-01-01", "product.brand:was"], b"query 2024-01-01 product.brand:was\n"),
            (["x", "a b"], b'x "a b"\n'),
            (["x", 'a"b'], b'x "a""b"\n'),
            (["x", ""], b'x ""\n'),
            (["x", "#1"], b'x "#1"\n'),
            (["x", "a\u2028b"], b'x "a\xe2\x80\xa8b"\n'),
        ]:
            with self.subTest(words=words):
                self.assertEqual(line_of(words), line)

    def test_what_is_never_sent(self) -> None:
        for word in ["a\nb", "a\r", "\x00", "\x7f", "a" * 70_000]:
            with self.subTest(word=word[:5]), self.assertRaises(NotAsked):
                line_of(["x", word])
        for word, may_load in [("init", True), ("load", False)]:
            with self.subTest(word=word), self.assertRaises(NotAsked):
                Session(STAND_IN, self.folder / "none", may_load).ask(word, "x")


class Asked(WithFolder):
    """A session over a real warehouse, by a stand-in for the program's own."""

    @classmethod
    def setUpClass(cls) -> None:
        super().setUpClass()
        cls.path = cls.folder / "strange.wh"
        make_strange(cls.path)
        cls.lines = cls.folder / "lines"
        cls.enterClassContext(mock.patch.dict(os.environ, WH_ALONE=PROGRAM, WH_LINES=str(cls.lines), WH_DIES=str(cls.folder / "dies")))

    def setUp(self) -> None:
        self.lines.write_bytes(b"")
        self.session = Session(STAND_IN, self.path)
        self.addCleanup(self.session.close)

    def test_both_forms_answer_alike(self) -> None:
        with self.assertLogs("wh-web", logging.WARNING) as logged:
            with mock.patch.dict(os.environ, WH_HAS_NONE="1"):
                alone = Session(STAND_IN, self.path)
        self.assertIn("each question opens the file", logged.output[-1])
        conditions = [word for it in STRANGE[:6] for word in ("--where", f"product.brand:was={it}")]
        for words in [("status",), ("dump", "product"), ("explain", "sales"), ("query", *WHOLE, "product.brand", *conditions), ("dump", "nothing")]:
            with self.subTest(words=words):
                answer = self.session.ask(*words)
                self.assertEqual(answer, alone.ask(*words))
                self.assertEqual(len(answer.lines) > 1, words != ("dump", "nothing"))

    def test_the_same_question_is_asked_once(self) -> None:
        threads = [threading.Thread(target=self.session.ask, args=("query", *WHOLE, "date.month")) for _ in range(100)]
        for it in threads:
            it.start()
        for it in threads:
            it.join()
        self.assertEqual(self.lines.read_bytes(), b"query 1900-01-01 9999-12-31 date.month\n")

    def test_a_killed_session_is_started_again(self) -> None:
        told = self.session.ask("status")
        assert self.session._process
        os.kill(self.session._process.pid, signal.SIGKILL)
        self.session._known.clear()
        self.assertEqual(self.session.ask("status"), told)

    def test_one_that_dies_in_the_midst(self) -> None:
        (self.folder / "dies").touch()
        self.assertEqual(self.session.ask("status").status, 0)
        self.assertEqual(self.lines.read_bytes(), b"status\nstatus\n")

    def test_an_answer_that_is_not_read_to_its_end(self) -> None:
        def keep(_line: str) -> bool:
            raise KeyError("a reader's fault")

        with self.assertRaises(KeyError):
            self.session.ask("dump", "product", keep=keep)
        self.assertEqual(self.session.ask("status").lines[0], "format 1")

    def test_one_that_never_answers(self) -> None:
        with self.assertRaises(NoAnswer):
            Session(answered(self.folder / "dead", "format 1\\n", 0), self.path).ask("status")

    def test_a_file_that_is_held(self) -> None:
        told = Session(answered(self.folder / "held", "failed: F1 file, x\\n", 3), self.path).ask("status")
        self.assertEqual((told.lines, told.status), (["failed: F1 file, x"], 3))


class Written(WithFolder):
    """What the program reads while another thread writes it."""

    def test_no_list_is_read_half(self) -> None:
        path, read = self.folder / "list", set()
        write_whole(path, b"x" * 1_000_000)
        writer = threading.Thread(target=lambda: [write_whole(path, b"x" * 1_000_000) for _ in range(100)])
        writer.start()
        while writer.is_alive():
            read.add(len(path.read_bytes()))
        self.assertEqual(read, {1_000_000})
        self.assertEqual(list(self.folder.iterdir()), [path])


class Copies(WithFolder):
    """A private copy follows its file."""

    def test_a_new_copy_once_nobody_holds_the_file(self) -> None:
        path = self.folder / "shop.wh"
        wh("init", str(path), "examples/shop/policy.toml")
        copied = CopiedSession(PROGRAM, path)
        self.addCleanup(copied.close)
        self.assertEqual(copied.ask("status").lines[1], "commands 1")
        wh("load", str(path), "store", "k1", "examples/shop/stores-1.csv")
        with subprocess.Popen([sys.executable, "-c", HOLD, str(path)], stdin=subprocess.PIPE, stdout=subprocess.PIPE) as holder:
            assert holder.stdout
            holder.stdout.readline()
            self.assertTrue(is_held(path))
            self.assertEqual(copied.ask("status").lines[1], "commands 1")
            holder.communicate()
        self.assertFalse(is_held(path))
        self.assertEqual(copied.ask("status").lines[1], "commands 2")
