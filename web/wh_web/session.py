"""Asks the program `wh` about one file, one question at a time."""

import logging
import re
import subprocess
import threading
from collections import OrderedDict
from collections.abc import Callable
from dataclasses import dataclass
from pathlib import Path
from typing import IO, Protocol

from wh_web.files import Changing, Signature, copy_files, signature

log = logging.getLogger("wh-web")
log.addHandler(logging.NullHandler())

# The words that are ever sent, all of which only look, and the one that loads.
_LOOKING = frozenset({"dump", "explain", "plan", "query", "report", "reports", "status"})
_LOAD = "load"
_PLAIN = re.compile(r"[A-Za-z0-9_.,:/-]+")
_CONTROL = re.compile(r"[\x00-\x1f\x7f]")
_STATUS = re.compile(rb"status (\d)\n")
_LONGEST_LINE = 65_536
_FAILED = 3
_REMEMBERED = 256
_REMEMBERED_LINES = 10_000

Keep = Callable[[str], bool]


class NotAsked(Exception):
    """A question that can't be sent. The message is a sentence that says why."""


class NoAnswer(Exception):
    """The program gave no answer, though it was asked twice."""


@dataclass(frozen=True)
class Answer:
    """The lines that a word printed, and its status."""

    lines: list[str]
    status: int


def every(_line: str) -> bool:
    """Keeps each line of an answer."""
    return True


class Asks(Protocol):
    """Whoever can be asked."""

    def ask(self, word: str, *rest: str, keep: Keep = every) -> Answer:
        """The answer to a word and what stands behind FILE; of its lines those that are to be kept."""

    def state(self) -> Signature:
        """What changes when other answers may come."""

    def copy_to(self, folder: Path) -> Path:
        """A copy of the file that is asked, in a folder."""

    def close(self) -> None:
        """Asks nothing more."""


def line_of(words: list[str]) -> bytes:
    """The line of a session that has these words."""
    if any(_CONTROL.search(it) for it in words):
        raise NotAsked("No label, id or day has a control character, such as a line end, so nothing was asked.")
    quoted = (it if _PLAIN.fullmatch(it) else '"' + it.replace('"', '""') + '"' for it in words)
    line = " ".join(quoted).encode("utf-8", "replace") + b"\n"
    if len(line) > _LONGEST_LINE:
        raise NotAsked("The question is too long: it has more than 65,536 bytes.")
    return line


class Session:
    """Asks by one `wh session` that it keeps, and starts again if it ends. Where the program has no sessions, each word is a process of its own."""

    def __init__(self, program: str, path: Path, may_load: bool = False) -> None:
        self._words = _LOOKING | {_LOAD} if may_load else _LOOKING
        self._program = program
        self._path = path.resolve()
        self._turn = threading.Lock()
        self._process: subprocess.Popen[bytes] | None = None
        self._known: OrderedDict[bytes, Answer] = OrderedDict()
        self._known_of: Signature = ()
        self._has_sessions = subprocess.run([program, "help", "session"], capture_output=True, check=False).returncode == 0
        if not self._has_sessions:
            log.warning("%s has no word `session`, so each question opens the file.", program)

    def ask(self, word: str, *rest: str, keep: Keep = every) -> Answer:
        """The answer to a word; that of the same word over the same file is remembered."""
        if word not in self._words:
            raise NotAsked(f"{word} is none of the words that are asked here.")
        line = line_of([word, *rest])
        with self._turn:
            is_remembered = keep is every and word != _LOAD
            if is_remembered and (known := self._recall(line)):
                return known
            answer = self._exchange(line, keep) if self._has_sessions else self._run([word, str(self._path), *rest], keep)
            if is_remembered and len(answer.lines) <= _REMEMBERED_LINES and answer.status in (0, 2):
                self._known[line] = answer
            return answer

    def state(self) -> Signature:
        """That of the file."""
        return signature(self._path)

    def copy_to(self, folder: Path) -> Path:
        """A copy of the file in a folder; nothing is asked meanwhile."""
        with self._turn:
            try:
                return copy_files(self._path, folder)[0]
            except Changing as fault:
                raise NoAnswer(str(fault)) from fault

    def close(self) -> None:
        """Ends the session, once it has answered."""
        with self._turn:
            self._end()

    def _recall(self, line: bytes) -> Answer | None:
        now = signature(self._path)
        if now != self._known_of:
            self._known.clear()
            self._known_of = now
        while len(self._known) > _REMEMBERED:
            self._known.popitem(last=False)
        return self._known.get(line)

    def _exchange(self, line: bytes, keep: Keep) -> Answer:
        """Asks, and once more where the session ended without an answer: also a load that is sent again acts once."""
        for _ in range(2):
            process = self._process or self._start()
            try:
                lines, status = self._send(process, line, keep)
            except BaseException:
                # what is left of the answer must not be taken for the next one
                process.kill()
                self._end()
                raise
            if status is not None:
                return Answer(lines, status)
            code = self._end()
            if lines and code == _FAILED:
                return Answer(lines, code)
            log.warning("the session ended with status %d, and is started again", code)
        raise NoAnswer(f"{self._program} ended without an answer")

    def _start(self) -> "subprocess.Popen[bytes]":
        self._process = subprocess.Popen(
            [self._program, "session", str(self._path)], stdin=subprocess.PIPE, stdout=subprocess.PIPE, stderr=subprocess.DEVNULL
        )
        return self._process

    @staticmethod
    def _send(process: "subprocess.Popen[bytes]", line: bytes, keep: Keep) -> tuple[list[str], int | None]:
        assert process.stdin and process.stdout
        try:
            process.stdin.write(line)
            process.stdin.flush()
        except OSError:
            log.info("the session reads no more")
        return _read(process.stdout, keep)

    def _end(self) -> int:
        process, self._process = self._process, None
        if process is None:
            return 0
        process.communicate()
        return process.returncode

    def _run(self, words: list[str], keep: Keep) -> Answer:
        with subprocess.Popen([self._program, *words], stdin=subprocess.DEVNULL, stdout=subprocess.PIPE, stderr=subprocess.DEVNULL) as process:
            assert process.stdout
            lines, _ = _read(process.stdout, keep)
        if process.returncode < 0:
            raise NoAnswer(f"{self._program} was ended by a signal")
        return Answer(lines, process.returncode)


def _read(output: IO[bytes], keep: Keep) -> tuple[list[str], int | None]:
    """The lines up to the one that says the status, which is none where the output ends before."""
    lines = []
    for line in output:
        if found := _STATUS.fullmatch(line):
            return lines, int(found[1])
        text = line.decode("utf-8", "replace").rstrip("\n")
        if keep(text):
            lines.append(text)
    return lines, None
