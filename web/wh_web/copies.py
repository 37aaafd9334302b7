"""Asks a private copy of a warehouse, so that others can load meanwhile."""

import logging
import shutil
import tempfile
import threading
import time
from dataclasses import dataclass
from pathlib import Path

from wh_web.files import Changing, Signature, copy_files, is_held, signature
from wh_web.session import Answer, Keep, NoAnswer, Session, every

log = logging.getLogger("wh-web")

_PATIENCE = 60.0
_PAUSE = 0.2


class CopiedSession:
    """Asks a private copy of a file, and takes a new one when the file has changed and no `wh` holds it."""

    def __init__(self, program: str, path: Path) -> None:
        self._program = program
        self._path = path.resolve()
        self._turn = threading.Lock()
        self._copy = self._first()

    def ask(self, word: str, *rest: str, keep: Keep = every) -> Answer:
        """As of a session, over the newest copy."""
        with self._turn:
            if signature(self._path) != self._copy.state and (newer := self._taken()):
                self._copy.throw_away()
                self._copy = newer
                log.info("%s has changed, and is copied again", self._path)
            return self._copy.session.ask(word, *rest, keep=keep)

    def state(self) -> Signature:
        """That of the file when it was copied."""
        return self._copy.state

    def copy_to(self, folder: Path) -> Path:
        """A further copy of the one that is asked."""
        with self._turn:
            return self._copy.session.copy_to(folder)

    def close(self) -> None:
        """Ends the session, and takes the copy away."""
        with self._turn:
            self._copy.throw_away()

    def _first(self) -> "_Copy":
        until = time.monotonic() + _PATIENCE
        while not (copy := self._taken()):
            if time.monotonic() > until:
                raise NoAnswer(f"{self._path} is held by another program")
            time.sleep(_PAUSE)
        return copy

    def _taken(self) -> "_Copy | None":
        """A new copy; none while somebody holds or writes the file."""
        if is_held(self._path):
            return None
        folder = Path(tempfile.mkdtemp(prefix="wh-web-copy-"))
        try:
            path, state = copy_files(self._path, folder)
            return _Copy(folder, state, Session(self._program, path))
        except (Changing, OSError) as fault:
            log.warning("no copy is taken: %s", fault)
            shutil.rmtree(folder)
            return None


@dataclass(frozen=True)
class _Copy:
    """A copy in a folder of its own, of which state of the file it is, and who is asked about it."""

    folder: Path
    state: Signature
    session: Session

    def throw_away(self) -> None:
        self.session.close()
        shutil.rmtree(self.folder, ignore_errors=True)
