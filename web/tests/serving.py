"""A server as a user starts it."""

import os
import socket
import subprocess
import sys
import time
import unittest
import urllib.error
import urllib.request
from pathlib import Path

from shops import PROGRAM, ROOT, STAND_IN

# Seconds: the gate runs these tests behind its proofs.
WAIT = 600


def free_port() -> int:
    """A port that nobody listens on."""
    with socket.socket() as found:
        found.bind(("127.0.0.1", 0))
        return int(found.getsockname()[1])


class Server:
    """The pages of a file, until the test ends; over a stand-in's sessions unless it is asked for the program itself."""

    def __init__(self, test: unittest.TestCase | type[unittest.TestCase], path: Path, *words: str, program: str = STAND_IN) -> None:
        port = free_port()
        self.at = f"http://127.0.0.1:{port}"
        command = [sys.executable, str(ROOT / "web/wh-web"), str(path), "--port", str(port), "--wh", program, *words]
        self.process = subprocess.Popen(command, env={**os.environ, "WH_ALONE": PROGRAM}, stdout=subprocess.DEVNULL, stderr=subprocess.PIPE)
        later = test.addClassCleanup if isinstance(test, type) else test.addCleanup
        later(self.stop)
        until = time.monotonic() + WAIT
        while not self._answers() and time.monotonic() < until:
            time.sleep(0.1)

    def get(self, page: str) -> tuple[int, str]:
        """The status and the text of a page."""
        try:
            with urllib.request.urlopen(self.at + page, timeout=WAIT) as answer:
                return answer.status, answer.read().decode()
        except urllib.error.HTTPError as fault:
            return fault.code, fault.read().decode()

    def stop(self) -> None:
        """Ends the server, if it runs."""
        if self.process.returncode is None:
            self.process.terminate()
            self.process.communicate()

    def _answers(self) -> bool:
        try:
            return self.get("/static/page.css")[0] == 200
        except urllib.error.URLError:
            if self.process.poll() is not None:
                raise AssertionError(f"the server has ended: {self.process.communicate()[1].decode()}") from None
            return False
