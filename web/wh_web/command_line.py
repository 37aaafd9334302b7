"""The programs' words."""

import argparse
import logging
import signal
import sys
import tempfile
from collections.abc import Sequence
from pathlib import Path

import waitress

from wh_web.copies import CopiedSession
from wh_web.pages import MOST_BYTES, Site, make_app
from wh_web.reports import page_of, reports_of
from wh_web.session import NoAnswer, Session

_FAILED = 3
_WRONG_WORDS = 4
_THREADS = 8


class _Parser(argparse.ArgumentParser):
    """Ends with the status that `wh` has for words that are no command."""

    def error(self, message: str) -> None:  # type: ignore[override]
        self.print_usage(sys.stderr)
        print(f"error: {message}", file=sys.stderr)
        sys.exit(_WRONG_WORDS)


def _parser(name: str, purpose: str) -> _Parser:
    parser = _Parser(prog=name, description=purpose)
    parser.add_argument("file", type=Path, metavar="FILE", help="the warehouse, a file that `wh init` made")
    parser.add_argument("--title", default="Shop", help="what stands above the page (Shop)")
    parser.add_argument("--wh", default="wh", metavar="PROGRAM", help="the program (wh)")
    return parser


def serve_pages(words: Sequence[str]) -> int:
    """Serves the pages of a warehouse until it is stopped."""
    parser = _parser("wh-web", "Serves a page on which anybody can ask what was sold.")
    parser.add_argument("--port", type=int, default=8080)
    parser.add_argument("--address", default="127.0.0.1", help="where it listens (127.0.0.1: this machine alone)")
    parser.add_argument("--copy", action="store_true", help="asks a private copy, so that others can load meanwhile")
    parser.add_argument("--load", action="store_true", help="lets the page load batches")
    given = parser.parse_args(words)
    if given.copy and given.load:
        parser.error("--copy and --load exclude each other: what is loaded into a copy is lost")
    # as Ctrl-C: what was copied is taken away
    signal.signal(signal.SIGTERM, signal.default_int_handler)
    logging.basicConfig(level=logging.INFO, format="%(asctime)s %(name)s %(message)s")
    with tempfile.TemporaryDirectory(prefix="wh-web-") as folder:
        try:
            return _serve(given, Path(folder))
        except (OSError, NoAnswer) as fault:
            print(f"failed: {fault}", file=sys.stderr)
            return _FAILED


def _serve(given: argparse.Namespace, folder: Path) -> int:
    session = CopiedSession(given.wh, given.file) if given.copy else Session(given.wh, given.file, given.load)
    try:
        told = session.ask("status")
        if told.status:
            print("\n".join(told.lines), file=sys.stderr)
            return told.status
        site = Site(session, lambda path: Session(given.wh, path, may_load=True), given.title, folder, given.load)
        print(f"http://{given.address}:{given.port}/", flush=True)
        waitress.serve(make_app(site), host=given.address, port=given.port, threads=_THREADS, max_request_body_size=MOST_BYTES)
    except KeyboardInterrupt:
        pass
    finally:
        session.close()
    return 0


def write_page(words: Sequence[str]) -> int:
    """Writes the reports of a list as one page, which stays as it was where there are none."""
    parser = _parser("wh-page", "Writes the reports of a list, with charts, as one HTML file.")
    parser.add_argument("out", type=Path, metavar="OUT.html", help="the file that is written")
    parser.add_argument("--list", type=Path, required=True, metavar="LIST", help="a list of reports, as `wh reports` takes it")
    given = parser.parse_args(words)
    try:
        session = Session(given.wh, given.file)
        answer = session.ask("reports", str(given.list.resolve()))
        session.close()
        reports = reports_of(answer.lines)
        if answer.status > 2 or (answer.status and not any(it.table for it in reports)):
            print("\n".join(answer.lines), file=sys.stderr)
            return answer.status
        new = given.out.with_name(given.out.name + ".new")
        new.write_text(page_of(given.title, reports), encoding="utf-8")
        new.replace(given.out)
    except (OSError, NoAnswer) as fault:
        print(f"failed: {fault}", file=sys.stderr)
        return _FAILED
    return answer.status
