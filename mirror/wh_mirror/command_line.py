"""The words of the program, what it prints, and its exit status."""

import argparse
import re
import subprocess
import sys
from collections.abc import Sequence
from pathlib import Path
from typing import NoReturn

from wh_mirror.chain import ChainRequest, Link, mirror_chain
from wh_mirror.faults import Failed, Fault, Mistaken, Refused
from wh_mirror.mirroring import Outcome, Request, mirror
from wh_mirror.progress import Progress
from wh_mirror.star import NOTHING

_USAGE = """\
wh-mirror FILE DSN [--schema NAME] [OPTION..]
       wh-mirror --chain DSN FILE.. [--schema NAME] [--name FILE=NAME].. [--on DSN=FILE..].. [--together] [OPTION..]"""

_EPILOG = """\
A line for each table tells how many rows were put, changed and removed; the last line tells how many commands are
mirrored. Where nothing is new it is the only one. In a chain each line begins with the schema of its file.

exit status:
  0  the mirror shows what the file holds; where others may have written to it, only --whole makes sure of that
  2  refused: what stands on the server isn't to be overwritten, or the program of --check found the file wrong
  3  failed: the file can't be read or isn't a warehouse, or a server isn't there or refused a statement
  4  error: the words are no command
In each case but the first nothing is changed (in a chain nothing of that file), and a line on standard error tells why.

examples:
  wh-mirror shop.wh "host=/run/postgresql dbname=shop"
  wh-mirror --chain "host=one dbname=shop" 2026-01.wh 2026-02.wh --on "host=two dbname=shop=2026-01.wh"
"""

_NAME = re.compile(r"[a-z_][a-z0-9_]*")


class _Parser(argparse.ArgumentParser):
    """A parser that leaves the telling of mistakes to the program."""

    def error(self, message: str) -> NoReturn:
        raise Mistaken(f"{message}; wh-mirror --help tells more")


def _parser() -> argparse.ArgumentParser:
    parser = _Parser(
        prog="wh-mirror",
        usage=_USAGE,
        description="Carries the tables of a warehouse's file into PostgreSQL, and later what has changed in them.",
        epilog=_EPILOG,
        formatter_class=argparse.RawDescriptionHelpFormatter,
        allow_abbrev=False,
    )
    add = parser.add_argument
    add("words", metavar="FILE", nargs="+", help="a warehouse; it is only read. Of a chain the last one is the newest")
    add("--schema", default="wh", metavar="NAME", help="the schema of the mirror, or of the chain's views (wh)")
    add("--chain", metavar="DSN", help="shows all files as one in this database, a connection string of libpq")
    add("--name", action="append", default=[], metavar="FILE=NAME", help="the schema of a file; else after its name")
    add("--on", action="append", default=[], nargs="+", metavar="DSN=FILE", help="files that stand in another database")
    add("--together", action="store_true", help="readers of the chain find one night of all files")
    add("--check", metavar="PROGRAM", help="first asks `PROGRAM check FILE`, and mirrors no wrong file")
    add("--whole", action="store_true", help="compares all rows, where somebody else wrote to the mirror")
    add("--restored", action="store_true", help="follows a file also where the mirror is ahead of it, or is another's")
    add("--wait", type=int, default=60, metavar="SECONDS", help="for `wh`, another mirror, or readers in the way (60)")
    return parser


def _parse(words: Sequence[str]) -> argparse.Namespace:
    given = _parser().parse_intermixed_args(words)
    if not given.schema or not 1 <= given.wait <= 86400:
        raise Mistaken("the schema has no name, or the wait isn't from 1 to 86400 seconds")
    # the longest of the mirror's own names is some 20 bytes longer, and PostgreSQL keeps 63
    if len(given.schema.encode()) > 40 or given.schema.startswith("pg_"):
        raise Mistaken("the name of the schema is too long, or PostgreSQL's own")
    if given.chain is None and (len(given.words) != 2 or given.name or given.on or given.together):
        raise Mistaken("the words are FILE and DSN, or --chain DSN and files; wh-mirror --help tells more")
    return given


def _chain_request(given: argparse.Namespace) -> ChainRequest:
    names = dict(_file_and_name(word, given.words) for word in given.name)
    dsns: dict[str, str] = {}
    for first, *more in given.on:
        dsn, file = _dsn_and_file(first, given.words)
        for it in (file, *more):
            if dsns.setdefault(it, dsn) != dsn:
                raise Mistaken(f"--on: {it} is given two servers")
    if unknown := dsns.keys() - set(given.words):
        raise Mistaken(f"--on {min(unknown)}: the file isn't in the chain")
    links = tuple(Link(file, _schema_of(file, given.schema, names.get(file)), dsns.get(file)) for file in given.words)
    _refuse_pairs(links)
    return ChainRequest(given.chain, given.schema, links, given.together, given.whole, given.restored, given.wait)


def _file_and_name(word: str, files: Sequence[str]) -> tuple[str, str]:
    """FILE=NAME. A file may have a `=` in its name, so it is one of those that are given."""
    for file in sorted(files, key=len, reverse=True):
        if word.startswith(f"{file}="):
            return file, word.removeprefix(f"{file}=")
    raise Mistaken(f"--name {word}: no file of the chain stands before a `=`")


def _dsn_and_file(word: str, files: Sequence[str]) -> tuple[str, str]:
    """DSN=FILE, of which both may have more of `=`."""
    for file in sorted(files, key=len, reverse=True):
        if word.endswith(f"={file}"):
            return word.removesuffix(f"={file}"), file
    raise Mistaken(f"--on {word}: no file of the chain stands behind a `=`")


def _schema_of(file: str, chain: str, name: str | None) -> str:
    """The name that is given, or `2026-01.wh` as `wh_2026_01`."""
    schema = name if name is not None else f"{chain}_{Path(file).stem.replace('-', '_')}"
    if not _NAME.fullmatch(schema) or len(schema) > 40 or schema.startswith("pg_") or schema == chain:
        raise Mistaken(f"{file}: {schema} is no name for a schema (lower case, digits and _); --name gives another")
    return schema


def _refuse_pairs(links: Sequence[Link]) -> None:
    """Each file has one schema, and each schema one file."""
    paths: dict[Path, str] = {}
    schemas: dict[str, str] = {}
    for link in links:
        path = Path(link.path).resolve()
        if path in paths:
            raise Mistaken(f"{link.path}: the file is given twice")
        if link.schema in schemas:
            raise Mistaken(f"{schemas[link.schema]} and {link.path} would both be {link.schema}; --name gives another")
        paths[path] = schemas[link.schema] = link.path


def _check(program: str, path: str) -> None:
    """Asks a program whether the file is what its commands define."""
    try:
        done = subprocess.run([program, "check", path], stdout=subprocess.PIPE, stderr=subprocess.STDOUT, check=False)
    except OSError as error:
        raise Failed(f"{program}: {error.strerror}") from error
    if done.returncode != 0:
        lines = done.stdout.decode(errors="replace").split("\n")
        said = next((line for line in reversed(lines) if line.strip()), f"status {done.returncode}")
        raise Refused(f"{path}: the check says: {said}")


def _tell(outcome: Outcome, prefix: str = "") -> None:
    written = {name: counts for name, counts in outcome.counts.items() if counts != NOTHING}
    for name, counts in written.items():
        print(f"{prefix}{name}: {counts.put} put, {counts.changed} changed, {counts.removed} removed")
    print(f"{prefix}{'mirrored' if written else 'nothing new'}: {outcome.commands} commands", flush=True)


def _run(given: argparse.Namespace, progress: Progress) -> None:
    def tell(link: Link, outcome: Outcome) -> None:
        progress.clear()
        _tell(outcome, f"{link.schema} ")

    chain = _chain_request(given) if given.chain is not None else None
    if given.check:
        for path in [link.path for link in chain.links] if chain else given.words[:1]:
            _check(given.check, path)
    if chain:
        mirror_chain(chain, progress, tell)
        return
    path, dsn = given.words
    request = Request(path, given.schema, given.schema, given.whole, given.restored, given.wait)
    outcome = mirror(request, dsn, progress)
    progress.clear()
    _tell(outcome)


def main(words: Sequence[str]) -> int:
    """Runs the program, and answers its exit status."""
    progress = Progress()
    try:
        _run(_parse(words), progress)
    except Fault as fault:
        progress.clear()
        print(f"{fault.word}: {fault}", file=sys.stderr)
        return fault.status
    except KeyboardInterrupt:
        progress.clear()
        print("failed: interrupted", file=sys.stderr)
        return Failed.status
    return 0
