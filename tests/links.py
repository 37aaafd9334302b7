#!/usr/bin/env python3
"""Looks for every link, anchor and path of the repository that a page names, and for every page that any file names; each has to be there.

usage: tests/links.py

A path is a word that begins with a folder of the repository, as docs/model.md or crates/*/specs, or a script or source that a page names in
backticks without its folder. Words with NAME, CRATE or FOLDER in them, and what a build makes in out/, are passed over. A page's block of `rust` has to
stand in a source, line for line.
"""

import re
import subprocess
import sys
from pathlib import Path

ROOT = Path(__file__).resolve().parent.parent
FOLDERS = "bench|crates|docs|examples|mirror|tests|tools|web"
LINK = re.compile(r"\[[^\]\n]*\]\(([^)\s]+)\)")
PATH = re.compile(rf"(?<![\w/.-])((?:{FOLDERS})/[\w./*-]*[\w*/])(#[\w-]+)?")
NAMED = re.compile(r"`(?:[\w-]+/)*([\w-]+\.(?:antt|md|py|rt|sh))`")
PAGE = re.compile(r"\b(?:docs/\w+|(?:bench|mirror|web)/README)\.md(#[\w-]+)?")
EXAMPLE = re.compile(r"^```rust\n(.*?)^```$", re.S | re.M)
PLACEHOLDER = re.compile(r"(?:^|/)(?:NAME|CRATE|FOLDER)(?:[./]|$)")
FILES = subprocess.run(["git", "ls-files"], cwd=ROOT, capture_output=True, text=True, check=True).stdout.split("\n")[:-1]
NAMES = {Path(it).name for it in FILES}


def text_of(path):
    return (ROOT / path).read_text(encoding="utf-8", errors="replace") if (ROOT / path).is_file() else ""


def anchors_of(page):
    """The anchors of a page's headings, as a browser of the repository makes them."""
    heads = re.findall(r"^#+ (.+)$", re.sub(r"^```.*?^```", "", text_of(page), flags=re.S | re.M), flags=re.M)
    return {re.sub(r"[^\w -]", "", head.lower()).replace(" ", "-") for head in heads}


def is_there(folder, path, anchor):
    """Whether a path, from a folder, and the anchor in it are there."""
    target = (folder / path).resolve()
    if not target.exists():
        return "*" in path and any(folder.glob(path)) or bool(PLACEHOLDER.search(path)) or "/out" in path
    return not anchor or anchor[1:] in anchors_of(target.relative_to(ROOT))


def named_in(page):
    """What a page names: the words, and whether that is there."""
    text = text_of(page)
    for target in LINK.findall(text):
        if "://" not in target and not target.startswith("mailto:"):
            path, mark, anchor = target.partition("#")
            yield target, is_there((ROOT / page).parent, path or Path(page).name, mark + anchor)
    for path, anchor in PATH.findall(text):
        yield path + anchor, is_there(ROOT, path, anchor)
    for name in NAMED.findall(text):
        yield name, name in NAMES
    for lines in EXAMPLE.findall(text):
        yield f"an example in a source:\n{lines}", any(lines in text_of(it) for it in FILES if it.endswith(".rt"))


def main():
    passed, missing = 0, []
    for file in FILES:
        if file.endswith(".md"):
            found = set(named_in(file))
        else:
            found = {(it[0], is_there(ROOT, it[0].partition("#")[0], it[1])) for it in PAGE.finditer(text_of(file))}
        passed += sum(1 for _, there in found if there)
        missing += [f"{file}: {name} isn't there" for name, there in sorted(found, key=str) if not there]
    print("\n".join([*missing, f"{passed} passed, {len(missing)} failed"]))
    return 1 if missing else 0


sys.exit(main())
