"""What docs/schema.md says of each table and column, for the comments of the mirror."""

import re
from pathlib import Path

_PAGE = Path(__file__).resolve().parents[2] / "docs" / "schema.md"
_CODE = re.compile(r"`(\w+)`")
_RANGE = re.compile(r"`(\w)(\d)` to `\1(\d)`")

Comments = dict[tuple[str, str | None], str]


def _columns_of(cell: str) -> list[str]:
    """The columns that the first cell of a row names: `a`, `b`, or `v1` to `v6`."""
    ranged = _RANGE.search(cell)
    if ranged:
        letter, first, last = ranged.groups()
        return [f"{letter}{number}" for number in range(int(first), int(last) + 1)]
    return _CODE.findall(cell)


def read_comments() -> Comments:
    """The text of each table (with no column) and of each column; none where the page isn't there.

    A table's text is what its heading says of it, or else the line below the heading.
    """
    comments: Comments = {}
    tables: list[str] = []
    lines = _PAGE.read_text(encoding="utf-8").splitlines() if _PAGE.is_file() else []
    for line in lines:
        if line.startswith("## "):
            tables, text = _CODE.findall(line), line.partition(":")[2].strip()
            comments.update({(table, None): text for table in tables if text})
        elif line.startswith("| `") and tables:
            cell, text = (part.strip() for part in line.strip("|").split("|", maxsplit=1))
            comments.update({(table, column): text for table in tables for column in _columns_of(cell)})
        elif line and not line.startswith("|"):
            for table in tables:
                comments.setdefault((table, None), line)
    return comments
