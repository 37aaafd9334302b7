"""How figures and days are written on a page."""

import calendar
import datetime
import re
from collections.abc import Sequence
from pathlib import Path

from wh_web.question import Range

# Debian's libjs-chart.js.
CHART_JS = Path("/usr/share/javascript/chart.js")
_NARROW_SPACE = "\u202f"
_MINUS = "\u2212"


def figure(text: str | None) -> str:
    """A printed figure for the eye: groups of three digits, and a real minus."""
    if text is None:
        return ""
    whole, point, rest = text.partition(".")
    return re.sub(r"(?<=\d)(?=(\d{3})+$)", _NARROW_SPACE, whole).replace("-", _MINUS) + point + rest


def range_of_months(months: Sequence[str]) -> Range:
    """From the first day of the first month to the last day of the last; this year where there are none."""
    if not months:
        year = datetime.date.today().year
        return Range(f"{year}-01-01", f"{year}-12-31")
    year, month = map(int, months[-1].split("-"))
    return Range(f"{months[0]}-01", f"{months[-1]}-{calendar.monthrange(year, month)[1]}")
