"""Two files of a chain, of another policy and format each, whose sales can be looked through by hand."""

import atexit
import hashlib
import shutil
from functools import cache
from pathlib import Path
from tempfile import TemporaryDirectory

from shop import wh

_JANUARY_POLICY = """\
first_year = 2026
last_year = 2026
[[product]]
name = "brand"
type = 2
[[product]]
name = "category"
type = 6
[[product]]
name = "supplier"
type = 3
[[store]]
name = "city"
type = 1
[[customer]]
name = "tier"
type = 1
"""
_JANUARY = {
    "product": "id,day,brand,category,supplier\n"
    "COLA,2026-01-01,Acme,Drinks,North\nTEA,2026-01-01,Leaf,Drinks,East\nJAM,2026-01-01,Orchard,Breakfast,East\n",
    "store": "id,day,city\nBERN,2026-01-01,Bern\n",
    "customer": "id,day,tier\nANNA,2026-01-01,Gold\nEVE,2026-01-01,Silver\n",
    # no record describes NEWS
    "sales": "ticket,line,day,store,product,customer,quantity,amount,cost\n"
    "J1,1,2026-01-10,BERN,COLA,ANNA,1,1.00,0.50\nJ1,2,2026-01-10,BERN,TEA,ANNA,1,2.00,1.00\n"
    "J2,1,2026-01-11,BERN,JAM,,1,4.00,2.00\nJ3,1,2026-01-12,BERN,NEWS,EVE,1,8.00,4.00\n",
}

_FEBRUARY_POLICY = """\
first_year = 2026
last_year = 2026
[[product]]
name = "brand"
type = 7
[[product]]
name = "category"
type = 6
[[store]]
name = "city"
type = 1
[[store]]
name = "region"
type = 1
[[customer]]
name = "tier"
type = 1
[[customer]]
name = "club"
type = 5
"""
_FEBRUARY = {
    # TEA isn't carried over, JAM is only sold
    "product": "id,day,brand,category\n"
    "COLA,2026-01-01,Acme,Drinks\nCOLA,2026-02-10,Bolt,Soft drinks\nNEWS,2026-02-01,Post,Papers\n",
    "store": "id,day,city,region\nBERN,2026-01-01,Bern,West\n",
    "customer": "id,day,tier,club\nANNA,2026-01-01,Gold,yes\n",
    # the last one comes late
    "sales": "ticket,line,day,store,product,customer,quantity,amount,cost,discount\n"
    "F1,1,2026-02-05,BERN,COLA,ANNA,1,16.00,8.00,0.25\nF1,2,2026-02-15,BERN,COLA,ANNA,1,32.00,16.00,0\n"
    "F2,1,2026-02-20,BERN,JAM,,1,64.00,32.00,0\nF3,1,2026-01-31,BERN,NEWS,,1,128.00,64.00,0\n",
}


def worked_files(folder: Path) -> tuple[str, str]:
    """The files of January and February in a folder; the program makes them once."""
    january, february = _made_once()
    return str(shutil.copy(january, folder)), str(shutil.copy(february, folder))


def delivered(path: str, batches: dict[str, str], policy: str | None = None, is_upgraded: bool = False) -> None:
    """Delivers batches by their kinds, under ids of their texts; with a policy the file is made first."""
    with TemporaryDirectory() as name:
        folder, lines = Path(name), ["upgrade,u,none\n"] if is_upgraded else []
        for kind, text in batches.items():
            (folder / kind).write_text(text)
            lines.append(f"{kind},{hashlib.sha256(text.encode()).hexdigest()[:12]},{folder / kind}\n")
        (folder / "manifest").write_text("".join(lines))
        if policy is not None:
            (folder / "policy").write_text(policy)
            wh("init", path, str(folder / "policy"))
        wh("deliver", path, str(folder / "manifest"))


@cache
def _made_once() -> tuple[Path, Path]:
    folder = TemporaryDirectory()
    atexit.register(folder.cleanup)
    january, february = (Path(folder.name) / name for name in ("2026-01.wh", "2026-02.wh"))
    delivered(str(january), _JANUARY, _JANUARY_POLICY)
    delivered(str(february), _FEBRUARY, _FEBRUARY_POLICY, is_upgraded=True)
    return january, february
