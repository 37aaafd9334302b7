"""The built program that a script tries, and how to build one without proofs."""

import os
import signal
import subprocess
import sys
import time

ROOT = os.path.realpath(os.path.join(os.path.dirname(__file__), "../.."))
BUILT = f"{ROOT}/crates/wh/out/wh"


def program(place):
    """The path that stands at a place among a script's arguments, else the one that WH names, else the built one."""
    given = sys.argv[place] if len(sys.argv) > place else None
    return os.path.realpath(given or os.environ.get("WH") or BUILT)


def made_by_try(room):
    """The program that a try linked in a folder below this one, if it is there."""
    for at, _, names in os.walk(room):
        for name in names:
            path = os.path.join(at, name)
            if "." not in name and os.access(path, os.X_OK) and open(path, "rb").read(4) == b"\x7fELF":
                return path
    return None


def build_unproved(room):
    """Builds the program without proofs in a folder, and gives its path: `rt try` links one to run it once, and takes it away afterwards."""
    kept = os.path.join(room, "wh")
    how = {"cwd": f"{ROOT}/crates/wh", "stdin": subprocess.DEVNULL, "stdout": subprocess.DEVNULL, "stderr": subprocess.PIPE, "text": True, "start_new_session": True}
    tried = subprocess.Popen(["rt", "try", "--", "--help"], env={**os.environ, "TMPDIR": room}, **how)
    while tried.poll() is None and not os.path.exists(kept):
        if found := made_by_try(room):
            os.link(found, kept)
        time.sleep(0.01)
    if not os.path.exists(kept):
        sys.exit(f"no program was built: {tried.stderr.read()[-2000:]}")
    os.killpg(tried.pid, signal.SIGTERM)
    tried.wait()
    return kept
