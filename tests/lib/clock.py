"""What each crate of a run of the gate takes: the processor time, as /proc tells it, and when its proof, its tests and its edits ran."""

import os
import threading
import time
from typing import NamedTuple

from lib.crates import all_below, libraries_of

TICKS = os.sysconf("SC_CLK_TCK")
KINDS = ("proof", "tests", "edits")


def kind_of(words):
    """What a run of the prover is for. A program's proof is written to a file, an edit's check never is."""
    if "--test" in words:
        return "tests"
    return "edits" if "check" in words and "-o" not in words else "proof"


def words_of(process):
    with open(f"/proc/{process}/cmdline", "rb") as file:
        return file.read().decode(errors="replace").split("\0")[:-1]


def parent_of(process):
    with open(f"/proc/{process}/stat") as file:
        return int(file.read().rpartition(")")[2].split()[1])


def work_of(process):
    """The crate that a process of this run works on and what for, or None; a compiler that the prover starts works for the same."""
    found = None
    while process > 1 and process != os.getpid():
        words = words_of(process)
        if found is None and "--crate-name" in words:
            found = words[words.index("--crate-name") + 1], kind_of(words)
        process = parent_of(process)
    return found if process == os.getpid() else None


def seconds_of(process):
    with open(f"/proc/{process}/stat") as file:
        fields = file.read().rpartition(")")[2].split()
    return (int(fields[11]) + int(fields[12])) / TICKS


class Span(NamedTuple):
    """When something ran, in minutes by the clock since the run began."""

    begun: float
    ended: float


class Clock(threading.Thread):
    """Looks once a second at what each process has used until then."""

    def __init__(self, crates):
        """`crates` is the path of crates.txt, whose order the tables take."""
        super().__init__(daemon=True)
        self.libraries = libraries_of(crates)
        self.used = {}
        self.spans = {}
        self.began = time.time()
        self.stopped = threading.Event()

    def run(self):
        while not self.stopped.wait(1):
            now = self.minutes()
            for process in (int(it) for it in os.listdir("/proc") if it.isdigit()):
                try:
                    if work := work_of(process):
                        self.used[process, work] = seconds_of(process)
                        self.spans[work] = Span(self.spans.get(work, Span(now, now)).begun, now)
                except (OSError, IndexError, ValueError):
                    pass

    def minutes(self):
        """Minutes by the clock since the run began."""
        return (time.time() - self.began) / 60

    def table(self):
        """Minutes of processor time by crate, as lines of Markdown."""
        sums = {}
        for (_, (crate, kind)), seconds in self.used.items():
            sums.setdefault(crate, dict.fromkeys(KINDS, 0))[kind] += seconds / 60
        order = [*self.libraries]
        lines = ["| Crate | Proof | Tests | Edits |", "|---|---|---|---|"]
        for crate, by_kind in sorted(sums.items(), key=lambda it: order.index(it[0]) if it[0] in order else len(order)):
            lines.append(f"| `{crate}` | " + " | ".join(f"{by_kind[it]:.1f}" if by_kind[it] else "" for it in KINDS) + " |")
        whole = [sum(it[kind] for it in sums.values()) for kind in KINDS]
        lines.append("| all | " + " | ".join(f"{it:.1f}" for it in whole) + " |")
        return [*lines, f"{sum(whole):.0f} minutes of processor time"]

    def chain(self):
        """The crates that each waited for the one before, up to what ended last, as lines: when each ran, and how long it stood ready before."""
        if not self.spans:
            return []
        work = max(self.spans, key=lambda it: self.spans[it].ended)
        lines = []
        while work:
            crate, kind = work
            below = [(it, "proof") for it in all_below(self.libraries, crate) if (it, "proof") in self.spans]
            below += [(crate, "proof")] * (kind == "edits" and (crate, "proof") in self.spans)
            last = max(below, key=lambda it: self.spans[it].ended, default=None)
            span = self.spans[work]
            stood = span.begun - (self.spans[last].ended if last else 0)
            lines.append(f"{span.begun:5.1f} to {span.ended:5.1f}  {crate}, {kind}" + (f", ready for {stood:.1f}" if stood >= 0.1 else ""))
            work = last
        return ["The longest chain, in minutes by the clock:", *reversed(lines)]
