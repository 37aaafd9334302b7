#!/usr/bin/env python3
"""Tries wrong bodies: the prover has to refuse each edit of a crate's edits/.

Usage: tests/edits.py [--copies] CRATE..     (as tests/edits.py wh_day wh_policy)
       tests/edits.py --rules [CRATE..]
       tests/edits.py --by-tests [CRATE..]
       tests/edits.py --dry-run [--by-tests] [CRATE..]

A function is proved from its own body and from the contracts of what it calls. So an edit is made in a copy of its function,
which stands beside it under a name of its own, with the same contract, over the same callees, and with the same answers, where
proofs/ has some: nothing waits for a copy, and the edits of a crate are tried together, in one check over what is proved of
the crate without any. Where an edit names a clause that it breaks, its copy ensures that one and the first other, and no more:
what isn't proved to meet these isn't proved to meet all. A method of a trait can't have a copy, so it is edited in its place,
with one edit of it at a time.

--copies tries, in place of the edits, a copy without an edit of each function that has some, with the clauses that they name:
the prover has to prove each, or its refusals would say nothing.

An edit counts as refused where the prover refuses its function, and not where that only waits for another one's proof. An edit
whose answer isn't clear is tried again without those that are refused, and in the end alone and in its place, as is one that
stands outside of functions. Where a check ends before it answers for any function, its edits are tried in two parts, those
that its errors point at and the others, or two halves: so an edit that doesn't compile is found. It is a BAD EDIT, which says
nothing. All is done on a copy of the repository; a crate with no kept work in out/ is proved there first. The last line counts
the edits, and the status is 1 where one is bad or not refused.

--rules tries those edits alone that have a line `rule:`, which says in words the wrong body that the rules of the warehouse name.
It is the gate's, in which nothing is kept but the libraries: so it checks the copies alone, in one check with their copies without
an edit, where each of these has to be proved. All other functions have a body that says nothing, and a hole in place of the proof, since
the gate has proved them before: so of what the copies call it takes the contract.

--by-tests tries the edits of a crate's refused-by-tests/, which meet every contract: the test that an edit's line `test:` names has to fail. Each is made in
its place, in a copy of the repository of its own, in which the crate of that test is tried without proofs: 8 GB of memory and some minutes for each. What
fails without an edit, too, would say nothing, so run it beside `tests/all --quick`.

--dry-run tries nothing. It takes seconds, and names the edits that don't fit their file, and those by tests whose test isn't there.
"""

import argparse
import os
import re
import resource
import shutil
import subprocess
import sys
import tempfile
from concurrent.futures import ThreadPoolExecutor
from pathlib import Path
from typing import NamedTuple

from lib.crates import all_below, libraries_of

ROOT = Path(__file__).resolve().parent.parent
FUNCTION = re.compile(r"( *)(?:pub(?:\([^)]*\))? )?(?:const |final )*fn (\w+)")
IMPL = re.compile(r"impl(<.*?>)? (.+?)(?: for (.+?))?(?: \{| where|$)")
PARAMETER = re.compile(r"[<,] *(\w+) *(?=[:,>])")
WORD = re.compile(r"(?<!')\b[A-Za-z]\w*")
TRAIT = re.compile(r"(?:pub(?:\([^)]*\))? )?trait (\w+)")
ANSWER = re.compile(r"^fn (\S+): (.*)$", re.M)
TESTED = re.compile(r"^test (\S+) \.\.\. (.*)\n(?: +(.*))?", re.M)
ERROR = re.compile(r"^(?:\./)?(src/\S+?):(\d+):\d+: error", re.M)
ENSURES = re.compile(r" *ensures(?: (\w+))? ?\{")
CLAUSE = re.compile(r" +(?:ensures|requires|ghost|//)")
GOAL = re.compile(r"(?:abbrev )?(?:pub )?([a-z][^ :]*)")
HOLE = """use {module}.Statement.{{statement}}

pub {name}_spec : {{M : Type 1}} → statement M
{name}_spec = ?
"""
ANSWER_FOR_ALL = re.compile(r"^pub returns(?:(?!-clause-)[^ :])* :", re.M)
OWN = re.compile(r"did not prove")
OWN_OVER_HOLES = re.compile(r"did not prove|Answers\.[^`]*`, which antt refuses")
WAITS = re.compile(r"it calls `|it passes the block `|a call of `|waits for the proof of `")


class Function(NamedTuple):
    """A function of a file: its name behind that of its module, the lines of its first attribute and of its head, the line
    past its last, and whether it is a trait's or of an impl of one."""

    name: str
    top: int
    head: int
    past: int
    is_of_trait: bool


class Edit(NamedTuple):
    """The lines of a file that an edit replaces, those in their place, and the function around them, if one is. The clause
    that the edit breaks, where it names one. What the name of a copy of it ends in, if the edit is made in one. Whether its
    function alone is checked, with what that calls."""

    label: str
    file: str
    first: int
    past: int
    lines: list
    function: Function
    clause: str
    copy: str
    is_alone: bool = False


def joined(text, parameters):
    """The words of a type, as the prover joins them in a name, without lifetimes and parameters."""
    return "".join(it[0].upper() + it[1:] for it in WORD.findall(text) if it not in parameters)


def owner_at(lines, row):
    """What the prover writes before the name of a method: its type, and a trait behind it, or the trait alone. And whether
    there is a trait."""
    for line in reversed(lines[:row]):
        if impl := IMPL.match(line):
            subject, trait = (impl[3], impl[2]) if impl[3] else (impl[2], "")
            name, _, given = trait.partition("<")
            parameters = PARAMETER.findall(impl[1] or "")
            return "".join(joined(it, parameters) for it in (subject, name.rpartition("::")[2], given)) + "::", bool(trait)
        if trait := TRAIT.match(line):
            return trait[1] + "::", True
    return "", False


def functions_of(lines):
    """The functions that have a body."""
    heads = [(row, head) for row, line in enumerate(lines) if (head := FUNCTION.match(line))]
    found = []
    for (row, head), (bound, _) in zip(heads, heads[1:] + [(len(lines), None)]):
        end = next((at for at in range(row, bound) if lines[at] == head[1] + "}"), None)
        if end is not None:
            owner, is_of_trait = owner_at(lines, row) if head[1] else ("", False)
            top = next(at for at in range(row, -1, -1) if not lines[at - 1].startswith(head[1] + "#["))
            found.append(Function(owner + head[2], top, row, end + 1, is_of_trait))
    return found


def answers_of(crate, edit):
    """The folder of the answers for an edit's function, if it has some: under its module's, or, as a method's type may stand in
    another module, under any."""
    module, names = Path(edit.file).with_suffix("").parts[1:], edit.function.name.split("::")
    here = crate.joinpath("proofs", *module, *names)
    elsewhere = crate.glob("proofs/**/" + "/".join(names)) if len(names) > 1 else []
    return here if here.exists() else next(iter(elsewhere), None)


def same_in_front(some, other):
    return next((at for at, (a, b) in enumerate(zip(some, other)) if a != b), min(len(some), len(other)))


def read(crate, path):
    """The edit of a file, None where a text of it doesn't stand once."""
    text = path.read_text()
    file = re.search(r"^file: (.*?) *$", text, re.M)[1]
    before = after = (crate / file).read_text()
    for old, new in zip(re.findall(r"^old: (.*)$", text, re.M), re.findall(r"^new: ?(.*)$", text, re.M)):
        if after.count(old) != 1:
            return None
        after = after.replace(old, new)
    before, after = before.split("\n"), after.split("\n")
    first = same_in_front(before, after)
    behind = same_in_front(before[first:][::-1], after[first:][::-1])
    past, lines = len(before) - behind, after[first : len(after) - behind]
    around = next((it for it in functions_of(before) if it.top <= first and past <= it.past), None)
    clause = re.search(r"^clause: (\w+)", text, re.M)
    copy = f"_as_{path.stem}" if around and around.head < first and not around.is_of_trait else ""
    return Edit("/".join(path.parts[-3:]), file, first, past, lines, around, clause[1] if clause else "", copy)


def body_of(lines, function):
    """The row below a function's contract."""
    indent = lines[function.past - 1].removesuffix("}")
    return next((at for at in range(function.head, function.past) if lines[at] == indent + "{"), function.head + 1)


def start_of_body(lines, function):
    """The row below the brace that opens a function's body, which stands alone below a contract."""
    indent = lines[function.past - 1].removesuffix("}")
    alone = next((at for at in range(function.head, function.past) if lines[at] == indent + "{"), None)
    return 1 + (alone or next(at for at in range(function.head, function.past) if lines[at].endswith("{")))


def clauses_left_out(lines, edit):
    """The names of what a function ensures, without the clause that an edit names and the first other one: of a clause that
    stands alone the prover states its goals in another form, which the function's answers wouldn't fit. None where the edit
    names no clause."""
    if not edit.clause:
        return set()
    contract = lines[edit.function.head + 1 : body_of(lines, edit.function)]
    names = [it[1] for line in contract if (it := ENSURES.match(line))]
    if edit.clause not in names:
        sys.exit(f"{edit.label} names no clause of what {edit.function.name} ensures")
    return set([it for it in names if it != edit.clause][1:])


def without_clauses(contract, left_out):
    """The lines of a contract without those clauses of what it ensures."""
    kept, is_kept = [], True
    for line in contract:
        if CLAUSE.match(line):
            ensures = ENSURES.match(line)
            is_kept = not ensures or ensures[1] not in left_out
        kept += [line] if is_kept else []
    return kept


def lines_of_copy(lines, edit):
    """A function with an edit and a name of its own, of its file's lines."""
    at, left_out = edit.function, clauses_left_out(lines, edit)
    short, body = at.name.rpartition("::")[2], body_of(lines, at) if left_out else at.head + 1
    head = re.sub(r"\bpub(\([^)]*\))? ", "", lines[at.head].replace(f"fn {short}", f"fn {short}{edit.copy}", 1), count=1)
    contract = without_clauses(lines[at.head + 1 : body], left_out)
    return ["", *lines[at.top : at.head], head, *contract, *lines[body : edit.first], *edit.lines, *lines[edit.past : at.past]]


def edited(lines, edits):
    """A file's lines with edits, and for each the place in it of the function, or of the lines alone."""
    made, places, at = [], {}, 0
    for edit in sorted(edits, key=lambda it: it.function.past if it.copy else it.first):
        around = edit.function
        first, past = (around.past, around.past) if edit.copy else (edit.first, edit.past)
        new = lines_of_copy(lines, edit) if edit.copy else edit.lines
        in_front, behind = (first - around.head, around.past - past) if around and not edit.copy else (0, 0)
        made += lines[at:first]
        places[edit.label] = (len(made) - in_front, len(made) + len(new) + behind)
        made, at = made + new, past
    return made + lines[at:], places


def with_answers(lines, left_out):
    """The lines of answers, without those for goals of clauses that are left out."""
    kept, is_kept = [], True
    for line in lines:
        if goal := GOAL.match(line):
            is_kept = "-clause-" not in goal[1] or goal[1].rpartition("-clause-")[2] not in left_out
        kept += [line] if is_kept else []
    return kept


def copy_answers(crate, edit):
    """Copies the answers of a function for the copy of it: they name its goals by its own path."""
    source = answers_of(crate, edit)
    own = ".".join(source.relative_to(crate).parts)
    left_out = clauses_left_out((crate / edit.file).read_text().split("\n"), edit)
    target = source.with_name(source.name + edit.copy)
    shutil.copytree(source, target)
    for file in target.rglob("*.antt"):
        text = re.sub(re.escape(own) + r"(?=[.\s])", own + edit.copy, file.read_text())
        kept = "\n".join(with_answers(text.split("\n"), left_out))
        if left_out and (left_out & set(re.findall(r"-clause-(\w+)", kept)) or ANSWER_FOR_ALL.search(kept)):
            sys.exit(f"{edit.label} can name no clause: an answer for one of {edit.function.name} is for others too, or cites theirs")
        file.write_text(kept)


def is_in_cycle(lines, function):
    """Whether a function calls itself, or says that it is called by what it calls: such functions have one proof together."""
    name, attributes = function.name.rpartition("::")[2], lines[function.top : function.head]
    return any("#[cycle" in it for it in attributes) or any(re.search(rf"\b{name}\(", it) for it in lines[function.head + 1 : function.past])


def without_bodies(lines, module, kept):
    """Lines in which each function has a body that says nothing, but for those in `kept`, of traits, and in cycles. And the folders of their proofs,
    below that of the module."""
    made, folders = lines[:], []
    for it in functions_of(lines):
        first = start_of_body(lines, it)
        if not (it.is_of_trait or it.name in kept or is_in_cycle(lines, it)) and first < it.past - 1:
            made[first : it.past - 1] = ["unreachable!()"] + [""] * (it.past - 2 - first)
            folders.append(module.joinpath(*it.name.split("::")))
    return made, folders


def take_contract(crate, folder):
    """Puts a hole in place of the proof of the function whose proof stands in this folder, or would: so what calls it takes its contract."""
    names = folder.relative_to(crate).parts
    folder.mkdir(parents=True, exist_ok=True)
    for it in ("Answers.antt", "Invariants.antt"):
        (folder / it).unlink(missing_ok=True)
    (folder / "Proof.antt").write_text(HOLE.format(module=".".join(["Rattle", crate.name, *names]), name=names[-1]))


def copy_work(source, target):
    """Copies the prover's work: links to the files of checked modules, which it never writes to, and copies of others."""
    shutil.copytree(source, target, copy_function=lambda old, new: (os.link if old.endswith(".oantt") else shutil.copy2)(old, new))


class Said(NamedTuple):
    """What a check says, and where its edits stand."""

    text: str
    places: dict


def prover_over_libraries(crate):
    """The prover itself, over the libraries as they lie there: `rt check` would first prove those again that `rt ci` left."""
    kit, crates = Path(shutil.which("rt")).resolve().parent.parent, crate.parent
    used = libraries_of(crates.parent / "crates.txt")
    folders = {name: crates / name / "out/rlib" for name in sorted(all_below(used, crate.name))}
    words = ["rattle", "check", "--crate-name", crate.name, "src/lib.rt", "--incremental", "out/incremental"]
    for name in ["std", *used[crate.name]]:
        words += ["--extern", f"{name}={folders.get(name, kit / 'rlibs')}/{name}.rlib"]
    words += [word for folder in [kit / "rlibs", *folders.values()] for word in ("-L", f"dependency={folder}")]
    return [str(kit / "bin" / words[0]), *words[1:], "--antt-project", f"{kit}/rattle/logic/antt-project.json", "--logic-built", f"{kit}/logic_built"]


def check(crate, edits):
    """What the check says of a crate with edits whose lines don't meet. It begins with what was proved of the crate without
    any, where that is kept: else it would prove again each function that was edited in the check before. All is put back."""
    if (crate / "out/kept").exists():
        shutil.rmtree(crate / "out/incremental")
        copy_work(crate / "out/kept", crate / "out/incremental")
    kept = crate / "out/proofs"
    shutil.copytree(crate / "proofs", kept)
    for it in edits:
        if it.copy and answers_of(crate, it):
            copy_answers(crate, it)
    alone = [word for it in edits if it.is_alone for word in ("--only", name_of(crate, it))]
    sources = {it.relative_to(crate): it.read_text() for it in crate.glob("src/**/*.rt")}
    places = {}
    for file, text in sources.items():
        here = [it for it in edits if it.file == str(file)]
        made, found = edited(text.split("\n"), here)
        places.update(found)
        if alone:
            made, folders = without_bodies(made, crate.joinpath("proofs", *file.with_suffix("").parts[1:]), {it.function.name + it.copy for it in here})
            for it in folders:
                take_contract(crate, it)
        (crate / file).write_text("\n".join(made))
    how = {"stdin": subprocess.DEVNULL, "stdout": subprocess.PIPE, "stderr": subprocess.STDOUT}
    prover = [*prover_over_libraries(crate), "--allow-holes"] if alone else ["rt", "check"]
    said = subprocess.run([*prover, "--jobs", "1", *alone], cwd=crate, text=True, errors="replace", **how).stdout
    for file, text in sources.items():
        (crate / file).write_text(text)
    shutil.rmtree(crate / "proofs")
    kept.rename(crate / "proofs")
    return Said(said, places)


def is_refusal(edit, reason):
    """Whether an answer is the prover's refusal of the edited function itself: a goal of its own isn't proved, or nothing is and
    it waits for no other. Goals rest on contracts, so they fail alike where another isn't proved. Over holes, where each callee
    counts as not proved, an answer of its own that is refused says so too."""
    own = OWN_OVER_HOLES if edit.is_alone else OWN
    return reason.startswith(("not proved", "no proof")) and bool(own.search(reason) or not WAITS.search(reason))


def is_proof(reason):
    """Whether an answer says that a function is proved, be it over holes in the place of other proofs."""
    return reason in ("proved", "no holes") or reason.startswith("depends on a hole in ")


def is_of(answer, name):
    """Whether an answer is for the function or a closure in it, as `m::fn::f::any+FnMut::call_mut`."""
    words, name = answer.split("::"), name.split("::")
    without = [it for it in words if it != "fn"]
    return words == name or (without != words and without[: len(name)] == name)


def is_of_method(answer, name):
    """Whether an answer is for the method, which is named behind its type, and the type behind the module that it stands in,
    not the method's own."""
    words, name = answer.split("::"), name.split("::")
    return len(name) > 1 and any(words[at : at + len(name)] == name for at in range(len(words)))


def name_of(crate, edit):
    """The name of a function that is edited, or of the copy of it, as a check may be asked for it: a method is named behind its type."""
    name = edit.function.name + edit.copy
    return name if "::" in name else "::".join([crate.name, *Path(edit.file).with_suffix("").parts[1:], name])


def answers_for(crate, edit, said):
    """What the check says of the function that is edited, and of closures in it."""
    module = "::".join([crate.name, *Path(edit.file).with_suffix("").parts[1:]])
    name = edit.function.name + edit.copy
    return [reason for it, reason in ANSWER.findall(said.text) if is_of(it, f"{module}::{name}") or is_of_method(it, name)]


def is_blamed(edit, said):
    """Whether an error points into the edit's function."""
    first, past = said.places[edit.label]
    return any(file == edit.file and first < int(line) <= past for file, line in ERROR.findall(said.text))


def parted(edits, said):
    """Two parts of edits with which a check ended early: those that its errors point at and the others, or halves."""
    blamed = [it for it in edits if is_blamed(it, said)]
    if not 0 < len(blamed) < len(edits):
        blamed = edits[: len(edits) // 2]
    return blamed, [it for it in edits if it not in blamed]


class Round(NamedTuple):
    """What one round says of its edits: those that are refused, those that end a check alone, and how many checks it took."""

    refused: list
    bad: list
    checks: int


def try_round(crate, edits):
    """Tries edits together."""
    said = check(crate, edits)
    if ANSWER.search(said.text):
        return Round([it for it in edits if any(is_refusal(it, reason) for reason in answers_for(crate, it, said))], [], 1)
    if len(edits) == 1:
        return Round([], [(edits[0], said)], 1)
    some, others = (try_round(crate, part) for part in parted(edits, said))
    return Round(some.refused + others.refused, some.bad + others.bad, some.checks + others.checks + 1)


def fitting(edits):
    """Edits that can be made together: of those that are made in their place, one of a function."""
    return list({(it.file, it.function, it.copy): it for it in reversed(edits)}.values())[::-1]


def try_together(crate, edits):
    """Tries edits in rounds, until each is refused or bad, or was in a round that made nothing clear. Gives these, and the bad ones."""
    left, unclear, bad, number = edits, [], [], 0
    while left:
        chosen, number = fitting(left), number + 1
        tried = try_round(crate, chosen)
        refused = f"{len(tried.refused)} of {len(chosen)} refused, {tried.checks} checks"
        print(f"{crate.name}: round {number}: {refused}, {seconds():.0f} s so far", flush=True)
        bad += tried.bad
        known = tried.refused + [it for it, _ in tried.bad]
        unclear += [] if known else chosen
        left = [it for it in left if it not in known + unclear]
    return unclear, bad


def try_alone(crate, edit):
    """Whether an edit is refused, alone and in its place, and whether it is bad."""
    in_place = edit._replace(copy="")
    said = check(crate, [in_place])
    answers = ANSWER.findall(said.text)
    reasons = answers_for(crate, in_place, said) if edit.is_alone else [reason for _, reason in answers]
    return any(is_refusal(edit, it) for it in reasons), [] if answers else [(edit, said)]


def seconds():
    """The processor time so far, this program's and that of its checks."""
    used = [resource.getrusage(it) for it in (resource.RUSAGE_SELF, resource.RUSAGE_CHILDREN)]
    return sum(it.ru_utime + it.ru_stime for it in used)


def why_bad(said):
    return next((line[:200] for line in said.text.split("\n") if "error" in line), "its check ends with no answer")


def try_edits(crate, edits):
    """Prints the edits that are not refused, or bad, and gives their number."""
    left, bad = try_together(crate, [it for it in edits if it.function])
    left, missed = left + [it for it in edits if not it.function], []
    for edit in left:
        refused, worse = try_alone(crate, edit)
        bad += worse
        missed += [f"NOT REFUSED: {edit.label}"] if not refused and not worse else []
    missed += [f"BAD EDIT: {edit.label}: {why_bad(said)}" for edit, said in bad]
    for line in missed:
        print(line, flush=True)
    return len(missed)


def copies_of(crate, edits):
    """A copy without an edit of each function that edits are made in copies of, with each clause that they name."""
    copied = {(it.file, it.function, it.clause): it for it in edits if it.copy}
    unedited = []
    for (_, function, clause), it in copied.items():
        label, body = f"{function.name} of {crate.name}, {clause or 'all clauses'}", function.past - 1
        unedited += [it._replace(label=label, first=body, past=body, lines=[], copy=f"_unedited_{clause}".rstrip("_"))]
    return unedited


def missed_copies(crate, unedited, said):
    """Prints those copies without an edit that are not proved, and gives their number."""
    answers = [answers_for(crate, it, said) for it in unedited]
    missed = [it for it, reasons in zip(unedited, answers) if not reasons or not all(map(is_proof, reasons))]
    print(f"{crate.name}: {len(unedited) - len(missed)} of {len(unedited)} copies without an edit are proved", flush=True)
    for edit in missed:
        print(f"NOT PROVED AS A COPY: {edit.label}: {why_bad(said)}", flush=True)
    return len(missed)


def try_copies(crate, edits):
    """Tries the copies without an edit, which have to be proved, and gives how many aren't."""
    unedited = copies_of(crate, edits)
    return missed_copies(crate, unedited, check(crate, unedited))


def try_crate(crate, tried):
    """How many edits there are, and how many were missed."""
    start, paths = seconds(), sorted(crate.glob("edits/*.edit"))
    if "\nlogic=proved " not in check(crate, []).text:
        sys.exit(f"{crate.name} is not proved, so its edits say nothing")
    print(f"{crate.name}: {seconds() - start:.0f} s for the check without an edit", flush=True)
    copy_work(crate / "out/incremental", crate / "out/kept")
    edits = [read(crate, path) for path in paths]
    gone = [path for path, it in zip(paths, edits) if not it]
    for path in gone:
        print(f"BAD EDIT: {path}: a text of it isn't once in its file", flush=True)
    missed = len(gone) + tried(crate, [it for it in edits if it])
    spent = seconds() - start
    print(f"{crate.name}: {len(edits)} edits, {spent:.0f} s, {spent / max(len(edits), 1):.1f} an edit", flush=True)
    return len(edits), missed


def is_rule(path):
    return re.search(r"^rule: ", path.read_text(), re.M)


def crates_with_rules():
    """The names of the crates that have edits with a line `rule:`."""
    return sorted({it.parts[-3] for it in ROOT.glob("crates/*/edits/*.edit") if is_rule(it)})


def try_rules(crate):
    """The same of the edits with a line `rule:`, in one check with their copies without an edit; what that leaves unclear is tried on."""
    start, edits = seconds(), [read(crate, path) for path in sorted(crate.glob("edits/*.edit")) if is_rule(path)]
    if not all(edits):
        sys.exit(f"{crate.name}: a text of an edit isn't once in its file")
    edits = [it._replace(is_alone=True) for it in edits]
    unedited, chosen = copies_of(crate, edits), fitting(edits)
    said = check(crate, unedited + chosen)
    if not ANSWER.search(said.text):
        said, chosen = check(crate, unedited), []
    if missed_copies(crate, unedited, said):
        sys.exit(f"{crate.name}: a copy without an edit isn't proved, so its edits say nothing")
    copy_work(crate / "out/incremental", crate / "out/kept")
    refused = [it for it in chosen if any(is_refusal(it, reason) for reason in answers_for(crate, it, said))]
    left = [it for it in edits if it not in refused]
    missed = try_edits(crate, left) if left else 0
    print(f"{crate.name}: {len(edits)} edits that a rule names, {len(refused)} refused at once, {seconds() - start:.0f} s so far", flush=True)
    return len(edits), missed


def crates_refused_by_tests():
    """The names of the crates that have edits which a test refuses."""
    return sorted({it.parts[-3] for it in ROOT.glob("crates/*/refused-by-tests/*.edit")})


def crate_of_test(name):
    """The crate that has a test of this name, its module's and its function's; None where none has."""
    *module, function = name.split("::")
    here = re.compile(rf"#\[test\]\n(?:pub )?fn {function}\(")
    return next((it.parts[it.parts.index("src") - 1] for it in ROOT.glob(f"crates/*/src/{'/'.join(module)}.rt") if here.search(it.read_text())), None)


class Verdict(NamedTuple):
    """What a test says of an edit, and why; nothing where it wasn't run."""

    said: str
    why: str


def verdict_of_test(room, path, edit, test):
    """What a test says of an edit that is made in its place, in a copy of the repository that is made for it."""
    copy_to(room, [])
    source = room.joinpath(*path.relative_to(ROOT).parts[:2], edit.file)
    lines = source.read_text().split("\n")
    source.write_text("\n".join(lines[: edit.first] + edit.lines + lines[edit.past :]))
    how = {"stdin": subprocess.DEVNULL, "stdout": subprocess.PIPE, "stderr": subprocess.STDOUT}
    tried = subprocess.run(["rt", "try", "--test", "--seconds", "300"], cwd=room / "crates" / crate_of_test(test), text=True, errors="replace", **how).stdout
    shutil.rmtree(room)
    return next((Verdict(said, why) for name, said, why in TESTED.findall(tried) if name == test), Verdict("", why_bad(Said(tried, {}))))


def test_of(path):
    """The name of the test that has to refuse an edit; none where the edit names none."""
    named = re.search(r"^test: (\S+)", path.read_text(), re.M)
    return named[1] if named else ""


def why_misfit(path):
    """Why an edit can't be tried as the files are now; nothing where it can."""
    if not read(path.parents[1], path):
        return "a text of it isn't once in its file"
    is_by_test = path.parent.name == "refused-by-tests"
    return "it names no test that is there" if is_by_test and not crate_of_test(test_of(path)) else ""


def edits_in(folders, names):
    """The paths of the edits that stand in these folders of crates."""
    return [it for name in names for folder in folders for it in sorted(ROOT.glob(f"crates/{name}/{folder}/*.edit"))]


def look_at(paths):
    """Prints which edits can't be tried, and gives how many there are and how many can't."""
    misfits = [(it, why) for it in paths if (why := why_misfit(it))]
    for path, why in misfits:
        print(f"BAD EDIT: {path.relative_to(ROOT)}: {why}", flush=True)
    return len(paths), len(misfits)


def try_by_test(path, room):
    """Whether an edit is refused by the test that it names. It prints what it finds."""
    edit, test = read(path.parents[1], path), test_of(path)
    verdict = verdict_of_test(room / "-".join(path.parts[-3:]), path, edit, test)
    told = {"": "BAD EDIT", "ok": "NOT REFUSED"}.get(verdict.said, "refused")
    print(f"{told}: {path.relative_to(ROOT)}: {test} {verdict.said or 'was not run'} {verdict.why}".rstrip() + f", {seconds():.0f} s so far", flush=True)
    return told == "refused"


def try_by_tests(names):
    """Tries the edits that tests refuse of crates that are named, and gives how many there are and how many were missed."""
    paths = edits_in(["refused-by-tests"], names)
    edits, misfits = look_at(paths)
    with tempfile.TemporaryDirectory(prefix="wh-edits-") as room, ThreadPoolExecutor(lanes(8)) as side_by_side:
        refused = [*side_by_side.map(lambda it: try_by_test(it, Path(room)), [it for it in paths if not why_misfit(it)])]
    return edits, misfits + refused.count(False)


def link(old, new):
    """Copies a file of a library, which nothing writes to once it is made, by a link where that can be."""
    try:
        os.link(old, new)
    except OSError:
        shutil.copy2(old, new)


def copy_to(room, names):
    """Copies the repository, with the libraries below the crates that are named, and the kept work of these."""
    used = libraries_of(ROOT / "crates.txt")
    below = {it for name in names for it in all_below(used, name)}

    def left_out(folder, found):
        if Path(folder).name != "out":
            return [it for it in found if it == ".git"]
        crate = Path(folder).parent.name
        keeps = ["rlib"] * (crate in below) + ["incremental"] * (crate in names)
        return [it for it in found if it not in keeps]

    def copied(old, new):
        return (link if "/out/rlib/" in str(old) else shutil.copy2)(old, new)

    shutil.copytree(ROOT, room, symlinks=True, ignore=left_out, copy_function=copied)


def lanes(gigabytes):
    """How many to try side by side: one a processor that this process may use, with so much memory each."""
    with open("/proc/meminfo") as file:
        free = int(re.search(r"MemAvailable: *(\d+)", file.read())[1])
    return max(1, min(len(os.sched_getaffinity(0)), free // (gigabytes * 1_000_000)))


def try_proofs(names, given):
    """Tries the edits that the prover refuses of crates that are named, or copies without an edit, and gives how many there are and how many were missed."""
    with tempfile.TemporaryDirectory(prefix="wh-edits-") as room, ThreadPoolExecutor(lanes(5)) as side_by_side:
        copy_to(Path(room, "wh"), names)
        tried = try_copies if given.copies else try_edits
        crates = [Path(room, "wh", "crates", name) for name in names]
        counts = [*side_by_side.map(try_rules if given.rules else lambda it: try_crate(it, tried), crates)]
    return (sum(it) for it in zip(*counts))


def main():
    words = argparse.ArgumentParser(description="Tries wrong bodies, each of which the prover or a test has to refuse.")
    words.add_argument("--copies", action="store_true", help="try copies of the functions without an edit, which have to be proved")
    words.add_argument("--rules", action="store_true", help="those that the rules of the warehouse name, of all crates where none is named")
    words.add_argument("--by-tests", action="store_true", help="those that tests refuse, of all crates where none is named")
    words.add_argument("--dry-run", action="store_true", help="only see whether they fit, those of all crates where none is named")
    words.add_argument("crate", nargs="*")
    given = words.parse_args()
    if given.dry_run:
        edits, missed = look_at(edits_in(["refused-by-tests"] if given.by_tests else ["edits", "refused-by-tests"], given.crate or ["*"]))
    elif given.by_tests:
        edits, missed = try_by_tests(given.crate or crates_refused_by_tests())
    else:
        edits, missed = try_proofs(given.crate or (crates_with_rules() if given.rules else words.error("no crate is named")), given)
    if given.copies:
        print(f"{missed} copies not proved, {seconds():.0f} s of processor time")
    else:
        print(f"{edits - missed} passed, {missed} failed")
    return 1 if missed else 0


if __name__ == "__main__":
    sys.exit(main())
