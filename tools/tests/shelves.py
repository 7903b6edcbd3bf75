"""The two shelves of wrong bodies, and the tool that tries the second, with a toolchain that prints given texts."""

import re
import shutil
import sys
from pathlib import Path
from typing import List, Sequence, Tuple

from tests.harness import TOP, Suite, run
from tests.start_tree import SYSTEM
from wrong_bodies import FIRST, KINDS, PROOF, SECOND, Unread, applied, breaks_of, edits, refusals

# The gate tries each edit of the first shelf in each run, and after a change at the bottom all of them.
MOST_ON_THE_FIRST = 240
# The number that was once on one shelf. An edit that leaves the first goes to the second, and none is lost.
LEAST_ON_BOTH = 492

# It proves all crates but one, and prints for each edit in its place the edit's own last line. It knows the two given
# commands, and no other words.
FAKE_RT = """#!/bin/sh
echo "$@" in "$PWD" >>"$FAKE/log"
case $# in
    1) [ "$1" = check ] && [ -e ../../HANDLES ] || exit 2
       [ "${PWD##*/}" = unproved ] || exit 0
       echo "a line of the toolchain"
       echo "logic=not-proved"
       exit 1 ;;
    2) [ "$1" = must-fail ] && [ -e HANDLES ] || exit 2 ;;
    *) exit 2 ;;
esac
echo "rt: a line of the toolchain"
for edit in crates/$2/must-fail/*.edit; do
    told=$(tail -n 1 "$edit")
    [ -z "$told" ] || echo "rt: must-fail $2/$(basename "$edit"): $told"
done
exit 1
"""

PLAIN = "refused, as it must be: src/lib.rt:3:1: error: open goal"
BRACKETS = "refused, as it must be (only by a limit of the prover): src/lib.rt:3:1"
BAD = "BAD EDIT: an 'old:' text is in src/lib.rt 0 times, and not once"
PROVED = "NOT REFUSED: the crate is still proved with this edit"
# The toolchain's text for each edit, by crate, shelf and name.
SHELVES = {
    ("low", FIRST, "gate"): PROVED,
    ("low", SECOND, "plain"): PLAIN,
    ("low", SECOND, "remark"): BRACKETS,
    ("high", SECOND, "bad"): BAD,
    ("high", SECOND, "no_word"): "",
    ("high", SECOND, "passes"): PROVED,
    ("high", SECOND, "plain"): PLAIN,
    ("unproved", SECOND, "plain"): PLAIN,
    ("bare", FIRST, "gate"): PROVED,
}


def shelves(suite: Suite) -> None:
    """Conditions on the shelves that no proof covers."""
    first, second = edits(TOP, FIRST), edits(TOP, SECOND)
    suite.holds(f"the first shelf has at most {MOST_ON_THE_FIRST} wrong bodies", len(first) <= MOST_ON_THE_FIRST)
    suite.holds(f"both shelves have at least {LEAST_ON_BOTH}", len(first) + len(second) >= LEAST_ON_BOTH)
    twice = {path.parts[-3:] for path in second} & {(*path.parts[-3:-2], SECOND, path.name) for path in first}
    suite.note("no wrong body is on both", {"on both": set()}, {"on both": twice})
    silent = [str(path.relative_to(TOP)) for path in first if not breaks_of(path)]
    suite.note("each of the first says what it breaks", {"without a line": []}, {"without a line": silent})
    faults = {str(path.relative_to(TOP)): fault for path in first + second for fault in faults_of(path)}
    suite.note("each can be applied", {"faults": {}}, {"faults": faults})


def faults_of(edit: Path) -> List[str]:
    """Why the edit cannot be applied, if it cannot: the gate reports that for the first shelf only, and continues."""
    try:
        applied(edit)
    except Unread as fault:
        return [str(fault)]
    return []


def tree_of(suite: Suite) -> Path:
    """A tree with the tool, crates with edits, and the toolchain that prints given texts."""
    top = suite.folder / "tree"
    for (crate, shelf, name), told in SHELVES.items():
        folder = top / "crates" / crate / shelf
        folder.mkdir(parents=True, exist_ok=True)
        (folder / f"{name}.edit").write_text(f"{told}\n")
    (top / "crates.txt").write_text("low:\nhigh: low\nunproved:\nbare:\n")
    (top / "HANDLES").write_text("Handles allowed: none.\n")
    for folder in [top / "tools", top / "fake"]:
        folder.mkdir()
    for name in ["try_wrong_bodies", "wrong_bodies.py"]:
        shutil.copy(TOP / "tools" / name, top / "tools" / name)
    (top / "fake/rt").write_text(FAKE_RT)
    (top / "fake/rt").chmod(0o755)
    return top


def tried(suite: Suite, top: Path, name: str, names: Sequence[str], wanted: Sequence[str], status: int) -> None:
    """A run of the tool: its lines without their seconds, and its status."""
    environment = {"PATH": f"{top / 'fake'}:{SYSTEM}", "FAKE": str(top)}
    come = run([sys.executable, top / "tools/try_wrong_bodies", *names], env=environment)
    lines = re.sub(r", \d+ s$", "", come["standard output"].decode(), flags=re.M).splitlines()
    suite.note(f"tools/try_wrong_bodies: {name}", {"status": status, "lines": wanted}, {"status": come["status"], "lines": lines})


def second_shelf(suite: Suite) -> None:
    """The output and counts of the tool; it works on a copy, and the tree does not change."""
    top = tree_of(suite)
    before = files_of(top)
    low = [f"low/remark.edit: {BRACKETS}", "low: 2 of 2 refused"]
    high = [f"high/bad.edit: {BAD}", "high/no_word.edit: NOT TRIED: no word of it", f"high/passes.edit: {PROVED}"]
    high += ["high: 1 of 4 refused"]
    none = ["unproved/plain.edit: NOT TRIED: the crate is not proved: logic=not-proved", "unproved: 0 of 1 refused"]
    tried(suite, top, "a crate of which all are refused", ["low"], [*low, "2 passed, 0 failed"], 0)
    tried(suite, top, "a crate of which some are not", ["high"], [*high, "1 passed, 3 failed"], 1)
    tried(suite, top, "a crate that is not proved", ["unproved"], [*none, "0 passed, 1 failed"], 1)
    tried(suite, top, "all crates", [], [*high, *low, *none, "3 passed, 4 failed"], 1)
    tried(suite, top, "a crate without a second shelf", ["low", "bare"], [], 2)
    suite.note("the tree of the second shelf", {"files": before}, {"files": files_of(top)})
    calls = (top / "log").read_text().splitlines()
    here = [line for line in calls if f" in {top}" in line]
    suite.holds("something is tried", calls)
    suite.note("what is tried is a copy", {"in the tree": []}, {"in the tree": here})


# The toolchain's texts for edits of the crate low, and the causes of their refusals.
REFUSALS = [
    ("clause", "refused, as it must be: note: src/lib.rt:3:1: it is not proved that what the function ensures holds when it returns"),
    ("clause", "refused, as it must be: ./proofs/f/Answers.antt:9:5: error: `returns`: `search`: no proof of `a ≡ b` was found"),
    ("clause", "refused, as it must be: ./proofs/f/Answers.antt:3:5: error: `returns-clause-ok`: the two types differ"),
    ("clause", "refused, as it must be: ./proofs/f/Answers.antt:9:5: error: `invariant_of-self`: `omega`: the goal does not follow"),
    ("clause", "refused, as it must be: ./proofs/f/Answers.antt:9:5: error: `returns-clause-still`: list the missing equation with its arguments"),
    ("call", "refused, as it must be: ./proofs/f/Answers.antt:9:5: error: `put-requires`: `search`: no proof of `a ≡ b` was found"),
    ("call", "refused, as it must be: note: src/lib.rt:3:1: it is not proved that what `put` requires holds at this call"),
    ("call", "refused, as it must be: note: src/lib.rt:3:1: it is not proved that the sum fits its type"),
    ("proof", "refused, as it must be: ./proofs/f/Answers.antt:6:5: error: `returns-by-hand`: the two types differ"),
    ("proof", "refused, as it must be (only because a proof file names what the edit took away): proofs/f/Answers.antt:6:5"),
    ("other", BRACKETS),
    ("through", PROVED),
    ("through", BAD),
]
ANSWERS = "pub returns-clause-ok : goal.returns-clause-ok\nreturns-clause-ok g c = search rules\n\nreturns-by-hand g c = c.put.ensures\n"


def kinds(suite: Suite) -> None:
    """The causes of refusals, by the toolchain's output and the proofs."""
    top = suite.folder / "kinds"
    (top / "crates/low/proofs/f").mkdir(parents=True)
    (top / "crates/low/proofs/f/Answers.antt").write_text(ANSWERS)
    lines = [f"rt: must-fail low/{place}.edit: {told}" for place, (_, told) in enumerate(REFUSALS)]
    found = refusals(top, ["rt: a line of the toolchain", *lines, f"low/0.edit: {REFUSALS[0][1]}"])
    suite.note("kinds of refusals", {"kinds": [kind for kind, _ in REFUSALS]}, {"kinds": [it.kind for it in found]})
    suite.holds("each kind has a refusal", set(KINDS) == {kind for kind, _ in REFUSALS})
    shelf = top / "crates/low" / FIRST
    shelf.mkdir()
    (shelf / "by_hand.edit").write_text("file: proofs/f/Answers.antt\nold: g c = c.put.ensures\nnew: g c = search rules\n")
    told = f"rt: must-fail low/by_hand.edit: {next(said for kind, said in REFUSALS if kind == PROOF)}"
    suite.note("the answer that an edit wrote", {"kinds": ["clause"]}, {"kinds": [it.kind for it in refusals(top, [told])]})


def gate(suite: Suite) -> None:
    """A refusal at a proof fails the gate."""
    top = suite.folder / "gate"
    (top / "tools").mkdir(parents=True)
    for name in ["sort_refusals", "wrong_bodies.py"]:
        shutil.copy(TOP / "tools" / name, top / "tools" / name)
    told = dict(reversed(REFUSALS))
    tries: List[Tuple[str, List[str]]] = [("none", []), ("one", ["low/proof.edit"])]
    for title, proofs in tries:
        lines = [f"rt: must-fail low/{kind}.edit: {told[kind]}" for kind in KINDS if kind != PROOF]
        lines += [f"rt: must-fail {name}: {told[PROOF]}" for name in proofs]
        (top / "log").write_text("\n".join(["rt: a line of the toolchain", *lines, ""]))
        come = run([sys.executable, top / "tools/sort_refusals", "--gate", top / "log"])
        shown = [line.split(": ")[0] for line in come["standard output"].decode().splitlines()[:-1]]
        wanted = {"status": len(proofs), "shown": proofs}
        suite.note(f"tools/sort_refusals --gate: {title} at a proof", wanted, {"status": come["status"], "shown": shown})


def files_of(top: Path) -> List[str]:
    return sorted(str(path.relative_to(top)) for path in (top / "crates").rglob("*"))


GROUPS = [shelves, second_shelf, kinds, gate]
