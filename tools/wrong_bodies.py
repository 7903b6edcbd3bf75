"""The two shelves of wrong bodies of each crate, and how those of the second one are tried.

The gate tries `must-fail/` itself. On a copy of the tree `wrong-bodies/` replaces it, and is tried like the gate's own, by
`rt must-fail NAME`. That also accepts a crate that is not proved, so `rt check` comes first.
"""

import contextlib
import pathlib
import re
import shutil
import subprocess
from typing import Dict, List, NamedTuple, Sequence, Set, Tuple

FIRST, SECOND = "must-fail", "wrong-bodies"
# The toolchain's line on an edit; a remark in brackets after the first words weakens what a refusal shows.
LINE = re.compile(r"(?:rt: )?must-fail (?P<crate>\w+)/(?P<name>[\w.-]+\.edit): (?P<told>.*)")
REFUSED = "refused, as it must be"
# The parts of a crate's `out` from which a check resumes: its kept proofs, and the libraries that it uses.
KEPT = ("incremental", "rlib")


class Missing(Exception):
    """A name that is not a crate with a second shelf."""


class Unread(Exception):
    """Why an edit cannot be applied."""


def edits(top: pathlib.Path, shelf: str, crate: str = "*") -> List[pathlib.Path]:
    """The edits of a shelf, of one crate or of all, ascending by path."""
    return sorted(top.glob(f"crates/{crate}/{shelf}/*.edit"))


def applied(edit: pathlib.Path) -> Dict[pathlib.Path, str]:
    """The texts of the files that an edit changes, by their paths, with its changes.

    Raises Unread if it names no file, if a text that it changes does not occur exactly once, or if it changes nothing.
    """
    texts: Dict[pathlib.Path, str] = {}
    path, old = None, None
    for line in edit.read_text().splitlines():
        kind, _, rest = line.partition(": ")
        if kind == "file":
            path = edit.parents[1] / rest
            if not path.is_file():
                raise Unread(f"there is no file {rest}")
            texts.setdefault(path, path.read_text())
        elif kind == "old":
            old = rest
        elif line.startswith("new:"):
            if not path or not old or texts[path].count(old) != 1:
                raise Unread(f"this text does not stand there once: {old}")
            texts[path] = texts[path].replace(old, rest)
    if all(text == path.read_text() for path, text in texts.items()):
        raise Unread("it changes nothing")
    return texts


def breaks_of(edit: pathlib.Path) -> str:
    """The clause that an edit breaks and an input that shows it, as its line `breaks:` says, or nothing."""
    found = [line for line in edit.read_text().splitlines() if line.startswith("breaks:")]
    return found[0].partition(":")[2].strip() if found else ""


def crates_of(top: pathlib.Path, names: Sequence[str]) -> List[str]:
    """The crates to try: those named, or all with a second shelf.

    Raises Missing if a name is not such a crate.
    """
    found = list(dict.fromkeys(path.parts[-3] for path in edits(top, SECOND)))
    for name in names:
        if name not in found:
            raise Missing(f"{name} is no crate with a folder {SECOND}")
    return list(names) or found


def copy_tree(top: pathlib.Path, to: pathlib.Path, crate: str) -> None:
    """Copies what a check of the crate reads and what earlier ones kept, with its second shelf in the place of the first."""

    def not_read(folder: str, names: List[str]) -> Set[str]:
        return {*names} - {*KEPT} if pathlib.Path(folder).name == "out" else {*names} & {FIRST, SECOND}

    shutil.copytree(top / "crates", to / "crates", ignore=not_read)
    for name in ["crates.txt", "HANDLES"]:
        shutil.copy(top / name, to / name)
    shutil.copytree(top / "crates" / crate / SECOND, to / "crates" / crate / FIRST)


def called(words: Sequence[str], folder: pathlib.Path) -> Tuple[int, List[str]]:
    """The status of a command of the toolchain, and its lines."""
    done = subprocess.run(words, cwd=folder, stdin=subprocess.DEVNULL, stdout=subprocess.PIPE, stderr=subprocess.STDOUT)
    return done.returncode, done.stdout.decode(errors="replace").splitlines()


def told_of(lines: Sequence[str]) -> Dict[str, str]:
    """The toolchain's text on each edit, by its file's name; further lines belong to the edit before them."""
    told: Dict[str, str] = {}
    name = ""
    for line in lines:
        match = LINE.fullmatch(line)
        if match:
            name = match["name"]
            told[name] = match["told"]
        elif line.startswith("rt: "):
            name = ""
        elif name:
            told[name] += f"\n  {line}"
    return told


def try_crate(top: pathlib.Path, room: pathlib.Path, crate: str) -> Dict[str, str]:
    """The result of each edit of the crate's second shelf, by its file's name.

    A crate that is not proved would refuse every edit, so none of its edits is tried.
    """
    copy_tree(top, room, crate)
    status, lines = called(["rt", "check"], room / "crates" / crate)
    told: Dict[str, str] = {}
    silent = f"NOT TRIED: the crate is not proved: {lines[-1] if lines else 'no word of it'}"
    if status == 0:
        told, silent = told_of(called(["rt", "must-fail", crate], room)[1]), "NOT TRIED: no word of it"
    return {path.name: told.get(path.name, silent) for path in edits(top, SECOND, crate)}


def is_refused(told: str) -> bool:
    return told.startswith(REFUSED)


def is_plain(told: str) -> bool:
    """Whether the edit is refused, and without a remark in brackets, which says that this shows less."""
    return is_refused(told) and not told[len(REFUSED) :].lstrip().startswith("(")


# The cause of a refusal; `through` is not refused, or not tried.
KINDS = CLAUSE, CALL, PROOF, OTHER, THROUGH = "clause", "call", "proof", "other", "through"
# A line on an edit, as the toolchain or tools/try_wrong_bodies prints it.
TOLD = re.compile(r"(?:(?:rt: )?must-fail )?(?P<crate>\w+)/(?P<name>[\w.-]+\.edit): (?P<told>.*)")
# The prover's text on a goal that its search does not prove, and which of these goals are of the body's own contract.
UNPROVED_GOAL = re.compile(r"it is not proved that (?P<goal>.*)")
OWN = re.compile(r"what the function ensures|the invariant|the `invariant`|the loop ends|the struct's ghost fields|the `&mut`")
NO_LOAN = re.compile(r"no `follows`|it has an `ensures\*`")
# An error in a proof, with the goal that it answers and its text.
IN_A_PROOF = re.compile(r"(?:note: )?(?:\./)?(?P<path>proofs/\S+\.antt):\d+:\d+: error: `(?P<goal>[^`]+)`: (?P<said>.*)")
# The text if a tactic does not prove a step, so that the proof's text fits and the step fails.
UNPROVED_STEP = re.compile(r"give the call less to do|list the missing equation|`?(search|grind|omega|cc|simp)`?:")
# The name of a goal, in an error in a proof or after what is not proved of the code.
GOAL = re.compile(r"error: `([^`]+)`|\(`([^`]+)`\)")
# An answer that is a tactic and nothing else.
TACTIC = re.compile(r"(search|grind|omega|simp|cc)\b")


class Refusal(NamedTuple):
    """A log's text on an edit: the cause of the refusal, and the words that show it."""

    crate: str
    name: str
    kind: str
    where: str

    def goal(self) -> str:
        """The goal that is not proved, as the prover names it, or nothing if the words do not name it."""
        found = GOAL.search(self.where)
        return found[1] or found[2] if found else ""

    def shows_nothing(self) -> bool:
        """Whether it comes from a proof that no longer fits."""
        return self.kind == PROOF


def refusals(top: pathlib.Path, lines: Sequence[str]) -> List[Refusal]:
    """The results of edits in the lines of a log, each once, by its last line, in the order of the log."""
    found: Dict[Tuple[str, str], Refusal] = {}
    for line in lines:
        match = TOLD.fullmatch(line)
        if match:
            crate, name, told = match.groups()
            found[crate, name] = Refusal(crate, name, *sorted_out(top / "crates" / crate, name, told))
    return list(found.values())


def sorted_out(crate: pathlib.Path, name: str, told: str) -> Tuple[str, str]:
    """The kind of the text on an edit of the crate, and the words that show it."""
    if not is_refused(told):
        return THROUGH, told
    where = told[len(REFUSED) :].strip(" :")
    if where.startswith("("):
        return (PROOF if "a proof file names" in where else OTHER), where
    goal = UNPROVED_GOAL.search(where)
    if goal:
        return (CLAUSE if OWN.match(goal["goal"]) else CALL), where
    if NO_LOAN.search(where):
        return CLAUSE, where
    proof = IN_A_PROOF.match(where)
    if not proof:
        return OTHER, where
    answer = answer_of(text_with(crate, name, proof["path"]), proof["goal"])
    fails = UNPROVED_STEP.search(proof["said"]) or TACTIC.match(answer)
    return (kind_of_goal(proof["goal"]) if fails else PROOF), where


def text_with(crate: pathlib.Path, name: str, path: str) -> str:
    """The text of a file of the crate, with the edit if that changes it, or nothing if there is none."""
    for edit in [crate / shelf / name for shelf in (FIRST, SECOND)]:
        if edit.is_file():
            with contextlib.suppress(Unread):
                texts = applied(edit)
                if crate / path in texts:
                    return texts[crate / path]
    return (crate / path).read_text() if (crate / path).is_file() else ""


def answer_of(text: str, goal: str) -> str:
    """The text after the equation's sign in the answer to a goal of a proof, or nothing if there is none."""
    found = re.search(rf"^{re.escape(goal)}(?: [^=\n]*)? =\s*(.*)", text, flags=re.M)
    return found[1] if found else ""


def kind_of_goal(goal: str) -> str:
    """Whether a goal, as the prover names it, is of the body's own contract or of a call in it."""
    return CLAUSE if re.match(r"returns|invariant_of-|.*-(init|preserved|holds|smaller|starts)$", goal) else CALL
