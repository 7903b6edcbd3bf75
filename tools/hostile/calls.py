"""The public calls that a program makes one by one, with each of its memory requests refused in turn."""

import re
from pathlib import Path
from typing import Callable, List, Optional, Tuple

from hostile.inputs import Input
from hostile.served import Came, Order, Served
from hostile.suite import Suite, Wrong
from tests.harness import TOP

CALLER = "pesp_tests_memory"
OUTSIDE = (1, b"no room\n")
# Out of memory in the result of each call; for most it is refusal 10.
REFUSAL = rb"Err\(Memory\)\n"
READ = rb"ReadFault \{ place: \d+, kind: Memory \}\n"
FORMS = {
    "read_activities": READ,
    "read_fixed": READ,
    "read_times": READ,
    "replay": rb"ReplayFault \{ line: \d+, kind: Refused\(Memory\) \}\n",
    "PlainKeeper::from_instance": rb"NoRoom\n",
    "CountKeeper::from_instance": rb"NoRoom\n",
    "best": rb"Memory\n",
    "best_within": rb"Memory\n",
    "known_within": rb"Memory\n",
    "best in the tree": rb"Memory\n",
    "best_within in the tree": rb"Memory\n",
    "known_within in the tree": rb"Memory\n",
}
# Calls that work without the refused memory: results are as without a refusal, unless a request of that way is refused.
TWO_WAYS = ["read_activities"]
# Cases of calls that need no memory.
QUIET = " without memory"
# The possible after-states of a search whose later requests are refused.
SEARCHES = ["Bench::find_optimum", "Bench::optimum", "Bench::try_optimum", "Bench::adopt", "reply to optimum"]
KNOWN = re.compile(rb"^known .*\n", re.MULTILINE)
NODES = re.compile(rb"^nodes \d+\n", re.MULTILINE)
HEADS = re.compile(rb"^(case .*|before|answer|after|again)\n", re.MULTILINE)


# The report of a call, in parts with their heads.
Call = List[Tuple[bytes, bytes]]


def calls_of(output: bytes) -> List[Call]:
    """The reports of each call: the state before, the answer and the state after it, and the latter two of the repeated call."""
    parts = HEADS.split(output)
    calls: List[Call] = []
    for head, text in zip(parts[1::2], parts[2::2]):
        if head == b"before":
            calls.append([])
        if calls:
            calls[-1].append((head, text))
    return calls


def without_nodes(name: str, state: bytes) -> bytes:
    """The state, without the nodes of the last search if the call searches."""
    return NODES.sub(b"", state) if name in SEARCHES else state


def is_left(name: str, before: bytes, after: bytes, done: bytes) -> bool:
    """Whether a refused call leaves its arguments unchanged; one that searches may leave a found optimum known."""
    if name not in SEARCHES:
        return after == before
    is_known = b"".join(KNOWN.findall(after)) in (b"".join(KNOWN.findall(state)) for state in (before, done))
    return is_known and KNOWN.sub(b"", without_nodes(name, after)) == KNOWN.sub(b"", without_nodes(name, before))


def fault_of_refused(name: str, call: Call, plain: Call) -> Optional[str]:
    """The fault of a call that was refused memory and repeated."""
    if [head for head, _ in call] != [b"before", b"answer", b"after", b"again", b"after"]:
        return "a call that was refused is not made again"
    before, answer, after, again, last = (text for _, text in call)
    plain_before, plain_answer, plain_after = (text for _, text in plain)
    if not re.fullmatch(FORMS.get(name, REFUSAL), answer):
        return "another answer than want of memory"
    if before != plain_before:
        return "another state before the call"
    if not is_left(name, before, after, plain_after):
        return "want of memory has left something else"
    if again != plain_answer:
        return "another answer with ample memory"
    return None if without_nodes(name, last) == without_nodes(name, plain_after) else "another state after the call with ample memory"


def judge_call(name: str, came: Came, plain: Came) -> Tuple[Optional[str], bool]:
    """The fault of a run, if any, and whether memory was refused within a call."""
    if (came.status, came.error) == OUTSIDE:
        return None if plain.output.startswith(came.output) else "another output before an input had no room", False
    if (came.status, came.error) != (plain.status, plain.error):
        return "another status or text", False
    calls, wanted = calls_of(came.output), calls_of(plain.output)
    if len(calls) != len(wanted):
        return "another number of calls", False
    differing = [(call, other) for call, other in zip(calls, wanted) if call != other]
    if not differing:
        return None, False
    if len(differing) > 1:
        return "more than one call differs", True
    return fault_of_refused(name, *differing[0]), True


def refuse_each(served: Served, name: str, plain: Came, order: Callable[[int], Order]) -> Tuple[List[Came], List[Wrong], int]:
    """Refuses one request after the other, until none is refused: the result, the fault, and how many calls made no request."""
    runs: List[Came] = []
    wrong: List[Wrong] = []
    inside = 0
    while True:
        asked = order(len(runs) + 1)
        came = served.run(asked)
        if came.refused < (2 if asked.refuse_too else 1):
            return runs, wrong, inside
        runs.append(came)
        fault, is_inside = judge_call(name, came, plain)
        wrong += [(len(runs), fault, came)] if fault else []
        inside += is_inside


def is_outside(came: Came) -> bool:
    """Whether the input itself ran out of memory, before a call."""
    return (came.status, came.error) == OUTSIDE


def refuse_in_case(suite: Suite, folder: Path, program: Path, name: str) -> int:
    """Refuses one request after the other of a case, until none is refused any more."""
    with Served(suite.library, [program, name], folder) as served:
        plain = served.run()
        suite.holds(f"{name}: nothing is wrong where nothing is refused", (plain.status, plain.error) == (0, b""))
        runs, wrong, inside = refuse_each(served, name, plain, lambda request: Order(refuse_from=request, refuse_to=request))
        suite.found(f"{name}: each request for memory refused", len(runs), wrong)
        if name in TWO_WAYS:
            suite.holds(f"{name}: one request that is refused changes nothing", inside == 0 and not is_outside(runs[-1]))
            first = 1 + max(place for place, came in enumerate(runs, 1) if is_outside(came))
            runs, wrong, inside = refuse_each(served, name, plain, lambda request: Order(first, first, refuse_too=first + request))
            suite.found(f"{name}: each request of the other way refused", len(runs), wrong)
        if name.endswith(QUIET):
            suite.holds(f"{name}: the last request comes before the calls", is_outside(runs[-1]) and b"before\n" not in runs[-1].output)
        else:
            suite.holds(f"{name}: memory is refused inside of a call", inside)
        suite.holds(f"{name}: the same without a refusal at the end", served.run().told() == plain.told())
        return inside


def calls(suite: Suite, given: Input) -> None:
    """Each case of the program, as it names them."""
    program = TOP / f"crates/{given.name}/out/{given.name}"
    if not program.exists():
        suite.holds(f"there is a program at {program} (made by `rt run` in its crate)", False)
        return
    with Served(suite.library, [program], given.folder) as served:
        names = re.findall(rb"^case (.*)\n", served.run().output, re.MULTILINE)
    suite.holds("calls are made", names)
    counts = [(name.decode(), refuse_in_case(suite, given.folder, program, name.decode())) for name in names]
    suite.note("; ".join(f"{name} {inside}" for name, inside in counts))
