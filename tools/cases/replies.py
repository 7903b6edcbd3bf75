"""Random cases of crates/pesp_shell_replies: transcripts of random lines."""

import random
from typing import Dict, Iterator, List, NamedTuple, Optional, Tuple

from cases import networks
from cases.terms import codes, defined, fields, listed, numbers, one, used
from tests.model import Model
from tests.parsing import EDITS, Fault, parse
from tests.streams import drawn_line

CRATE = "pesp_shell_replies"
STREAMS = 24
LINES = 10
# Optima are found by trying all lists of times.
MOST_TIMES = 400

USED: Dict[str, List[str]] = {
    "std.proofs.Common": ["pos", "negsuc", "refl", "[]", "◌∷◌", "Some", "inl", "codes"],
    "std.specs.Fmt": ["digits"],
    **networks.USED,
    "pesp_instance.specs.Network": ["new_event"],
    "pesp_search.specs.declared.answer.Answer.TheVariants": ["Infeasible", "Optimal"],
    "pesp_search.specs.Paths": ["timetable_of"],
    "pesp_search.proofs.Enumerated": ["infeasible_is", "optimum_is"],
    "pesp_shell_replies.specs.Legal": ["Legal", "Work"],
    "pesp_shell_replies.specs.Transcripts": ["IsTranscript"],
}
TELLS = "record { tells = refl; stays = refl }"
CHANGES = "record { tells = refl; leaves = refl }"
SEARCHES = ["optimum", "adopt", "try"]


class Step(NamedTuple):
    """A line, its reply, why that is legal, and the names of the works before it and after it."""

    line: bytes
    reply: str
    proof: str
    before: str
    after: str


def text(line: bytes) -> str:
    return codes(line.decode()) if line.isascii() and line.decode().isprintable() else numbers(line)


def work(network: Model) -> str:
    return fields({"instance": networks.instance(network), "times": networks.timetable(network.period, network.times)})


def said(line: bytes) -> Tuple[str, List[int]]:
    """The name of a line's command and its numbers; an empty name if it is not a command."""
    try:
        return parse(line) or ("", [])
    except Fault:
        return "", []


def answer(network: Model, name: str) -> str:
    """The optimum of a work's instance, with its proof."""
    best = network.best()
    if best is None:
        return f"Infeasible, infeasible_is {name}.instance refl"
    times = one(numbers(best[1][event] for event in sorted(best[1])))
    return f"Optimal {best[0]} (timetable_of {name}.instance {times}), optimum_is {name}.instance {times} {best[0]} refl refl"


def proof(network: Model, name: str, line: bytes) -> Optional[str]:
    """Why the model's reply to a line is legal in the work of this name, if that is shown here."""
    command, values = said(line)
    if command in SEARCHES:
        if network.period ** len(network.events) > MOST_TIMES:
            return None
        shown = f"({answer(network, name)}, {CHANGES if command == 'adopt' else TELLS})"
        return f"inl {shown}" if command == "try" else shown
    if command == "domains" or command == "domain" and values[0] in network.events:
        return None
    return CHANGES if command in [*EDITS, "time", "untime"] else TELLS


def drawn_step(draw: random.Random, network: Model, name: str) -> Tuple[bytes, str]:
    """A line whose reply is proved legal here, and how."""
    while True:
        line = drawn_line(draw, network.period)
        shown = proof(network, name, line)
        if shown is not None:
            return line, shown


def steps(draw: random.Random, network: Model, stream: str) -> Tuple[Dict[str, str], List[Step]]:
    """The works between random lines, each by its name, and the lines."""
    name = f"{stream}_0"
    works, taken = {name: work(network)}, []
    for _ in range(LINES):
        line, shown = drawn_step(draw, network, name)
        reply = "".join(f"{told}\\n" for told in network.reply(line))
        before, now = name, work(network)
        if now != works[before]:
            name = f"{stream}_{len(works)}"
            works[name] = now
        taken.append(Step(line, reply, shown, before, name))
    return works, taken


def stream(draw: random.Random, number: int) -> Iterator[str]:
    network = networks.drawn(draw)
    network.times = networks.times_drawn(draw, network, 0.8)
    works, taken = steps(draw, network, f"work_{number}")
    for place, (name, term) in enumerate(works.items()):
        yield from defined(f"work {place} of stream {number}", name, "Work", name, term)
    leads = "(refl, refl)"
    for place, step in enumerate(taken):
        statement = f"Legal {step.before} {one(text(step.line))} {one(codes(step.reply))} {step.after}"
        yield from shown_by(f"step_{number}_{place}", statement, step.proof)
    for place in reversed(range(LINES)):
        leads = f"(_, _, _, step_{number}_{place}, {leads}, refl)"
    asked = listed(text(step.line) if step.line.decode().isprintable() else one(text(step.line)) for step in taken)
    told = codes("".join(step.reply for step in taken))
    yield from shown_by(f"transcript_{number}", f"IsTranscript {taken[0].before} {one(asked)} {one(told)}", f"(_, {leads})")


def shown_by(name: str, statement: str, term: str) -> List[str]:
    """A fact about texts with numbers."""
    return [f"{name} : {statement}", "unfolding digits", f"{name} = {term}", ""]


def lines(draw: random.Random) -> Iterator[str]:
    yield from used(USED)
    yield ""
    for number in range(STREAMS):
        yield from stream(draw, number)
