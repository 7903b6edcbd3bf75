"""Random cases of crates/pesp_tension: the tensions of timetables, and the effect of changes on them."""

import random
from typing import Dict, Iterator, List

from cases import networks
from cases.terms import Case, agreed, defined, fact, fields, integer, listed, used
from tests.model import Model
from tests.network import Refused

CRATE = "pesp_tension"
NETWORKS = 60
CHANGES = 12
CHANGES_OF_A_TIMETABLE = 12

USED: Dict[str, List[str]] = {
    "std.proofs.Common": ["◌≡◌", "ℕ", "List", "refl", "pos", "negsuc", "[]", "◌∷◌", "Some", "Result", "Ok", "Err"],
    **networks.USED,
    "pesp_base.specs.declared.refusal.Refusal": ["Refusal"],
    "pesp_base.specs.declared.refusal.Refusal.TheVariants as no": [],
    "pesp_tension.specs.declared.lists.ActivityTension": ["ActivityTension"],
    "pesp_tension.specs.declared.lists.Violation": ["Violation"],
    "pesp_tension.specs.declared.lists.Violation.TheVariants as of_": [],
    "pesp_tension.specs.Answers": ["cost_of", "tensions_of", "violations_of", "where_timed"],
    "pesp_tension.specs.Timetables": ["Times", "set_time", "without_time"],
}
ANSWERS = "List ActivityTension × List Violation × ℕ"


def answers(network: Model) -> str:
    """Tensions, violations and cost, or the refusal."""
    try:
        network.untimed()
    except Refused as refusal:
        return f"Err (no.MissingTime {str(refusal).split()[2]})"
    tensions = []
    for number, row in sorted(network.activities.items()):
        slack = network.slack(row, network.times)
        tensions.append(fields({"id": str(number), "tension": integer(row[2] + slack), "slack": str(slack)}))
    words = [line.split() for line in network.violations()[1:]]
    violations = [f"of_.{kind.capitalize()} {number}" for kind, number in words]
    return f"Ok ({listed(tensions)}, {listed(violations)}, {network.cost_of(network.times)})"


def asked(draw: random.Random, number: int) -> List[str]:
    network = networks.drawn(draw)
    network.times = networks.times_drawn(draw, network, 0.8)
    times = networks.timetable(network.period, network.times)
    statement = f"answers ({networks.instance(network)}) ({times}) ≡ {answers(network)}"
    return fact(f"answers_{number}", statement, "refl")


def changes(draw: random.Random) -> Iterator[Case]:
    """A timetable after each of some changes, as its events and their times, ascending."""
    network = Model(draw.choice([2, 7, 10, 60]))
    for number in range(1, 5):
        network.add_event(number)
    for _ in range(CHANGES_OF_A_TIMETABLE):
        before = networks.timetable(network.period, network.times)
        number, time = draw.randint(1, 4), draw.randrange(network.period + 2)
        if draw.randrange(3) == 0 and network.times:
            number = draw.choice(sorted(network.times))
            network.untime(number)
            yield Case(f"Ok (without_time ({before}) {number})", told(network))
            continue
        try:
            network.time(number, time)
            answer = told(network)
        except Refused:
            answer = f"Err (no.TimeOutOfRange {time})"
        yield Case(f"set_time ({before}) {number} {time}", answer)


def told(network: Model) -> str:
    return f"Ok ({networks.timetable(network.period, network.times)})"


def lines(draw: random.Random) -> Iterator[str]:
    yield from used(USED)
    yield ""
    term = "where_timed I m (tensions_of I m, violations_of I m, cost_of I m)"
    yield from defined("the tensions, the violations and the cost, or the refusal", "answers", f"Network → Times → Result ({ANSWERS}) Refusal", "answers I m", term)
    for number in range(NETWORKS):
        yield from asked(draw, number)
    for number in range(CHANGES):
        cases = list(changes(draw))
        yield from agreed(f"changes_{number}", cases)
