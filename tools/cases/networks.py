"""Random networks, and their terms."""

import random
from typing import Dict, List, Mapping, Optional, Tuple

from cases.terms import defined, fields, integer, listed, one
from tests.model import Model
from tests.network import Network
from tests.quick_model import drawn_network

# The definitions in the terms below.
USED: Dict[str, List[str]] = {
    "pesp_base.proofs.Samples": ["signed_arc as arc"],
    "pesp_instance.specs.Network": ["Network", "new_event"],
}


def event(network: Network, number: int) -> str:
    window = network.windows.get(number)
    if window is None:
        return f"new_event {number}"
    interval = fields(dict(zip(["first", "length"], map(str, window))))
    return fields({"id": str(number), "window": f"Some ({interval})"})


def activity(number: int, row: Tuple[int, ...]) -> str:
    first, last, lower, upper, weight = row
    return f"arc {number} {first} {last} {one(integer(lower))} {one(integer(upper))} {weight}"


def instance(network: Network) -> str:
    """A network as a record on one line."""
    events = [event(network, number) for number in sorted(network.events)]
    activities = [activity(number, row) for number, row in sorted(network.activities.items())]
    return fields({"period": str(network.period), "events": listed(events), "activities": listed(activities)})


def named(network: Network, name: str) -> List[str]:
    return defined(f"{len(network.events)} events at period {network.period}", name, "Network", name, instance(network))


def timetable(period: int, times: Mapping[int, int]) -> str:
    entries = listed(f"({number}, {time})" for number, time in sorted(times.items()))
    return fields({"period": str(period), "entries": entries})


def built(draw: random.Random) -> Model:
    """A network around times that usually meet all of it."""
    network = Model(draw.randint(2, 12))
    times = {number: draw.randrange(network.period) for number in sorted(draw.sample(range(1, 10), draw.randint(2, 4)))}
    for number in times:
        network.add_event(number)
        if draw.randrange(4) == 0:
            before = draw.randrange(network.period)
            network.window(number, (times[number] - before) % network.period, draw.randint(before + 1, network.period))
    for number in range(1, draw.randint(2, 6)):
        first, last = draw.choices(list(times), k=2) if draw.randrange(8) == 0 else draw.sample(list(times), 2)
        before = draw.randrange(draw.choice([1, 2, 3, network.period]))
        lower = times[last] - times[first] + network.period * draw.randint(-1, 2) - before + (draw.randrange(12) == 0)
        network.add_activity(number, first, last, lower, lower + before + draw.choice([0, 1, 2, network.period]), draw.randrange(5))
    return network


def drawn(draw: random.Random, most_times: Optional[int] = None) -> Model:
    """A random network with at least one activity, and with at most this many lists of times."""
    while True:
        network = built(draw) if draw.randrange(3) else drawn_network(draw)
        is_small = most_times is None or network.period ** len(network.events) <= most_times
        if is_small and network.activities:
            return network


def times_drawn(draw: random.Random, network: Network, share: float) -> Dict[int, int]:
    """Times for most events; `share` is the share of networks in which each event has one."""
    times = {number: draw.randrange(network.period) for number in sorted(network.events)}
    if draw.random() > share:
        del times[draw.choice(sorted(times))]
    return times
