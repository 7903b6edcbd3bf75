"""Stations of a generated region: their places, the tracks that join them, and the lines on these."""

from __future__ import annotations

import math
from dataclasses import dataclass
from itertools import combinations
from typing import Sequence

from pespbench.drawn.numbers import Numbers

NAMES = ["Ashford", "Benton", "Cranley", "Dale", "Elmore", "Farley", "Gorsley", "Hatton"]
NAMES += ["Inworth", "Jarrow", "Kelby", "Linton", "Marden", "Norwood", "Oakham"]
WIDTH, HEIGHT = 100, 60
# A station gets the one of this many random places that is farthest from the earlier stations.
TRIED_PLACES = 12
LEAST_STOPS, MOST_STOPS = 5, 6
KILOMETRES_A_MINUTE = 2


@dataclass(frozen=True)
class Stations:
    """Places of stations in kilometres, and the tracks between neighbours."""

    places: dict[str, tuple[int, int]]
    tracks: dict[str, set[str]]

    def distance(self, first: str, last: str) -> float:
        """Kilometres between two stations, as the crow flies."""
        return math.dist(self.places[first], self.places[last])

    def minutes(self, first: str, last: str) -> int:
        """The minimum minutes of a train between two neighbours."""
        return max(4, round(self.distance(first, last) / KILOMETRES_A_MINUTE))

    def path(self, first: str, last: str) -> list[str]:
        """The stations of a shortest path along tracks."""
        ways: dict[str, tuple[float, list[str]]] = {first: (0.0, [first])}
        waiting = [first]
        while waiting:
            station = min(waiting, key=lambda name: (ways[name][0], name))
            waiting.remove(station)
            length, stations = ways[station]
            for following in sorted(self.tracks[station]):
                longer = length + self.distance(station, following)
                if following not in ways or longer < ways[following][0]:
                    ways[following] = longer, [*stations, following]
                    waiting.append(following)
        return ways[last][1]

    def draw_lines(self, numbers: Numbers, count: int) -> list[list[str]]:
        """Different paths of five or six stations, each with as many stations that no earlier path serves as possible."""
        paths = [self.path(*pair) for pair in combinations(self.places, 2)]
        paths = numbers.shuffled([path for path in paths if LEAST_STOPS <= len(path) <= MOST_STOPS])
        served: set[str] = set()
        chosen: list[list[str]] = []
        for _ in range(min(count, len(paths))):
            best = max(paths, key=lambda path: len(set(path) - served))
            paths.remove(best)
            served.update(best)
            chosen.append(best)
        return chosen


def draw_stations(numbers: Numbers) -> Stations:
    """Stations spread over a plane, with tracks between relative neighbours, which reach every station."""
    places: dict[str, tuple[int, int]] = {}
    for name in NAMES:
        tried = [(numbers.below(WIDTH + 1), numbers.below(HEIGHT + 1)) for _ in range(TRIED_PLACES)]
        places[name] = max(tried, key=lambda place: nearest(place, list(places.values())))
    tracks: dict[str, set[str]] = {name: set() for name in NAMES}
    for first, last in combinations(NAMES, 2):
        if are_neighbours(places, first, last):
            tracks[first].add(last)
            tracks[last].add(first)
    return Stations(places, tracks)


def nearest(place: tuple[int, int], others: Sequence[tuple[int, int]]) -> float:
    """The distance to the nearest of the others; 0 if there are none."""
    return min((math.dist(place, other) for other in others), default=0.0)


def are_neighbours(places: dict[str, tuple[int, int]], first: str, last: str) -> bool:
    """Whether no third station is nearer to both than they are to each other."""
    apart = math.dist(places[first], places[last])
    others = [place for name, place in places.items() if name not in (first, last)]
    return all(max(math.dist(places[first], other), math.dist(places[last], other)) >= apart for other in others)
