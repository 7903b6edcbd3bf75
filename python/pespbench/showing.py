"""A bench, a network and a search as HTML, for notebooks."""

from __future__ import annotations

from base64 import b64encode
from html import escape
from typing import TYPE_CHECKING, Iterable, Optional, Sequence

from pespbench.answers import Violations
from pespbench.faults import Refused
from pespbench.labels import Labels
from pespbench.network import Network
from pespbench.progress import Progress
from pespbench.tables import rows_of
from pespbench.terminal import shown
from pespbench.wording import Names, found_text

if TYPE_CHECKING:
    from pespbench.client import Bench

NO_TIME = 11
# The greatest number of rows, or names, shown.
MOST_SHOWN = 10
WIDTH = 480


def bench_html(bench: "Bench") -> str:
    """The network's numbers, cost and violations, and the netgraph if stations have names and Node can draw it. Raises Refused."""
    facts = [("network", counted(bench.network))]
    try:
        facts += [("cost", f"{bench.cost():,}"), ("violations", violated(bench.violations(), Names(bench.labels, bench.network.activities)))]
    except Refused as refusal:
        if refusal.number != NO_TIME:
            raise
        facts.append(("cost", f"not known: event {refusal.event} has no time"))
    return table(facts) + picture(bench)


def network_html(network: Network) -> str:
    """Its numbers, and its first activities."""
    rows = rows_of(network, {}, Labels())
    titles = rows[0]._fields[:6] if rows else ()
    more = len(rows) - MOST_SHOWN
    told = f"<p>and {more:,} more</p>" if more > 0 else ""
    return f"<p>{escape(counted(network))}</p>" + table((row[:6] for row in rows[:MOST_SHOWN]), titles) + told


def search_html(progress: Progress) -> str:
    """The state of a search."""
    gap = "not known" if progress.gap is None else f"{progress.gap:.1%}"
    bound = "not known" if progress.lower_bound is None else f"{progress.lower_bound:,}"
    facts = [("found", found_text(progress.found)), ("lower bound", bound), ("gap", gap), ("seconds", f"{progress.seconds:.1f}")]
    return table([*facts, ("ended", "yes" if progress.is_ended else "no")])


def counted(network: Network) -> str:
    """The size of a network."""
    return f"{len(network.windows):,} events, {len(network.activities):,} activities, period {network.period}"


def violated(violations: Violations, names: Names) -> str:
    """The number of violations, and the names of the first."""
    told = [*map(names.activity, violations.activities[:MOST_SHOWN]), *map(names.event, violations.events[:MOST_SHOWN])]
    dots = ", .." if len(told) < len(violations) else ""
    return f"{len(violations)}: {', '.join(told)}{dots}" if told else "none"


def table(rows: Iterable[Sequence[object]], titles: Sequence[str] = ()) -> str:
    """A table of texts, with titles if there are any."""
    head = "".join(f"<th>{escape(title)}</th>" for title in titles)
    body = "".join(f"<tr>{''.join(f'<td>{escape(shown(str(cell)))}</td>' for cell in row)}</tr>" for row in rows)
    return f"<table>{f'<tr>{head}</tr>' if head else ''}{body}</table>"


def picture(bench: "Bench") -> str:
    """The netgraph, as an image with a style of its own; nothing if it cannot be drawn."""
    svg = netgraph(bench)
    return "" if svg is None else f'<img width="{WIDTH}" alt="netgraph" src="data:image/svg+xml;base64,{b64encode(svg.encode()).decode()}">'


def netgraph(bench: "Bench") -> Optional[str]:
    """The page's drawing, or None if no stations have names, or the page or Node is missing."""
    if len({each.station for each in bench.labels.events.values()} - {""}) < 2:
        return None
    from pespbench.report import gather, netgraph_of

    try:
        return netgraph_of(gather(bench, "", bench.places))
    except OSError:
        return None
