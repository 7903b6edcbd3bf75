"""The report: every number in it is that of a reply, and nothing in it is loaded from elsewhere. Node draws it."""

from __future__ import annotations

import json
import os
import shutil
import unittest
from unittest import mock

from pespbench import Bench, EventLabel, Found, Infeasible, Labels, Stopped
from pespbench.answers import runs
from pespbench.report import NoNode, NoPage, gather, netgraph_of, page_of, read_places
from pespbench.report.drawing import drawn
from pespbench.report.page import EMPTY, page_text
from tests.common import EXAMPLES, PROGRAM, Case
from tests.pages import NO_NODE, Node, Page, region_bench

HAS_NODE = shutil.which("node") is not None
NO_COMMANDS = mock.Mock(which=lambda name: None)


class Content(Case):
    """The contents of the page are the program's replies."""

    def setUp(self) -> None:
        super().setUp()
        self.bench = region_bench(self.folder)
        self.addCleanup(self.bench.close)
        self.content = gather(self.bench, "A region", read_places(self.folder / "places"))
        self.text = page_of(self.content)

    def test_replies(self) -> None:
        tensions, violations = self.bench.tensions(), self.bench.violations()
        self.assertEqual(self.content["tensions"], [[number, each.tension, each.slack] for number, each in tensions.items()])
        self.assertEqual(self.content["violations"], {"activities": violations.activities, "events": violations.events})
        self.assertEqual((self.content["cost"], self.content["missing"]), (str(self.bench.cost()), ""))
        domains = {event: tuple(residues) for event, residues in self.content["domains"]}
        self.assertEqual(domains, {event: each.residues for event, each in self.bench.domains().items() if len(each.residues) < 60})
        self.assertEqual(dict(self.content["times"]), self.bench.times)

    def test_alone(self) -> None:
        """It is the page with the content inside, and nothing else: its policy, scripts and styles are the page's own."""
        before, _, after = page_text().partition(EMPTY)
        begin = EMPTY[: -len("</script>")]
        self.assertTrue(self.text.startswith(before + begin) and self.text.endswith("</script>" + after))
        told = self.text[len(before + begin) : -len("</script>" + after)]
        self.assertFalse(set("<>&") & set(told))
        self.assertTrue(told.isascii())
        self.assertEqual(json.loads(told), json.loads(json.dumps(self.content)))
        self.assertIn("default-src 'none'", before)

    def test_same_again(self) -> None:
        self.assertEqual(page_of(gather(self.bench, "A region", read_places(self.folder / "places"))), self.text)

    def test_names_of_strangers(self) -> None:
        name = "</style></script><script>alert('&')</script><!--"
        labels = Labels({1: EventLabel(name, name, name, "departure"), 2: EventLabel(name, name, "Benton", "arrival")}, {1: name})
        text = page_of(gather(self.two_trains(labels=labels, times=EXAMPLES / "two-trains/times"), name))
        self.assertEqual([text.count(word) for word in ("<script", "</script", "<!--")], [page_text().count(word) for word in ("<script", "</script", "<!--")])

    def test_no_page(self) -> None:
        """If the page is missing, or is another one, that is reported."""
        for name, text, told in (("missing", None, "PESPBENCH_PAGE names one"), ("other", "<p>", "no place for a report")):
            path = self.folder / name
            if text is not None:
                path.write_text(text)
            with self.subTest(name), mock.patch.dict(os.environ, {"PESPBENCH_PAGE": str(path)}), self.assertRaisesRegex(NoPage, told):
                page_of(self.content)

    def test_no_node(self) -> None:
        with mock.patch("pespbench.report.drawing.shutil", NO_COMMANDS), self.assertRaisesRegex(NoNode, "there is no command node"):
            netgraph_of(self.content)


@unittest.skipUnless(HAS_NODE, NO_NODE)
class Region(Case):
    """A drawn report on a region, compared with the replies."""

    def setUp(self) -> None:
        super().setUp()
        self.bench = region_bench(self.folder)
        self.addCleanup(self.bench.close)
        self.content = gather(self.bench, "A region", read_places(self.folder / "places"))
        self.page = Page(drawn("report", self.content)).root

    def minutes(self, root: Node) -> list[Node]:
        """The elements with the minute of an event."""
        return [node for node in root.all("data-event") if node.tag in ("td", "tspan") or node.attributes.get("class") == "end"]

    def test_times(self) -> None:
        times, outside = self.bench.times, set(self.bench.violations().events)
        shown = self.minutes(self.page)
        self.assertEqual({node.number("data-event") for node in shown}, set(times))
        for node in shown:
            event = node.number("data-event")
            mark = "✕" if event in outside and node.tag != "text" else ""
            self.assertEqual(node.text, f"{times[event]:02d}{mark}")

    def test_each_part_shows_each_event(self) -> None:
        parts = {node.attributes["id"]: node for node in self.page.all("id")}
        for name in ("netgraph-drawn", "lines"):
            self.assertEqual({node.number("data-event") for node in self.minutes(parts[name])}, set(self.bench.times))

    def test_domains(self) -> None:
        domains = {event: domain for event, domain in self.bench.domains().items() if len(domain.residues) < 60}
        shown = {node.number("data-domain"): node for node in self.page.all("data-domain")}
        self.assertEqual(set(shown), set(domains))
        self.assertTrue(domains)
        for event, node in shown.items():
            found = runs(domains[event].residues)
            told = [f":{first:02d}" if first == last else f":{first:02d}–:{last:02d}" for first, last in found]
            self.assertEqual(node.children[1].text, ", ".join(told))
            [bars] = [each.attributes["d"] for each in node.all("d") if each.attributes.get("class") == "possible"]
            self.assertEqual(bars, "".join(f"M{first} 0H{last + 1}V1H{first}Z" for first, last in found))

    def test_activities(self) -> None:
        tensions, network = self.bench.tensions(), self.bench.network
        rows = {node.number("data-activity"): node for node in self.page.all("data-activity") if node.tag == "tr"}
        self.assertEqual(set(rows), set(network.activities))
        for number, row in rows.items():
            each, taken = network.activities[number], tensions[number]
            shown = [cell.text.replace(",", "") for cell in row.children[1:]]
            span = f"{each.lower} to {each.upper}" if each.lower < each.upper else str(each.lower)
            known = [number, span, taken.tension, taken.slack, each.weight, each.weight * taken.slack]
            self.assertEqual(shown, [str(value) for value in known])

    def test_dearest_first(self) -> None:
        costs: dict[str, list[int]] = {}
        for row in self.page.all("data-activity"):
            if row.tag == "tr":
                kind = self.bench.labels.kind(row.number("data-activity"))
                costs.setdefault(kind, []).append(int(row.children[-1].text.replace(",", "")))
        self.assertTrue(all(listed == sorted(listed, reverse=True) for listed in costs.values()))
        sums = [sum(listed) for listed in costs.values()]
        self.assertEqual(sums, sorted(sums, reverse=True))
        self.assertEqual(sum(sums), self.bench.cost())

    def test_violations(self) -> None:
        violations = self.bench.violations()
        self.assertEqual(len(violations), 2)
        activities = {node.number("data-violated-activity"): node for node in self.page.all("data-violated-activity")}
        self.assertEqual(set(activities), set(violations.activities))
        events = [node.number("data-violated-event") for node in self.page.all("data-violated-event")]
        self.assertEqual(events, list(violations.events))
        for number, node in activities.items():
            self.assertEqual(node.children[2].text, f"{self.bench.tensions()[number].tension} minutes")
            self.assertEqual(node.children[3].text, "1 too many")
        self.assertIn("2 minutes early", self.page.all("data-violated-event")[0].text)

    def test_figures(self) -> None:
        shown = {node.attributes["data-figure"]: node.children[0].text for node in self.page.all("data-figure")}
        network = self.bench.network
        wanted = {"period": 60, "lines": 6, "trains a period": 12, "stations": 15, "events": len(network.events)}
        wanted.update({"activities": len(network.activities), "violated": 2, "cost": self.bench.cost()})
        self.assertEqual(shown, {words: f"{number:,}" for words, number in wanted.items()})

    def test_places(self) -> None:
        """Stations are at the places of a file, and otherwise laid out."""
        rings = [[(node.attributes["cx"], node.attributes["cy"]) for node in page.all("cx") if "ring" in node.attributes["class"].split()]
                 for page in (self.page, Page(drawn("report", gather(self.bench, "A region"))).root)]  # fmt: skip
        self.assertEqual(len(rings[0]), 15)
        self.assertNotEqual(*rings)


@unittest.skipUnless(HAS_NODE, NO_NODE)
class Others(Case):
    """Networks that lack parts of a region."""

    def page(self, bench: Bench) -> Node:
        """The drawn report."""
        with bench:
            root = Page(drawn("report", gather(bench, "Two & <trains>"))).root
        self.assertIn("Two & <trains>", root.text)
        return root

    def test_without_labels(self) -> None:
        text = self.page(Bench.open(EXAMPLES / "hourly-line/activities", times=EXAMPLES / "hourly-line/times", program=PROGRAM)).text
        self.assertNotIn("Netgraph", text)
        self.assertIn("activity 32 from event 8 to event 3", text)
        self.assertIn("3 too many", text)

    def test_without_times(self) -> None:
        text = self.page(self.two_trains()).text
        self.assertIn("2 events have no time", text)
        self.assertNotIn("What is violated", text)

    def test_headlines(self) -> None:
        """If the network has no timetable, that is the headline."""
        bench = self.two_trains()
        self.assertEqual(self.headline(bench), "There is no timetable yet.")
        bench.time(1, 0)
        self.assertEqual(self.headline(bench), "The timetable is not whole: 1 of 2 events has no time.")
        bench.time(2, 7)
        self.assertEqual(self.headline(bench), "")
        self.assertEqual(self.headline(bench, Stopped()), "")
        self.assertEqual(self.headline(bench, Infeasible()), "No timetable meets everything.")
        bench.span(1, 3, 3)
        bench.fix(1, 0)
        self.assertEqual(bench.domain(2).residues, ())
        self.assertEqual(self.headline(bench), "No timetable meets everything.")
        bench.many(["untime 1", "untime 2"])
        self.assertEqual(self.headline(bench), "No timetable meets everything.")

    def headline(self, bench: Bench, found: Found | None = None) -> str:
        """The remarks above the figures of a report, each once."""
        page = Page(drawn("report", gather(bench, "Two trains", None, found))).root
        said = [node.text for node in page.all("class") if node.attributes["class"] == "headline"]
        self.assertEqual(page.text.count(said[0]) if said else 1, 1)
        return "".join(said)

    def test_without_anything(self) -> None:
        self.assertIn("Activities by kind", self.page(Bench.open(None, program=PROGRAM)).text)

    def test_names_of_strangers(self) -> None:
        name = "</style><script>alert('&')</script>"
        labels = Labels({1: EventLabel(name, name, name, "departure"), 2: EventLabel(name, name, "Benton", "arrival")}, {1: name})
        root = self.page(self.two_trains(labels=labels, times=EXAMPLES / "two-trains/times"))
        self.assertNotIn("script", root.tags())
        self.assertIn(name, root.text)

    def test_half_a_line(self) -> None:
        labels = Labels({1: EventLabel("M", "Benton", "Ashford", "departure")}, {1: "run"})
        self.assertIn("to Benton ↓", self.page(self.two_trains(labels=labels, times=EXAMPLES / "two-trains/times")).text)

    def test_full_domains(self) -> None:
        self.assertEqual(self.page(self.two_trains(times=EXAMPLES / "two-trains/times")).all("data-domain"), [])


if __name__ == "__main__":
    unittest.main()
