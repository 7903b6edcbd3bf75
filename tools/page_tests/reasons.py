"""The page and the package, each of which has it once, give the same reason why there is no timetable."""

import random
import shutil
from typing import Any, Dict, List, Sequence, Tuple

from page_tests.hands import Hands
from pespbench import Activity, Bench, Network, Window
from pespbench.why import Conflict, Mend, Of, Verdict, text_of, why
from pespbench.why.telling import WHOLE, bounds_text, claim_text, member_name, member_row, ordered, shape_text
from pespbench.wording import Names, minutes
from tests.harness import TOP, Suite, within

# The package uses the page's module under Node.
PROGRAM = TOP / "tools/pespbench_module"
CONFLICTS = 30
KINDS = ("run", "change")
# The kinds that must not change, for each network in turn.
KEPT: Sequence[Tuple[str, ...]] = ((), ("run",), (), ("fixed",), ("run", "fixed"))
# How many activities there are for each event, how often one is held, and how wide spans are in parts of the period: many wide
# ones, which conflict in more than a circle, chains between windows, and networks between these.
FORMS = ((3, 0.3, (0.34, 0.4, 0.5)), (1, 0.6, (0.0, 0.1, 0.2)), (2, 0.3, (0.0, 0.0, 0.1, 0.3, 0.8, 1.0)))
# Lists of conflicts and repairs, and the sentences between them.
TOLD = """[...document.querySelectorAll('#reasons > *')].map(each => each.tagName !== 'TABLE' ? each.textContent
    : [...each.rows].map(row => [...row.cells].map(cell => cell.textContent)))"""
# Why, where memory is too short for each search of more than two activities.
WITHOUT_MEMORY = """(() => {
    const { answer } = PespModule, isSmall = ({ commands, activities }) => !commands.includes('try') || activities.split('\\n').length <= 3;
    PespModule.answer = (module, run) => isSmall(run) ? answer(module, run)
        : { output: new Uint8Array(0), ending: { status: 6 }, fault: 'out of memory at line 1' };
    try {
        const { members, mends } = Page.findWhy(Page.view.network);
        return [members.map(({ number }) => number), mends.map(({ whole }) => whole)];
    } finally {
        PespModule.answer = answer;
    }
})()"""


def drawn(seed: int) -> Network:
    """A small network, which usually has no timetable: beside a chain it has circles, parallel activities and loops."""
    draw = random.Random(seed)
    period, count = draw.choice([5, 10, 12, 60]), draw.randrange(3, 8)
    each, held, parts = FORMS[seed % len(FORMS)]
    network = Network(period, {event: None for event in range(1, count + 1)})
    for event in network.windows:
        if draw.random() < held:
            network.windows[event] = Window(draw.randrange(period), draw.choice([1, 1, 2, period // 3, period]))
    for number in range(1, each * count + 1):
        first, last = (number, number + 1) if number < count else (draw.randint(1, count), draw.randint(1, count))
        last = last % count + 1 if first == last and draw.random() < 0.8 else last
        lower, width = draw.randrange(-3, 2 * period), int(draw.choice(parts) * period)
        network.activities[number] = Activity(number, first, last, lower, lower + width, draw.randrange(4))
    return network


def kinds_of(network: Network) -> Dict[int, str]:
    """Alternating runs and changes."""
    return {number: KINDS[number % 2] for number in network.activities}


def by_page(page: Hands, network: Network, kept: Sequence[str], lower: bool) -> Any:
    """The page's answer."""
    rows = "".join(f"{number}; {kind}\n" for number, kind in kinds_of(network).items())
    labels = f"event; line; to; station; kind\nactivity; kind\n{rows}"
    page.show({"lines": "\n".join(network.script()), "labels": labels, "period": str(network.period)})
    page.press("tab-why")
    page.ask(f"Page.find('kept-kinds').value = '{', '.join(kept)}'; Page.find('can-lower').checked = {str(lower).lower()}")
    page.press("ask-why")
    page.until("Page.find('stop').hidden && document.querySelector('#reasons h3, #reasons p:not(.quiet)')")
    return page.ask(TOLD)


def by_package(network: Network, kept: Sequence[str], lower: bool) -> Tuple[Any, Any]:
    """The package's answer, also in the page's form."""
    with Bench.from_script("\n".join(network.script()), period=network.period, program=PROGRAM) as bench:
        bench.labels.activities.update(kinds_of(network))
        answer, names = why(bench, kept, lower=lower), Names(bench.labels, network.activities)
    return answer, told(answer, names) if isinstance(answer, Conflict) else [text_of(answer, names).strip()]


def told(conflict: Conflict, names: Names) -> List[Any]:
    """A conflict with its repairs."""
    count = len(conflict.members)
    rows = [[name, bounds.replace("hard", "not to be changed")] for name, bounds in (member_row(each, conflict, names) for each in ordered(conflict))]
    texts = [shape_text(conflict).strip(), claim_text(conflict, names).strip().replace("nodes", "attempts")]
    lines: List[Any] = [f"These {count} cannot be met together" if count > 1 else "This cannot be met", rows, *filter(None, texts)]
    if not conflict.mends:
        return [*lines, "Nothing that may be changed is seen to mend it alone."]
    lines.append("The least that mends it, by one change alone")
    for verdict, words in WHOLE.items():
        listed = [mend_row(mend, names) for mend in conflict.mends if mend.whole is verdict]
        lines += [words[0].upper() + words[1:], listed] if listed else []
    return lines


def mend_row(mend: Mend, names: Names) -> List[str]:
    """One repair."""
    before, after = bounds_text(mend.before).removesuffix(" minutes"), bounds_text(mend.after)
    return [f"{minutes(mend.minutes)} {'less' if mend.is_less else 'more'}", member_name(mend.member, names), f"{after} in place of {before}"]


@within(240)
def told_twice(suite: Suite, page: Hands) -> None:
    """On random networks both return the same members in the same order, the same sum along a circle or a path, and repairs."""
    if not shutil.which("node"):
        print("  nothing was tried of what the package tells: node is not installed")
        return
    page.again()
    found: List[Conflict] = []
    for seed in range(4 * CONFLICTS):
        network, asked = drawn(seed), (KEPT[seed % len(KEPT)], seed % 2 == 1)
        answer, wanted = by_package(network, *asked)
        suite.note(f"network {seed}", {"told": wanted}, {"told": by_page(page, network, *asked)})
        found += [answer] if isinstance(answer, Conflict) else []
        if len(found) == CONFLICTS:
            break
    shapes = {type(each.shape).__name__ for each in found}
    suite.note("circles, ways, and neither", {"they": {"Circle", "Way", "NoneType"}}, {"they": shapes})
    mends = [mend for each in found for mend in each.mends]
    suite.note("mends", {"of": set(Of), "whole": {Verdict.POSSIBLE, Verdict.INFEASIBLE}}, {"of": {each.member.of for each in mends}, "whole": {each.whole for each in mends}})
    suite.holds("some are not to be changed, and some are lowered", any(each.hard for each in found) and any(each.is_less for each in mends))
    page.again()


def found_without_memory(suite: Suite, page: Hands) -> None:
    """A conflict is found, and whether a repair is enough for the whole network is undecided where the search of it runs out of memory."""
    page.again()
    page.show({"activities": "1; 1; 2; 3; 3; 0\n2; 2; 1; 4; 6; 0\n3; 2; 3; 1; 5; 0\n", "period": "10\n"})
    suite.note("a circle", {"found": [[1, 2], ["undecided", "undecided"]]}, {"found": page.ask(WITHOUT_MEMORY)})


GROUPS = [told_twice, found_without_memory]
