"""The session that the page keeps: after steps, steps of a drag, undo and redo it has the state of a whole run, and no fault loses
one."""

import json

from page_tests.hands import TWO_TRAINS, Hands
from tests.harness import Suite, within

FILES = {**TWO_TRAINS, "events": "7\n8\n", "windows": "1; 8; 4\n8; 2; 1\n", "times": "1; 0\n2; 3\n7; 5\n8; 2\n"}
ACTIONS = 400
# Draws the next action, and compares the state shown with that of a run over all lines; returns the first difference.
DRAWN = """(() => {
    let seed = SEED, refused = 0, count = 0;
    const below = most => (seed = (seed * 48271) % 2147483647) % most, one = (...of) => of[below(of.length)];
    const event = () => one(1, 2, 3, 7, 8), activity = () => one(1, 2, 3, 4);
    const KINDS = [
        () => `fix ${event()} ${below(11)}`, () => `window ${event()} ${below(10)} ${1 + below(10)}`, () => `unfix ${event()}`,
        () => `time ${event()} ${below(10)}`, () => `time  ${event()}\\t+0${below(10)}`, () => `untime ${event()}`,
        () => `span ${activity()} ${below(4)} ${3 + below(8)}`, () => `weight ${activity()} ${below(9)}`,
        () => `ends ${activity()} ${event()} ${event()}`, () => `add event ${event()}`, () => `drop event ${event()}`,
        () => `add activity ${activity()} ${event()} ${event()} ${below(4)} ${3 + below(8)} ${below(3)}`, () => `drop activity ${activity()}`,
    ];
    const drawn = () => [...Array(below(4))].map(() => KINDS[below(KINDS.length)]());
    const told = view => JSON.stringify([view.network.period, view.network.events, [...view.network.windows], [...view.network.activities.values()], [...view.domains],
        view.tensions && [...view.tensions], view.violations && [...view.violations.activities], view.violations && [...view.violations.events], String(view.cost), view.missing]);
    // What the program tells where events without a time are not there.
    const ofTimed = (network, base, all) => {
        const untimed = network.events.filter(each => !Page.view.times.has(each)), isOfThem = ({ first, last }) => untimed.includes(first) || untimed.includes(last);
        const drops = [...[...network.activities.values()].filter(isOfThem).map(({ number }) => `drop activity ${number}`), ...untimed.map(each => `drop event ${each}`)];
        return Page.run(base, [...all, ...drops, 'tensions', 'violations', 'cost']).slice(-3);
    };
    const whole = more => {
        const { base, lines } = Page.present(), all = [...lines, ...more];
        const [dump, domains, tensions, violations, cost] = Page.run(base, [...all, 'dump', 'domains', 'tensions', 'violations', 'cost']).slice(all.length);
        const missing = Page.isRefused(cost) ? cost[0].replace('refused 11 ', '') : '', network = Page.readNetwork(dump), found = missing ? ofTimed(network, base, all) : [tensions, violations, cost];
        return told({ network, domains: Page.readDomains(domains), tensions: Page.readTensions(found[0]), violations: Page.readViolations(found[1]), cost: Page.readCost(found[2]), missing });
    };
    let shown = [];
    const tried = lines => {
        const before = Page.view;
        Page.preview(lines);
        if (Page.view === before) refused += 1;
        else shown = lines;
    };
    const ACTS = {
        tries: () => tried(drawn()), triesOn: () => tried(shown.length ? shown : drawn()),
        does: () => { refused += !Page.step(drawn()); }, doesTried: () => Page.step(shown),
        undoes: () => Page.undo(), redoes: () => Page.redo(), goes: () => Page.goTo(below(Page.session.steps.length + 1)), leaves: () => Page.refresh(),
    };
    for (count = 0; count < ACTIONS; count += 1) {
        const name = one(...Object.keys(ACTS)), before = shown, { place, steps } = Page.session;
        ACTS[name]();
        const isNone = (name === 'undoes' && !place) || (name === 'redoes' && place === steps.length);
        if (!name.startsWith('tries') && !isNone) shown = [];
        const came = told(Page.view), wanted = whole(shown);
        if (came !== wanted) return { name, count, before, shown, lines: Page.journal(), came, wanted };
    }
    return { refused };
})()"""


# Stands in for pesp_domain if a module has none: the line `domain` answers it.
DOMAINS = """(() => {
    const { open } = PespModule, size = 1 << 12;
    const withDomains = calls => {
        const given = calls.pesp_take(BigInt(size)), reply = calls.pesp_take(BigInt(size));
        const domain = (at, event, out, room, told) => {
            const line = new TextEncoder().encode(`domain ${event}`);
            new Uint8Array(calls.memory.buffer, Number(given), line.length).set(line);
            calls.pesp_ask(at, given, BigInt(line.length), reply, BigInt(size), told);
            const length = Number(new DataView(calls.memory.buffer).getBigUint64(Number(told), true)), bits = new Uint8Array(calls.memory.buffer, Number(out), Number(room)).fill(0);
            const text = new TextDecoder().decode(new Uint8Array(calls.memory.buffer, Number(reply), length));
            for (const minute of text.split(':')[1].trim().split(' ').filter(Boolean).map(Number)) bits[minute >> 3] |= 1 << (minute & 7);
        };
        return { ...calls, pesp_domain: domain };
    };
    PespModule.open = (module, files) => {
        if (!module.calls.pesp_domain) module.calls = withDomains(module.calls);
        return open(module, files);
    };
})()"""


@within(120)
def drawn_steps(suite: Suite, page: Hands) -> None:
    """Whatever is done, the state shown is that of a whole run over all lines, which is also given the network; by lines and in
    numbers."""
    for seed, shim in ((11, "0"), (12, "0"), (13, "0"), (14, DOMAINS)):
        page.again()
        page.ask(shim)
        page.show(FILES)
        came = page.ask(DRAWN.replace("SEED", str(seed)).replace("ACTIONS", str(ACTIONS)))
        suite.holds(f"seed {seed}: {json.dumps(came)}", set(came) == {"refused"} and 20 < came["refused"] < ACTIONS / 2)


# The same for the diagram, of which a step draws only the changed parts: the first action after which it differs from one drawn
# from nothing is returned, or otherwise how many diagrams differed from the one before.
PARTS = """(() => {
    let seed = SEED, changes = 0, before = '';
    const below = most => (seed = (seed * 48271) % 2147483647) % most, one = of => of[below(of.length)];
    const { network } = Page.view, event = () => one(network.events), activity = () => one([...network.activities.values()]);
    const span = ({ number, lower, upper }) => `span ${number} ${lower + below(3)} ${upper + 2 + below(3)}`;
    const KINDS = [
        () => `fix ${event()} ${below(60)}`, () => `window ${event()} ${below(60)} ${1 + below(60)}`, () => `unfix ${event()}`,
        () => `time ${event()} ${below(60)}`, () => `untime ${event()}`, () => span(activity()), () => `weight ${activity().number} ${below(9)}`,
    ];
    const ACTS = {
        does: () => Page.step([one(KINDS)()]), tries: () => Page.preview([one(KINDS)()]), leaves: () => Page.refresh(), undoes: () => Page.undo(),
        redoes: () => Page.redo(), chooses: () => Page.choose(event()), sets: () => Page.step(Array.from(Page.session.opened.times, each => `time ${each.join(' ')}`)),
        hides: () => { Page.showTab('lines'); Page.step([one(KINDS)()]); Page.showTab('diagram'); },
        drags: () => { document.body.classList.toggle('dragging'); Page.refresh(); },
    };
    for (let count = 0; count < ACTIONS; count += 1) {
        const name = one(Object.keys(ACTS));
        ACTS[name]();
        const line = Page.view.lines.find(each => each.name === Page.chosenLine) || Page.view.lines[0], { drawn } = Page.diagramOf(Page.view, line, { chosen: Page.chosen, size: Page.sizeNow('diagram') });
        const [came, wanted] = [Page.find('diagram').firstElementChild, drawn].map(each => each.outerHTML);
        if (!drawn.isEqualNode(Page.find('diagram').firstElementChild)) return { name, count, lines: Page.journal(), came, wanted };
        changes += before !== came;
        before = came;
    }
    document.body.classList.remove('dragging');
    return { changes };
})()"""


@within(120)
def drawn_in_parts(suite: Suite, page: Hands) -> None:
    """Whatever is done, the diagram is the one drawn from nothing."""
    for seed in (21, 22, 23):
        page.again()
        came = page.ask(PARTS.replace("SEED", str(seed)).replace("ACTIONS", str(ACTIONS)))
        suite.holds(f"seed {seed}: {json.dumps(came)[:3000]}", set(came) == {"changes"} and came["changes"] > ACTIONS / 5)


# The next calls of a session run out of memory, or trap.
FAILING = """(() => {
    const { ask, domains } = PespModule;
    window.left = COUNT;
    const failing = module => {
        if (IS_TRAP) module.calls.pesp_answer(10, 0xfffffff0n, 100n, 0n, 0n, 0n, 0n, 0n, 0n, 0n, 0n, 0n);
        return { output: new Uint8Array(0), ending: { status: 6, place: 0, reason: 0, field: 0 }, fault: 'out of memory at line 1' };
    };
    const isFailing = line => /LINE/.test(line) && (window.left -= 1) >= 0;
    PespModule.ask = (module, session, line) => isFailing(line) ? failing(module) : ask(module, session, line);
    PespModule.domains = (module, ...more) => isFailing('domains') ? failing(module) : domains(module, ...more);
})()"""


def failing(suite: Suite, page: Hands) -> None:
    """A failed session is reopened at the state shown, wherever it failed; after out of memory, the step is done then."""
    for name, line, is_trap, count, wanted in [
        ("memory for a line", "fix 2 5", "false", 1, ["fix 1 2", "fix 2 5"]), ("memory for a question", "violations", "false", 1, ["fix 1 2", "fix 2 5"]),
        ("memory again and again", "fix 2 5", "false", 2, ["fix 1 2"]), ("a trap at a line", "fix 2 5", "true", 1, ["fix 1 2"]),
        ("a trap at a question", "domains", "true", 1, ["fix 1 2"]),
    ]:
        page.again()
        page.show(FILES)
        page.ask("Page.step(['fix 1 2']); Page.step(['time 2 5']); Page.undo()")
        before = page.state()
        page.ask(FAILING.replace("LINE", line).replace("IS_TRAP", is_trap).replace("COUNT", str(count)))
        page.ask("Page.preview(['time 1 4'])")
        is_done = page.ask("Page.step(['fix 2 5'])")
        came = {"done": is_done, "lines": page.lines(), "same": page.state() == before, "told": "memory" in page.said() or "trapped" in page.said()}
        isnt = len(wanted) == 1
        suite.note(name, {"done": not isnt, "lines": wanted, "same": isnt, "told": isnt}, came)
        page.ask("window.left = 0; Page.step(['time 8 9']); Page.undo(); if (Page.session.place === 2) Page.undo(); Page.undo(); Page.redo()")
        suite.holds(f"{name}: nothing is lost", page.state() == before)


GROUPS = [drawn_steps, drawn_in_parts, failing]
