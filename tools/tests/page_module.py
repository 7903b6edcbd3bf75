"""The page: its build, and its module in Node compared with the program."""

import base64
import hashlib
import itertools
import json
import random
import re
import shutil
import subprocess
import sys
from pathlib import Path
from typing import Any, Dict, List, Union

from tests.drawn_runs import Asked, drawn_run, told_by
from tests.file_cases import TWO
from tests.harness import TOP, VERSION, Suite, within

sys.path.insert(0, str(TOP / "tools"))

from paging.packing import bytes_of, in_digits, packed, unpacked  # noqa: E402
from paging.page import assembled, module_of  # noqa: E402
from paging.tree import MADE, NotMade  # noqa: E402

POLICY = "default-src 'none'; script-src 'unsafe-inline' 'wasm-unsafe-eval'; style-src 'unsafe-inline'"
INDEX = f"""<!doctype html>
<meta http-equiv="Content-Security-Policy" content="{POLICY}">
<!-- style: look.css -->
<p>A <!-- comment --> stays.</p>
<!-- version -->
<!-- module -->
  <!-- script: parts/first.js -->
"""
MADE_OF_IT = """<!doctype html>
<meta http-equiv="Content-Security-Policy" content="POLICY">
<style>
p { margin: 0 }
</style>
<p>A <!-- comment --> stays.</p>
Version <span id="version">NUMBER</span>.
<script>const PESPBENCH_MODULE = "V@NE{1po";</script>
<script>
"use strict";
</script>
"""
MODULE = b"\0asm"
# Node's deflate returns 63 48 2c ce 05 00: the digits 31 77 23 14 81, and for the rest 1 51 50.
PACKED = "V@NE{1po"
# By openssl, of each of the two scripts.
NAMES = ["sha256-hT+tTpMv85LFqUQAQLIj9xrWYS+kTjHFpIe3GcaLvLc=", "sha256-UMiZTiQr0FF55ddnk1Z5lOwLZaLuS6v607IsXWuuzbo="]


def sources(suite: Suite, name: str, **changed: str) -> Path:
    """The folder of a page of a few lines, with some of its files changed."""
    folder = suite.folder / name
    (folder / "parts").mkdir(parents=True)
    files = {"index.html": INDEX, "look.css": "p { margin: 0 }\n", "parts/first.js": "'use strict';\n"}
    for path, text in {**files, **{key.replace("__", "/").replace("_", "."): text for key, text in changed.items()}}.items():
        (folder / path).parent.mkdir(exist_ok=True)
        (folder / path).write_text(text)
    return folder


def has_esbuild() -> bool:
    """Whether pages can be built; if not, it says so."""
    found = shutil.which("esbuild") is not None
    if not found:
        print("  no page was made: esbuild is not installed")
    return found


def refused(folder: Path) -> str:
    try:
        return assembled(folder, PACKED).decode()
    except NotMade as fault:
        return f"refused: {fault}"


def module_or_fault(text: str) -> Union[bytes, str]:
    try:
        return module_of(text.encode())
    except NotMade as fault:
        return str(fault)


def page(suite: Suite) -> None:
    """A page contains its styles, scripts and module, and its policy permits only these scripts."""
    if not has_esbuild():
        return
    came = refused(sources(suite, "plain"))
    told = re.search(r'content="([^"]*)"', came)
    assert told is not None
    policy = told[1]
    suite.note("a page", {"page": MADE_OF_IT}, {"page": came.replace(policy, "POLICY").replace(VERSION, "NUMBER")})
    names = " ".join(f"'{name}'" for name in NAMES)
    wanted = POLICY.replace("script-src 'unsafe-inline'", f"script-src {names}")
    suite.note("its policy", {"policy": wanted}, {"policy": policy})
    suite.holds("its module", module_of(came.encode()) == MODULE)
    unpacked = module_or_fault(came.replace(PACKED, "009C61O"))
    suite.holds(f"one that is not packed: {unpacked!r}", str(unpacked).startswith("the module in the page cannot be unpacked"))
    table = {
        "a script that would end early": {"parts__first_js": "const text = '</SCRIPT>';\n"},
        "a style that would end early": {"look_css": "/* </style> */\n"},
        "a file that is not there": {"index_html": INDEX.replace("look.css", "looks.css")},
        "a file outside of the page": {"index_html": INDEX.replace("look.css", "../plain/look.css")},
        "no policy": {"index_html": INDEX.replace("Content-Security-Policy", "Refresh")},
        "a policy that lets requests out": {"index_html": INDEX.replace("default-src 'none'; ", "")},
        "no module": {"index_html": INDEX.replace("<!-- module -->", "")},
    }
    for number, (name, changed) in enumerate(table.items()):
        came = refused(sources(suite, f"page {number}", **changed))
        suite.note(f"a page with {name}", {"is refused": True}, {"is refused": came.startswith("refused: ")})


def by_script(digits: List[str]) -> List[bytes]:
    """The bytes that page/module.js reads from digits."""
    runs = "const { bytesOfDigits } = require(process.argv[1]);"
    runs += "console.log(JSON.stringify(JSON.parse(process.argv[2]).map(each => [...bytesOfDigits(each)])))"
    words = ["node", "-e", runs, str(TOP / "page/module.js"), json.dumps(digits)]
    return list(map(bytes, json.loads(subprocess.run(words, capture_output=True, text=True, check=True).stdout)))


def made_with(given: Path, path: Path) -> str:
    """The output of a build from a module or a page, with only the commands of a folder."""
    words = [sys.executable, str(TOP / "tools/page"), "--check", "--with", str(given)]
    return subprocess.run(words, capture_output=True, text=True, check=False, env={"PATH": str(path)}).stdout


def page_packing(suite: Suite) -> None:
    """Deflated bytes are in the page as digits without meaning in a script, and are read again by Python and by the page."""
    draw = random.Random(4_200)
    table = [b"", b"\xff" * 8, *(draw.randbytes(length) for length in range(1, 40))]
    digits = list(map(in_digits, table))
    suite.note("harmless", {"others": set()}, {"others": set("".join(digits)) & set("\"$&'/<>\\`")})
    suite.note("by Python", {"bytes": table}, {"bytes": list(map(bytes_of, digits))})
    if shutil.which("node"):
        suite.note("by page/module.js", {"bytes": table}, {"bytes": by_script(digits)})
    if shutil.which("zopfli"):
        suite.note("a module", {"text": PACKED, "again": MODULE}, {"text": packed(MODULE), "again": unpacked(packed(MODULE))})
    wasm = suite.folder / "short.wasm"
    wasm.write_bytes(MODULE)
    commands = suite.folder / "commands"
    commands.mkdir()
    came = made_with(wasm, commands)
    suite.holds(f"a module without zopfli: {came}", "there is no zopfli (Debian's package zopfli)" in came)
    came = made_with(MADE, commands)
    suite.holds(f"a page without esbuild: {came}", "there is no esbuild (Debian's package esbuild)" in came)
    esbuild = shutil.which("esbuild")
    if esbuild:
        (commands / "esbuild").symlink_to(esbuild)
        came = made_with(MADE, commands)
        suite.holds(f"a page without zopfli: {came}", came.endswith("1 passed, 0 failed\n"))


# Modules of which the first one imports both others, and the second the third.
OF_MODULES = INDEX + "<!-- modules: third -->\n<!-- modules: first -->\n"
MODULES = {
    "script__first_js": "// Imports.\n\nimport { two } from './second.js';\nimport {\n  Three,\n} from './third.js';\n\n/** What is told.\n * @type {number[]} */\nglobalThis.told = [two(), new Three().number]; // Here.\n",
    "script__second_js": "import { Three } from './third.js';\n\nexport const two = () => new Three().number - 1;\n",
    "script__third_js": "const number = 3;\n\nexport class Three {\n  get number() { return number; }\n}\n",
}
MADE_OF_MODULES = """<script data-modules=third>
"use strict";const PESPBENCH={};PESPBENCH.third=(()=>{class Three{get number(){return 3}}return{Three}})();
</script>
<script data-modules=first>
"use strict";PESPBENCH.second=(()=>{const{Three}=PESPBENCH.third;return{two:()=>new Three().number-1}})(),PESPBENCH.first=(()=>{const{two}=PESPBENCH.second,{Three}=PESPBENCH.third;globalThis.told=[two(),new Three().number]})();
</script>
"""


def ran(scripts: List[str]) -> Any:
    """The output of scripts that run one after another."""
    runs = "for (const text of JSON.parse(process.argv[1])) require('vm').runInThisContext(text); console.log(JSON.stringify(told));"
    return json.loads(subprocess.run(["node", "-e", runs, json.dumps(scripts)], capture_output=True, text=True, check=True).stdout)


def page_scripts(suite: Suite) -> None:
    """Modules are combined in order into scripts that run, whose hashes are in the policy, without comments and needless blanks;
    an invalid module is refused."""
    if not has_esbuild():
        return
    came = refused(sources(suite, "modules", index_html=OF_MODULES, **MODULES))
    suite.note("modules", {"scripts": MADE_OF_MODULES}, {"scripts": came[came.find("<script data-modules") :]})
    flat = {key: text.replace("./third.js", "./parts/third.js") for key, text in MODULES.items()}
    folders = {"script__parts__third_js" if "third" in key else key: text for key, text in flat.items()}
    in_folders = refused(sources(suite, "modules in folders", index_html=OF_MODULES, **folders))
    suite.note("modules in folders", {"page": came}, {"page": in_folders})
    parts = re.findall(r"<script data-modules=\w+>(.*?)</script>", came, re.S)
    names = [base64.b64encode(hashlib.sha256(text.encode()).digest()).decode() for text in parts]
    suite.note("their names", {"in the policy": [True, True]}, {"in the policy": [f"'sha256-{name}'" in came for name in names]})
    if shutil.which("node"):
        suite.note("they run", {"told": [2, 3]}, {"told": ran(parts)})
    second, third = MODULES["script__second_js"], MODULES["script__third_js"]
    table = {
        "a name that is not exported": {"script__third_js": third.replace("export ", "")},
        "a module that is not there": {"script__second_js": second.replace("./third.js", "./fourth.js")},
        "a module that is in another folder": {"script__second_js": second.replace("./third.js", "./parts/third.js")},
        "two modules of one name": {"script__parts__third_js": "const four = 4;\n"},
        "a name that is not used": {"script__second_js": "import { Three } from './third.js';\n\n// As Three.\nexport const two = () => 2;\n"},
        "a name twice": {"script__second_js": second.replace("{ Three }", "{ Three, Three }")},
        "a module twice": {"script__second_js": "import { Four } from './third.js';\n" + second},
        "an import below its code": {"script__second_js": "const one = 1;\n" + second},
        "a name that is declared here": {"script__second_js": second + "const Three = 3;\n"},
        "a name under another": {"script__second_js": second.replace("{ Three }", "{ Three as Four }")},
        "itself by another one": {"script__third_js": "import { two } from './second.js';\n" + third.replace("3", "two")},
        "an export of two modules": {"script__third_js": third + "export const two = 2;\n"},
        "an export that may change": {"script__third_js": third + "export let four = 4;\n"},
        "a list of exports": {"script__third_js": third + "const four = 4;\nexport { four };\n"},
        "an import of all": {"script__second_js": second + "import * as third from './third.js';\n"},
        "an import of no name": {"script__second_js": second + "import './third.js';\n"},
        "a last module that is not there": {"index_html": OF_MODULES.replace("modules: first", "modules: fourth")},
    }
    for number, (name, changed) in enumerate(table.items()):
        came = refused(sources(suite, f"modules {number}", **{"index_html": OF_MODULES, **MODULES, **changed}))
        suite.note(f"modules with {name}", {"is refused": True}, {"is refused": came.startswith("refused: page/script/")})


class Node:
    """The module in Node, which answers runs."""

    def __init__(self, suite: Suite, module: bytes) -> None:
        path = suite.folder / "module.wasm"
        path.write_bytes(module)
        words = ["node", str(TOP / "tools/tests/module_runs.js"), str(TOP / "page/module.js"), str(path)]
        self.process = subprocess.Popen(words, stdin=subprocess.PIPE, stdout=subprocess.PIPE, text=True)
        assert self.process.stdin is not None and self.process.stdout is not None
        self.given, self.told = self.process.stdin, self.process.stdout

    def answer(self, asked: Asked, limit: int = 0, room: int = 0, is_session: bool = False) -> Dict[str, Any]:
        texts = {name: base64.b64encode(value).decode() for name, value in asked._asdict().items() if name != "period"}
        how = {"limit": limit, "room": room, "isSession": is_session}
        print(json.dumps({"period": asked.period, **how, **texts}), file=self.given, flush=True)
        came = json.loads(self.told.readline())
        return {**came, "replies": base64.b64decode(came["output"])}

    def __enter__(self) -> "Node":
        return self

    def __exit__(self, *_: object) -> None:
        self.given.close()
        self.process.wait()


# The number of lines that are played, and of runs with too little memory.
LINES = 10_000
SHORT_RUNS, TIMES = 40, 6
# The limits of the bits of the memory that is left for blocks.
BITS = 12, 21


def same_bytes(suite: Suite, node: Node) -> None:
    """Random runs have the program's replies, as whole runs and by sessions, and all memory is freed after either."""
    draw, lines = random.Random(4_100), 0
    for number in itertools.count():
        if lines >= LINES:
            break
        asked = drawn_run(draw)
        told, room = told_by(suite, asked), draw.choice([0, 1, 100, 1 << 20])
        lines += len(asked.commands.splitlines())
        for is_session in (False, True):
            came = node.answer(asked, room=room, is_session=is_session)
            came["in use"] = came["used"][0]
            suite.note(f"drawn run {number}, {'by a session' if is_session else 'whole'}, {asked}", {**told, "in use": 0}, came)


def is_short(whole: bytes, came: Dict[str, Any]) -> bool:
    """Whether a run is out of memory; its replies are then a prefix of all."""
    is_wanted = came["ending"]["status"] in (5, 6) or came["ending"]["reason"] == 11
    return is_wanted and whole.startswith(came["replies"])


def little_memory(suite: Suite, node: Node) -> None:
    """With less and less memory a run is answered like the program, or reports that it is out of memory."""
    draw, wanted_some = random.Random(4_101), 0
    for number in range(SHORT_RUNS):
        asked = drawn_run(draw)
        whole = told_by(suite, asked)
        for turn, limit in enumerate(int(2 ** draw.uniform(*BITS)) for _ in range(TIMES)):
            came = node.answer(asked, limit=limit, room=1 << 12, is_session=turn % 2 > 0)
            is_same = {name: came[name] for name in whole} == whole
            wanted_some += not is_same
            name = f"run {number} within {limit} bytes, {asked}: {came['fault']}"
            suite.holds(name, came["used"][0] == 0 and (is_same or is_short(whole["replies"], came)))
    suite.holds(f"memory was wanted in some of them: {wanted_some}", wanted_some > SHORT_RUNS)
    suite.holds(f"and not in others: {wanted_some}", wanted_some < SHORT_RUNS * (TIMES - 1))


def endings(suite: Suite, node: Node) -> None:
    """Runs that end with a fault."""
    empty = Asked(10, b"", b"", b"", b"")
    # One of them is not a whole number.
    refused_periods: List[Any] = [0, 1, 1_441, 65_536, -3, 2.5, 1_450]
    for period in refused_periods:
        came = node.answer(empty._replace(period=period, commands=b"cost\n"))
        suite.note(f"period {period}", {"replies": b"", "fault": "the period is not 2 to 1440"}, came)
        came = node.answer(empty._replace(period=period), is_session=True)
        suite.note(f"a session of period {period}", {"replies": b"", "fault": "the period is not 2 to 1440", "used": [0, came["used"][1]]}, came)
    long = b"fix 1 0\n" + b"x" * 4_097
    came = node.answer(Asked(10, TWO, b"", b"", long))
    suite.note("a long line", {"replies": b"ok\n", "fault": "line 2 is longer than 4096 bytes"}, came)
    came = node.answer(Asked(10, TWO, b"", b"", long), is_session=True)
    suite.note("a long line in a session", {"replies": b"ok\n", "fault": "line 2 is longer than 4096 bytes"}, came)
    many = b"#\n" * 1_000_001
    suite.note("many lines", {"fault": "more than 1000000 lines"}, node.answer(empty._replace(commands=many)))
    all_domains = b"fix 1 0\n" + b"domains\n" * 20_000
    asked = Asked(10, TWO, b"", b"", all_domains)
    suite.note("replies beyond the first room", told_by(suite, asked), node.answer(asked, room=1 << 10))


@within(300)
def page_module(suite: Suite) -> None:
    """The module of page/pespbench.html, in Node."""
    if not shutil.which("node"):
        print("page_module: there is no node, so the module is not tried")
        return
    suite.holds("there is page/pespbench.html, which tools/page makes", MADE.exists())
    if MADE.exists():
        with Node(suite, module_of(MADE.read_bytes())) as node:
            same_bytes(suite, node)
            little_memory(suite, node)
            endings(suite, node)


GROUPS = [page, page_packing, page_scripts, page_module]
