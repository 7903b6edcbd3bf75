"""The page: its sources and the module in one file."""

import base64
import hashlib
import pathlib
import re
import shutil
from typing import Callable, Dict, Match, Set

from paging.modules import joined, scripts
from paging.packing import unpacked
from paging.tree import VERSION, NotMade, run

LINE = re.compile(r"^[ \t]*<!-- (?:(style|script|modules): (\S+)|(module|version)) -->[ \t]*$", re.M)
# A script that runs; for modules, with the name of the last one.
SCRIPT = re.compile(r"<script(?: data-modules=\w+)?>(.*?)</script>", re.S)
POLICY = re.compile(r'<meta http-equiv="Content-Security-Policy" content="([^"]*)">')
# A comment that begins a line and ends one.
COMMENT = re.compile(r"^[ \t]*(?://[^\n]*|/\*(?:(?!\*/).)*\*/[ \t]*)\n", re.M | re.S)
# Texts that would end an inline script or style early, or hide a part of it.
BREAKS = ["</script", "</style", "<!--"]
# The rule that forbids everything that no other rule allows.
NOTHING = "default-src 'none'"


def unindented(text: str) -> str:
    """A source without the more than ten thousand blanks at the beginnings of lines, and without empty lines; no text in it may
    have these."""
    return re.sub(r"^\s+", "", text, flags=re.M)


def short_style(text: str) -> str:
    """A style without the comments that have lines of their own; no text in it may have such lines."""
    return unindented(COMMENT.sub("", text))


def short_script(text: str) -> str:
    """A script without comments and needless blanks, in shorter statements; names are kept. Raises NotMade."""
    if not shutil.which("esbuild"):
        raise NotMade("there is no esbuild (Debian's package esbuild)")
    words = ["esbuild", "--minify-whitespace", "--minify-syntax", "--charset=utf8", "--legal-comments=none", "--log-level=warning"]
    return run(words, input=text.encode()).decode()


SHORT: Dict[str, Callable[[str], str]] = {"style": short_style, "script": short_script}


def fitting(kind: str, name: str, text: str) -> str:
    """A style or script of the page, as an inline element."""
    short = SHORT[kind](text)
    for word in BREAKS:
        if word in text.lower() or word in short.lower():
            raise NotMade(f"page/{name} has {word}, which would end it inside of a page")
    return short


def source(folder: pathlib.Path, kind: str, name: str) -> str:
    path = (folder / name).resolve()
    if folder.resolve() not in path.parents or not path.is_file():
        raise NotMade(f"page/index.html names {name}, which is no file of page/")
    return fitting(kind, name, path.read_text())


def part(folder: pathlib.Path, found: Match[str], module: str, there: Set[str]) -> str:
    """The replacement of a line `<!-- style: FILE -->`, `<!-- script: FILE -->`, `<!-- modules: NAME -->`, `<!--
    module -->` or `<!-- version -->`. Modules are those of script/NAME.js that are not yet in the page."""
    kind, name, which = found.groups()
    if which == "version":
        return f'Version <span id="version">{VERSION.read_text().strip()}</span>.'
    if which:
        return f'<script>const PESPBENCH_MODULE = "{module}";</script>'
    if kind == "modules":
        text = joined(scripts(folder / "script"), name, there)
        return f"<script data-modules={name}>\n{fitting('script', f'script/{name}.js, or what it imports,', text)}</script>"
    return f"<{kind}>\n{source(folder, kind, name)}</{kind}>"


def named(script: str) -> str:
    """The hash of an inline script in a policy."""
    return f"'sha256-{base64.b64encode(hashlib.sha256(script.encode()).digest()).decode()}'"


def with_policy(text: str) -> str:
    """The page with a policy that permits only its own scripts, instead of any policy in it, and no request."""
    policies = POLICY.findall(text)
    if len(policies) != 1 or NOTHING not in policies[0]:
        raise NotMade(f"page/index.html has no one policy with {NOTHING}")
    names = " ".join(map(named, SCRIPT.findall(text)))
    rules = [rule.strip() for rule in policies[0].split(";")]
    rules = [rule.replace("'unsafe-inline'", names) if rule.startswith("script-src ") else rule for rule in rules]
    return text.replace(policies[0], "; ".join(rules), 1)


def assembled(folder: pathlib.Path, module: str) -> bytes:
    """The page of the sources in a folder and of a packed module, as its bytes."""
    if not (folder / "index.html").is_file():
        raise NotMade("there is no page/index.html")
    index = unindented((folder / "index.html").read_text())
    there: Set[str] = set()
    text = LINE.sub(lambda found: part(folder, found, module, there), index)
    if 'const PESPBENCH_MODULE = "' not in text:
        raise NotMade("page/index.html has no line <!-- module -->")
    return with_policy(text).encode()


def packed_in(page: bytes) -> str:
    """The packed module in a page."""
    found = re.search(rb'const PESPBENCH_MODULE = "([^"]*)"', page)
    if not found:
        raise NotMade("there is no module in the page")
    return found.group(1).decode()


def module_of(page: bytes) -> bytes:
    """The module in a page."""
    return unpacked(packed_in(page))
