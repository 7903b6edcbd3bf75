"""The statements that the crates prove, and which of them are proved in more than one file.

A statement is the type that a file of crates/NAME/proofs gives to a name before the equations that prove it. Two are
the same if they differ only in the names of bound variables, in spaces or in how variables are grouped. One inside
`module _ (..)` holds for all values of the parameters that it cites, under what other parameters say about these: it is
compared with all of them before it, as it reads outside.
"""

import pathlib
import re
from typing import Dict, Iterator, List, NamedTuple, Optional, Sequence, Set, Tuple, Union

TOKEN = re.compile(r'"(?:[^"\\]|\\.)*"|\.[^\s(){}\[\],.;"]+|[^\s(){}\[\],.;"]+|[(){}\[\],.;]')
PAIRS = {"(": ")", "{": "}", "[": "]"}
NAME = r"(?P<name>[^\s(){}\[\],.;:=]+)"
STATED = re.compile(rf"(?P<indent> *)(?:pub )?{NAME} : (?P<type>.*)")
DEFINED = re.compile(rf"(?:abbrev )?(?:pub )?(?:(?:record|data|ruleset) )?{NAME}(?= |$)")
USED = re.compile(r"(?:pub )?use (?P<path>[^\s{]+?)(?:\.\{(?P<names>.*)\}| as (?P<other>\S+))?")
# The types of values, not of proofs: a name of such a type is a definition.
VALUES = {"Type", "ℕ", "ℤ", "Bool", "List", "Option"}
# Names that no file imports: words of the language, and built-in names.
BUILT_IN = set("→ × = : | ↦ λ let in as elim record Type Unit tt absurd _ ¬ ( ) { } [ ] , . ;".split())


class Statement(NamedTuple):
    """A statement, in words that do not depend on the names of its variables, and its place."""

    words: str
    name: str
    path: pathlib.Path
    line: int


class Group(NamedTuple):
    """The tokens between two brackets."""

    bracket: str
    items: Sequence[Union[str, "Group"]]


Items = Sequence[Union[str, Group]]


class Parameter(NamedTuple):
    """A parameter of a module, its type, and its bracket."""

    name: str
    bracket: str
    type: Items


class Module(NamedTuple):
    """A module with parameters, its indentation, and the names that it has defined so far."""

    indent: int
    parameters: List[Parameter]
    members: Set[str]


# The parameters that members of modules have outside.
Given = Dict[str, List[str]]


def parsed(text: str) -> Items:
    """The tokens of a text, with those between brackets in groups."""
    open_groups: List[Tuple[str, List[Union[str, Group]]]] = [("", [])]
    for token in TOKEN.findall(text):
        if token in PAIRS:
            open_groups.append((token, []))
        elif token in PAIRS.values() and len(open_groups) > 1:
            bracket, items = open_groups.pop()
            open_groups[-1][1].append(Group(bracket, items))
        else:
            open_groups[-1][1].append(token)
    return open_groups[0][1]


def binder(item: Union[str, Group]) -> Optional[Tuple[List[str], Items]]:
    """The variables that a group `(a b : T)` binds, and their type."""
    if isinstance(item, str) or item.bracket == "[" or ":" not in item.items:
        return None
    at = item.items.index(":")
    names = [name for name in item.items[:at] if isinstance(name, str)]
    return (names, item.items[at + 1 :]) if 0 < len(names) == at else None


class Writer:
    """Writes statements with numbers for their variables, and collects their free names.

    A member of a module is written with the parameters that it has outside.
    """

    def __init__(self, given: Given) -> None:
        self.count = 0
        self.free: Set[str] = set()
        self.given = given

    def bind(self, name: str, scope: Dict[str, str]) -> str:
        scope[name] = f"#{self.count}"
        self.count += 1
        return scope[name]

    def bound(self, bracket: str, names: Sequence[str], of: Items, scope: Dict[str, str]) -> str:
        """Variables of one type, as a group for each: they are bound to the end of the brackets around."""
        type_ = self.written(of, dict(scope))
        return " ".join(f"{bracket} {self.bind(name, scope)} : {type_} {PAIRS[bracket]}" for name in names)

    def word(self, token: str, scope: Dict[str, str]) -> str:
        if token in scope:
            return scope[token]
        if token in self.given:
            return " ".join([token, *(self.word(name, scope) for name in self.given[token])])
        if not token.startswith((".", '"')) or token == ".":
            self.free.add(token)
        return token

    def written(self, items: Items, scope: Dict[str, str]) -> str:
        """The items as words; their bound variables are added to the scope."""
        words: List[str] = []
        after_binder = False
        before = ""
        for item in items:
            found = binder(item)
            if isinstance(item, Group) and found:
                # `(a : A) → (b : B) →` and `(a : A) (b : B) →` mean the same.
                if after_binder and words[-1] == "→":
                    words.pop()
                words.append(self.bound(item.bracket, *found, scope))
            elif isinstance(item, Group):
                words.append(f"{item.bracket} {self.written(item.items, dict(scope))} {PAIRS[item.bracket]}")
            else:
                # Names between `λ` and its dot are bound, and so is the one after `let`.
                binds = before in ("λ", "let") and item != "."
                words.append(self.bind(item, scope) if binds else self.word(item, scope))
                before = before if before == "λ" and item != "." else item
            after_binder = bool(found) or (after_binder and item == "→")
        return " ".join(words)


def free_names(items: Items, given: Given) -> Set[str]:
    writer = Writer(given)
    writer.written(items, {})
    return writer.free


def given_outside(modules: Sequence[Module]) -> Given:
    """The parameters that definitions in the modules around a place have outside."""
    given: Given = {}
    names: List[str] = []
    for module in modules:
        names = names + [each.name for each in module.parameters if each.bracket == "("]
        given.update({member: names for member in module.members})
    return given


def together(cited: Set[str], parameters: Sequence[Parameter], given: Given) -> List[Parameter]:
    """The cited parameters, those that their types cite, and those whose types cite any of these."""
    own = {each.name for each in parameters}
    of_types = [free_names(each.type, given) & own for each in parameters]
    names = cited & own
    while True:
        kept = [each for each, of in zip(parameters, of_types) if each.name in names or of & names]
        more = {each.name for each in kept}.union(*(of for each, of in zip(parameters, of_types) if each in kept))
        if more == names:
            return kept
        names = more


def closed(items: Items, modules: Sequence[Module]) -> Items:
    """The statement for all values of the parameters of its modules on which it depends."""
    given = given_outside(modules)
    parameters = together(free_names(items, given), [each for module in modules for each in module.parameters], given)
    groups = [Group(each.bracket, [each.name, ":", *each.type]) for each in parameters]
    return [*groups, "→", *items] if groups else items


def parameters_of(text: str) -> List[Parameter]:
    found = []
    for item in parsed(text):
        bound = binder(item)
        if isinstance(item, Group) and bound:
            found += [Parameter(name, item.bracket, bound[1]) for name in bound[0]]
    return found


def parts(name: str) -> List[str]:
    """A name, or the words of an operator."""
    return [part for part in name.split("◌") if part]


def known_names(lines: Sequence[str]) -> Set[str]:
    """The imports of a file, and its definitions outside of all modules."""
    names = set(BUILT_IN)
    for line in lines:
        used, defined = USED.fullmatch(line), DEFINED.match(line)
        if used and used["names"]:
            for name in used["names"].split(","):
                names.update(parts(name.split(" as ")[-1].strip()))
        elif used:
            names.add(used["other"] or used["path"].split(".")[-1])
        elif defined and not line.startswith(("--", "module ", "mod ", "pub mod ")):
            names.update(parts(defined["name"]))
    return names


def indent_of(line: str) -> int:
    return len(line) - len(line.lstrip())


def with_its_end(lines: Sequence[str], at: int) -> Tuple[str, int]:
    """The line at a place with its continuations, indented further, and the place after them."""
    end = at + 1
    while end < len(lines) and lines[end].strip() and indent_of(lines[end]) > indent_of(lines[at]):
        end += 1
    return " ".join(line.strip() for line in lines[at:end]), end


def module_at(lines: Sequence[str], at: int) -> Module:
    """The module that begins at a line: its parameters precede the word `where`."""
    end = at
    while not lines[end].endswith(" where"):
        end += 1
    return Module(indent_of(lines[at]), parameters_of(" ".join(lines[at : end + 1])), set())


def with_modules(lines: Sequence[str]) -> Iterator[Tuple[int, List[Module]]]:
    """Each line's place, with the modules around it, and what these have defined before it."""
    modules: List[Module] = []
    for at, line in enumerate(lines):
        while line.strip() and modules and indent_of(line) <= modules[-1].indent:
            modules.pop()
        yield at, modules
        defined = DEFINED.match(line.lstrip())
        if line.lstrip().startswith("module _"):
            modules.append(module_at(lines, at))
        elif modules and defined and indent_of(line) == modules[-1].indent + 2:
            modules[-1].members.add(defined["name"])


def is_proved(lines: Sequence[str], at: int, indent: str, name: str) -> bool:
    """Whether an equation of the name is at a line, or after its unfolding."""
    if at < len(lines) and lines[at].startswith(f"{indent}unfolding "):
        at += 1
    return at < len(lines) and lines[at].startswith(f"{indent}{name} ")


def stated(lines: Sequence[str]) -> Iterator[Tuple[int, str, str]]:
    """Each statement of a file that equations follow: its place, its name, and its text.

    Answers are left out: their types are those of goals, which exist once anyway.
    """
    for at, line in enumerate(lines):
        match = STATED.fullmatch(line)
        if match and not match["type"].startswith("goal."):
            text, end = with_its_end(lines, at)
            if is_proved(lines, end, match["indent"], match["name"]):
                yield at, match["name"], text.partition(" : ")[2]


def is_of_values(items: Items) -> bool:
    """Whether it is the type of a value or a function, as `ℕ → Bool`."""
    last = max((at for at, item in enumerate(items) if item == "→"), default=-1)
    head = items[last + 1]
    return isinstance(head, str) and head in VALUES


def statements_of(path: pathlib.Path) -> Iterator[Statement]:
    """The statements of a file that are complete by themselves.

    One that cites a name which is neither bound in it, nor imported, nor defined outside of all modules depends on its
    surroundings, and is left out.
    """
    lines = path.read_text().splitlines()
    known = known_names(lines)
    found = {at: (name, parsed(text)) for at, name, text in stated(lines)}
    for at, modules in with_modules(lines):
        name, items = found.get(at, ("", []))
        if items and not is_of_values(items):
            writer = Writer(given_outside(modules))
            words = writer.written(closed(items, modules), {})
            if all(free in known or free.isdigit() for free in writer.free):
                yield Statement(words, name, path, at + 1)


def statements(top: pathlib.Path) -> List[Statement]:
    """The statements of all crates of a tree, ascending by path and line."""
    return [found for path in sorted(top.glob("crates/*/proofs/**/*.antt")) for found in statements_of(path)]


def proved_twice(found: Sequence[Statement]) -> List[List[Statement]]:
    """The statements in more than one file, each with all its places."""
    places: Dict[str, List[Statement]] = {}
    for statement in found:
        places.setdefault(statement.words, []).append(statement)
    return [same for same in places.values() if len({each.path for each in same}) > 1]
