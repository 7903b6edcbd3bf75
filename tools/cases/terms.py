"""Values and facts in the proofs' language, in the layout of `rt fmt`."""

from typing import Iterable, List, Mapping, NamedTuple, Optional, Sequence


class Case(NamedTuple):
    """A definition at some arguments, and the model's value of it."""

    asked: str
    answer: str


def integer(value: int) -> str:
    return f"pos {value}" if value >= 0 else f"negsuc {-value - 1}"


def boolean(value: bool) -> str:
    return "true" if value else "false"


def one(term: str) -> str:
    """A term as an argument."""
    return f"({term})" if " " in term else term


def listed(terms: Iterable[str]) -> str:
    return " ∷ ".join([*terms, "[]"])


def numbers(values: Iterable[int]) -> str:
    return listed(map(str, values))


def option(term: Optional[str]) -> str:
    return "None" if term is None else f"Some {one(term)}"


def fields(terms: Mapping[str, str]) -> str:
    """A record on one line."""
    return f"record {{ {'; '.join(f'{name} = {term}' for name, term in terms.items())} }}"


def codes(text: str) -> str:
    """A text of printable characters, without quotes and backslashes."""
    return f'codes "{text}"' if text else "[]"


def used(names: Mapping[str, Sequence[str]]) -> List[str]:
    """The lines that import these names of modules, and modules under other names."""
    return [f"use Rattle.{module}" + (f".{{{', '.join(parts)}}}" if parts else "") for module, parts in names.items()]


def defined(remark: str, name: str, kind: str, left: str, term: str) -> List[str]:
    """A definition that is unfolded everywhere."""
    return [f"-- {remark}", f"abbrev {name} : {kind}", f"{left} = {term}", ""]


def fact(name: str, statement: str, proof: str) -> List[str]:
    return [f"{name} : {statement}", f"{name} = {proof}", ""]


def agreed(name: str, cases: Sequence[Case]) -> List[str]:
    """One fact for all cases: the list of the definitions' values is that of the model's."""
    asked = listed(one(case.asked) if "∷" in case.asked else case.asked for case in cases)
    answers = listed(one(case.answer) if "∷" in case.answer else case.answer for case in cases)
    return fact(name, f"{asked} ≡ {answers}", "refl")
