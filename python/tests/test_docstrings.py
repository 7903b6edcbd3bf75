"""Each public call has a docstring, which names its exceptions."""

from __future__ import annotations

import ast
import unittest
from pathlib import Path
from typing import Iterator, Tuple

import pespbench

PACKAGE = Path(pespbench.__file__).parent
# Their class documents what these raise.
SAID_ELSEWHERE = {"ask"}


def public(tree: ast.AST, prefix: str = "") -> Iterator[Tuple[str, "ast.FunctionDef | ast.ClassDef"]]:
    """The public functions, classes and methods of a module, with their names."""
    for node in ast.iter_child_nodes(tree):
        if isinstance(node, (ast.FunctionDef, ast.ClassDef)) and not node.name.startswith("_"):
            yield f"{prefix}{node.name}", node
            if isinstance(node, ast.ClassDef):
                yield from public(node, f"{prefix}{node.name}.")


def raises(node: "ast.FunctionDef | ast.ClassDef") -> bool:
    """Whether a function itself names what it raises."""
    return isinstance(node, ast.FunctionDef) and any(isinstance(each, ast.Raise) and each.exc is not None for each in ast.walk(node))


def is_plain(node: "ast.FunctionDef | ast.ClassDef") -> bool:
    """Whether it is a property that returns what its name says."""
    return isinstance(node, ast.FunctionDef) and bool(node.decorator_list) and len(node.body) == 1


class Docstrings(unittest.TestCase):
    """Over all modules of the package."""

    def test_all_are_told(self) -> None:
        for path in sorted(PACKAGE.rglob("*.py")):
            tree = ast.parse(path.read_text())
            self.assertTrue(ast.get_docstring(tree), path)
            for name, node in public(tree):
                told = ast.get_docstring(node) or ""
                with self.subTest(path=path.name, name=name):
                    self.assertTrue(told or is_plain(node) or "Hands" in name, "there is no docstring")
                    if raises(node) and node.name not in SAID_ELSEWHERE and "NotImplementedError" not in ast.dump(node):
                        self.assertIn("aises", told)


if __name__ == "__main__":
    unittest.main()
