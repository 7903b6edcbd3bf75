"""The notebook of examples/: its cells, run one after the other without Jupyter, have the output below them."""

from __future__ import annotations

import ast
import contextlib
import io
import json
import os
import re
import unittest
from typing import Any, Dict, List
from unittest import mock

from tests.common import EXAMPLES, PROGRAM, TOP, Case

NOTEBOOK = EXAMPLES / "notebook.ipynb"
# Values that differ in each run, and a picture, which is drawn if there is Node.
VARYING = re.compile("(?<=<td>seconds</td><td>)[0-9.]+|<img[^>]*>")


def outputs_of(source: str, names: Dict[str, Any]) -> List[Any]:
    """The output below a cell of a notebook: what it printed, and its last value, as text and as HTML if it has that."""
    tree = ast.parse(source)
    last = tree.body.pop() if isinstance(tree.body[-1], ast.Expr) else None
    with contextlib.redirect_stdout(io.StringIO()) as told:
        exec(compile(tree, "cell", "exec"), names)
        value = eval(compile(ast.Expression(last.value), "cell", "eval"), names) if isinstance(last, ast.Expr) else None
    printed: List[Any] = [{"output_type": "stream", "name": "stdout", "text": told.getvalue()}] if told.getvalue() else []
    if value is None:
        return printed
    data = {"text/html": VARYING.sub("", value._repr_html_())} if hasattr(value, "_repr_html_") else {"text/plain": repr(value)}
    return [*printed, {"output_type": "execute_result", "data": data}]


class Notebook(Case):
    """Like a reader, in the top folder of the repository."""

    def test_cells(self) -> None:
        here = os.getcwd()
        os.chdir(TOP)
        self.addCleanup(os.chdir, here)
        cells = [cell for cell in json.loads(NOTEBOOK.read_text())["cells"] if cell["cell_type"] == "code"]
        names: Dict[str, Any] = {}
        with mock.patch.dict(os.environ, {"PESPBENCH": PROGRAM}):
            for place, cell in enumerate(cells):
                kept = [{key: value for key, value in each.items() if key not in ("metadata", "execution_count")} for each in cell["outputs"]]
                with self.subTest(cell=place):
                    self.assertEqual(outputs_of(cell["source"], names), kept)
        names["bench"].close()


if __name__ == "__main__":
    unittest.main()
