"""Places of stations in a file. The page lays out the others, and tools/page_tests/layouts.py tests that."""

from __future__ import annotations

import unittest

from pespbench import FileFault
from pespbench.report import read_places
from tests.common import Case


class Places(Case):
    """Files of places."""

    def read(self, text: str) -> dict[str, tuple[float, float]]:
        """The places of a text."""
        path = self.folder / "places"
        path.write_text(text, encoding="utf-8")
        return read_places(path)

    def test_read(self) -> None:
        text = "\ufeffstation; x; y\n# west\nAshford; 1; 2.5\n\n\"St. Dale; north\"; -3; 4e1\n"
        self.assertEqual(self.read(text), {"Ashford": (1.0, 2.5), "St. Dale; north": (-3.0, 40.0)})

    def test_faults(self) -> None:
        for row in ("Dale; 1", "Dale; 1; 2; 3", "Dale; one; 2", "Dale; nan; 2", "Dale; 1; inf"):
            with self.subTest(row=row), self.assertRaises(FileFault) as caught:
                self.read(f"Ashford; 0; 0\n{row}\n")
            self.assertEqual(caught.exception.record, 2)
        self.assertRaises(OSError, read_places, self.folder / "missing")


if __name__ == "__main__":
    unittest.main()
