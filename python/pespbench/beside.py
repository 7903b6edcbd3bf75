"""Files that the package uses and the repository keeps elsewhere. An installed package has its own copies."""

from __future__ import annotations

from pathlib import Path

PACKAGE = Path(__file__).resolve().parent
# Each file's place in an installed package, and in the repository.
PLACES = {
    "pespbench.html": "page/pespbench.html",
    "module/main.js": "tools/module/main.js",
    "module/module.js": "page/module.js",
}


def place_of(name: str) -> Path:
    """Where the file is: in the package, else in the repository."""
    own = PACKAGE / name
    return own if own.exists() else PACKAGE.parents[1] / PLACES[name]
