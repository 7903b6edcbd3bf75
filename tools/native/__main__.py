"""Writes program and libraries that are made from the page's module into a folder.

usage: python3 tools/native FOLDER [COMPILER]
"""

import argparse
import pathlib
import sys

# Leaves no compiled files in the tree.
sys.dont_write_bytecode = True
sys.path.insert(0, str(pathlib.Path(__file__).resolve().parents[1]))

from native.making import make  # noqa: E402
from paging.tree import NotMade  # noqa: E402


def main() -> int:
    parser = argparse.ArgumentParser(prog="tools/native", description="Makes program and libraries of the page's module, unproved.")
    parser.add_argument("folder", type=pathlib.Path, metavar="FOLDER")
    parser.add_argument("compiler", nargs="?", default="cc", metavar="COMPILER")
    words = parser.parse_args()
    try:
        make(words.folder, words.compiler)
        return 0
    except NotMade as fault:
        print(fault)
        return 1


if __name__ == "__main__":
    sys.exit(main())
