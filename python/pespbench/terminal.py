"""Output for people: strangers' names in it must not steer a terminal."""

from __future__ import annotations

import re
import sys
from typing import TextIO

# Control characters, line and paragraph separators, characters that change the direction of writing, and surrogates,
# which represent bytes of a file name that is not UTF-8.
STEERING = re.compile("[\x00-\x1f\x7f-\x9f\u2028\u2029\u202a-\u202e\u2066-\u2069\ud800-\udfff]")
# Those of them that a text of several lines may contain.
LAYOUT = "\n\t"


def shown(text: str, kept: str = "") -> str:
    """A text with the characters that would steer a terminal escaped, as `\\x1b`, except those that are kept."""
    return STEERING.sub(lambda found: found[0] if found[0] in kept else written_out(ord(found[0])), text)


def written_out(code: int) -> str:
    """A character as an escape of Python's strings."""
    return f"\\x{code:02x}" if code < 256 else f"\\u{code:04x}"


def write(text: str, stream: TextIO) -> None:
    """Writes a text to a stream, and flushes it; characters that its encoding lacks are escaped too."""
    told = shown(text, LAYOUT)
    try:
        stream.write(told)
    except UnicodeEncodeError:
        stream.write(told.encode(stream.encoding, "backslashreplace").decode(stream.encoding))
    stream.flush()


def tell(text: str) -> None:
    """Writes lines to standard output."""
    write(text, sys.stdout)


def complain(text: str) -> None:
    """Writes a fault to standard error, as the program does."""
    # The program's own text of its end begins like this already.
    write(f"pespbench: {text.removeprefix('pespbench: ')}\n", sys.stderr)
