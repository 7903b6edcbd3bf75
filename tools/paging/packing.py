"""The module as a text in the page: deflated, and in digits, 5 for 4 bytes, none of which has a meaning in a script of a page."""

import base64
import pathlib
import shutil
import tempfile
import zlib

from paging.tree import NotMade, run

# Those of Python's digits that have a meaning in a page, and their replacements, as in page/module.js.
IN_PYTHON, IN_PAGE = b"$&<>`", b",.:[]"


def deflated(module: bytes) -> bytes:
    """The bytes of a module, deflated without a header, the same ones each time."""
    if not shutil.which("zopfli"):
        raise NotMade("there is no zopfli (Debian's package zopfli)")
    with tempfile.TemporaryDirectory() as name:
        path = pathlib.Path(name) / "module"
        path.write_bytes(module)
        return run(["zopfli", "--deflate", "--i15", "-c", path])


def in_digits(data: bytes) -> str:
    return base64.b85encode(data).translate(bytes.maketrans(IN_PYTHON, IN_PAGE)).decode()


def bytes_of(digits: str) -> bytes:
    return base64.b85decode(digits.encode().translate(bytes.maketrans(IN_PAGE, IN_PYTHON)))


def packed(module: bytes) -> str:
    """The text of a module."""
    return in_digits(deflated(module))


def unpacked(text: str) -> bytes:
    """The module of a text. Raises NotMade."""
    try:
        return zlib.decompress(bytes_of(text), -15)
    except (ValueError, zlib.error) as fault:
        raise NotMade(f"the module in the page cannot be unpacked: {fault}") from fault
