"""The contents and names of strangers' files, and their lines of commands, reach neither standard output nor standard error."""

from tests.file_cases import TWO, TWO_TIMES
from tests.harness import NAMES, TOP, Suite, missing, record, unreadable, words_for
from tests.replies import TWO_REPLIES

# Texts on which a terminal, a shell or a log may act.
STRANGE = {
    "a color": b"\x1b[31m",
    "a cleared screen": b"\x1b[2J\x1b[H",
    "a title": b"\x1b]0;title\x07",
    "an escape sequence of one byte": b"\x9b31m",
    "a bell": b"\x07",
    "backspaces": b"\x08" * 9,
    "a form feed": b"\x0c",
    "a turned text": "\u202e321".encode(),
    "a newer line": "\u2028pespbench:ok".encode(),
    "a byte 0": b"\0",
    "a delete": b"\x7f",
    "a command of a shell": b"$(id)`id`",
    "a format": b"%s%n%1000000d{0}{}",
}
FIELDS = {
    "activities": (b"1; 1; 2; %s; 5; 2\n", "field 4 is not a number"),
    "fixed": (b"1; %s\n", "field 2 is not a number"),
    "times": (b"%s; 1\n", "field 1 is not a number"),
}


def in_fields(suite: Suite) -> None:
    for title, strange in STRANGE.items():
        # A semicolon within would be a separator.
        plain = strange.replace(b";", b"")
        for name, (row, kind) in FIELDS.items():
            content = b"1; 1; 2; 3; 5; 2\n" if name != "activities" else b""
            files = words_for("activities", suite.file("activities", content)) if content else []
            words = [*words_for(name, suite.file(f"strange {name}", b"# a\n" + row.replace(b"%s", plain))), *files]
            suite.check(f"{title} in a field of {name}", words, status=1, error=record(name, 2, kind))


def in_comments(suite: Suite) -> None:
    for title, strange in STRANGE.items():
        words = ["--period", "10", "--times", suite.file("times", b"event " + strange + b"\n" + TWO_TIMES)]
        words.append(suite.file("activities", b"# " + strange + b"\n" + TWO))
        suite.check(f"{title} in a comment and a header", words, output=TWO_REPLIES)


def in_paths(suite: Suite) -> None:
    for title, strange in STRANGE.items():
        if b"\0" in strange:
            continue
        try:
            path = suite.folder / strange.decode().replace("/", "")
        except UnicodeDecodeError:
            # A word that is not UTF-8 is a refused one.
            continue
        for name in NAMES:
            suite.check(f"{title} in the path of no {name}", words_for(name, path), status=1, error=unreadable(name))
        path.write_bytes(b"0")
        for name in NAMES:
            error = record(name, 1, "wrong number of fields")
            suite.check(f"{title} in the path of {name}", words_for(name, path), status=1, error=error)
        path.write_bytes(TWO)
        suite.check(f"{title} in the path of a fine file", [path], output=missing(1))
        path.unlink()


def in_commands(suite: Suite) -> None:
    for title, strange in STRANGE.items():
        given = b"\n".join([strange, b"fix " + strange + b" 0", b"cost " + strange, b"# " + strange])
        output = b"fault unknown command\nfault word 2 is not a number\nfault wrong number of words\n"
        suite.case(f"{title} in commands", [], given=given, output=output)
        given = b"cost\n" + strange + b"x" * 5_000
        error = b"pespbench: line 2 is longer than 4096 bytes\n"
        suite.case(f"{title} in a line that is too long", [], status=1, given=given, output=b"cost 0\n", error=error)


def as_files(suite: Suite) -> None:
    """Files that are not text, and folders."""
    error = "wrong number of fields"
    for title, content in {"all bytes": bytes(range(256)), "no text": b"\x7fELF\x02\x01\x01" + b"\0" * 9_999}.items():
        path = suite.file(title, content)
        for name in NAMES:
            suite.check(f"{title} as {name}", words_for(name, path), status=1, error=record(name, 1, error))
    for name in NAMES:
        suite.check(f"a folder as {name}", words_for(name, TOP / "tools"), status=1, error=unreadable(name))


GROUPS = [in_fields, in_comments, in_paths, in_commands, as_files]
