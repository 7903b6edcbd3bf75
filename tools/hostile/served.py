"""Runs one command line many times in quick succession, each with some requests or calls refused."""

import dataclasses
import os
import pathlib
import shutil
import struct
import subprocess
from typing import Dict, Iterator, Sequence, Tuple

SOURCE = pathlib.Path(__file__).resolve().parent / "faults.c"
# The order of the library's own list.
CALLS = ["read of commands", "read of a file", "write of replies", "write of a fault", "open", "length", "close"]
# Means no end: each later one too.
ALWAYS = 2**64 - 1
# A run that takes longer is ended, and is a failed case.
SECONDS = 60
REPORT = struct.Struct(f"<4Q{len(CALLS)}Q")


@dataclasses.dataclass(frozen=True)
class Order:
    """The refusals of a run; by default nothing is refused. Numbers count from 1."""

    refuse_from: int = 0
    refuse_to: int = 0
    refuse_too: int = 0
    call: str = CALLS[0]
    begin: int = 0
    end: int = 0
    every: int = 0
    answer: int = 0
    most: int = 0

    def packed(self) -> bytes:
        place = CALLS.index(self.call)
        refused = [self.refuse_from, self.refuse_to, self.refuse_too]
        return struct.pack("<10Q", *refused, place, self.begin, self.end, self.every, self.answer, self.most, SECONDS)


@dataclasses.dataclass(frozen=True)
class Came:
    """The result of a run: how it ended (below 0: by that signal), its output, and its requests."""

    status: int
    output: bytes
    error: bytes
    requests: int
    refused: int
    answered: int
    calls: Dict[str, int]

    def told(self) -> Tuple[int, bytes, bytes]:
        return self.status, self.output, self.error


def compilers() -> Iterator[str]:
    """The C compiler of the toolchain, and that of the system."""
    page = subprocess.run(["rt", "doc"], capture_output=True, text=True, check=False) if shutil.which("rt") else None
    if page and page.stdout.strip():
        yield str(pathlib.Path(page.stdout.split()[0]).parent / "toolchain/bin/clang")
    yield os.environ.get("CC", "cc")


def build_library(folder: pathlib.Path) -> pathlib.Path:
    """Builds the library that is preloaded."""
    library = folder / "faults.so"
    options = ["-O2", "-shared", "-fPIC", "-nostdlib", "-fno-builtin", "-o", str(library), str(SOURCE)]
    for compiler in filter(shutil.which, compilers()):
        if subprocess.run([compiler, *options], check=False).returncode == 0:
            return library
    raise SystemExit("tools/test_hostile: no C compiler builds tools/hostile/faults.c")


def whole(device: int) -> bytes:
    """All bytes of a file in memory."""
    return os.pread(device, os.fstat(device).st_size, 0)


class Served:
    """A command line whose program waits, before its `main`, to be run repeatedly."""

    def __init__(self, library: pathlib.Path, words: Sequence[object], folder: pathlib.Path, given: bytes = b"") -> None:
        self.devices = [os.memfd_create(name) for name in ["commands", "replies", "fault"]]
        self.give(given)
        orders, self.orders = os.pipe()
        self.reports, reports = os.pipe()
        names = {"LD_PRELOAD": library, "HOSTILE_ORDERS": orders, "HOSTILE_REPORTS": reports}
        self.process = subprocess.Popen(
            list(map(str, words)),
            stdin=self.devices[0],
            stdout=self.devices[1],
            stderr=self.devices[2],
            cwd=folder,
            env={**os.environ, **{name: str(value) for name, value in names.items()}},
            pass_fds=[orders, reports],
        )
        os.close(orders)
        os.close(reports)

    def __enter__(self) -> "Served":
        return self

    def __exit__(self, *_: object) -> None:
        os.close(self.orders)
        self.process.wait(SECONDS)
        for device in [self.reports, *self.devices]:
            os.close(device)

    def give(self, commands: bytes) -> None:
        """Sets what the next runs read from standard input."""
        os.ftruncate(self.devices[0], 0)
        os.pwrite(self.devices[0], commands, 0)

    def run(self, order: Order = Order()) -> Came:
        os.write(self.orders, order.packed())
        report = os.read(self.reports, REPORT.size)
        if len(report) != REPORT.size:
            raise SystemExit("tools/test_hostile: the program does not take orders")
        ended, requests, refused, answered, *calls = REPORT.unpack(report)
        status = os.waitstatus_to_exitcode(ended)
        counted = dict(zip(CALLS, calls))
        return Came(status, whole(self.devices[1]), whole(self.devices[2]), requests, refused, answered, counted)
