"""A tree for the script that builds and starts the program, with a toolchain that only records its calls."""

import os
import shutil
import subprocess
import time
from typing import Dict, List, Optional, Sequence

from tests.harness import SECONDS, TOP, Suite, patient, run

SYSTEM = "/usr/bin:/bin"

# It records its call, and waits as long as it is told to, with an incomplete program.
FAKE_RT = """#!/bin/sh
echo "$1 $$" >>"$FAKE/log"
echo "crate pesp_base is proved" >&2
echo "a line of the toolchain"
[ -e "$FAKE/fails" ] && { echo "an open goal"; exit 1; }
sleep 0.02
[ -e "$FAKE/waits" ] && printf '#!/bin/sh\\necho half' >out/pespbench && chmod +x out/pespbench
while [ -e "$FAKE/waits" ]; do sleep 0.01; done
[ -e "$FAKE/edits" ] && touch src/main.rt
printf '#!/bin/sh\\necho ran in "$PWD" with "$@"\\n' >out/pespbench && chmod +x out/pespbench
"""

class Tree:
    """A tree of its own with the script, a link to it, and the toolchain that records."""

    def __init__(self, suite: Suite) -> None:
        self.suite = suite
        self.top = suite.folder / "tree"
        self.crate = self.top / "crates/pespbench"
        self.fake = self.top / "fake"
        for name in ["src", "specs", "proofs", "out"]:
            (self.crate / name).mkdir(parents=True)
        for folder in [self.top / "tools", self.fake]:
            folder.mkdir()
        (self.crate / "src/main.rt").write_text("")
        (self.top / "crates.txt").write_text("pespbench:\n")
        shutil.copy(TOP / "tools/pespbench", self.top / "tools/pespbench")
        self.tool("rt", FAKE_RT)
        self.link = suite.folder / "link"
        self.link.symlink_to(self.top / "tools/pespbench")
        self.environment = {"PATH": f"{self.fake}:{SYSTEM}", "FAKE": str(self.fake)}

    def tool(self, name: str, text: str) -> None:
        (self.fake / name).write_text(text)
        (self.fake / name).chmod(0o755)

    def say(self, word: str, is_said: bool) -> None:
        """Changes the toolchain's behavior, or resets it: a build fails, waits, or has a source changed meanwhile."""
        if is_said:
            (self.fake / word).write_text("")
        else:
            (self.fake / word).unlink()

    def calls(self) -> List[str]:
        """Each call of the toolchain, with the number of its process."""
        log = self.fake / "log"
        return log.read_text().splitlines() if log.exists() else []

    def change(self, name: str) -> None:
        """Changes a file of the program's crate, some time after the build."""
        path = self.crate / name
        path.write_text("changed")
        at = time.time() + 0.02
        os.utime(path, (at, at))
        time.sleep(0.04)

    def start(self, name: str, builds: int, status: int = 0, output: Optional[bytes] = None, tells: Sequence[str] = (), **others: str) -> None:
        """Starts the script; standard error has the texts of `tells`, in this order, and is empty if there are none."""
        come = run([self.link, "a ", "b"], cwd=self.suite.folder, env={**self.environment, **others})
        told = come["standard error"].decode()
        places = [told.find(text) for text in tells]
        wanted: Dict[str, object] = {"status": status, "standard output": self.ran() if output is None else output, "builds": builds}
        wanted["told"] = told if bool(told) == bool(tells) and -1 not in places and places == sorted(places) else tells
        self.suite.note(f"tools/pespbench: {name}", wanted, {**come, "builds": len(self.calls()), "told": told})

    def ran(self) -> bytes:
        return f"ran in {self.suite.folder} with a  b\n".encode()

    def begin(self) -> "subprocess.Popen[bytes]":
        """A start that runs during the test."""
        words, pipe = [str(self.link), "a ", "b"], subprocess.PIPE
        return subprocess.Popen(words, cwd=self.suite.folder, env=self.environment, stdin=subprocess.DEVNULL, stdout=pipe, stderr=pipe)

    def is_half_made(self) -> None:
        """Waits until the toolchain has made a part of the program."""
        program, end = self.crate / "out/pespbench", time.monotonic() + patient(SECONDS)
        while not (program.exists() and b"half" in program.read_bytes()):
            if time.monotonic() > end:
                raise TimeoutError("the toolchain makes no program")
            time.sleep(0.01)
