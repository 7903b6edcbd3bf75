"""The engines of a bench: the program over its pipes, the page's module under Node, or the library in process. Only this file
chooses one."""

from __future__ import annotations

import importlib.util
import os
import shutil
from dataclasses import dataclass
from typing import Mapping, Optional, Union

from pespbench.beside import place_of
from pespbench.faults import NoLibrary, WrongWords
from pespbench.process import Process, find_program
from pespbench.transport import Transport

Path = Union[str, "os.PathLike[str]"]
# The script that Node runs, and its arguments.
MODULE = [str(place_of(name)) for name in ("module/main.js", "pespbench.html", "module/module.js")]


@dataclass(frozen=True)
class Engine:
    """The kind of an engine, `program`, `module` or `library`, and its path; it can be sent to another process."""

    name: str
    path: str

    @classmethod
    def of(cls, name: Union[str, "Engine"], program: Optional[Path] = None, library: Optional[Path] = None) -> "Engine":
        """The engine of a name, or the given one.

        Raises WrongWords for another name, or a library for a program, FileNotFoundError if the program, or Node for the
        module, is missing, and NoLibrary if the library is missing or cannot be called.
        """
        if isinstance(name, Engine):
            return name
        if name == "library":
            if importlib.util.find_spec("_ctypes") is None:
                raise NoLibrary("this Python has no ctypes, by which the library is called")
            from pespbench.library import find_library

            return cls(name, find_library(library, program))
        if name not in ("program", "module"):
            raise WrongWords(f"an engine is `program`, `module` or `library`, and not {name!r}")
        if library is not None:
            raise WrongWords("a library is for the engine `library`")
        if name == "module":
            node = shutil.which("node")
            if node is None:
                raise FileNotFoundError("there is no command node to run the page's module (apt install nodejs)")
            return cls(name, node)
        return cls(name, find_program(program))

    def opened(self, period: int, files: Mapping[str, Optional[Path]]) -> Transport:
        """Opens the files `activities`, `fixed` and `times`, each of which may be missing.

        Raises Ended if they or the period are refused, NoLibrary, and OSError if the program cannot be started.
        """
        if self.name == "library":
            # Without ctypes the rest of the package still works.
            from pespbench.in_process import InProcess, texts_of
            from pespbench.library import loaded

            return InProcess(loaded(self.path), period, texts_of(files))
        options = [f"--{name}={os.fspath(path)}" for name, path in files.items() if name != "activities" and path is not None]
        activities = files.get("activities")
        words = [*options] if activities is None else [*options, "--", os.fspath(activities)]
        return Process([self.path, *(MODULE if self.name == "module" else []), f"--period={period}", *words])
