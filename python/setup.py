"""Copies what the package uses of the rest of the repository into the built package."""

import pathlib
import shutil

from setuptools import setup
from setuptools.command.build_py import build_py

TREE = pathlib.Path(__file__).resolve().parents[1]


class Build(build_py):
    def run(self):
        super().run()
        package = pathlib.Path(self.build_lib) / "pespbench"
        (package / "module").mkdir(parents=True, exist_ok=True)
        for source in [*sorted((TREE / "tools/module").iterdir()), TREE / "page/module.js"]:
            shutil.copy(source, package / "module" / source.name)
        shutil.copy(TREE / "page/pespbench.html", package)


setup(cmdclass={"build_py": Build})
