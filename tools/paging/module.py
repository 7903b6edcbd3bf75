"""The module: the proved library, compiled for a page.

The library comes with its LLVM module for this machine (paging/library.py). Its layout and its target are rewritten for
WebAssembly with addresses of 64 bits, like those that the library was made for; the toolchain's clang compiles it, with the
heap of page/module/heap.c, and links it. Current browsers have addresses of 32 bits, to which wasm-opt lowers them.
"""

import pathlib
import re
import shutil
import subprocess
import tempfile
from typing import Iterator, Tuple

from paging.library import built_module
from paging.tree import PAGE, NotMade, run, toolchain

TARGET = "wasm64-unknown-unknown"
LAYOUT = "e-m:e-p:64:64-p10:8:8-p20:8:8-i64:64-i128:128-n32:64-S128-ni:1:10:20"
CPU = "lime1"
EXPORTS = ["pesp_answer", "pesp_open", "pesp_close", "pesp_ask", "pesp_cost"]
EXPORTS += ["pesp_try_move", "pesp_events", "pesp_times", "pesp_domain", "pesp_search", "pesp_price", "pesp_price_tension"]
STACK = 1024 * 1024

# Like rattle's call of clang, except for options of x86, and at -Os, which makes the module a twentieth smaller than -O2 and
# takes at most a tenth longer for a search; the last two prevent calls of missing functions.
FLAGS = ["-ffunction-sections", "-fdata-sections", "-fintegrated-cc1", "-Os", "-Wno-override-module"]
FLAGS += ["-mllvm", "-trap-unreachable", "-mllvm", "-disable-machine-licm", "-mllvm", "-sink-common-insts=false"]
FLAGS += ["-mllvm", "-expand-div-rem-bits=64", "-mllvm", "-expand-fp-convert-bits=64"]
HEAP_FLAGS = ["-O2", "-ffreestanding", "-fno-builtin", "-nostdinc"]
PLAIN = [f"--target={TARGET}", f"-mcpu={CPU}", "--no-default-config", "-no-canonical-prefixes"]

# The features of the compiled module, which wasm-opt needs to know.
FEATURES = ["bulk-memory", "extended-const", "multivalue", "mutable-globals", "nontrapping-float-to-int", "sign-ext"]
LOWERING = ["--enable-memory64", *(f"--enable-{name}" for name in FEATURES), "--memory64-lowering", "-Os", "--converge"]
LOWERING += ["--strip-debug", "--strip-producers", "--strip-target-features"]


def written_anew(text: str) -> str:
    """The module's text for the other target."""
    places = {r'^target datalayout = ".*"$': f'target datalayout = "{LAYOUT}"', r'^target triple = ".*"$': f'target triple = "{TARGET}"'}
    for place, line in places.items():
        text, count = re.subn(place, line, text, flags=re.M)
        if count != 1:
            raise NotMade(f"the library's LLVM module has {count} lines like {place}")
    # Functions that the module does not export are not compiled, so that nothing is inlined for them.
    text = re.sub(r"^define (void @(\w+)\()", lambda found: found[0] if found[2] in EXPORTS else f"define internal {found[1]}", text, flags=re.M)
    text = re.sub(r'"target-cpu"="[^"]*"', f'"target-cpu"="{CPU}"', text)
    return re.sub(r'"probe-stack"="[^"]*" "stack-probe-size"="[^"]*"', "", text)


def compiled(kit: pathlib.Path, kept: pathlib.Path, folder: pathlib.Path) -> bytes:
    """The module with addresses of 64 bits."""
    clang, text = kit / "toolchain/bin/clang", folder / "library.ll"
    run([clang, "-x", "ir", kept, "-S", "-emit-llvm", "-O0", "-Xclang", "-disable-llvm-passes", "-o", text])
    text.write_text(written_anew(text.read_text()))
    # Runs in the folder of the files, so that no path of this machine gets into the result.
    run([clang, *PLAIN, *FLAGS, "-c", "-x", "ir", "library.ll", "-o", "library.o"], cwd=folder)
    shutil.copy(PAGE / "module/heap.c", folder / "heap.c")
    run([clang, *PLAIN, *HEAP_FLAGS, "-c", "heap.c", "-o", "heap.o"], cwd=folder)
    words = ["-mwasm64", "--no-entry", "--gc-sections", "--stack-first", "-z", f"stack-size={STACK}", "--export=__heap_base"]
    words += [*(f"--export={name}" for name in EXPORTS), "-o", "wide.wasm", "library.o", "heap.o"]
    run(["wasm-ld", *words], executable=clang, cwd=folder)
    return (folder / "wide.wasm").read_bytes()


def sections(module: bytes) -> Iterator[Tuple[int, bytes]]:
    """For each section its kind and its bytes, which begin with the kind and the length."""
    place = 8
    while place < len(module):
        length, shift, start = 0, 0, place + 1
        while True:
            length |= (module[start] & 127) << shift
            shift, start = shift + 7, start + 1
            if module[start - 1] < 128:
                break
        yield module[place], module[place : start + length]
        place = start + length


TABLE, ELEMENTS = 4, 9


def without_table(module: bytes) -> bytes:
    """Without the empty table, which has addresses of 64 bits and which no call uses."""
    parts = list(sections(module))
    if ELEMENTS in [kind for kind, _ in parts]:
        raise NotMade("the module calls functions by a table")
    return module[:8] + b"".join(part for kind, part in parts if kind != TABLE)


def lowered(module: bytes, folder: pathlib.Path) -> bytes:
    """The module with addresses of 32 bits."""
    if not shutil.which("wasm-opt"):
        raise NotMade("there is no wasm-opt (Debian's package binaryen)")
    (folder / "wide.wasm").write_bytes(without_table(module))
    run(["wasm-opt", *LOWERING, folder / "wide.wasm", "-o", folder / "module.wasm"])
    return (folder / "module.wasm").read_bytes()


def tools() -> str:
    """The versions of the tools that make the module."""
    version = subprocess.run(["wasm-opt", "--version"], capture_output=True, text=True, check=False).stdout.strip()
    return f"{run(['rt', 'version']).decode().strip()}, {version}"


def made_module() -> bytes:
    """The bytes of the module."""
    with tempfile.TemporaryDirectory() as name:
        return lowered(compiled(toolchain(), built_module(), pathlib.Path(name)), pathlib.Path(name))
