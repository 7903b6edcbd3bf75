"""The page's module in C, split into parts that are compiled in parallel."""

import pathlib
import re
from typing import List, Tuple

from paging.page import module_of
from paging.tree import NotMade, run

# wasm2c names all exports.
NAME = "module"
# A function of the module: its head, up to the line that ends it.
FUNCTION = re.compile(r"^static (?:void|u32|u64) w2c_\w+\(Z_module_instance_t\* instance\b[^;{]*\{$.*?^\}\n", re.M | re.S)
DECLARATION = re.compile(r"^static (?=(?:void|u32|u64) w2c_\w+\([^)]*\);$)", re.M)
EXPORTS = "/* export: 'memory' */"


def translated(page: pathlib.Path, folder: pathlib.Path) -> Tuple[str, List[str], str]:
    """The text above the functions of the page's module in C, the functions, and the text below them."""
    (folder / f"{NAME}.wasm").write_bytes(module_of(page.read_bytes()))
    run(["wasm2c", "-n", NAME, f"{NAME}.wasm", "-o", f"{NAME}.c"], cwd=folder)
    text = (folder / f"{NAME}.c").read_text()
    body, _, exports = text.partition(EXPORTS)
    functions = FUNCTION.findall(body)
    if not functions or not exports:
        raise NotMade("wasm2c writes C of another form than is read here")
    above = body[: body.index(functions[0])]
    if len(DECLARATION.findall(above)) != len(functions):
        raise NotMade(f"wasm2c declares {len(DECLARATION.findall(above))} functions and writes {len(functions)}")
    return above, functions, exports


def parts(page: pathlib.Path, folder: pathlib.Path, count: int) -> List[pathlib.Path]:
    """This many C files, of about the same size, each of which calls functions of the others."""
    above, functions, exports = translated(page, folder)
    # A load whose result is unused cannot fail, so it is omitted.
    above = DECLARATION.sub("", above).replace("#define wasm_asm __asm__", "#define wasm_asm(...)")
    texts = [""] * count
    for function in sorted(functions, key=len, reverse=True):
        texts[texts.index(min(texts, key=len))] += function.replace("static ", "", 1)
    texts[-1] += exports
    found = []
    for place, text in enumerate(texts):
        found.append(folder / f"part{place}.c")
        found[-1].write_text(above + text)
    return found
