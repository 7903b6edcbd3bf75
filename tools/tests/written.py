"""The statements of documents about the tree, compared with it: their words, links and paths, the crates, the definition
files of the theorem, the functions of the walks, and the wrong bodies. And that proofs do not state one thing twice."""

import re
from pathlib import Path
from typing import Iterator, List, Tuple

from statements import proved_twice, statements
from tests.harness import TOP, Suite
from tests.shelves import MOST_ON_THE_FIRST

# The target lengths of documents in words; a tenth more is allowed.
TARGETS = {
    "README.md": 1500,
    "docs/PROMISES.md": 1400,
    "docs/ARCHITECTURE.md": 1300,
    "docs/DECISIONS.md": 2300,
    "docs/MEASURES.md": 1500,
    "docs/HISTORY.md": 8100,
    "docs/FORMATS.md": 3600,
    "docs/RULES.md": 1500,
    "page/README.md": 550,
    "python/README.md": 450,
    "crates/pesplib_reader/README.md": 220,
    "crates/pesplib_writer/README.md": 170,
    "crates/pesp_shell_io/README.md": 240,
    "crates/pesp_shell_commands/README.md": 160,
    "crates/pesp_shell_replies/README.md": 150,
    "crates/pesp_shell/README.md": 220,
    "crates/pesp_shell_main/README.md": 220,
    "crates/pespbench/README.md": 60,
    "crates/pesp_embedded/README.md": 160,
    "crates/pesp_tests_search/README.md": 60,
    "crates/pesp_tests_core/README.md": 130,
    "crates/pesp_tests_text/README.md": 70,
    "crates/pesp_tests_shell/README.md": 70,
    "crates/pesp_tests_memory/README.md": 150,
    "crates/pesp_tests_keepers/README.md": 200,
    "docs/THEOREM.md": 600,
    "docs/GLOSSARY.md": 800,
    "docs/STYLE.md": 700,
    "docs/PROOFS.md": 700,
    "crates/pesp_search/README.md": 900,
    "crates/pesp_search_cycles/README.md": 710,
    "crates/pesp_search_network/README.md": 550,
    "crates/pesp_search_basis/README.md": 500,
    "crates/pesp_search_simplex/README.md": 600,
    "crates/pesp_search_maps/README.md": 420,
    "crates/pesp_search_graph/README.md": 40,
    "crates/pesp_search_least/README.md": 385,
    "crates/pesp_bench/README.md": 450,
    "crates/pesp_counts/README.md": 450,
    "crates/pesp_counts_supports/README.md": 420,
    "crates/pesp_counts_arcs/README.md": 300,
    "crates/pesp_domains/README.md": 350,
    "crates/pesp_instance/README.md": 300,
    "crates/pesp_base/README.md": 250,
    "crates/pesp_tension/README.md": 250,
}

FOLDERS = r"(?:crates|docs|tools|examples|python|embedded|page|man|completions|\.ci|\.github)"
PATH = re.compile(rf"(?<![\w/.~-])({FOLDERS}/[\w./-]*[\w/])")
LINK = re.compile(r"\]\(([^)#\s]*)(?:#([^)\s]*))?\)")
# A file of a crate, named without its folder: in the crate's own page, or after the crate's path in the same line.
PART = re.compile(r"(?<![\w/.~-])((?:src|specs|proofs)/[\w/]+\.(?:rt|antt))")
STEP = re.compile(r"`(crates/[\w/]+\.rt)`: ((?:`\w+`(?:, | and | with )?)+)")

# The greatest number of words of all documents together, without HISTORY.
MOST_WORDS = 27000
COUNTED = ["README.md", "docs/*.md", "crates/*/README.md", "page/README.md", "python/README.md"]


def pages() -> List[Path]:
    """Each document of the tree, except those of a build."""
    return sorted(path for path in TOP.rglob("*.md") if not {"out", ".git", "build"} & set(path.relative_to(TOP).parts))


def text_of(name: str) -> str:
    path = TOP / name
    return path.read_text() if path.exists() else ""


def document_words(suite: Suite) -> None:
    for name, target in TARGETS.items():
        count = len(text_of(name).split())
        suite.holds(f"{name} has {count} words, and may have {target * 11 // 10}", 0 < count <= target * 11 // 10)
    paths = {path for pattern in COUNTED for path in TOP.glob(pattern)} - {TOP / "docs/HISTORY.md"}
    count = sum(len(path.read_text().split()) for path in paths)
    suite.holds(f"all documents have {count} words, and may have {MOST_WORDS}", count <= MOST_WORDS)


def numbers_told_once(suite: Suite) -> None:
    """A number that changes with the tree is in one document, and is right there."""
    told = [str(page.relative_to(TOP)) for page in pages() if f"at most {MOST_ON_THE_FIRST} in all" in page.read_text()]
    suite.note("who says how many wrong bodies the first shelf may have", {"pages": ["docs/STYLE.md"]}, {"pages": told})
    kit = [str(page.relative_to(TOP)) for page in pages() if re.search(r"proved with rattle-kit-\w+", page.read_text())]
    suite.note("who says with which kit it is proved", {"pages": ["README.md"]}, {"pages": kit})
    counts = [str(page.relative_to(TOP)) for page in pages() if re.search(r"[\d,]+ passed, \d+ failed", page.read_text())]
    suite.note("who counts cases of tests", {"pages": ["docs/measures/runs.md"]}, {"pages": counts})


def links_of(page: Path) -> List[Tuple[Path, str]]:
    """The files to which a page links, each with its heading, if any."""
    found = [(link, heading) for link, heading in LINK.findall(page.read_text()) if "://" not in link]
    return [(page.parent / link if link else page, heading) for link, heading in found]


def headings_of(page: Path) -> List[str]:
    """The headings of a page, as links name them."""
    text = re.sub(r"^```.*?^```$", "", page.read_text(), flags=re.M | re.S)
    titles = re.findall(r"^#+ (.*)$", text, re.M)
    return [re.sub(r"[^\w -]", "", title.lower()).replace(" ", "-") for title in titles]


def is_built(name: str) -> bool:
    return "/out" in name or "NAME" in name


def paths_of(page: Path) -> List[Path]:
    """The files of the tree that a page names by their path."""
    return [TOP / name for name in PATH.findall(page.read_text()) if not is_built(name)]


def parts_of(page: Path) -> List[Path]:
    """The files of a crate that a page names within it."""
    own = page.parent if (page.parent / "src").is_dir() else None
    found = []
    for line in page.read_text().splitlines():
        crate = own
        for token in re.findall(rf"{PATH.pattern}|{PART.pattern}", line):
            if token[0].startswith("crates/"):
                crate = TOP / "/".join(token[0].split("/")[:2])
            elif token[1] and crate:
                found.append(crate / token[1])
    return found


def document_paths(suite: Suite) -> None:
    """Each link of a document leads to a file, and each path in it exists."""
    for page in pages():
        named = [*(path for path, _ in links_of(page)), *paths_of(page), *parts_of(page)]
        lost = sorted({str(path) for path in named if not path.exists()})
        suite.note(f"what {page.relative_to(TOP)} names is there", {"lost": []}, {"lost": lost})


def document_headings(suite: Suite) -> None:
    """Each link to a heading leads to one."""
    asked = [(page, path, heading) for page in pages() for path, heading in links_of(page) if heading]
    suite.holds("some links lead to headings", asked)
    for page, path, heading in asked:
        found = path.exists() and heading in headings_of(path)
        suite.holds(f"{page.relative_to(TOP)} links to the heading {heading} of {path.name}", found)


def document_crates(suite: Suite) -> None:
    """The table of ARCHITECTURE has each crate once, with its page."""
    listed = re.findall(r"^(\w+)(?: staticlib)?:", text_of("crates.txt"), re.M)
    told = re.findall(r"^\| \[(\w+)\]\(\.\./crates/\1/README\.md\) \|", text_of("docs/ARCHITECTURE.md"), re.M)
    suite.note("the crates of ARCHITECTURE", {"crates": sorted(listed)}, {"crates": sorted(told)})


def decisions_in_order(suite: Suite) -> None:
    """The decisions are numbered from 1, in their order."""
    numbers = [int(number) for number in re.findall(r"^(\d+)\. \*\*", text_of("docs/DECISIONS.md"), re.M)]
    suite.holds("DECISIONS has its decisions", len(numbers) > 100)
    suite.note("the numbers of decisions", {"numbers": list(range(1, len(numbers) + 1))}, {"numbers": numbers})


def definition_files() -> List[Tuple[str, str, str]]:
    """The definition files of THEOREM in its order, each as a crate, a name and the number of its lines."""
    rows = re.findall(r"^\| crates/(\w+)/specs \| ([^|]+) \|", text_of("docs/THEOREM.md"), re.M)
    named = [(crate, file.split()) for crate, files in rows for file in files.split(", ")]
    return [(crate, name, lines) for crate, (name, lines) in named]


def cited_by(crate: str, name: str) -> List[Tuple[str, str]]:
    """The definition files of this tree that a definition file cites; declarations of code do not count."""
    text = text_of(f"crates/{crate}/specs/{name}.antt")
    cited = re.findall(r"^(?:pub )?use Rattle\.(pesp\w*)\.specs\.(\w+)", text, re.M)
    return [(crate, name) for crate, name in cited if name != "declared"]


def theorem_files(suite: Suite) -> None:
    """THEOREM names all definitions that the headline cites, each with its lines and above those that cite it."""
    above, roots = [], [("pesp_shell", "Runs"), ("pesp_shell_replies", "Transcripts")]
    cited = list(roots)
    for crate, name, lines in definition_files():
        long = len(text_of(f"crates/{crate}/specs/{name}.antt").splitlines())
        suite.note(f"the lines of {crate} {name}", {"lines": long}, {"lines": int(lines)})
        late = [other for other in cited_by(crate, name) if other not in above]
        suite.note(f"what {crate} {name} cites stands above it", {"late": []}, {"late": late})
        above.append((crate, name))
        cited += cited_by(crate, name)
    suite.note("each is cited, or has the headline", {"files": sorted(set(cited))}, {"files": sorted(above)})


def walked_functions(suite: Suite) -> None:
    """Each step of a walk of ARCHITECTURE is a function of the file that it names."""
    steps = STEP.findall(text_of("docs/ARCHITECTURE.md"))
    suite.holds("ARCHITECTURE has three walks", len(steps) > 20)
    for path, names in steps:
        for name in re.findall(r"`(\w+)`", names):
            suite.holds(f"{path} has the function {name}", re.search(rf"\bfn {name}\b", text_of(path)))


def promised() -> Iterator[List[List[Tuple[str, str]]]]:
    """The names of each row of PROMISES: those of contracts, and those of wrong bodies, each with its crate."""
    for line in text_of("docs/PROMISES.md").splitlines():
        cells = [cell.strip() for cell in line.split("|")[1:-1]]
        if len(cells) == 3:
            yield [named(cells[1]), named(cells[2])]


def named(cell: str) -> List[Tuple[str, str]]:
    """Each name in a cell as `crate: a, b; crate: c`, with its crate."""
    parts = re.findall(r"(pesp\w*): ((?:`[\w:]+`(?:, )?)+)", cell)
    return [(crate, name) for crate, names in parts for name in re.findall(r"\w+", names)]


def sources_of(crate: str) -> str:
    found = [path for kind in ("src/**/*.rt", "specs/**/*.antt") for path in (TOP / "crates" / crate).glob(kind)]
    return "\n".join(path.read_text() for path in found)


def promises(suite: Suite) -> None:
    """Each contract that PROMISES names is a word of its crate, and each wrong body is on a shelf of its crate."""
    rows = list(promised())
    suite.holds("PROMISES has its table", len(rows) > 30)
    texts = {crate: sources_of(crate) for contracts, _ in rows for crate, _ in contracts}
    for contracts, bodies in rows:
        for crate, name in contracts:
            suite.holds(f"{crate} has the contract {name}", re.search(rf"\b{name}\b", texts[crate]))
        for crate, name in bodies:
            suite.holds(f"{crate} has the wrong body {name}", list((TOP / "crates" / crate).glob(f"*/{name}.edit")))


# Two files of proofs. Repeated statements have other names in the second; all others only look alike.
FIRST_PROOFS = """use Rattle.std.proofs.Common.{◌≡◌, ℕ, ◌<◌, refl}

pub record IsSmall (n : ℕ) : Type 0 where
  pub below : n < 9

same : (m n : ℕ) → m < n → m ≡ m
same m n less = refl

small : (n : ℕ) → IsSmall n → n ≡ n
small n is = refl

module _ (period : ℕ) where
  pub Below : ℕ → Type 0
  Below r = r < period

  stays : (r : ℕ) → Below r → r < period
  stays r below = below

  module _ (some : 0 < period) where
    is_some : 0 < period
    is_some = some
"""
SECOND_PROOFS = """use Rattle.std.proofs.Common.{◌≡◌, ℕ, ◌<◌, arith, refl}
use Rattle.drawn.proofs.First.{Below}

pub record IsSmall (n : ℕ) : Type 0 where
  pub below : n < 7

alike : (first : ℕ) → (second : ℕ)
    → first < second → first ≡ first
alike first second below = refl

small : (n : ℕ) → n < 9 → n ≡ n
small n is = refl

module _ (period : ℕ) (more : 1 < period) where
  is_some : 0 < period
  is_some = omega (arith, more)

  half : ℕ → ℕ
  half r = r / 2

kept : (period r : ℕ) → Below period r → r < period
kept period r below = below
"""


def statements_proved_once(suite: Suite) -> None:
    """A statement of one file of proofs is cited by others; and one that is stated in two files is found."""
    found = statements(TOP)
    suite.holds("there are statements", len(found) > 2000)
    twice = [[f"{each.path.relative_to(TOP)}:{each.line}" for each in same] for same in proved_twice(found)]
    suite.note("statements that are proved in more than one file", {"twice": []}, {"twice": twice})
    folder = suite.folder / "crates/drawn/proofs"
    folder.mkdir(parents=True)
    (folder / "First.antt").write_text(FIRST_PROOFS)
    (folder / "Second.antt").write_text(SECOND_PROOFS)
    names = [[each.name for each in same] for same in proved_twice(statements(suite.folder))]
    suite.note("what two files say", {"twice": [["same", "alike"], ["stays", "kept"]]}, {"twice": names})


GROUPS = [document_words, numbers_told_once, document_paths, document_headings, document_crates]
GROUPS += [decisions_in_order, theorem_files, walked_functions, promises, statements_proved_once]
