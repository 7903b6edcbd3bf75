"""The files of random cases, each from a seed of its own."""

import random
from typing import Dict

from cases import base, domains, replies, search, tension

SEEDS = {base: 1809, tension: 1810, domains: 1811, search: 1812, replies: 1813}


def texts() -> Dict[str, str]:
    """Each file by its name in the tree."""
    made = {}
    for crate, seed in SEEDS.items():
        heading = f"-- Drawn cases of the definitions, as the model of tools/tests answers them: made by tools/draw_cases from seed {seed}."
        text = "\n".join([heading, *crate.lines(random.Random(seed))])
        made[f"crates/{crate.CRATE}/proofs/DrawnCases.antt"] = text.rstrip("\n") + "\n"
    return made
