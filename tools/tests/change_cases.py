"""Edits of the two trains at period 10, one after another, with the pairs that each restores, for tests/commands.py."""

OTHERS = "2: 0 1 2 3 6 7 8 9"

# For each: the edit, and the events with their restored residues.
RESTORED = [
    [("fix 1 0", ""), ("fix 1 0", ""), ("fix 1 1", "1: 1 / 2: 6 7"), ("weight 1 3", "")],
    [
        ("fix 1 0", ""),
        ("span 1 3 4", ""),
        ("unfix 1", "1: 1 2 3 4 5 6 7 8 9 / 2: 0 1 2 3 5 6 7 8 9"),
        ("span 1 3 6", ""),
    ],
    [("fix 1 0", ""), ("drop activity 2", OTHERS)],
    [("fix 1 0", ""), ("ends 2 2 1", OTHERS)],
    [("fix 1 0", ""), ("span 2 4 7", OTHERS)],
    [
        ("window 1 9 3", ""),
        ("window 1 0 2", ""),
        ("window 1 1 2", "1: 2 / 2: 7 8"),
        ("window 1 0 10", "1: 0 3 4 5 6 7 8 9 / 2: 0 1 2 3 4 8 9"),
        ("unfix 1", ""),
        ("fix 1 4", ""),
        ("window 1 4 1", ""),
        ("window 1 3 3", "1: 3 5 / 2: 0 1 6 7"),
    ],
]
