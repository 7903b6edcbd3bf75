"""Reads the replies to a check. The exit status is 1 if something is violated or a time is missing.

usage: pespbench --check .. | PYTHONPATH=python python3 examples/read_replies.py
"""

import sys

from pespbench import Refused
from pespbench.replies import answer_of, replies_of

try:
    tensions, violations, cost = (answer_of(reply) for reply in replies_of(sys.stdin.read()))
except Refused as refusal:
    sys.exit(str(refusal))
print(len(violations), "violated, cost", cost)
sys.exit(1 if violations else 0)
