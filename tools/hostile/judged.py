"""Wrong programs, as the tests see them: each kind of fault must be found."""

from hostile.calls import judge_call
from hostile.damage import fault_of_commands
from hostile.growths import judge
from hostile.inputs import Input, ends_of_replies
from hostile.served import Came
from hostile.suite import Suite

GIVEN = b"add event 1\n\ndomains\ncost"
OUTPUT = b"ok\ndomains 1\n1: 0 1\ncost 0\n"
AT = b"pespbench: out of memory at line %d\n"

# The output of a run with a request refused, and whether that is right.
REFUSED = {
    "the whole output": (0, OUTPUT, b"", True),
    "before the first line": (1, b"", AT % 0, True),
    "at the first line": (1, b"", AT % 1, True),
    "after a reply and a blank line": (1, b"ok\n", AT % 3, True),
    "in a file": (1, b"", b"pespbench: times file, record 7: out of memory\n", True),
    "half a reply": (1, b"ok\ndomains 1\n", AT % 3, False),
    "half a line": (1, b"o", AT % 1, False),
    "a reply too many": (1, b"ok\ndomains 1\n1: 0 1\n", AT % 3, False),
    "a reply too few": (1, b"", AT % 3, False),
    "a line that is not there": (1, OUTPUT, AT % 9, False),
    "a reply before a file": (1, b"ok\n", b"pespbench: times file, record 7: out of memory\n", False),
    "another fault": (1, b"", b"pespbench: commands cannot be read\n", False),
    "no text": (1, b"ok\n", b"", False),
    "two texts": (1, b"", AT % 1 + AT % 1, False),
    "half the output as if it were whole": (0, b"ok\n", b"", False),
    "the whole output with another status": (1, OUTPUT, b"", False),
    "a signal": (-11, b"", b"", False),
    "another reply": (0, b"ok\ninfeasible\ncost 0\n", b"", False),
}
# The output of a run over damaged commands, and whether that is right.
DAMAGED = {
    "the whole output": (0, OUTPUT, b"", True),
    "a fault of a file": (1, b"", b"pespbench: activities file, record 2: wrong number of fields\n", True),
    "a fault of a file after a reply": (1, b"ok\n", b"pespbench: times file, record 2: event is repeated\n", False),
    "a reply too few": (0, b"ok\ndomains 1\n1: 0 1\n", b"", False),
    "half a reply": (0, b"ok\ndomains 2\n1: 0 1\ncost 0\n", b"", False),
    "no line end": (0, OUTPUT[:-1], b"", False),
    "bytes of a file": (1, b"", b"pespbench: activities file, record 2: '1; 2' wrong number of fields\n", False),
    "an escape sequence": (0, b"ok\ndomains 1\n1: 0 1\n\x1b[31m\n", b"", False),
    "a signal": (-6, b"", b"", False),
}

CALL = b"case Instance::apply\nbefore\na\nanswer\nOk(())\nafter\na\nb\n"
MADE_AGAIN = b"case Instance::apply\nbefore\na\nanswer\n%s\nafter\n%s\nagain\n%s\nafter\n%s\n"
# The output of the program of calls with a request refused, and whether that is right.
CALLS = {
    "the whole output": (0, CALL, b"", True),
    "want of memory": (0, MADE_AGAIN % (b"Err(Memory)", b"a", b"Ok(())", b"a\nb"), b"", True),
    "no room for an input": (1, b"case Instance::apply\n", b"no room\n", True),
    "a refused activity that stays listed": (0, MADE_AGAIN % (b"Err(Memory)", b"a\nb", b"Ok(())", b"a\nb"), b"", False),
    "another refusal": (0, MADE_AGAIN % (b"Err(Infeasible)", b"a", b"Ok(())", b"a\nb"), b"", False),
    "memory wanted twice": (0, MADE_AGAIN % (b"Err(Memory)", b"a", b"Err(Memory)", b"a"), b"", False),
    "another state with ample memory": (0, MADE_AGAIN % (b"Err(Memory)", b"a", b"Ok(())", b"b"), b"", False),
    "an edit that is lost": (0, CALL[:-2], b"", False),
    "a call that ends by a signal": (-6, b"", b"", False),
}
SEARCH = b"case Bench::optimum\nbefore\na\nknown nothing\nnodes 0\nanswer\nfound 8\nafter\na\nknown 8\nnodes 2\n"
SEARCHED_AGAIN = b"case Bench::optimum\nbefore\na\nknown nothing\nnodes 0\nanswer\nErr(Memory)\nafter\n%sagain\nfound 8\nafter\na\nknown 8\nnodes 2\n"
# The same for a call that searches, by its after-state when it is refused memory.
LEFT = {
    "nothing": (b"a\nknown nothing\nnodes 0\n", True),
    "the number of nodes": (b"a\nknown nothing\nnodes 2\n", True),
    "the optimum": (b"a\nknown 8\nnodes 2\n", True),
    "another optimum": (b"a\nknown 6\nnodes 2\n", False),
    "another instance": (b"b\nknown nothing\nnodes 0\n", False),
}


def came(status: int, output: bytes, error: bytes) -> Came:
    return Came(status, output, error, 1, 1, 0, {})


def judges(suite: Suite, given: Input) -> None:
    plain, ends = came(0, OUTPUT, b""), ends_of_replies(GIVEN, OUTPUT)
    for name, (status, output, error, is_right) in REFUSED.items():
        fault, _ = judge(came(status, output, error), plain, ends, (0, 0, 0))
        suite.holds(f"refused requests: {name} is {'right' if is_right else 'found'}", (fault is None) == is_right)
    fault, _ = judge(came(1, b"ok\n", AT % 2), plain, ends, (3, 0, 0))
    suite.holds("refused requests: a line that was answered before is found", fault)
    for name, (status, output, error, is_right) in DAMAGED.items():
        fault = fault_of_commands(GIVEN, came(status, output, error))
        suite.holds(f"damage: {name} is {'right' if is_right else 'found'}", (fault is None) == is_right)
    plain = came(0, CALL, b"")
    for name, (status, output, error, is_right) in CALLS.items():
        fault, _ = judge_call("Instance::apply", came(status, output, error), plain)
        suite.holds(f"calls: {name} is {'right' if is_right else 'found'}", (fault is None) == is_right)
    plain = came(0, SEARCH, b"")
    for name, (left, is_right) in LEFT.items():
        fault, _ = judge_call("Bench::optimum", came(0, SEARCHED_AGAIN % left, b""), plain)
        suite.holds(f"calls: a search leaves {name}, which is {'right' if is_right else 'found'}", (fault is None) == is_right)
