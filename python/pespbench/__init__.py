"""A client of pespbench, the workbench for periodic railway timetables, with tools for planners.

    from pespbench import Bench

    with Bench.open("examples/two-trains/activities", period=10) as bench:
        bench.fix(1, 0)
        print(bench.domain(2).runs(), bench.optimum())
"""

from pespbench.leaving import is_command, leave_at_interrupts

if is_command():
    leave_at_interrupts()

from pespbench.answers import Answer, Domain, Found, Infeasible, Optimum, Stopped, Tension, Violations  # noqa: E402
from pespbench.client import Bench  # noqa: E402
from pespbench.engines import Engine  # noqa: E402
from pespbench.faults import BadReply, Ended, Fault, FileFault, NoLibrary, NotKept, PespbenchError, Refused  # noqa: E402
from pespbench.labels import EventLabel, Labels  # noqa: E402
from pespbench.mending import Mended, mended  # noqa: E402
from pespbench.near import Near  # noqa: E402
from pespbench.network import Activity, Network, Window  # noqa: E402
from pespbench.parts import optimum_in_parts  # noqa: E402
from pespbench.price import Price  # noqa: E402
from pespbench.profiles import all_prices  # noqa: E402
from pespbench.progress import Progress  # noqa: E402
from pespbench.questions import Tried  # noqa: E402
from pespbench.searching import Search  # noqa: E402
from pespbench.tables import ActivityRow  # noqa: E402
from pespbench.variants import variants  # noqa: E402
from pespbench.version import VERSION as __version__  # noqa: E402
from pespbench.wording import Names  # noqa: E402
from pespbench.workers import Lost  # noqa: E402

__all__ = [
    "Activity", "ActivityRow", "Answer", "BadReply", "Bench", "Domain", "Ended", "Engine", "EventLabel", "Fault", "FileFault", "Found",
    "Infeasible", "Labels", "Lost", "Mended", "Names", "Near", "Network", "NoLibrary", "NotKept", "Optimum", "PespbenchError",
    "Price", "Progress", "Refused", "Search", "Stopped", "Tension", "Tried", "Violations", "Window", "__version__", "all_prices",
    "mended", "optimum_in_parts", "variants",
]
