"""Random regions for experiments, generated from a seed."""

from pespbench.drawn.command import add_parser
from pespbench.drawn.drawing import draw_region
from pespbench.drawn.region import Region, RegionActivity, RegionEvent

__all__ = ["Region", "RegionActivity", "RegionEvent", "add_parser", "draw_region"]
