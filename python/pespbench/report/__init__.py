"""A report on a network: the page with the program's replies inside, one HTML file to read, print and edit."""

from pespbench.places import read_places
from pespbench.report.command import add_parser
from pespbench.report.drawing import NoNode, netgraph_of
from pespbench.report.gathering import Content, gather
from pespbench.report.page import NoPage, page_of

__all__ = ["Content", "NoNode", "NoPage", "add_parser", "gather", "netgraph_of", "page_of", "read_places"]
