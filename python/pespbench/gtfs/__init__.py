"""The periodic part of a GTFS feed: lines, stations and the times of one period, as a folder of pespbench.

A trip becomes a train with its runs and dwells if it leaves within the given period, and another trip of the same route, with
the same stops and minutes, leaves one period before or after it. Calls without times are skipped. There are no changes,
headways, turnarounds and passengers: each minute above a run or dwell costs 1.

The files read are stop_times, trips, stops and routes, and, if the feed has them, frequencies, calendar and calendar_dates.
"""

from pespbench.gtfs.command import add_parser
from pespbench.gtfs.feed import Call, Feed, Trip, read_feed
from pespbench.gtfs.periodic import Drawn, drawn_of

__all__ = ["Call", "Drawn", "Feed", "Trip", "add_parser", "drawn_of", "read_feed"]
