"""The limits of periods, events and activities, as docs/FORMATS.md has them."""

LEAST_PERIOD = 2
GREATEST_PERIOD = 1_440

# Up to this period a network may have the greatest numbers of events and activities.
FULL_PERIOD = 120


def most_events(period: int) -> int:
    """How many events a network of this period may have."""
    return min(20_000, 2_400_000 // period)


def most_activities(period: int) -> int:
    """How many activities a network of this period may have."""
    return min(100_000, 12_000_000 // period)


MOST_EVENTS = most_events(FULL_PERIOD)
MOST_ACTIVITIES = most_activities(FULL_PERIOD)
