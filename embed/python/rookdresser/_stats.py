"""What an operator wants to know of a cache."""
from typing import NamedTuple


class Stats(NamedTuple):
    """What this side counted since the cache was opened. README.md says what each is in terms of Guava's CacheStats."""

    hits: int = 0
    misses: int = 0
    joins: int = 0
    loads: int = 0
    failed: int = 0
    refreshes: int = 0
    load_ns: int = 0
    loose: int = 0
    explicit: int = 0
    replaced: int = 0
    expired: int = 0
    size: int = 0
    beside: int = 0
    given_up: int = 0
    late: int = 0
