"""A loading cache for Python threads and tasks: the proved sequential cache of librookdresser, in a module of C.

    with Cache(entries=1000, after_write=60_000) as cache:
        page = cache.get_or_load(url, load)     # load(url) is called once, however many threads ask

Keys are whatever can be hashed, values whatever there is. This package is tested, not proved; see README.md.
"""
try:
    from ._native import Table as _Table
except ModuleNotFoundError as error:
    raise ImportError("rookdresser's native module isn't built: run backend.py beside the package, or install it by pip") from error

from ._cache import Cache
from ._decorator import CacheInfo, cached
from ._faults import BadSetup, Closed, OutOfMemory, Refused, StepsSpent, TooHeavy, TooManyFlights
from ._loads import Abandoned, LeftOut, TimedOut
from ._night import OpenLoad
from ._stats import Stats
from ._waits import WaitsForItself

__all__ = ["Abandoned", "BadSetup", "Cache", "CacheInfo", "Closed", "LeftOut", "OpenLoad", "OutOfMemory", "Refused", "Stats", "StepsSpent",
           "TimedOut", "TooHeavy", "TooManyFlights", "WaitsForItself", "cached"]
__version__ = "0.2.0.dev0"
