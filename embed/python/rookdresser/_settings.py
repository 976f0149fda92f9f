"""The settings of a cache: how they are given, the range of each, and what a shard gets of them."""
import functools
import operator
import warnings
from datetime import timedelta
from typing import Any, Callable, Dict, Optional, Tuple, TypeVar

from ._faults import BAD_SETUP, Refused
from ._native import milliseconds

F = TypeVar("F", bound=Callable[..., None])

MOST_ENTRIES = 65_536  # of a shard
MOST_SHARDS = 4_096
MOST_FLIGHTS = 4_096
MOST_WEIGHT = 1 << 48  # of a shard
MOST_MILLISECONDS = (1 << 64) - 1
LEAST_ADVISED, MOST_ADVISED = 64, 4_194_304  # entries of all shards together
DURATIONS = ("after_write", "after_access", "refresh")
MAY_BE_NONE = ("window", "shards")  # which is to say, not given
# The settings behind `entries` in the order in which they could once be given by place.
BY_PLACE = ("window", "flights", "bound", *DURATIONS, "weigh", "on_leave", "clock", "seeded", "shards", "adaptive")


def by_name(init: F) -> F:
    """Lets a constructor take settings behind the first by place, too, with a DeprecationWarning, until version 1.0."""
    @functools.wraps(init)
    def opened(self: Any, *given: Any, **settings: Any) -> None:
        by_place = dict(zip(BY_PLACE, given[1:]))
        if len(given) > 1 + len(BY_PLACE):
            raise TypeError("a cache has %d settings, and was given %d" % (1 + len(BY_PLACE), len(given)))
        for name in by_place:
            if name in settings:
                raise TypeError("%s is given twice" % name)
        if by_place:
            warnings.warn("give settings by name: %s" % ", ".join("%s=" % name for name in by_place), DeprecationWarning, stacklevel=2)
        init(self, *given[:1], **by_place, **settings)

    return opened  # type: ignore[return-value]


def setup_of(given: Dict[str, Any], adaptive: Any) -> Tuple[Tuple[int, ...], int, int, bool]:
    """Returns the settings of all shards together in their order in the library, how many shards there are, how many entries they may hold,
    and whether their windows follow the look-ups. If they do, the window among the settings isn't used; 0 stands for a hundredth.

    Raises BadSetup with the name, the value and the range of a setting that is out of its range, and TypeError if one is no whole number
    (or timedelta, of a duration), or `adaptive` no truth value. The native part shares entries, window and bound out; parts differ by one at most.
    """
    of = {name: _whole(name, number, name in DURATIONS) for name, number in given.items() if number is not None or name not in MAY_BE_NONE}
    entries, shards, window = of["entries"], of.get("shards"), of.get("window")
    if shards is None:
        _check("entries", entries, 1, MOST_SHARDS * MOST_ENTRIES)
        shards = (entries - 1) // MOST_ENTRIES + 1
    _check("shards", shards, 1, MOST_SHARDS)
    each = ", 1 to %d for each shard"
    _check("entries", entries, 1, shards * MOST_ENTRIES, each % MOST_ENTRIES if shards > 1 else "")
    _check("shards", shards, 1, entries, ", the entries")
    if window is not None:
        _check("window", window, 1, entries, ", the entries")
    follows = _follows(adaptive, entries, window)
    _check("flights", of["flights"], 1, MOST_FLIGHTS)
    _check("bound", of["bound"], shards, shards * MOST_WEIGHT, each % MOST_WEIGHT if shards > 1 else "")
    for age in DURATIONS:
        _check(age, of[age], 0, MOST_MILLISECONDS)
    if 0 < of["after_write"] <= of["refresh"]:
        raise Refused(BAD_SETUP, "refresh is %d, and has to be below after_write, %d" % (of["refresh"], of["after_write"]))
    setup = (entries, window or 0, of["flights"], of["bound"], of["after_write"], of["after_access"], of["refresh"])
    return setup, shards, entries, follows


def duration_of(name: str, given: Any) -> int:
    """Returns the milliseconds of a duration. Raises BadSetup or TypeError, as setup_of does of a setting."""
    number = _whole(name, given, True)
    _check(name, number, 0, MOST_MILLISECONDS)
    return number


def _follows(adaptive: Any, entries: int, window: Optional[int]) -> bool:
    """Whether the windows follow the look-ups: as it is given, or by default if they can."""
    can = window is None and LEAST_ADVISED <= entries <= MOST_ADVISED
    if adaptive is None:
        return can
    if not isinstance(adaptive, bool):
        raise TypeError("adaptive is %r, and has to be True, False or None" % (adaptive,))
    if adaptive and not can:
        why = "a window is given" if window is not None else "entries is %d, and an adviser is for %d to %d" % (
            entries, LEAST_ADVISED, MOST_ADVISED)
        raise Refused(BAD_SETUP, "adaptive is True, and has to be False or None, since " + why)
    return adaptive


def _whole(name: str, given: Any, is_duration: bool) -> int:
    if is_duration and isinstance(given, timedelta):
        return milliseconds(given)
    try:
        return operator.index(given)
    except TypeError:
        kind = "a whole number of milliseconds or a timedelta" if is_duration else "a whole number"
        raise TypeError("%s is %r, and has to be %s" % (name, given, kind)) from None


def _check(name: str, number: int, least: int, most: int, why: str = "") -> None:
    if not least <= number <= most:
        # Python writes no number of more than some thousand digits.
        shown = str(number) if number.bit_length() <= 256 else "%sabout 2^%d" % ("minus " * (number < 0), number.bit_length() - 1)
        raise Refused(BAD_SETUP, "%s is %s, and has to be from %d to %d%s" % (name, shown, least, most, why))
