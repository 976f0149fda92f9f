"""What somebody asks who is called at night: which loads are open, how long loads took, and all of a cache in one text."""
from __future__ import annotations

import math
import threading
from typing import TYPE_CHECKING, Any, Dict, Iterator, List, NamedTuple

if TYPE_CHECKING:
    from ._cache import Cache

SHOWN = 100  # characters of a key


class OpenLoad(NamedTuple):
    """An open load: its key, since how many seconds it is open, how many callers wait for it, besides the one that makes it, who makes it,
    and whether it is the refresh of an entry that is there. `maker` is the name of a thread or a task, or None if it isn't there."""

    key: Any
    age: float
    waiting: int
    maker: Any
    is_refresh: bool


def loads(cache: Cache[Any, Any]) -> List[OpenLoad]:
    """Returns the open loads, the oldest first."""
    names = {thread.ident: thread.name for thread in threading.enumerate()}
    found = []
    for key, age, waiting, thread, of, is_refresh in cache._open_loads():
        task = of and of()
        maker = names.get(thread) if of is None else task and task.get_name()
        found.append(OpenLoad(key, age / 1e9, waiting, maker, bool(is_refresh)))
    return found


def load_times(cache: Cache[Any, Any]) -> Dict[float, int]:
    """Returns how many loads took at most so many seconds."""
    return {math.inf if bound is None else bound / 1000: count for bound, count in cache._times()}


def described(cache: Cache[Any, Any], numbers: Dict[str, int]) -> Iterator[str]:
    """Yields the lines of describe. `numbers` is empty of a closed cache."""
    yield "%r" % cache
    yield "settings: " + _words(cache._settings)
    if numbers:
        yield "window: %d" % cache.window()
        yield "numbers: " + _words(numbers)
    yield "stats: " + _words(cache.stats()._asdict())
    yield "refused: " + (_words(cache.refused()) or "none")
    yield "load times: " + ", ".join("%d within %g s" % (count, bound) for bound, count in load_times(cache).items())
    opened = loads(cache)
    yield "open loads: %d" % len(opened) + (", the oldest:" if opened else "")
    for load in opened[:5]:
        yield "    %.3f s, %d waiting, made by %s: %s%s" % (load.age, load.waiting, load.maker, _shown(load.key), " (a refresh)" * load.is_refresh)


def _words(of: Dict[Any, Any]) -> str:
    return ", ".join("%s %s" % (name, number) for name, number in of.items())


def _shown(key: object) -> str:
    """The repr of a key, which may raise, and may be long."""
    try:
        text = repr(key)
    except Exception as error:
        return "a %s, whose repr raises %s" % (type(key).__name__, type(error).__name__)
    return text if len(text) <= SHOWN else text[:SHOWN] + ".."
