"""The cache. Its calls are those of native/ and of _loads.py; here are its constructor and what makes it a mapping."""
from __future__ import annotations

import logging
import os
from collections.abc import Coroutine, ItemsView, KeysView, Mapping, MutableMapping, ValuesView
from concurrent.futures import Executor
from datetime import timedelta
from typing import Any, Callable, Dict, Hashable, Iterable, Iterator, List, Optional, Tuple, TypeVar, Union

from . import _cleaner, _fork, _keys, _night, _refreshes
from ._faults import Closed, Refused
from ._loads import Abandoned, Loads, TimedOut
from ._native import Load
from ._settings import by_name, duration_of, setup_of
from ._stats import Stats
from ._views import Items, Keys, Values, each
from ._waits import waits

K = TypeVar("K", bound=Hashable)
V = TypeVar("V")
Duration = Union[int, timedelta]
log = logging.getLogger("rookdresser")
NUMBERS = ("lookups", "hits", "misses", "loads", "failed", "evicted", "entries", "weight", "step", "latest", "flights")


class Cache(Loads[K, V]):
    """A loading cache for threads and tasks, and a mapping. Keys are whatever can be hashed, values whatever there is.

    >>> with Cache(entries=1000, after_write=60_000) as cache:
    ...     cache.get_or_load("a", str.upper), cache.get("b")
    ('A', None)

    All settings but `entries` are given by name. A duration is a whole number of milliseconds, or a timedelta, which is rounded up to
    milliseconds; 0: never. A setting out of its range raises BadSetup.

    `entries`       how many it may hold; at most 65,536 for each shard
    `shards`        of how many caches of the library it is made, at most 4,096 and no more than entries and bound; by default one for each
                    65,536 entries. Entries, window and bound are shared out among them; parts differ by one at most
    `window`        how many of the entries the window may hold, a fixed number
    `adaptive`      True: the window follows the look-ups, which takes 64 to 4,194,304 entries and no `window`. False: if no `window` is
                    given, it holds a hundredth of the entries. By default it follows them if it can
    `flights`       how many loads each shard may have open at a time; at most 4,096
    `refuse_at_limit` True: a miss beyond that raises TooManyFlights. By default its caller loads without the cache: the value isn't shared
                    with other callers, and isn't stored
    `load_timeout`  a load is given up so long after the call that began it, by `clock`: all who wait for it get TimedOut. By default never
    `bound`         how much the entries may weigh together
    `weigh`         weigh(key, value) returns a value's weight, a whole number; by default each weighs 1
    `after_write`   an entry expires so long after it was written. It is never returned from then on, but stays until something removes it:
                    docs/GUIDE.md, 'Entries that have expired', and clean_every
    `after_access`  an entry expires so long after it was used
    `refresh`       an entry is due for a further load so long after it was written, less than `after_write`
    `refresh_with`  an executor of threads, which makes the loads of due entries: the caller gets the old value at once. A task's call hands
                    them to a further task of its loop; with "task" only that. By default the caller makes them, and gets the new value
    `on_leave`      on_leave(key, value, cause) is called for each entry that leaves, in the thread whose call made it leave, after that
                    call's step and after the load has landed. The cause is "explicit", "replaced", "expired" or "size". What it raises
                    is logged
    `clock`         clock() returns the moment in milliseconds, a whole number; by default that of time.monotonic
    `seeded`        False: the library gets hash(key) as it is. Then strangers may not choose the keys
    """

    _every: Optional[_cleaner.Every] = None

    @by_name
    def __init__(self, entries: int, *, window: Optional[int] = None, flights: int = 1024, bound: int = 1 << 48,
                 after_write: Duration = 0, after_access: Duration = 0, refresh: Duration = 0,
                 weigh: Optional[Callable[[K, V], int]] = None, on_leave: Optional[Callable[[K, V, str], object]] = None,
                 clock: Optional[Callable[[], int]] = None, seeded: bool = True, shards: Optional[int] = None,
                 adaptive: Optional[bool] = None, refuse_at_limit: bool = False,
                 load_timeout: Duration = 0, refresh_with: Union[Executor, str, None] = None) -> None:
        setup, self._shards, self._entries, follows = setup_of({
            "entries": entries, "shards": shards, "window": window, "flights": flights, "bound": bound, "after_write": after_write,
            "after_access": after_access, "refresh": refresh}, adaptive)
        self._settings = {"shards": self._shards, "adaptive": follows, "window": window, "flights": flights, "bound": bound,
                          "after_write": after_write, "after_access": after_access, "refresh": refresh, "load_timeout": load_timeout,
                          "refuse_at_limit": refuse_at_limit}
        self._refresh_with = _refreshes.checked(refresh_with)
        self._tasks = set()
        self._open(setup, self._shards, self._entries if follows else 0, os.urandom(24) if seeded else None, _keys.SECRET, refuse_at_limit,
                   duration_of("load_timeout", load_timeout), weigh, clock, on_leave, _pause, _log, _keys.plain, _keys.secret_prime(), Load, Refused, timedelta, waits,
                   TimedOut, Abandoned, refresh_with is not None)
        _fork.watch(self)

    def __enter__(self) -> Cache[K, V]:
        """Returns the cache, which is closed at the end of the block."""
        return self

    def __exit__(self, *_: object) -> None:
        """Closes the cache."""
        self.close()

    def __repr__(self) -> str:
        """Returns how many entries it holds, of how many."""
        try:
            return "<Cache of %d entries, %d held>" % (self._entries, len(self))
        except Closed:
            return "<Cache of %d entries, closed>" % self._entries

    def __reduce__(self) -> Any:
        """Raises TypeError: a cache is neither copied nor pickled."""
        raise TypeError("a cache can't be copied or pickled")

    def __iter__(self) -> Iterator[K]:
        """Returns an iterator over the keys, as that of keys()."""
        return each(self._keys())

    def keys(self) -> KeysView[K]:
        """Returns a view of the keys. To iterate is over those that there are, without any that has expired, and is no use of the entries.

        They are read before the first is handed out, so the loop may change the cache. Other threads may change it while they are read: an
        entry that is there all the time is among them once, and one that comes or leaves meanwhile may be. Up to 1,000 entries or so are
        read at one moment. Raises Closed if the cache is closed before all are read.

        A key may be asked for as in the cache: also that is no use. `len` of a view is that of the cache.

        >>> cache.update(a=1, b=2)
        >>> sorted(cache.keys()), "a" in cache.keys(), cache.keys() & {"b", "c"}
        (['a', 'b'], True, {'b'})
        """
        return Keys(self)

    def values(self) -> ValuesView[V]:
        """Returns a view of the values, as keys does.

        >>> cache.update(a=1, b=2)
        >>> sorted(cache.values()), 2 in cache.values()
        ([1, 2], True)
        """
        return Values(self)

    def items(self) -> ItemsView[K, V]:
        """Returns a view of the pairs of key and value, as keys does. dict(cache.items()) is a copy.

        >>> cache.update(a=1, b=2)
        >>> dict(cache.items()) == {"a": 1, "b": 2}, ("a", 2) in cache.items()
        (True, False)
        """
        return Items(self)

    def update(self, values: Any = (), /, **named: V) -> None:
        """Does what put_many does, and then stores each value that is given by name.

        >>> cache.update({"a": 1}, b=2)
        >>> cache["a"], cache["b"]
        (1, 2)
        """
        self.put_many(values)
        self.put_many(named)  # type: ignore[arg-type]

    def put_many(self, values: Union[Mapping[K, V], Iterable[Tuple[K, V]]]) -> None:
        """Stores each value under its key, of a mapping or of pairs, in their order. If one is refused, those before it are stored.

        What has `keys` counts as a mapping.

        >>> cache.put_many({"a": 1, "b": 2})
        >>> cache["a"], len(cache)
        (1, 2)
        """
        for key, value in _pairs_of(values):
            self.put(key, value)

    def clean_every(self, duration: Duration) -> None:
        """Has the cache cleaned every so often by a thread, until it is closed or dropped; 0: no longer.

        `duration` is a whole number of milliseconds or a timedelta, in real time. The process has one such thread for all its caches, and a
        forked child one of its own. on_leave runs in it, and so does `clock`: one that blocks lets all caches wait for it. What they raise is
        logged. Each cleaning costs time for every entry, as clean() does. Raises BadSetup, TypeError, or RuntimeError if no thread can be
        started. In a loop of asyncio use aclean_every.

        >>> from datetime import timedelta
        >>> cache.clean_every(timedelta(seconds=30))
        >>> cache.clean_every(0)
        """
        milliseconds = duration_of("clean_every", duration)
        self._every = _cleaner.Every(self, milliseconds / 1000) if milliseconds else None
        if self._every is not None:
            _cleaner.cleaner.ask(self._every)

    def aclean_every(self, duration: Duration) -> Coroutine[Any, Any, None]:
        """Returns a coroutine that cleans the cache every so often, until it is closed or dropped, or its task is cancelled.

        It goes shard by shard, and other tasks run between. on_leave and `clock` run in the loop's thread.

        >>> async def main():
        ...     task = asyncio.create_task(cache.aclean_every(30_000))
        ...     task.cancel()
        >>> asyncio.run(main())
        """
        milliseconds = duration_of("aclean_every", duration)
        if not milliseconds:
            raise ValueError("aclean_every is 0, and has to be a duration")
        return _cleaner.clean_in_loop(_cleaner.Every(self, milliseconds / 1000))

    def loads(self) -> List[_night.OpenLoad]:
        """Returns the open loads, the oldest first: of each its key, its age in seconds, how many callers wait for it, and who makes it.

        >>> def load(key):
        ...     return [(load.key, load.waiting, load.maker) for load in cache.loads()]
        >>> cache.get_or_load("a", load)
        [('a', 0, 'MainThread')]
        """
        return _night.loads(self)

    def load_times(self) -> Dict[float, int]:
        """Returns how many loads took at most so many seconds, by the seconds, as Prometheus counts a histogram. The last is infinity.

        They are those of `loads` and `failed` of stats(); `load_ns` is their sum.

        >>> cache.get_or_load("a", str.upper), cache.load_times()[float("inf")]
        ('A', 1)
        """
        return _night.load_times(self)

    def describe(self) -> str:
        """Returns all that an operator may ask, in one text: settings, numbers, load times, and the five oldest open loads.

        The text is for people, and may change. It has keys, by their repr().

        >>> print(cache.describe().splitlines()[0])
        <Cache of 10 entries, 0 held>
        """
        try:
            return "\n".join(_night.described(self, self.numbers()))
        except Closed:
            return "\n".join(_night.described(self, {}))

    def numbers(self) -> Dict[str, int]:
        """Returns the numbers of the library, by name, of all shards together.

        `step` counts the library's own calls: a `get_or_load` that loads is two, and each move of a window by one entry is one more.

        >>> cache.put("a", 1)
        >>> cache.numbers()["entries"]
        1
        """
        return dict(zip(NUMBERS, self._numbers()))

    def stats(self) -> Stats:
        """Returns what this side has counted.

        >>> cache.get("a"), cache.stats().misses
        (None, 1)
        """
        return Stats(*self._counts())


def _pairs_of(values: Any) -> Iterable[Tuple[Any, Any]]:
    """The pairs of what dict() would take."""
    if isinstance(values, Mapping):
        return values.items()
    if hasattr(values, "keys"):
        return ((key, values[key]) for key in values.keys())
    return values  # type: ignore[no-any-return]


def _pause() -> None:
    """Lets other threads run: as a function begins, the interpreter looks whether one wants to."""


def _log(key: object, error: BaseException) -> None:
    log.error("on_leave raised for the key %r", key, exc_info=error)


# A mapping in all but its equality: two caches are equal if they are one.
MutableMapping.register(Cache)
