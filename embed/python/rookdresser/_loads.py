"""The loads that are made in Python: by a task of asyncio, and for several keys at once."""
from __future__ import annotations

import asyncio
import inspect
import warnings
from collections.abc import Coroutine
from typing import TYPE_CHECKING, Any, Awaitable, Callable, Dict, Generic, Hashable, Iterable, List, Literal, Mapping, Optional, Tuple, TypeVar, Union

from ._native import Load
from ._refreshes import Refreshes
from ._waits import wait_in_loop, waits

if TYPE_CHECKING:
    from ._native import Ttl

K = TypeVar("K", bound=Hashable)
V = TypeVar("V")


class LeftOut(KeyError):
    """The function that get_many was given returned nothing for the key. Callers that share the key's load by another call get this."""


class TimedOut(TimeoutError):
    """The load took longer than `load_timeout`, and was given up. The next caller loads anew.

    >>> now = 0
    >>> cache = Cache(entries=10, load_timeout=5, clock=lambda: now)
    >>> def load(key):
    ...     global now
    ...     now = 5
    ...     return cache.get_or_load(key, str.upper)
    >>> try:
    ...     cache.get_or_load("a", load)
    ... except TimedOut as error:
    ...     print(error, cache["a"])
    the load of the key took longer than load_timeout A
    """


class Abandoned(RuntimeError):
    """The load was given up by abandon(key). The next caller loads anew.

    >>> try:
    ...     cache.get_or_load("a", cache.abandon)
    ... except Abandoned as error:
    ...     print(error)
    the load of the key was abandoned
    """


class Asked(Generic[K, V]):
    """What a call for several keys has found, and the loads that it has begun: those that it makes, and those of others. The keys beside
    are loaded without the cache."""

    def __init__(self) -> None:
        self.found: Dict[K, V] = {}
        self.mine: Dict[K, Load[V]] = {}
        self.others: Dict[K, Load[V]] = {}
        self.beside: List[K] = []
        self.begun: List[Load[V]] = []


class Loads(Refreshes[K, V]):
    """A cache's calls that make loads in Python."""

    async def aget_or_load(self, key: K, load: Callable[[K], Union[V, Awaitable[V]]], ttl: Ttl[K, V] = None) -> V:
        """Returns what get_or_load returns, for a task: neither the load nor the wait for another's blocks the loop.

        `load` may return an awaitable. To give up a wait, use asyncio.wait_for or asyncio.timeout.

        >>> async def load(key):
        ...     return key.upper()
        >>> asyncio.run(cache.aget_or_load("a", load))
        'A'
        """
        if not callable(load):
            raise TypeError("load has to be callable; for a default call get(key, default)")
        task, loop = _this_task()
        mine: Optional[Load[V]] = None
        of: Union[Load[V], Literal[False], None] = None
        try:
            while True:
                mine, of = Load(), None
                try:
                    value, of = self._seek(key, mine, task, loop)
                    if of is None:
                        return value  # type: ignore[return-value]
                    if of is False:
                        return await _loaded(load, key)
                    if of is mine and mine.is_refresh and self._refresh_with is not None:
                        self._hand_to_task(mine, key, load, ttl)
                        return mine.old  # type: ignore[return-value]
                    if of is mine:
                        return await self._make(key, mine, load, ttl)
                except BaseException as error:
                    # It has ended, unless an interrupt struck.
                    self._fail(mine, error)
                    raise
                await self._wait_in_loop(of, task)
                if of.error is None or isinstance(of.error, Exception):
                    return self._shared(of)
                # The task that loaded was told to end, not this one.
        finally:
            # An exception's traceback keeps this frame, and a load and a task keep their exceptions.
            del task, mine, of

    def aget(self, key: K, load: Callable[[K], Union[V, Awaitable[V]]]) -> Coroutine[Any, Any, V]:
        """Does the same as aget_or_load, and warns: version 1.0 has no such call.

        >>> import warnings
        >>> with warnings.catch_warnings(record=True) as told:
        ...     warnings.simplefilter("always")
        ...     asyncio.run(cache.aget("a", str.upper)), str(told[0].message)
        ('A', 'call aget_or_load in place of aget')
        """
        warnings.warn("call aget_or_load in place of aget", DeprecationWarning, stacklevel=2)
        return self.aget_or_load(key, load)

    async def _make(self, key: K, mine: Load[V], load: Callable[[K], Union[V, Awaitable[V]]], ttl: Ttl[K, V]) -> V:
        """Makes a load in this task."""
        try:
            loaded = load(key)
            value: V = await loaded if inspect.isawaitable(loaded) else loaded
            return self._land(mine, value, ttl)
        except BaseException as error:
            if self._fail(mine, error):
                return mine.old  # type: ignore[return-value]
            raise
        finally:
            del mine

    async def _wait_in_loop(self, of: Load[V], task: asyncio.Task[Any]) -> None:
        """Waits in this task until another's load ends. One that nobody will end ends here."""
        try:
            if await wait_in_loop(of, task, self._time_left):
                self._fail(of, SystemExit("the task that made the load is done, or its loop is closed"))
        finally:
            del task, of

    def get_many(self, keys: Iterable[K], load_many: Callable[[List[K]], Mapping[K, V]], timeout: Any = None) -> Dict[K, V]:
        """Returns the values of the keys that there are, by key. load_many(list of keys) is called once, for all that have none.

        If these are more than may be loading (`flights`), the rest is loaded in the same call, and neither shared nor stored; with
        refuse_at_limit it raises TooManyFlights and calls nothing: ask for fewer keys at a time.

        A key that load_many leaves out isn't in what is returned, and nothing is stored for it. What load_many raises is raised here,
        and in all who share one of its loads. Loads that others make of these keys are waited for last, each for at most `timeout`
        seconds (or a timedelta); if such a load ends by SystemExit or the like, load_many is called once more, for its key.

        >>> cache.get_many(["a", "b"], lambda keys: {key: key.upper() for key in keys})
        {'a': 'A', 'b': 'B'}
        """
        if not callable(load_many):
            raise TypeError("load_many has to be callable")
        asked: Asked[K, V] = Asked()
        of: Optional[Load[V]] = None
        try:
            try:
                self._seek_many(keys, asked, None, waits.running_loop())
                if asked.mine or asked.beside:
                    self._make_many(asked, load_many)
            except BaseException as error:
                self._fail_all(asked.begun, error)
                raise
            for key, of in asked.others.items():
                self._wait(of, timeout)
                if self._is_left(key, of, asked.found):
                    asked.found.update(self.get_many([key], load_many, timeout))
            return asked.found
        finally:
            # An exception's traceback keeps this frame, and a load keeps its exception.
            del of
            asked.mine.clear()
            asked.others.clear()
            asked.begun.clear()

    async def aget_many(self, keys: Iterable[K], load_many: Callable[[List[K]], Union[Mapping[K, V], Awaitable[Mapping[K, V]]]]) -> Dict[K, V]:
        """Returns what get_many returns, for a task: neither load_many nor a wait for another's load blocks the loop.

        `load_many` may return an awaitable. To give up, use asyncio.wait_for or asyncio.timeout.

        >>> async def load_many(keys):
        ...     return {key: key.upper() for key in keys}
        >>> asyncio.run(cache.aget_many(["a", "b"], load_many))
        {'a': 'A', 'b': 'B'}
        """
        if not callable(load_many):
            raise TypeError("load_many has to be callable")
        task, loop = _this_task()
        asked: Asked[K, V] = Asked()
        of: Optional[Load[V]] = None
        try:
            try:
                self._seek_many(keys, asked, task, loop)
                if asked.mine or asked.beside:
                    await self._make_many_in_task(asked, load_many)
            except BaseException as error:
                self._fail_all(asked.begun, error)
                raise
            for key, of in asked.others.items():
                await self._wait_in_loop(of, task)
                if self._is_left(key, of, asked.found):
                    asked.found.update(await self.aget_many([key], load_many))
            return asked.found
        finally:
            # As in get_many; and a task keeps its exception.
            del task, of
            asked.mine.clear()
            asked.others.clear()
            asked.begun.clear()

    def _seek_many(self, keys: Iterable[K], asked: Asked[K, V], task: Optional[asyncio.Task[Any]],
                   loop: Optional[asyncio.AbstractEventLoop]) -> None:
        """Looks the keys up, and joins or begins a load of each that has no value."""
        of: Union[Load[V], Literal[False], None] = None
        try:
            for key in dict.fromkeys(keys):
                asked.begun.append(Load())
                value, of = self._seek(key, asked.begun[-1], task, loop)
                if of is None:
                    asked.found[key] = value  # type: ignore[assignment]
                elif of is False:
                    asked.beside.append(key)
                else:
                    (asked.mine if of is asked.begun[-1] else asked.others)[key] = of
        finally:
            del of, task

    def _make_many(self, asked: Asked[K, V], load_many: Callable[[List[K]], Mapping[K, V]]) -> None:
        """Makes these loads together. If that fails, due entries keep their old values, and if there are others it is raised."""
        try:
            loaded = load_many([*asked.mine, *asked.beside])
            self._refuse_coroutine(loaded, "load_many returned a coroutine, and has to return a mapping: use aget_many")
        except Exception as error:
            if self._keeps_old(asked, error):
                return
            raise
        self._land_many(asked, loaded)

    async def _make_many_in_task(self, asked: Asked[K, V],
                                 load_many: Callable[[List[K]], Union[Mapping[K, V], Awaitable[Mapping[K, V]]]]) -> None:
        """Does the same in this task."""
        try:
            told = load_many([*asked.mine, *asked.beside])
            loaded = await told if inspect.isawaitable(told) else told
        except Exception as error:
            if self._keeps_old(asked, error):
                return
            raise
        self._land_many(asked, loaded)

    def _keeps_old(self, asked: Asked[K, V], error: Exception) -> bool:
        """Ends the loads with what load_many raised. Returns whether all were of entries that are due, whose values are returned then."""
        self._fail_all(asked.begun, error)
        if asked.beside or not all(load.is_refresh for load in asked.mine.values()):
            return False
        asked.found.update((key, load.old) for key, load in asked.mine.items())  # type: ignore[misc]
        return True

    def _land_many(self, asked: Asked[K, V], loaded: Mapping[K, V]) -> None:
        """Ends each load with its key's value, or as left out. If one was given up, that is raised once all have ended."""
        given_up: List[Exception] = []
        for key in asked.mine:
            if key in loaded:
                try:
                    asked.found[key] = self._land(asked.mine[key], loaded[key])
                except (TimedOut, Abandoned) as error:
                    given_up.append(error)
            elif self._fail(asked.mine[key], LeftOut(key)):
                asked.found[key] = asked.mine[key].old  # type: ignore[assignment]
        for key in asked.beside:
            if key in loaded:
                asked.found[key] = loaded[key]
        if given_up:
            try:
                raise given_up[0]
            finally:
                # The exception's traceback keeps this frame.
                given_up.clear()

    def _is_left(self, key: K, of: Load[V], found: Dict[K, V]) -> bool:
        """Takes the value of another's load that has ended. Returns whether the key has to be asked for again."""
        try:
            if of.error is not None and not isinstance(of.error, Exception):
                # The caller that loaded was told to end, not this one.
                return True
            if not isinstance(of.error, LeftOut):
                found[key] = self._shared(of)
            return False
        finally:
            del of

    def _refuse_coroutine(self, value: object, why: str) -> None:
        """Raises TypeError of a coroutine, which can be awaited once. A Future or a Task is kept, as many may await it."""
        if isinstance(value, Coroutine):
            value.close()
            raise TypeError(why)


async def _loaded(load: Callable[[K], Union[V, Awaitable[V]]], key: K) -> V:
    told = load(key)
    value: V = await told if inspect.isawaitable(told) else told
    return value


def _this_task() -> Tuple[asyncio.Task[Any], asyncio.AbstractEventLoop]:
    task = asyncio.current_task()
    if task is None:
        raise RuntimeError("aget_or_load and aget_many are for a task of asyncio")
    return task, task.get_loop()
