"""A decorator, as functools.lru_cache."""
from __future__ import annotations

import functools
import inspect
import types
from typing import Any, Callable, Dict, Hashable, NamedTuple, Optional, Tuple, TypeVar

from . import _native
from ._cache import Cache

F = TypeVar("F", bound=Callable[..., Any])
# Stands between the arguments by place and those by name in a key.
_NAMED = object()


class CacheInfo(NamedTuple):
    """What functools.lru_cache tells of itself, of a cached function."""

    hits: int
    misses: int
    maxsize: int
    currsize: int


class _Info:
    """The part of a cached function that an async one has, too."""

    def __init__(self, cache: Cache[Any, Any]) -> None:
        self.cache, self.before = cache, (0, 0)

    def cache_info(self) -> CacheInfo:
        """Returns hits and misses since the cache was opened or cleared, how many entries it may hold, and how many it holds.

        >>> upper = cached(entries=10)(str.upper)
        >>> upper("a"), upper("a"), upper.cache_info()
        ('A', 'A', CacheInfo(hits=1, misses=1, maxsize=10, currsize=1))
        """
        stats = self.cache.stats()
        return CacheInfo(stats.hits - self.before[0], stats.misses - self.before[1], self.cache._entries, len(self.cache))

    def cache_clear(self) -> None:
        """Takes every entry out, and begins to count anew.

        >>> upper = cached(entries=10)(str.upper)
        >>> upper("a"), upper.cache_clear(), upper.cache_info()
        ('A', None, CacheInfo(hits=0, misses=0, maxsize=10, currsize=0))
        """
        self.cache.clear()
        stats = self.cache.stats()
        self.before = stats.hits, stats.misses


class _Cached(_native.Function):
    """A cached function. A hit runs no code of Python but the hash and the equality of the arguments."""

    def __copy__(self) -> _Cached:
        """Returns the function itself, as copying a function does."""
        return self

    def __deepcopy__(self, _: Any) -> _Cached:
        """Returns the function itself."""
        return self

    def __reduce__(self) -> str:
        """Returns the function's name, by which pickle finds it."""
        return self.__qualname__

    def __repr__(self) -> str:
        """Returns the repr of the function."""
        return "<cached %r>" % self.__wrapped__  # type: ignore[attr-defined]


def cached(*given: Any, key: Optional[Callable[..., Hashable]] = None, **settings: Any) -> Callable[[F], F]:
    """Keeps what a function returns, by its arguments, in a cache of these settings, which are those of Cache.

    Of those who call it with equal arguments at once, one runs it, and the others wait. An async function is run by one task, and the
    others wait with no thread blocked. The key is the tuple of the arguments by place, followed by those by name in the order of the
    names; or what key(*arguments) returns. A method's key begins with its object. A generator's values would be gone after the first
    caller, so its function is refused with TypeError.

    The function gets the attributes `cache`, `cache_info`, `cache_clear` and `__wrapped__`.

    >>> @cached(entries=10)
    ... def double(number):
    ...     return 2 * number
    >>> double(7), double(7)
    (14, 14)
    """
    if given:
        raise TypeError("cached takes settings, by name: write @cached(entries=1000) above the function")

    def decorate(function: F) -> F:
        if not callable(function) or isinstance(function, (classmethod, staticmethod)):
            raise TypeError("cached stands below classmethod and staticmethod, right above the function")
        if _is(function, inspect.isgeneratorfunction) or _is(function, inspect.isasyncgenfunction):
            raise TypeError("%r is a generator, whose values would be gone after the first caller" % (function,))
        cache: Cache[Any, Any] = Cache(**settings)
        info = _Info(cache)
        ask: Any
        if _is(function, inspect.iscoroutinefunction):
            ask = _in_tasks(cache, function, key)
        else:
            ask = _Cached(cache, function, key, _key, types.MethodType)
            functools.update_wrapper(ask, function)
        ask.cache, ask.cache_info, ask.cache_clear = cache, info.cache_info, info.cache_clear
        return ask  # type: ignore[no-any-return]

    return decorate


def _is(function: Any, kind: Callable[[Any], bool]) -> bool:
    """Whether the function, or what is called of an object, is of a kind."""
    while isinstance(function, functools.partial):
        function = function.func
    return kind(function) or not inspect.isroutine(function) and not isinstance(function, type) and kind(type(function).__call__)


def _in_tasks(cache: Cache[Any, Any], function: Callable[..., Any], key: Optional[Callable[..., Hashable]]) -> Callable[..., Any]:
    @functools.wraps(function)
    async def ask(*arguments: Any, **named: Any) -> Any:
        of = key(*arguments, **named) if key else _key(arguments, named) if named else arguments
        return await cache.aget_or_load(of, lambda _: function(*arguments, **named))

    return ask


def _key(arguments: Tuple[Any, ...], named: Dict[str, Any]) -> Tuple[Any, ...]:
    """The key of a call with arguments by name."""
    return (*arguments, _NAMED, *sorted(named.items()))
