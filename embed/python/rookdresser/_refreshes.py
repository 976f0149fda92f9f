"""Refreshes that the caller of a due entry hands on, to an executor or to a task of its loop: it gets the old value at once."""
from __future__ import annotations

import asyncio
import functools
import inspect
import logging
from typing import TYPE_CHECKING, Any, Awaitable, Callable, Dict, Hashable, Optional, Set, Tuple, TypeVar, Union

from ._native import Load, Table

if TYPE_CHECKING:
    from concurrent.futures import Executor, Future

    from ._native import Ttl

K = TypeVar("K", bound=Hashable)
V = TypeVar("V")
log = logging.getLogger("rookdresser")


class Refreshes(Table[K, V]):
    """A cache's refreshes that nobody waits for. What a loader raises in one is logged, and the old value stays until it expires."""

    _refresh_with: Union[Executor, str, None] = None
    # asyncio keeps its tasks by weak references.
    _tasks: Set[asyncio.Task[None]] = set()

    def _hand_on(self, mine: Load[V], key: K, function: Callable[..., V], args: Optional[Tuple[Any, ...]],
                 names: Optional[Dict[str, Any]], ttl: Ttl[K, V]) -> bool:
        """Has the executor make the load of a due entry. Returns False if it takes no job, and then the caller makes the load."""
        executor: Any = self._refresh_with
        if executor == "task":
            return False
        try:
            job = executor.submit(self._refresh, mine, key, function, args, names, ttl)
        except Exception:
            return False
        job.add_done_callback(functools.partial(self._job_ended, mine))
        return True

    def _refresh(self, mine: Load[V], key: K, function: Callable[..., V], args: Optional[Tuple[Any, ...]],
                 names: Optional[Dict[str, Any]], ttl: Ttl[K, V]) -> None:
        """Makes the load in a thread of the executor."""
        try:
            self._adopt(mine, None, None)
            value = function(key) if args is None else function(*args, **(names or {}))
            self._refuse_coroutine(value, "load returned a coroutine: use aget_or_load")
            self._land(mine, value, ttl)
        except BaseException as error:
            self._fail(mine, error)
            if not isinstance(error, Exception):
                raise
            log.error("a refresh of the key %r failed", key, exc_info=error)
        finally:
            del mine

    def _job_ended(self, mine: Load[V], job: Future[None]) -> None:
        """Ends the load of a job that was cancelled, or that the executor lost."""
        self._fail(mine, SystemExit("the refresh was cancelled"))

    def _hand_to_task(self, mine: Load[V], key: K, load: Callable[[K], Union[V, Awaitable[V]]], ttl: Ttl[K, V]) -> None:
        """Has another task of this loop make the load of a due entry."""
        loop = asyncio.get_running_loop()
        task = loop.create_task(self._refresh_in_task(mine, key, load, ttl))
        self._adopt(mine, task, loop)
        self._tasks.add(task)
        task.add_done_callback(functools.partial(self._task_ended, mine))

    async def _refresh_in_task(self, mine: Load[V], key: K, load: Callable[[K], Union[V, Awaitable[V]]], ttl: Ttl[K, V]) -> None:
        try:
            loaded = load(key)
            value: V = await loaded if inspect.isawaitable(loaded) else loaded
            self._land(mine, value, ttl)
        except BaseException as error:
            self._fail(mine, error)
            if not isinstance(error, Exception):
                raise
            log.error("a refresh of the key %r failed", key, exc_info=error)
        finally:
            del mine

    def _task_ended(self, mine: Load[V], task: asyncio.Task[None]) -> None:
        """Ends the load of a task that was cancelled before it began."""
        self._tasks.discard(task)
        self._fail(mine, SystemExit("the refresh was cancelled"))


def checked(refresh_with: Any) -> Any:
    """Returns the setting. Raises TypeError if it is neither None, nor "task", nor an executor."""
    if refresh_with is None or refresh_with == "task" or callable(getattr(refresh_with, "submit", None)):
        return refresh_with
    raise TypeError('refresh_with is %r, and has to be an executor, "task" or None' % (refresh_with,))
