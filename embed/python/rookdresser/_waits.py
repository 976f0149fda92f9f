"""Who waits for whom: loads that wait for each other in a circle are found here, among threads and the tasks of asyncio."""
from __future__ import annotations

import asyncio
import functools
import weakref
from sys import is_finalizing
from threading import get_ident
from typing import Any, Callable, Iterator, List, Optional, Set, Tuple, Union

from . import _native

Loop = asyncio.AbstractEventLoop
# A task; or of a thread its identifier with the loop that runs in it, or alone: then what the thread began before it ran its loop.
Who = Union["asyncio.Future[Any]", Tuple[int, Optional[Loop]], Tuple[int]]


class WaitsForItself(RuntimeError):
    """The wait would keep the load from ending, so it was not begun, or has ended.

    A load asked for its own key, or loads wait for each other in a circle, or get_or_load() in the thread of a loop would wait for a task
    of that loop.

    >>> try:
    ...     cache.get_or_load("a", lambda key: cache.get_or_load(key, str.upper))
    ... except WaitsForItself as error:
    ...     print(error)
    the load of the key waits for this very caller
    """


class Waits(_native.Waits):
    """All waits for loads, and the question whether one of them may be."""

    def running_loop(self) -> Optional[Loop]:
        """Returns the loop that runs in this thread, or None."""
        return asyncio._get_running_loop()

    def check(self, load: _native.Load[Any], who: Who, serial: int) -> bool:
        """Returns whether nobody will ever end the load; raises WaitsForItself if it waits for `who`.

        Of several waits that make a circle the last to begin is told, so only those that began before `serial` are followed.
        """
        if _has_no_maker(load):
            return True
        if self._is_circle(load, who, serial):
            # The traceback keeps this frame, and the load or the task may keep the exception.
            del load, who
            raise WaitsForItself("the load of the key waits for this very caller")
        return False

    def _is_circle(self, load: _native.Load[Any], who: Who, serial: int) -> bool:
        seen: Set[object] = set()
        left: List[Who] = [who]
        while left:
            at = left.pop()
            if self.leads(load, at):
                return True
            mark = tuple(map(id, at[1:])) + at[:1] if isinstance(at, tuple) else id(at)
            if mark in seen:
                continue
            seen.add(mark)
            left.extend(self._waiters(at, serial))
            if not isinstance(at, tuple):
                left.extend(_awaited_by(at))
        return False

    def _waiters(self, who: Who, serial: int) -> Iterator[Who]:
        """The tasks and threads that wait for a load that `who` makes."""
        for waiter in self.behind(who, serial):
            if isinstance(waiter, tuple):
                yield waiter
            else:
                yield from waiter.waiting()


class TaskWait(_native.TaskWait):
    """A task's wait for a load."""

    __slots__ = ("task", "loop", "future")

    def __init__(self, task: asyncio.Future[Any], loop: Loop) -> None:
        # Weak, as a task that is cancelled keeps the exception, and its traceback keeps this.
        self.task, self.loop = weakref.ref(task), loop
        self.future: asyncio.Future[None] = loop.create_future()

    def waiting(self) -> Iterator[asyncio.Future[Any]]:
        """Yields the task if it is suspended by this very wait, and by no other."""
        task = self.task()
        if task is not None and getattr(task, "_fut_waiter", self.future) is self.future:
            yield task

    def ring(self) -> None:
        """Wakes the task, from any thread."""
        self.loop.call_soon_threadsafe(self.wake)

    def wake(self) -> None:
        """Wakes the task, from its loop."""
        if not self.future.done():
            self.future.set_result(None)

    async def pause(self, seconds: float) -> None:
        """Waits until somebody wakes the task, for at most so long."""
        timer = self.loop.call_later(seconds, self.wake)
        try:
            await self.future
        finally:
            timer.cancel()
            self.future = self.loop.create_future()


waits = Waits()


async def wait_in_loop(load: _native.Load[Any], task: asyncio.Future[Any],
                       time_left: Callable[[_native.Load[Any]], Optional[float]] = lambda load: None) -> bool:
    """Waits in this task until the load ends, while the loop goes on. Returns True if nobody will ever end it.

    time_left(load) returns for how many seconds it may go on, or None for ever; if it is 0, the load has ended.

    The task looks again after one second, two, four, and so on up to a minute: a circle may close, or a loop be closed, later on.
    """
    wait = TaskWait(task, asyncio.get_running_loop())
    try:
        serial, seconds = wait.begin(load), 1.0
        while not load.is_over:
            if waits.check(load, task, serial):
                return True
            left = time_left(load)
            if left is None or left > 0:
                await wait.pause(seconds if left is None else min(seconds, left))
            seconds = min(60.0, 2 * seconds)
        return False
    finally:
        wait.end()
        # An exception's traceback keeps this frame, and a load and a task keep their exceptions.
        del load, task, wait


def _has_no_maker(load: _native.Load[Any]) -> bool:
    """Whether the task that made the load is done or gone, or its loop is closed; or its thread will never run again, as Python ends."""
    ends = is_finalizing()
    if ends and load.thread != get_ident():
        return True
    if load.task is None:
        return False
    task = load.task()
    return task is None or task.done() or task.get_loop().is_closed() or ends and not task.get_loop().is_running()


def _awaited_by(future: asyncio.Future[Any]) -> List[Who]:
    """The tasks and futures that asyncio goes on with only once this one is done, as far as it tells, and a thread that runs a loop for it."""
    known = getattr(future, "_asyncio_awaited_by", None)  # from Python 3.14 on
    found: List[Who] = list(known) if known else []
    for callback, *_ in getattr(future, "_callbacks", None) or ():
        found.extend(_set_by(callback, future))
    return found


def _set_by(callback: Any, future: asyncio.Future[Any]) -> Iterator[Who]:
    """What a callback of asyncio's own wakes or sets as the future is done: of a task that awaits it, and of gather, shield, wait,
    wait_for, TaskGroup and run_until_complete."""
    owner: Any = getattr(callback, "__self__", None)
    if getattr(owner, "_fut_waiter", None) is future:
        yield owner
    elif isinstance(callback, functools.partial):
        # wait_for, below Python 3.12.
        yield from (given for given in callback.args if asyncio.isfuture(given))
    elif "run_until_complete" in str(getattr(callback, "__qualname__", "")):
        yield from _run_by(future.get_loop())
    elif _is_asyncio_s(type(owner)) and asyncio.isfuture(getattr(owner, "_parent_task", None)):
        yield owner._parent_task
    elif _is_asyncio_s(callback) and hasattr(callback, "__code__"):
        # The names are those of asyncio.tasks. A wait for the first of several may end without this one.
        cells = {name: cell.cell_contents for name, cell in zip(callback.__code__.co_freevars, callback.__closure__ or ())}
        if cells.get("return_when", asyncio.ALL_COMPLETED) == asyncio.ALL_COMPLETED:
            yield from (cells[name] for name in ("outer", "waiter") if asyncio.isfuture(cells.get(name)))


def _run_by(loop: Loop) -> Iterator[Who]:
    """The thread that runs the loop. Of a loop that isn't asyncio's own only this thread knows."""
    thread = getattr(loop, "_thread_id", None) or asyncio._get_running_loop() is loop and get_ident()
    if thread:
        yield (thread,)


def _is_asyncio_s(what: Any) -> bool:
    return str(getattr(what, "__module__", None)).startswith("asyncio.")
