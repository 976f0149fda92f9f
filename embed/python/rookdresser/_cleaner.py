"""Cleans caches by time: one thread for all caches of a process, or a task."""
from __future__ import annotations

import asyncio
import heapq
import itertools
import logging
import os
import threading
import time
import weakref
from queue import Empty, SimpleQueue
from typing import TYPE_CHECKING, Any, List, Tuple

from . import _fork
from ._faults import Closed

if TYPE_CHECKING:
    from ._cache import Cache

log = logging.getLogger("rookdresser")
LONGEST_WAIT = 3600.0  # seconds, after which the thread looks again


class Every:
    """How often a cache is to be cleaned. The cache keeps the latest one, and the thread passes over any other."""

    __slots__ = ("cache", "seconds")

    def __init__(self, cache: Cache[Any, Any], seconds: float) -> None:
        # Weak, as a cache that nobody uses any more is neither cleaned nor kept.
        self.cache, self.seconds = weakref.ref(cache), seconds


class Cleaner:
    """The thread that cleans, which begins with the first cache. It alone has the list of what is due; others write into a queue, which a
    finalizer and a signal handler may do at any moment."""

    def __init__(self) -> None:
        self.asked: SimpleQueue[Every] = SimpleQueue()
        self.starts = itertools.count()

    def ask(self, every: Every) -> None:
        """Has a cache cleaned from now on. Raises RuntimeError if no thread can be started."""
        self.asked.put(every)
        if next(self.starts) == 0:
            try:
                threading.Thread(target=self.run, args=(self.asked,), name="rookdresser-cleaner", daemon=True).start()
            except BaseException:
                self.starts = itertools.count()
                raise

    def run(self, asked: SimpleQueue[Every]) -> None:
        """Cleans each cache as it is due, for ever. The next time counts from the end of a cleaning."""
        due: List[Tuple[float, int, Every]] = []
        for turn in itertools.count():
            wait = due[0][0] - time.monotonic() if due else LONGEST_WAIT
            try:
                every = asked.get(timeout=min(max(wait, 0), LONGEST_WAIT))
            except Empty:
                if not due or due[0][0] > time.monotonic():
                    continue
                every = heapq.heappop(due)[2]
                if not clean(every):
                    continue
            heapq.heappush(due, (time.monotonic() + every.seconds, turn, every))
            del every

    def start_in_child(self) -> None:
        """In a forked child the thread isn't there, and another one may have held the queue."""
        self.__init__()  # type: ignore[misc]
        for cache in _fork.caches():
            every = getattr(cache, "_every", None)
            if every is not None:
                self.ask(every)


def clean(every: Every) -> bool:
    """Cleans the cache, and returns whether it is to be cleaned again. What a callback of the cache raises is logged."""
    cache = every.cache()
    if cache is None or cache._every is not every:
        return False
    try:
        cache.clean()
    except Closed:
        return False
    except BaseException as error:
        log.error("a cache couldn't be cleaned", exc_info=error)
    return True


async def clean_in_loop(every: Every) -> None:
    """Cleans the cache in this task until it is closed or dropped, shard by shard, and lets other tasks run between."""
    while True:
        await asyncio.sleep(every.seconds)
        shard, shards = 0, 1
        while shard < shards:
            cache = every.cache()
            if cache is None:
                return
            try:
                shards = cache._shards
                cache._clean_shard(shard)
            except Closed:
                return
            except Exception as error:
                log.error("a cache couldn't be cleaned", exc_info=error)
            shard += 1
            # The sleeping task keeps no cache.
            del cache
            await asyncio.sleep(0)


cleaner = Cleaner()
if hasattr(os, "register_at_fork"):
    os.register_at_fork(after_in_child=cleaner.start_in_child)
