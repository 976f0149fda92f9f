"""In a forked child the other threads aren't there, so their loads have failed."""
from __future__ import annotations

import os
import threading
import weakref
from typing import Any, List

from ._native import Table

# By their id(): a subclass may have an equality of its own, or no hash.
_caches: weakref.WeakValueDictionary[int, Table[Any, Any]] = weakref.WeakValueDictionary()


def watch(cache: Table[Any, Any]) -> None:
    """Ends other threads' loads of this cache in a forked child, too."""
    _caches[id(cache)] = cache


def caches() -> List[Table[Any, Any]]:
    """Returns the caches of this process."""
    return list(_caches.values())


def _after_in_child() -> None:
    ended = SystemExit("the thread that made the load is not in this process")
    for cache in caches():
        cache._end_sweeps()
        for _, _, load in cache._uses():
            if load is not None and load.thread != threading.get_ident():
                # A task of this thread that waits for it asks again.
                cache._fail(load, ended)


if hasattr(os, "register_at_fork"):
    os.register_at_fork(after_in_child=_after_in_child)
