#!/usr/bin/env python3
"""The calls on a whole cache let other threads run: they go shard by shard, and by slices of a thousand entries.

What happens between two slices is a hook's: the function that each such call runs there.
"""
import gc
import os
import sys
import threading
import unittest
import weakref
from unittest import mock

from rookdresser import Cache, Closed, OutOfMemory, _cache
from test_memory import refuse_after
from test_processes import forked
from threads import CacheTest, within_a_minute

try:
    import _testcapi
except ImportError:
    _testcapi = None
MANY = 5000


class Value:
    pass


class Slices(CacheTest):
    """Caches of two shards, in each of which a call takes out some 2,500 entries: three slices."""

    def setUp(self):
        self.now, self.told, self.between = 0, [], lambda: None
        patch = mock.patch.object(_cache, "_pause", lambda: self.between())
        patch.start()
        self.addCleanup(patch.stop)

    def cache(self, entries=MANY, shards=2, **settings):
        cache = Cache(entries=entries, shards=shards, adaptive=False, after_write=10, clock=lambda: self.now, **settings)
        for key in range(entries):
            cache.put(key, key)
        return cache

    def full(self):
        # Of two shards one may be full before all have been put.
        return self.cache(on_leave=lambda *of: self.told.append(of) if of[2] != "size" else None)

    def at_hook(self, n, work):
        """At the nth hook work() is done, whose own hooks do nothing, as do those that follow."""
        left = [n]

        def count():
            left[0] -= 1
            if left[0] == 0:
                self.between = lambda: None
                work()

        self.between = count

    def counts(self, of):
        """How many entries there are, and how many were told of, at each hook."""
        seen = []
        self.between = lambda: seen.append(of())
        return seen

    def sweeps(self, cache):
        """Each call that takes out every entry, by name: with the cause of those that leave."""
        def clean():
            self.now = 10
            cache.clean()

        return {"clear": (cache.clear, "explicit"), "clean": (clean, "expired"), "close": (cache.close, "explicit")}

    def test_what_leaves_is_told_by_a_thousand_at_a_time_and_other_threads_run_between(self):
        for name in ("clear", "clean", "close"):
            self.now, self.told = 0, []
            cache = self.full()
            kept = len(cache)
            seen = self.counts(lambda: len(self.told))
            call, cause = self.sweeps(cache)[name]
            call()
            steps = [after - before for before, after in zip([0, *seen], [*seen, kept])]
            self.assertLessEqual(max(steps), 1100, name)
            self.assertGreaterEqual(len(seen), kept // 1100, name)
            self.assertEqual((len(self.told), len({key for key, _, _ in self.told})), (kept, kept), name)
            self.assertEqual({of for _, _, of in self.told}, {cause}, name)
            self.assertEqual(cache.kept(), (0, 0), name)

    def test_lists_are_made_by_a_thousand_at_a_time_and_other_threads_run_between(self):
        cache = self.cache()
        for view in (cache.keys(), cache.values(), cache.items(), cache):
            paused = self.counts(lambda: 1)
            listed = list(view)
            self.assertGreaterEqual(len(paused), len(cache) // 1100)
            self.assertEqual((len(listed), len(set(listed))), (len(cache),) * 2)

    def test_a_small_cache_is_listed_and_cleared_at_one_moment(self):
        cache = self.cache(entries=1000, shards=1)
        paused = self.counts(lambda: 1)
        self.assertEqual(len(list(cache.keys())), 1000)
        cache.clear()
        self.assertEqual((paused, len(cache)), ([], 0))

    def test_another_thread_goes_on_while_a_cache_of_a_hundred_thousand_is_emptied_and_listed(self):
        # The function that lets others run is the package's own here.
        mock.patch.stopall()
        cache, stop, rounds = self.cache(entries=100_000), threading.Event(), [0]

        def work():
            while not stop.is_set():
                rounds[0] += 1

        busy = threading.Thread(target=work)
        busy.start()
        self.addCleanup(busy.join)
        self.addCleanup(stop.set)
        for call in (lambda: list(cache.items()), cache.clear):
            before = rounds[0]
            # One call may be over before it is the other's turn.
            while rounds[0] - before < 10:
                call()

    def test_what_is_stored_while_a_cache_is_cleared_may_stay_and_is_whole(self):
        cache = self.full()
        stored = []

        def store():
            stored.append("new %d" % len(stored))
            cache.put(stored[-1], 1)
            # A key that has left the library already, or not yet.
            cache.put(len(stored), "again")

        self.between = store
        cache.clear()
        self.between = lambda: None
        left = {key for key, _, cause in self.told}
        self.assertEqual(left | set(cache.keys()), left | set(stored) | set(range(1, len(stored) + 1)))
        for key in cache.keys():
            self.assertIn(cache.look(key), (1, "again"))
        self.assertEqual(len(list(cache.keys())), len(cache))
        self.holds_exactly(cache)
        cache.clear()
        self.holds_exactly(cache, 0)

    def test_a_key_that_was_stored_again_meanwhile_is_listed_and_popped_once_with_its_new_value(self):
        cache, seen = self.cache(), []

        def again():
            for key in range(MANY):
                cache.put(key, "new")
            pairs = list(cache.items())
            seen.append((len(pairs), len(set(pairs)), {value for _, value in pairs}, len(cache)))

        self.at_hook(1, again)
        cache.clear()
        (pairs, keys, values, length), = seen
        self.assertEqual((pairs, keys, values), (length, length, {"new"}))
        while len(cache):
            self.assertEqual(cache.popitem()[1], "new")
        self.holds_exactly(cache, 0)

    def test_a_listener_may_add_entries_and_clear_while_the_cache_is_cleared(self):
        def on_leave(key, value, cause):
            told.append(key)
            if len(told) % 500 == 0:
                cache.put(("new", len(told)), 1)
            if len(told) == 1500:
                cache.clear()

        told = []
        cache = self.cache(on_leave=on_leave)
        del told[:]
        kept = len(cache)
        cache.clear()
        self.assertGreaterEqual(len(told), kept)
        self.assertEqual(len(set(told)), len(told))
        self.holds_exactly(cache)

    def test_another_thread_may_clear_clean_or_close_between_two_slices(self):
        for outer in ("clear", "clean", "close"):
            for inner in ("clear", "clean", "close"):
                for at in range(1, 8):
                    self.now, self.told = 0, []
                    cache = self.full()
                    kept = len(cache)
                    refused = []

                    def call():
                        try:
                            within_a_minute(self.sweeps(cache)[inner][0])
                        except Closed:
                            refused.append(inner)

                    self.at_hook(at, call)
                    try:
                        self.sweeps(cache)[outer][0]()
                    except Closed:
                        # It was closed before the first shard was swept.
                        refused.append(outer)
                    self.between = lambda: None
                    if inner != "close" and outer != "close":
                        self.assertEqual(refused, [])
                    title = outer, inner, at
                    self.assertEqual((len(self.told), len({key for key, _, _ in self.told})), (kept, kept), title)
                    self.assertEqual(cache.kept(), (0, 0), title)

    def test_a_list_of_a_cache_that_is_closed_meanwhile_is_refused(self):
        for view in ("keys", "values", "items"):
            cache = self.cache()
            self.at_hook(2, cache.close)
            with self.assertRaises(Closed):
                list(getattr(cache, view)())

    def test_what_is_there_all_the_time_is_listed_once_while_others_come_and_go(self):
        cache, turn = self.cache(entries=20_000, shards=1), [0]
        always = range(0, 20_000, 2)

        def change():
            turn[0] += 1
            for key in range(1, 20_000, 20):
                cache.drop(key + turn[0] % 10 * 2) if turn[0] % 2 else cache.put(key + turn[0] % 10 * 2, -1)

        self.between = change
        listed = list(cache.keys())
        self.assertGreater(turn[0], 10)
        self.assertEqual(len(listed), len(set(listed)))
        self.assertLessEqual(set(always), set(listed))

    def test_a_listener_that_is_told_to_exit_lets_the_other_slices_be_told(self):
        told = []

        def on_leave(key, value, cause):
            if cause == "size":
                return
            told.append(key)
            if len(told) == 10:
                raise SystemExit("the first")
            if len(told) == 2000:
                raise SystemExit("another")

        for call in ("clear", "close"):
            cache = self.cache(on_leave=on_leave)
            del told[:]
            kept = len(cache)
            with self.assertRaises(SystemExit) as raised:
                getattr(cache, call)()
            self.assertEqual((str(raised.exception), len(told), cache.kept()), ("the first", kept, (0, 0)))

    def test_an_interrupt_between_two_slices_is_raised_at_the_end_of_a_sweep_and_at_once_from_a_list(self):
        for call in ("clear", "clean", "close"):
            self.now, self.told = 0, []
            cache = self.full()
            kept = len(cache)
            self.at_hook(2, self.interrupt)
            with self.assertRaises(KeyboardInterrupt):
                self.sweeps(cache)[call][0]()
            self.assertEqual((len(self.told), cache.kept()), (kept, (0, 0)), call)
        self.now = 0
        cache = self.cache()
        self.at_hook(2, self.interrupt)
        with self.assertRaises(KeyboardInterrupt):
            list(cache.items())

    def interrupt(self):
        raise KeyboardInterrupt

    def test_a_hook_that_is_refused_memory_ends_nothing(self):
        def refused():
            raise MemoryError

        cache = self.full()
        self.between = refused
        kept = len(cache)
        self.assertEqual(len(list(cache.keys())), kept)
        cache.clear()
        self.assertEqual((len(self.told), cache.kept()), (kept, (0, 0)))

    def test_a_cache_that_is_dropped_frees_all_that_it_held(self):
        for collected in (False, True):
            live = weakref.WeakSet()
            cache = self.cache()
            for key in range(MANY):
                value = Value()
                live.add(value)
                if collected:
                    value.cache = cache
                cache.put(key, value)
            del value
            self.assertEqual(len(live), len(cache))
            del cache
            gc.collect()
            self.assertEqual(len(live), 0)

    def test_finalizers_may_use_a_cache_that_gc_takes_apart(self):
        told, refused = [], []

        class Finalized:
            def __init__(self, cache):
                self.cache = cache

            def __del__(self):
                self.cache.close()
                for call in (self.cache.clear, self.cache.keys().__iter__):
                    try:
                        call()
                    except Closed:
                        refused.append(call)

        cache = self.cache(on_leave=lambda *of: told.append(of[0]))
        for key in range(0, MANY, 100):
            cache.put(key, Finalized(cache))
        kept = len(cache)
        del told[:], cache
        gc.collect()
        self.assertEqual((len(told), len(set(told)), len(refused)), (kept, kept, 2 * (MANY // 100)))

    @unittest.skipUnless(hasattr(os, "fork"), "there is no fork here")
    def test_a_child_that_another_thread_forks_between_two_slices_has_a_whole_cache(self):
        for name in ("clear", "clean"):
            self.now, ended = 0, []
            cache = self.full()
            self.at_hook(3, lambda: within_a_minute(lambda: ended.append(forked(lambda: self.is_whole(cache)))))
            self.sweeps(cache)[name][0]()
            self.assertEqual(ended, [0], name)
            self.holds_exactly(cache, 0)

    @unittest.skipUnless(hasattr(os, "fork"), "there is no fork here")
    def test_a_child_that_is_forked_between_two_slices_goes_on_with_the_call(self):
        for name in ("clear", "clean", "close"):
            self.now, self.told, pids = 0, [], []
            cache = self.full()
            kept = len(cache)
            self.at_hook(3, lambda: pids.append(os.fork()))
            self.sweeps(cache)[name][0]()
            is_right = len(self.told) == kept and cache.kept() == (0, 0)
            if pids[0] == 0:
                os._exit(0 if is_right else 1)
            self.assertEqual((os.waitpid(pids[0], 0)[1], is_right), (0, True), name)

    def is_whole(self, cache):
        numbers = cache.numbers()
        self.assertEqual(cache.kept(), (numbers["entries"],) * 2)
        self.assertEqual(len(cache), numbers["entries"])
        cache.put("child", 1)
        self.assertEqual(cache.look("child"), 1)
        cache.clear()
        self.assertEqual(cache.kept(), (0, 0))
        return 0

    @unittest.skipUnless(hasattr(_testcapi, "set_nomemory"), "this Python has no _testcapi")
    @unittest.skipIf(sys.version_info >= (3, 12), "CPython itself crashes: cpython_faults.py shows it without this package")
    def test_a_sweep_that_is_refused_memory_is_made_all_the_same(self):
        for call in ("clear", "close"):
            for n in range(12):
                cache = self.cache()
                try:
                    _testcapi.set_nomemory(n, n + 1)
                    try:
                        getattr(cache, call)()
                    finally:
                        _testcapi.remove_mem_hooks()
                except MemoryError:
                    # The clock's moment is a new object.
                    self.assertGreater(len(cache), 0)
                    continue
                self.assertEqual(cache.kept(), (0, 0))

    @unittest.skipUnless(hasattr(_testcapi, "set_nomemory"), "this Python has no _testcapi")
    @unittest.skipIf(sys.version_info >= (3, 12), "CPython itself crashes: cpython_faults.py shows it without this package")
    def test_a_list_that_is_refused_memory_keeps_nothing(self):
        live, refused = weakref.WeakSet(), 0
        cache = Cache(entries=MANY)
        for key in range(MANY):
            value = Value()
            live.add(value)
            cache.put(key, value)
        del value
        for n in range(400):
            try:
                _testcapi.set_nomemory(n, 0)
                try:
                    cache._pairs()
                finally:
                    _testcapi.remove_mem_hooks()
            except MemoryError:
                refused += 1
        self.assertEqual(refused, 400)
        cache.clear()
        self.assertEqual(len(live), 0)

    @unittest.skipUnless(refuse_after, "the module was built without refusal.c")
    def test_a_sweep_whose_library_is_refused_memory_takes_out_the_shards_before_or_nothing(self):
        for n in range(4):
            cache = self.full()
            kept, self.told = len(cache), []
            refuse_after(n)
            try:
                cache.clear()
            except OutOfMemory:
                pass
            refuse_after(-1)
            self.assertEqual((len(self.told) + len(cache)), kept)
            self.holds_exactly(cache)
            cache.clear()
            self.assertEqual(len(self.told), kept)


if __name__ == "__main__":
    unittest.main()
