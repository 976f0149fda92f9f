#!/usr/bin/env python3
"""Finalizers and signal handlers, which Python runs in the midst of a call's callbacks, and what gc collects."""
import asyncio
import collections
import gc
import random
import signal
import sys
import threading
import unittest
import weakref

from rookdresser import Cache, Refused, WaitsForItself
from threads import CacheTest, together, within_a_minute


class Circle:
    """Something that gc alone finds."""

    def __init__(self, **of):
        self.me = self
        vars(self).update(of)


class Finalizers(CacheTest):
    def test_a_finalizer_that_gc_runs_at_any_allocation_may_use_the_cache(self):
        now, dropped = [0], []
        # With gc at each allocation a debug build takes a tenth of a second for each.
        rounds = 250 if hasattr(sys, "gettotalrefcount") else 3000

        class Value:
            def __init__(self, key):
                self.me, self.key = self, key

            def __del__(self):
                dropped.append(cache.drop("x"))
                cache.look(self.key)
                cache.get_or_load(len(dropped) % 7, lambda key: 1)
                cache.put("x", 1)

        class Key(int):
            def __eq__(self, other):
                return [int(self)] == [int(other)]

            def __hash__(self):
                return int(self) % 3

        def fails(key):
            raise KeyError

        cache = Cache(entries=10, after_write=900, refresh=30, clock=lambda: now[0], on_leave=lambda *of: list(of))

        def work():
            before = gc.get_threshold()
            gc.set_threshold(1, 1, 1)
            try:
                for i in range(rounds):
                    now[0] += 1
                    cache.put(Key(i % 13), Value(Key(i % 11)))
                    cache.get_or_load(Key(i % 17), Value)
                    try:
                        cache.get_or_load(Key(i % 29), fails)
                    except KeyError:
                        pass
                    cache.look(Key(i % 5))
                    cache.forget(Key(i % 3))
                cache.clear()
            finally:
                gc.set_threshold(*before)
            gc.collect()

        within_a_minute(work)
        self.assertGreater(len(dropped), rounds)
        self.assertEqual(set(dropped), {True, False})
        self.holds_exactly(cache)

    def test_a_circle_through_the_cache_is_collected(self):
        class Value:
            pass

        gone = []
        for close in (False, True):
            value = Value()
            value.cache = Cache(entries=10, on_leave=lambda *of, value=value: None, clock=lambda value=value: 0)
            value.cache.put("a", value)
            value.cache.put(value, 1)
            if close:
                value.cache.close()
            weakref.finalize(value, gone.append, 1)
            weakref.finalize(value.cache, gone.append, 2)
            del value
            gc.collect()
        self.assertEqual(gone, [2, 1] * 2 if gone[0] == 2 else [1, 2] * 2)

    def test_a_finalizer_may_use_the_cache_as_it_closes(self):
        cache, told = Cache(entries=10), []

        class Value:
            def __del__(self):
                try:
                    cache.look("x")
                except Refused as error:
                    told.append(error.fault)

        cache.put("a", Value())
        within_a_minute(cache.close)
        gc.collect()
        self.assertEqual(told, [100])

    def test_finalizers_and_weak_references_of_four_threads_make_every_call(self):
        cache, wrong, kept = Cache(entries=20, after_write=30, refresh=10, on_leave=lambda *of: None), [], collections.deque(maxlen=300)
        used = collections.Counter()

        def call(rng):
            key, what = rng.randrange(40), rng.randrange(12)
            calls = (lambda: cache.put(key, ("v", key)), lambda: cache.drop(key), lambda: cache.forget(key), lambda: cache.look(key),
                     lambda: cache.get_or_load(key, lambda key: ("v", key)), cache.clean, cache.stats, lambda: key in cache,
                     lambda: cache.setdefault(key, ("v", key)), lambda: cache.peek(key), lambda: cache and cache.popitem(), lambda: dict(cache.items()))
            used[what] += 1
            try:
                value = calls[what]()
            except WaitsForItself:
                return  # it runs in a thread that loads the key
            except KeyError as error:
                self.assertEqual((what, error.args), (10, ("the cache is empty",)))
                return
            except BaseException as error:
                wrong.append(error)
                return
            if what in (3, 4, 8, 9) and value not in (None, ("v", key)):
                wrong.append(value)
            if what == 11 and any(value != ("v", key) for key, value in value.items()):
                wrong.append(value)

        class Bomb:
            def __init__(self, rng):
                self.me, self.rng = self, rng

            def __del__(self):
                call(self.rng)

        def work(seed):
            rng = random.Random(seed)
            for _ in range(1500):
                Bomb(rng)
                kept.append(weakref.ref(Circle(), lambda _: call(rng)))
                key = rng.randrange(40)
                if cache.get_or_load(key, lambda key: ("v", key)) != ("v", key):
                    wrong.append(key)
                cache.put(key, ("v", key))
                cache.look(key)

        before = gc.get_threshold()
        gc.set_threshold(1, 2, 2)
        try:
            within_a_minute(lambda: together(4, work))
        finally:
            gc.set_threshold(*before)
        gc.collect()
        self.assertEqual((wrong, set(used)), ([], set(range(12))))
        self.holds_exactly(cache)

    def test_a_coroutine_that_gc_closes_in_a_call_s_callback_leaves_its_load_to_the_others(self):
        cache, got, other = Cache(entries=10, weigh=lambda key, value: gc.collect() and 1 or 1), [], Circle()

        async def begin():
            other.coroutine = cache.aget_or_load("a", lambda key: asyncio.Event().wait())
            other.coroutine.send(None)

        asyncio.run(begin())
        waiter = threading.Thread(target=lambda: got.append(cache.get_or_load("a", lambda key: "asked again")))
        gc.disable()
        waiter.start()
        while cache.stats().joins < 1 and waiter.is_alive():
            pass
        del other
        cache.put("b", 1)
        gc.enable()
        within_a_minute(waiter.join)
        self.assertEqual(got, ["asked again"])
        self.holds_exactly(cache, 2)

    def test_a_callback_may_step_a_task_whose_load_then_lands(self):
        loop, got, steps = asyncio.new_event_loop(), [], []

        def weigh(key, value):
            if key == "b":
                steps.append(1)
                go.set()
                got.append(loop.run_until_complete(task))
            return 1

        cache = Cache(entries=10, weigh=weigh)

        async def begin():
            return asyncio.Event()

        go = loop.run_until_complete(begin())

        async def load(key):
            await go.wait()
            return 7

        task = loop.create_task(cache.aget_or_load("a", load))
        loop.run_until_complete(asyncio.sleep(0))
        within_a_minute(lambda: cache.put("b", 1))
        loop.close()
        self.assertEqual((got, cache.look("a"), cache.look("b")), ([7], 7, 1))
        self.holds_exactly(cache, 2)

    @unittest.skipUnless(hasattr(signal, "setitimer"), "there are no timers here")
    def test_finalizers_of_one_cache_and_a_handler_of_another_hang_nothing(self):
        one, other, stop, struck = Cache(entries=50), Cache(entries=50), threading.Event(), []

        class Bomb:
            def __init__(self):
                self.me = self

            def __del__(self):
                other.look(1)

        def work():
            for i in range(20_000):
                one.put(i % 90, Bomb())
            stop.set()

        def handler(*_):
            struck.append(1)
            one.look(1)

        before, thresholds = signal.signal(signal.SIGALRM, handler), gc.get_threshold()
        gc.set_threshold(5, 2, 2)
        signal.setitimer(signal.ITIMER_REAL, 0.001, 0.0003)
        try:
            worker = threading.Thread(target=work)
            worker.start()
            i = 0
            while not stop.is_set() or len(struck) < 20:
                i += 1
                other.put(i % 90, i)
            worker.join()
        finally:
            signal.setitimer(signal.ITIMER_REAL, 0)
            signal.signal(signal.SIGALRM, before)
            gc.set_threshold(*thresholds)
        gc.collect()
        self.holds_exactly(one)
        self.holds_exactly(other)


if __name__ == "__main__":
    unittest.main()
