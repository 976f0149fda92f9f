#!/usr/bin/env python3
"""Caches that are cleaned by time, by the one thread for all of them or by a task. The caches' own clocks are put forward by hand."""
import asyncio
import gc
import logging
import os
import signal
import subprocess
import sys
import threading
import unittest
import weakref
from datetime import timedelta
from unittest import mock

from rookdresser import BadSetup, Cache, _cleaner
from test_processes import forked
from threads import CacheTest, within_a_minute

HERE = os.path.dirname(os.path.abspath(__file__))


class Told:
    """An on_leave that counts, and whose count can be waited for."""

    def __init__(self):
        self.count, self.changed = 0, threading.Condition()

    def __call__(self, key, value, cause):
        with self.changed:
            self.count += 1
            self.changed.notify_all()

    def wait(self, count):
        with self.changed:
            if not self.changed.wait_for(lambda: self.count >= count, 60):
                raise AssertionError("%d of %d were told" % (self.count, count))


class Cleaner(CacheTest):
    def setUp(self):
        self.now = 0
        logging.getLogger("rookdresser").setLevel(logging.CRITICAL + 1)

    def tearDown(self):
        logging.getLogger("rookdresser").setLevel(logging.NOTSET)

    def cache(self, on_leave=None, **settings):
        cache = Cache(entries=100, after_write=10, on_leave=on_leave, **{"clock": lambda: self.now, **settings})
        self.addCleanup(cache.close)
        return cache

    def expires(self, cache, told):
        """Puts an entry that has expired, and waits until on_leave was told of it."""
        before = told.count
        cache.put("a", 1)
        self.now += 10
        told.wait(before + 1)

    def rounds(self, count):
        """Waits until the thread has cleaned a cache that is due each millisecond so many times."""
        told = Told()
        cache = self.cache(told)
        cache.clean_every(1)
        for _ in range(count):
            self.expires(cache, told)
        cache.close()

    def test_an_idle_cache_holds_nothing_after_its_duration_and_one_period(self):
        told = Told()
        cache = self.cache(told)
        cache.clean_every(timedelta(milliseconds=1))
        for key in range(50):
            cache.put(key, key)
        self.assertEqual(len(cache), 50)
        self.now += 10
        told.wait(50)
        self.holds_exactly(cache, 0)

    def test_one_thread_cleans_all_caches_of_the_process(self):
        self.rounds(1)
        before = threading.enumerate()
        tolds = [Told() for _ in range(10)]
        for told in tolds:
            cache = self.cache(told)
            cache.clean_every(1)
            cache.put("a", 1)
        self.now += 10
        for told in tolds:
            told.wait(1)
        self.assertEqual(set(threading.enumerate()) - set(before), set())
        self.assertIn("rookdresser-cleaner", {thread.name for thread in before})

    def test_a_cache_that_nobody_asked_to_clean_is_not(self):
        cache = self.cache()
        cache.put("a", 1)
        self.now += 10
        self.rounds(5)
        self.assertEqual(cache.kept(), (1, 1))

    def test_the_latest_period_counts_and_0_is_never(self):
        asked = [0]

        def clock():
            asked[0] += 1
            return 0

        cache = self.cache(clock=clock)
        for _ in range(100):
            cache.clean_every(3_600_000)
        cache.clean_every(1)
        cache.clean_every(0)
        self.rounds(5)
        before = asked[0]
        self.rounds(5)
        self.assertEqual(asked[0], before)

    def test_a_cache_that_is_closed_or_dropped_is_no_longer_cleaned_and_not_kept(self):
        closed, dropped = self.cache(), Cache(entries=10)
        for cache in (closed, dropped):
            cache.clean_every(1)
        self.rounds(3)
        closed.close()
        gone = weakref.ref(dropped)
        del cache, dropped
        self.rounds(3)
        gc.collect()
        self.assertIsNone(gone())
        # Nobody has asked for the closed one since.
        self.assertEqual(closed.refused().get(100, 0), 1)

    def test_callbacks_that_raise_or_exit_keep_no_cache_from_being_cleaned(self):
        def told_to_exit(*_):
            raise SystemExit

        def raises():
            raise KeyError

        for settings in ({"clock": raises}, {"clock": told_to_exit}, {"clock": lambda: "no number"}, {"on_leave": told_to_exit}):
            told = Told()
            wrong, right = self.cache(**settings), self.cache(told)
            for cache in (wrong, right):
                cache.clean_every(1)
            if "on_leave" in settings:
                wrong.put("a", 1)
            for _ in range(3):
                self.expires(right, told)
            self.assertEqual(len(wrong), 0)

    def test_a_listener_that_blocks_stops_no_call_of_another_thread(self):
        begun, may_end = threading.Event(), threading.Event()
        cache = self.cache(lambda *_: (begun.set(), may_end.wait()))
        self.addCleanup(may_end.set)
        cache.put("a", 1)
        self.now += 10
        cache.clean_every(1)
        self.assertTrue(begun.wait(60))
        cache.put("b", 2)
        self.assertEqual(cache.look("b"), 2)
        within_a_minute(lambda: self.cache().clean_every(5))
        may_end.set()

    def test_a_listener_may_use_and_close_its_cache(self):
        told = Told()

        def on_leave(key, value, cause):
            cache.clean_every(7)
            cache.close()
            told(key, value, cause)

        cache = self.cache(on_leave)
        cache.put("a", 1)
        self.now += 10
        cache.clean_every(1)
        told.wait(1)
        self.rounds(2)
        self.assertEqual(told.count, 1)

    def test_a_finalizer_and_a_signal_handler_may_ask_for_it(self):
        cache = self.cache()

        class Finalized:
            def __del__(self):
                cache.clean_every(5)

        before = signal.signal(signal.SIGUSR1, lambda *_: cache.clean_every(5))
        self.addCleanup(signal.signal, signal.SIGUSR1, before)
        for _ in range(200):
            cache.clean_every(5)
            Finalized()
            os.kill(os.getpid(), signal.SIGUSR1)
        self.rounds(2)

    def test_a_duration_that_is_none_is_refused(self):
        cache = self.cache()
        for wrong in ("1", 1.5, None):
            with self.assertRaises(TypeError):
                cache.clean_every(wrong)
            with self.assertRaises(TypeError):
                cache.aclean_every(wrong)
        for wrong in (-1, 1 << 64, timedelta(milliseconds=-1)):
            with self.assertRaises(BadSetup):
                cache.clean_every(wrong)
        with self.assertRaises(ValueError):
            cache.aclean_every(0)

    def test_a_thread_that_can_not_be_started_is_told_and_tried_again(self):
        with mock.patch.object(_cleaner, "cleaner", _cleaner.Cleaner()):
            told = Told()
            cache = self.cache(told)
            with mock.patch.object(threading.Thread, "start", side_effect=RuntimeError("can't start new thread")):
                with self.assertRaises(RuntimeError):
                    cache.clean_every(1)
            cache.clean_every(1)
            self.expires(cache, told)

    @unittest.skipUnless(hasattr(os, "fork"), "there is no fork here")
    def test_a_forked_child_and_its_child_clean_their_caches(self):
        told = Told()
        cache = self.cache(told)
        cache.clean_every(1)
        self.expires(cache, told)

        def child():
            self.expires(cache, told)
            return 0

        def child_and_its_child():
            child()
            return forked(child)

        for _ in range(10):
            self.assertEqual(forked(child_and_its_child), 0)
        self.expires(cache, told)

    def test_the_interpreter_ends_beside_the_thread(self):
        program = """
from rookdresser import Cache
caches = [Cache(entries=10_000) for _ in range(5)]
for cache in caches:
    cache.clean_every(1)
    for key in range(5000): cache.put(key, key)
print("end")
"""
        for _ in range(5):
            run = subprocess.run([sys.executable, "-c", program], capture_output=True, text=True, cwd=HERE, timeout=60)
            self.assertEqual((run.returncode, run.stdout, run.stderr), (0, "end\n", ""))


class Tasks(CacheTest):
    def setUp(self):
        self.now = 0

    def cache(self, **settings):
        return Cache(entries=100, shards=4, after_write=10, clock=lambda: self.now, **settings)

    def test_a_task_cleans_an_idle_cache_until_it_is_closed(self):
        async def main():
            told = asyncio.Event()
            cache = self.cache(on_leave=lambda *_: told.set())
            task = asyncio.create_task(cache.aclean_every(1))
            for _ in range(3):
                told.clear()
                for key in range(50):
                    cache.put(key, key)
                self.now += 10
                await told.wait()
                while len(cache):
                    await asyncio.sleep(0)
            cache.close()
            await task

        asyncio.run(asyncio.wait_for(main(), 60))

    def test_a_task_keeps_no_cache_and_ends_with_it_or_is_cancelled(self):
        async def main():
            cache = self.cache()
            gone = weakref.ref(cache)
            ends, stays = (asyncio.create_task(of.aclean_every(1)) for of in (cache, kept))
            await asyncio.sleep(0.01)
            del cache
            await ends
            gc.collect()
            self.assertIsNone(gone())
            self.assertFalse(stays.done())
            stays.cancel()
            with self.assertRaises(asyncio.CancelledError):
                await stays

        kept = self.cache()
        asyncio.run(asyncio.wait_for(main(), 60))

    def test_what_a_callback_raises_is_logged_and_the_task_goes_on(self):
        async def main():
            told = asyncio.Event()

            def clock():
                if self.now == 5:
                    raise KeyError
                return self.now

            cache = Cache(entries=100, after_write=10, clock=clock, on_leave=lambda *_: told.set())
            cache.put("a", 1)
            self.now = 5
            with self.assertLogs("rookdresser") as logs:
                task = asyncio.create_task(cache.aclean_every(1))
                while not logs.records:
                    await asyncio.sleep(0)
            self.now += 10
            await told.wait()
            task.cancel()

        asyncio.run(asyncio.wait_for(main(), 60))


if __name__ == "__main__":
    unittest.main()
