#!/usr/bin/env python3
"""Refreshes that an executor or a task makes: the caller of a due entry gets the old value at once."""
import asyncio
import logging
import threading
import unittest
from concurrent.futures import Future, ThreadPoolExecutor

from rookdresser import Cache, cached
from test_processes import forked
from threads import CacheTest, never, wait_for_joins, within_a_minute


class Jobs:
    """An executor whose jobs wait until they are run by hand."""

    def __init__(self):
        self.jobs = []

    def submit(self, work, *given):
        job = Future()
        self.jobs.append((job, work, given))
        return job

    def run(self):
        job, work, given = self.jobs.pop(0)
        if job.set_running_or_notify_cancel():
            try:
                job.set_result(work(*given))
            except BaseException as error:
                job.set_exception(error)


class Refreshes(CacheTest):
    def setUp(self):
        self.now, self.jobs = 0, Jobs()
        logging.getLogger("rookdresser").setLevel(logging.CRITICAL)
        self.addCleanup(logging.getLogger("rookdresser").setLevel, logging.NOTSET)

    def due(self, refresh_with=None, **settings):
        """A cache with an entry that is due."""
        self.now = 0
        cache = Cache(entries=10, refresh=5, clock=lambda: self.now, refresh_with=refresh_with or self.jobs, **settings)
        cache.put("a", "old")
        self.now = 5
        return cache

    def test_the_caller_gets_the_old_value_at_once_and_the_executor_makes_the_load(self):
        cache = self.due()
        self.assertEqual([cache.get_or_load("a", str.upper) for _ in range(3)], ["old"] * 3)
        self.assertEqual((len(self.jobs.jobs), cache.numbers()["flights"]), (1, 1))
        self.jobs.run()
        self.assertEqual((cache.get_or_load("a", never), cache.stats().refreshes), ("A", 1))
        self.holds_exactly(cache, 1)

    def test_a_miss_is_loaded_by_its_caller(self):
        cache = self.due()
        self.assertEqual((cache.get_or_load("b", str.upper), self.jobs.jobs), ("B", []))

    def test_threads_of_a_pool_refresh_a_cached_function_with_all_its_arguments(self):
        with ThreadPoolExecutor(2) as pool:
            asked = []

            @cached(entries=10, refresh=5, clock=lambda: self.now, refresh_with=pool)
            def add(one, *, two):
                asked.append(threading.current_thread())
                return one + two + self.now

            self.now = 0
            self.assertEqual(add(1, two=2), 3)
            self.now = 5
            self.assertEqual(add(1, two=2), 3)
            while add.cache.numbers()["flights"]:
                pass
            self.assertEqual(add(1, two=2), 8)
            self.assertIs(asked[0], threading.current_thread())
            self.assertIsNot(asked[1], threading.current_thread())

    def test_an_executor_that_takes_no_job_leaves_the_load_to_the_caller(self):
        pool = ThreadPoolExecutor(1)
        pool.shutdown()
        cache = self.due(pool)
        self.assertEqual((cache.get_or_load("a", str.upper), cache.get("a")), ("A", "A"))
        self.holds_exactly(cache, 1)

    def test_an_executor_that_exits_ends_its_caller_and_the_load(self):
        class Exits:
            def submit(self, *given):
                raise SystemExit

        cache = self.due(Exits())
        with self.assertRaises(SystemExit):
            cache.get_or_load("a", never)
        self.assertEqual(cache.get("a"), "old")
        self.holds_exactly(cache, 1)

    def test_an_executor_may_use_the_cache_and_run_the_job_at_once(self):
        class AtOnce(Jobs):
            def submit(self, *given):
                cache.put("b", 1)
                job = super().submit(*given)
                self.run()
                return job

        cache = self.due(AtOnce())
        self.assertEqual((cache.get_or_load("a", str.upper), cache.get_or_load("a", never), cache["b"]), ("old", "A", 1))

    def test_a_loader_that_raises_is_logged_and_the_old_value_stays(self):
        for error in (KeyError, SystemExit):
            cache = self.due()

            def raises(key):
                raise error

            with self.assertLogs("rookdresser") if error is KeyError else self.subTest(error):
                self.assertEqual(cache.get_or_load("a", raises), "old")
                self.jobs.run()
            self.assertEqual((cache.get("a"), cache.stats().failed), ("old", 1))
            self.holds_exactly(cache, 1)
            # It is still due.
            self.assertEqual((cache.get_or_load("a", str.upper), self.jobs.run(), cache.get("a")), ("old", None, "A"))

    def test_a_loader_that_returns_a_coroutine_fails(self):
        async def load():
            return 7

        cache = self.due()
        with self.assertLogs("rookdresser"):
            cache.get_or_load("a", lambda key: load())
            self.jobs.run()
        self.holds_exactly(cache, 1)

    def test_a_job_that_is_cancelled_ends_its_load(self):
        cache = self.due()
        cache.get_or_load("a", never)
        self.jobs.jobs[0][0].cancel()
        self.assertEqual(cache.numbers()["flights"], 0)
        self.jobs.run()
        self.assertEqual((cache.get_or_load("a", str.upper), self.jobs.run(), cache.get("a")), ("old", None, "A"))

    def test_who_asks_once_the_entry_has_expired_waits_for_the_job_also_in_the_thread_that_handed_it_on(self):
        cache, got = self.due(after_write=10), []
        cache.get_or_load("a", str.upper)
        self.now = 10
        runner = threading.Thread(target=lambda: (wait_for_joins(cache, 1), self.jobs.run()))
        runner.start()
        got = within_a_minute(lambda: cache.get_or_load("a", never))
        runner.join()
        self.assertEqual(got, "A")

    def test_a_loader_that_asks_for_its_own_key_in_the_executor_is_told(self):
        cache = self.due(after_write=10)

        def load(key):
            self.now = 10
            return cache.get_or_load(key, never)

        cache.get_or_load("a", load)
        with self.assertLogs("rookdresser") as logs:
            self.jobs.run()
        self.assertIn("WaitsForItself", logs.output[0])
        self.holds_exactly(cache)

    def test_a_job_that_waits_too_long_is_given_up(self):
        cache = self.due(load_timeout=3)
        cache.get_or_load("a", lambda key: "late")
        self.now = 8
        self.assertEqual(cache.get_or_load("a", str.upper), "old")
        self.jobs.run()
        self.assertEqual((cache.get("a"), cache.stats().given_up, cache.stats().late), ("old", 1, 1))
        self.jobs.run()
        self.assertEqual(cache.get("a"), "A")

    def test_a_cache_that_is_closed_before_the_job_runs_stores_nothing(self):
        cache = self.due()
        cache.get_or_load("a", str.upper)
        cache.close()
        self.jobs.run()
        self.assertEqual(cache.kept(), (0, 0))

    def test_a_child_has_no_load_that_a_job_of_its_parent_was_to_make(self):
        cache = self.due()
        cache.get_or_load("a", str.upper)

        def child():
            return 7 if cache.numbers()["flights"] == 0 and cache.get_or_load("a", str.upper) == "old" and len(self.jobs.jobs) == 2 else 1

        self.assertEqual(forked(child), 7)

    def test_a_task_gets_the_old_value_at_once_and_another_task_makes_the_load(self):
        async def work(cache):
            may_end = asyncio.Event()

            async def load(key):
                await may_end.wait()
                return key.upper()

            got = [await cache.aget_or_load("a", load) for _ in range(3)]
            may_end.set()
            while cache._tasks:
                await asyncio.sleep(0)
            return got, await cache.aget_or_load("a", never)

        for refresh_with in ("task", self.jobs):
            self.assertEqual(asyncio.run(asyncio.wait_for(work(self.due(refresh_with)), 60)), (["old"] * 3, "A"))
        self.assertEqual(self.jobs.jobs, [])
        # With "task", a thread's call makes the load itself.
        self.assertEqual(self.due("task").get_or_load("a", str.upper), "A")

    def test_a_task_s_refresh_that_fails_or_is_cancelled_or_outlives_its_loop_leaves_the_old_value(self):
        async def hangs(key):
            await asyncio.Event().wait()

        async def raises(key):
            raise KeyError

        async def work(cache, load, cancels):
            self.assertEqual(await cache.aget_or_load("a", load), "old")
            if cancels:
                cancels = list(cache._tasks)[0].cancel()
            for _ in range(3):
                await asyncio.sleep(0)

        for load, cancels in ((raises, False), (hangs, True), (hangs, False)):
            cache = self.due("task")
            asyncio.run(work(cache, load, cancels))
            self.assertEqual((cache.get("a"), len(cache._tasks)), ("old", 0))
            self.holds_exactly(cache, 1)

    def test_a_setting_that_is_none_is_refused(self):
        for wrong in (7, "thread", len):
            with self.assertRaises(TypeError):
                Cache(entries=10, refresh_with=wrong)


if __name__ == "__main__":
    unittest.main()
