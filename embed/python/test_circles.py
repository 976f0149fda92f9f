#!/usr/bin/env python3
"""Loads that wait for each other in a circle are told, and no others."""
import asyncio
import gc
import threading
import unittest

from rookdresser import Cache, WaitsForItself, _waits, cached
from threads import CacheTest, never, together, within_a_minute


async def directly(asked):
    return await asked


async def by_gather(asked):
    return await asyncio.gather(asked, asyncio.sleep(0))


async def by_task(asked):
    return await asyncio.create_task(asked)


async def by_shield(asked):
    return await asyncio.shield(asked)


async def by_wait_for(asked):
    return await asyncio.wait_for(asked, 3600)


async def by_wait(asked):
    done, _ = await asyncio.wait([asyncio.create_task(asked)])
    return done.pop().result()


async def by_group(asked):
    async with asyncio.TaskGroup() as group:
        group.create_task(asked)


async def by_all(asked):
    return await by_gather(by_shield(by_task(by_wait(asked))))


async def later(asked):
    """Awaits a task that has begun to wait long before."""
    task = asyncio.create_task(asked)
    for _ in range(5):
        await asyncio.sleep(0)
    return await task


WAYS = [directly, by_gather, by_task, by_shield, by_wait_for, by_wait, by_all] + [by_group] * hasattr(asyncio, "TaskGroup")


class Circles(CacheTest):
    def run_in_loop(self, work):
        return within_a_minute(lambda: asyncio.run(work()))

    def circle(self, way, keys=2):
        """Loads of so many keys, each of which asks for the next one in this way once all have begun. Returns what each was told."""
        cache, begun, told = Cache(entries=10), [], []

        async def load(key):
            begun.append(key)
            while len(begun) < keys:
                await asyncio.sleep(0)
            try:
                await way(cache.aget_or_load((key + 1) % keys, load))
            except WaitsForItself:
                told.append(key)
            except BaseException as error:  # a group's
                if not isinstance(getattr(error, "exceptions", [None])[0], WaitsForItself):
                    raise
                told.append(key)
            return key

        async def work():
            return await asyncio.gather(*(cache.aget_or_load(key, load) for key in range(keys)))

        self.assertEqual(self.run_in_loop(work), list(range(keys)))
        self.holds_exactly(cache, keys)
        return told

    def test_loads_of_tasks_in_a_circle_are_told_by_whichever_way_they_wait(self):
        for way in WAYS:
            for keys in (1, 2, 5):
                with self.subTest(way.__name__, keys=keys):
                    self.assertEqual(len(self.circle(way, keys)), 1)

    @unittest.skipUnless(hasattr(asyncio, "eager_task_factory"), "this Python has no eager tasks")
    def test_loads_of_eager_tasks_in_a_circle_are_told(self):
        async def eagerly(asked):
            asyncio.get_running_loop().set_task_factory(asyncio.eager_task_factory)
            return await by_gather(asked)

        self.assertEqual(len(self.circle(eagerly)), 1)

    def test_a_circle_that_closes_long_after_a_wait_began_is_told(self):
        self.assertEqual(len(self.circle(later)), 1)

    def test_a_circle_through_threads_and_tasks_of_two_caches_is_told(self):
        one, other, told, begun = Cache(entries=10), Cache(entries=10), [], threading.Barrier(2)

        def load(key):
            begun.wait()
            try:
                other.get_or_load("b", None)
            except WaitsForItself:
                told.append("the thread")
            return 1

        async def load_in_loop(key):
            await asyncio.get_running_loop().run_in_executor(None, begun.wait)
            try:
                await by_gather(one.aget_or_load("a", never))
            except WaitsForItself:
                told.append("the task")
            return 2

        def work(i):
            return asyncio.run(other.aget_or_load("b", load_in_loop)) if i else one.get_or_load("a", load)

        within_a_minute(lambda: together(2, work))
        self.assertEqual((len(told), one.look("a"), other.look("b")), (1, 1, 2))

    def test_a_loader_that_runs_a_loop_that_asks_for_its_key_is_told(self):
        def by_run(asked):
            return asyncio.run(by_gather(asked))

        def by_run_until_complete(asked):
            loop = asyncio.new_event_loop()
            try:
                return loop.run_until_complete(asked)
            finally:
                loop.close()

        for run in (by_run, by_run_until_complete):
            cache = Cache(entries=10)
            function = cached(entries=10)(lambda key: run(function.cache.aget_or_load((key,), never)))
            for call in (lambda: cache.get_or_load("a", lambda key: run(cache.aget_or_load(key, never))),
                         lambda: cache.get_many("ab", lambda keys: {key: run(cache.aget_or_load(key, never)) for key in keys}),
                         lambda: function("a")):
                with self.subTest(run.__name__), self.assertRaises(WaitsForItself):
                    within_a_minute(call)
            self.holds_exactly(cache, 0)
            self.holds_exactly(function.cache, 0)

    def test_loaders_of_two_threads_in_a_circle_are_told_if_one_or_both_run_loops(self):
        def in_loop(cache, key):
            return asyncio.run(by_gather(cache.aget_or_load(key, never)))

        def plainly(cache, key):
            return cache.get_or_load(key, never)

        for ways in ((in_loop, in_loop), (in_loop, plainly), (plainly, in_loop)):
            cache, gate, told = Cache(entries=10), threading.Barrier(2), []

            def load(key):
                gate.wait()
                try:
                    ways[key](cache, 1 - key)
                except WaitsForItself:
                    told.append(key)
                return key

            with self.subTest([way.__name__ for way in ways]):
                within_a_minute(lambda: together(2, lambda key: cache.get_or_load(key, load)))
                self.assertEqual((len(told), cache.look(0), cache.look(1)), (1, 0, 1))
                self.holds_exactly(cache, 2)

    def test_a_task_that_a_loader_s_loop_does_not_wait_for_waits_for_its_load(self):
        cache, loop = Cache(entries=10), asyncio.new_event_loop()

        def load(key):
            load.task = loop.create_task(cache.aget_or_load(key, never))
            loop.run_until_complete(asyncio.sleep(0))
            self.assertEqual(cache.stats().joins, 1)
            return 7

        self.assertEqual(within_a_minute(lambda: (cache.get_or_load("a", load), loop.run_until_complete(load.task))), (7, 7))
        loop.close()
        self.holds_exactly(cache, 1)

    def test_a_load_that_a_loop_s_thread_makes_meanwhile_is_no_circle(self):
        cache, begun, checked = Cache(entries=10), threading.Event(), threading.Event()
        check = _waits.Waits.check

        def tell(self, load, who, serial):
            try:
                return check(self, load, who, serial)
            finally:
                if who == (thread.ident, None):
                    checked.set()

        def load(key):
            begun.set()
            while cache.stats().joins < 1 or len(cache._uses()) < 2:
                pass
            return cache.get_or_load("b", never)

        async def load_in_loop():
            # It blocks the loop, which runs until a task has "a", whose load waits for this one.
            return cache.get_or_load("b", lambda key: checked.wait() and 7)

        async def work():
            begun.wait()
            return await asyncio.gather(cache.aget_or_load("a", never), load_in_loop())

        thread = threading.Thread(target=lambda: cache.get_or_load("a", load))
        _waits.Waits.check = tell
        try:
            thread.start()
            self.assertEqual(self.run_in_loop(work), [7, 7])
        finally:
            _waits.Waits.check = check
        thread.join()
        self.holds_exactly(cache, 2)

    def test_of_two_waits_that_begin_at_the_same_time_one_is_told(self):
        cache, gate, both, told, gated = Cache(entries=10), threading.Barrier(2), threading.Barrier(2), [], set()
        check = _waits.Waits.check

        def check_together(self, load, who, serial):
            if serial in gated:
                return check(self, load, who, serial)
            # Both waits have begun before either looks for a circle, and both have looked before either ends.
            gated.add(serial)
            both.wait()
            try:
                return check(self, load, who, serial)
            finally:
                both.wait()

        def ask(i):
            def load(key):
                gate.wait()
                try:
                    cache.get_or_load(1 - key, None)
                except WaitsForItself:
                    told.append(key)
                return key

            self.assertEqual(cache.get_or_load(i, load), i)

        _waits.Waits.check = check_together
        try:
            within_a_minute(lambda: together(2, ask))
        finally:
            _waits.Waits.check = check
        self.assertEqual((len(told), len(gated)), (1, 2))
        self.holds_exactly(cache, 2)

    def test_a_wait_that_its_task_has_left_closes_no_circle(self):
        cache, may_end = Cache(entries=10), []

        async def load(key):
            # As an interrupt may leave it: begun, and the task goes on.
            self.stale = _waits.TaskWait(asyncio.current_task(), asyncio.get_running_loop())
            self.stale.begin(next(load for _, _, load in cache._uses() if load.task() is not asyncio.current_task()))
            while cache.stats().joins < 1:
                await asyncio.sleep(0)
            return key

        async def load_later(key):
            may_end.append(asyncio.create_task(cache.aget_or_load("b", load)))
            while len(cache._uses()) < 2:
                await asyncio.sleep(0)
            return await cache.aget_or_load("b", never)

        self.assertEqual(self.run_in_loop(lambda: cache.aget_or_load("a", load_later)), "b")
        self.stale.end()
        self.holds_exactly(cache, 2)

    def test_fifty_threads_in_a_circle_are_told_once(self):
        cache, gate, told = Cache(entries=100), threading.Barrier(50), []

        def ask(i):
            def load(key):
                gate.wait()
                try:
                    cache.get_or_load((key + 1) % 50, None)
                except WaitsForItself:
                    told.append(key)
                return key

            self.assertEqual(cache.get_or_load(i, load), i)

        within_a_minute(lambda: together(50, ask))
        self.assertEqual(len(told), 1)
        self.holds_exactly(cache, 50)

    def test_a_task_that_nobody_awaits_waits_for_the_load_that_started_it(self):
        cache = Cache(entries=10)

        async def load(key):
            load.task = asyncio.create_task(cache.aget_or_load(key, never))
            wait_for = asyncio.shield(load.task)  # shielded, and not awaited either
            for _ in range(5):
                await asyncio.sleep(0)
            self.assertFalse(wait_for.done())
            return 7

        async def work():
            return await cache.aget_or_load("a", load), await load.task

        self.assertEqual(self.run_in_loop(work), (7, 7))
        self.holds_exactly(cache, 1)

    def test_a_wait_for_the_first_of_several_is_not_told(self):
        cache = Cache(entries=10)

        async def load(key):
            own = asyncio.create_task(cache.aget_or_load(key, never))
            done, _ = await asyncio.wait([own, asyncio.create_task(asyncio.sleep(0, 7))], return_when=asyncio.FIRST_COMPLETED)
            self.assertNotIn(own, done)
            return done.pop().result()

        self.assertEqual(self.run_in_loop(lambda: cache.aget_or_load("a", load)), 7)
        self.holds_exactly(cache, 1)

    def test_a_load_that_gc_closes_in_another_task_s_loader_leaves_that_one_alone(self):
        cache, told = Cache(entries=10), []

        class Circle:
            pass

        async def work():
            circle = [Circle()]
            circle[0].me, circle[0].coroutine = circle[0], cache.aget_or_load("orphan", lambda key: asyncio.Event().wait())
            circle[0].coroutine.send(None)

            async def load(key):
                circle.clear()
                gc.collect()
                try:
                    return await asyncio.create_task(cache.aget_or_load("a", load))
                except WaitsForItself:
                    told.append(key)
                    return 7

            return await cache.aget_or_load("a", load)

        self.assertEqual((self.run_in_loop(work), told), (7, ["a"]))
        self.holds_exactly(cache, 1)


if __name__ == "__main__":
    unittest.main()
