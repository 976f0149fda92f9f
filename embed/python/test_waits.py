#!/usr/bin/env python3
"""Waits for loads: what ends them, and that nothing stays of them."""
import asyncio
import concurrent.futures
import gc
import logging
import sys
import threading
import traceback
import unittest
import weakref

from rookdresser import Cache, _waits
from threads import CacheTest, never, together, wait_for_joins, within_a_minute


class Failure(Exception):
    pass


class Failing(dict):
    def __getitem__(self, key):
        raise Failure


class Waits(CacheTest):
    def run_in_loop(self, work):
        return within_a_minute(lambda: asyncio.run(work()))

    def test_a_load_wakes_all_who_wait_for_it_as_it_lands(self):
        cache, got, left = Cache(entries=10), [], []

        def load(key):
            for thread in threads:
                thread.start()
            wait_for_joins(cache, 5)
            while len(_waits.waits.behind((threading.get_ident(), None), 1 << 63)) < 5:
                pass
            return 7

        threads = [threading.Thread(target=lambda: got.append(cache.get_or_load("a", None))) for _ in range(3)]
        threads += [threading.Thread(target=lambda: got.append(asyncio.run(cache.aget_or_load("a", never)))) for _ in range(2)]

        def lead():
            self.assertEqual(cache.get_or_load("a", load), 7)
            # Else they would look for themselves, a second later.
            left.append(_waits.waits.behind((threading.get_ident(), None), 1 << 63))

        within_a_minute(lead)
        for thread in threads:
            within_a_minute(thread.join)
        self.assertEqual((got, left), ([7] * 5, [[]]))
        self.holds_exactly(cache, 1)

    def test_a_thread_with_the_number_of_a_loop_s_earlier_thread_is_not_told(self):
        cache, loop, idents, got = Cache(entries=10), asyncio.new_event_loop(), [], []
        may_end = loop.run_until_complete(self.made(asyncio.Event))

        async def load(key):
            await may_end.wait()
            return 7

        def begin():
            idents.append(threading.get_ident())
            loop.create_task(cache.aget_or_load("a", load))
            loop.run_until_complete(asyncio.sleep(0))

        def goes_on():
            wait_for_joins(cache, 1)
            loop.call_soon(may_end.set)
            loop.run_until_complete(asyncio.wait(asyncio.all_tasks(loop)))

        def ask():
            idents.append(threading.get_ident())
            got.append(cache.get_or_load("a", None))

        first = threading.Thread(target=begin)
        first.start()
        first.join()
        second, third = threading.Thread(target=ask), threading.Thread(target=goes_on)
        second.start()
        third.start()
        within_a_minute(second.join)
        third.join()
        loop.close()
        self.assertEqual(got, [7])
        self.holds_exactly(cache, 1)

    async def made(self, kind):
        return kind()

    def test_a_loop_that_is_closed_ends_its_loads(self):
        cache, begun, got, kept, loop = Cache(entries=10), threading.Event(), [], [], asyncio.new_event_loop()

        async def slow(key):
            begun.set()
            await asyncio.Event().wait()

        def serve():
            # Somebody keeps the tasks, so that gc doesn't end them.
            kept.extend(loop.create_task(cache.aget_or_load(key, slow)) for key in "abc")
            loop.run_forever()
            loop.close()

        logging.getLogger("asyncio").setLevel(logging.CRITICAL)
        server = threading.Thread(target=serve)
        server.start()
        begun.wait()
        waiters = [threading.Thread(target=lambda: got.append(cache.get_or_load("a", lambda key: "asked again"))),
                   threading.Thread(target=lambda: got.append(asyncio.run(cache.aget_or_load("a", lambda key: "asked again"))))]
        for waiter in waiters:
            waiter.start()
        wait_for_joins(cache, 2)
        loop.call_soon_threadsafe(loop.stop)
        server.join()
        for waiter in waiters:
            within_a_minute(waiter.join)
        self.assertEqual(got, ["asked again"] * 2)
        self.assertEqual(within_a_minute(lambda: cache.get_or_load("b", lambda key: "at once")), "at once")
        self.assertEqual(self.run_in_loop(lambda: cache.aget_or_load("c", lambda key: "in a new loop")), "in a new loop")
        self.holds_exactly(cache, 3)
        del kept[:]
        gc.collect()
        logging.getLogger("asyncio").setLevel(logging.NOTSET)
        self.holds_exactly(cache, 3)

    def test_a_task_of_a_closed_loop_that_nobody_keeps_is_collected_with_its_load(self):
        cache, tasks = Cache(entries=10), []
        logging.getLogger("asyncio").setLevel(logging.CRITICAL)

        async def slow(key):
            await asyncio.Event().wait()

        for key in range(20):
            loop = asyncio.new_event_loop()
            task = loop.create_task(cache.aget_or_load(key, slow))
            tasks.append(weakref.ref(task))
            loop.run_until_complete(asyncio.sleep(0))
            loop.close()
            del loop, task
        gc.collect()
        gc.collect()
        logging.getLogger("asyncio").setLevel(logging.NOTSET)
        self.assertEqual([task() for task in tasks], [None] * 20)
        self.holds_exactly(cache, 0)

    def test_waits_of_loops_that_are_closed_leave_nothing(self):
        cache, begun, may_end, tasks = Cache(entries=10), threading.Event(), threading.Event(), []
        leader = threading.Thread(target=lambda: cache.get_or_load("a", lambda key: (begun.set(), may_end.wait())))
        leader.start()
        begun.wait()
        logging.getLogger("asyncio").setLevel(logging.CRITICAL)
        for _ in range(20):
            loop = asyncio.new_event_loop()
            task = loop.create_task(cache.aget_or_load("a", never))
            tasks.append(weakref.ref(task))
            loop.run_until_complete(asyncio.sleep(0))
            loop.close()
            del loop, task
        may_end.set()
        leader.join()
        gc.collect()
        gc.collect()
        logging.getLogger("asyncio").setLevel(logging.NOTSET)
        self.assertEqual([task() for task in tasks], [None] * 20)

    def test_waits_that_give_up_leave_nothing(self):
        cache, begun, may_end = Cache(entries=10), threading.Event(), threading.Event()
        leader = threading.Thread(target=lambda: cache.get_or_load("a", lambda key: (begun.set(), may_end.wait())))
        leader.start()
        begun.wait()
        self.addCleanup(may_end.set)

        def give_up(times):
            for _ in range(times):
                try:
                    cache.get_or_load("a", None, timeout=0)
                except TimeoutError:
                    continue
                self.fail("it ended")

        async def cancel(times):
            for _ in range(times):
                task = asyncio.create_task(cache.aget_or_load("a", never))
                await asyncio.sleep(0)
                task.cancel()
                await asyncio.wait([task])

        for work in (give_up, lambda times: asyncio.run(cancel(times))):
            work(20)
            gc.collect()
            before = sys.getallocatedblocks()
            work(2000)
            gc.collect()
            self.assertLess(sys.getallocatedblocks() - before, 1000)
        may_end.set()
        leader.join()
        self.assertEqual(_waits.waits.behind((leader.ident, None), 1 << 63), [])
        self.holds_exactly(cache, 1)

    def test_an_exception_that_many_share_gathers_nothing_of_them(self):
        cache, told = Cache(entries=10), []

        def load(key):
            wait_for_joins(cache, cache.stats().joins // 20 * 20 + 20)
            raise Failure

        async def load_in_loop(key):
            while cache.stats().joins < 40:
                await asyncio.sleep(0)
            raise Failure

        def tell(error):
            told.append((error, error.__context__, [frame.name for frame in traceback.extract_tb(error.__traceback__)]))

        def ask(i):
            try:
                raise KeyError(i)
            except KeyError:
                try:
                    cache.get_or_load("a", load)
                except Failure as error:
                    tell(error)

        async def ask_in_loop(i):
            try:
                raise KeyError(i)
            except KeyError:
                try:
                    await cache.aget_or_load("b", load_in_loop)
                except Failure as error:
                    tell(error)

        async def ask_together():
            await asyncio.gather(*(ask_in_loop(i) for i in range(21)))

        within_a_minute(lambda: together(21, ask))
        of_threads, told = told, []
        self.run_in_loop(ask_together)
        # All have one exception, whose context is what the caller that loads was handling.
        for of in (of_threads, told):
            self.assertEqual((len(of), {(id(row[0]), id(row[1])) for row in of}), (21, {(id(of[0][0]), id(of[0][1]))}))
            self.assertIsInstance(of[0][1], KeyError)
        frames = [row[2] for row in told]
        self.assertEqual((frames.count(["ask_in_loop", "aget_or_load", "_make", "load_in_loop"]), len(frames)), (21, 21))
        # From Python 3.12 on a traceback is the exception's alone, and those of threads that raise at the same time may mix.
        self.assertLess(max(len(row[2]) for row in of_threads), 10)
        if sys.version_info < (3, 12):
            self.assertEqual([row[2] for row in of_threads], [["ask", "load"]] * 21)

    def test_a_call_that_fails_leaves_no_circle_of_references(self):
        def load(key):
            raise Failure

        async def load_in_loop(key):
            await asyncio.sleep(0)
            raise Failure

        async def load_that_asks_for_itself(key):
            return await cache.aget_or_load(key, never)

        def many(keys):
            raise Failure

        async def failures(call, callers):
            tasks = [asyncio.create_task(call()) for _ in range(callers)]
            await asyncio.wait(tasks)
            return [weakref.ref(task.exception()) for task in tasks]

        async def cancelled(call):
            tasks = [asyncio.create_task(call()) for _ in range(3)]
            await asyncio.sleep(0)
            waits = [weakref.ref(task) for task in tasks]
            for task in tasks:
                task.cancel()
            await asyncio.wait(tasks)
            return waits

        def caught(call):
            try:
                call()
            except Failure as error:
                return [weakref.ref(error)]
            self.fail("it succeeded")

        cache = Cache(entries=10)
        rows = (
            lambda: asyncio.run(failures(lambda: cache.aget_or_load("a", load), 1)),
            lambda: asyncio.run(failures(lambda: cache.aget_or_load("a", load_in_loop), 5)),
            lambda: asyncio.run(failures(lambda: cache.aget_or_load("a", load_that_asks_for_itself), 1)),
            lambda: asyncio.run(cancelled(lambda: cache.aget_or_load("a", load_in_loop))),
            lambda: caught(lambda: cache.get_or_load("a", load)),
            lambda: caught(lambda: cache.get_many("ab", many)),
            lambda: caught(lambda: cache.get_many("ab", lambda keys: Failing(a=1))),
        )
        gc.collect()
        gc.disable()
        self.addCleanup(gc.enable)
        for i, row in enumerate(rows):
            with self.subTest(i):
                left = within_a_minute(row)
                self.assertEqual([ref() for ref in left if ref() is not None], [])
        self.holds_exactly(cache)

    def test_a_time_limit_is_a_number_of_any_size(self):
        cache, begun, may_end = Cache(entries=10), threading.Event(), threading.Event()
        leader = threading.Thread(target=lambda: cache.get_or_load("a", lambda key: (begun.set(), may_end.wait(), 7)[2]))
        leader.start()
        begun.wait()
        self.addCleanup(may_end.set)
        for timeout, error in ((-1, TimeoutError), (0, TimeoutError), (1e-9, TimeoutError), (float("nan"), ValueError), ("1", TypeError)):
            with self.subTest(timeout), self.assertRaises(error):
                within_a_minute(lambda: cache.get_or_load("a", None, timeout=timeout))
        got = []
        waiters = [threading.Thread(target=lambda timeout=timeout: got.append(cache.get_or_load("a", None, timeout=timeout)))
                   for timeout in (None, float("inf"), 1e300, 1e10, 3600)]
        joins = cache.stats().joins
        for waiter in waiters:
            waiter.start()
        wait_for_joins(cache, joins + 5)
        may_end.set()
        for waiter in waiters:
            within_a_minute(waiter.join)
        leader.join()
        self.assertEqual(got, [7] * 5)

    def test_loaders_that_ask_in_threads_of_their_own_are_freed_by_a_time_limit(self):
        # Python can't tell that a loader waits for a thread.
        cache, gate, gave_up = Cache(entries=10), threading.Barrier(2), []

        def ask(i):
            def load(key):
                gate.wait()
                with concurrent.futures.ThreadPoolExecutor(1) as pool:
                    try:
                        return pool.submit(cache.get_or_load, 1 - key, None, 0.01).result()
                    except TimeoutError:
                        gave_up.append(key)
                        return key

            cache.get_or_load(i, load)

        within_a_minute(lambda: together(2, ask))
        self.assertGreater(len(gave_up), 0)
        self.holds_exactly(cache, 2)


if __name__ == "__main__":
    unittest.main()
