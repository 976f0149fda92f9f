#!/usr/bin/env python3
"""aget_or_load and aget_many: tasks that share loads while their loop goes on."""
import asyncio
import gc
import threading
import time
import unittest

from rookdresser import Cache, WaitsForItself
from threads import CacheTest, never, within_a_minute


async def joins(cache, number):
    while cache.stats().joins < number:
        await asyncio.sleep(0)


class Tasks(CacheTest):
    def run_in_loop(self, work):
        return within_a_minute(lambda: asyncio.run(work()))

    def test_a_key_is_loaded_once_for_64_tasks_while_the_loop_goes_on(self):
        cache, made = Cache(entries=10), []

        async def load(key):
            made.append(key)
            await joins(cache, 63)
            return key * 2

        async def work():
            return await asyncio.gather(*(cache.aget_or_load(21, load) for _ in range(64)))

        self.assertEqual((self.run_in_loop(work), made), ([42] * 64, [21]))
        self.holds_exactly(cache, 1)

    def test_a_load_may_be_a_plain_function_and_may_fail(self):
        cache = Cache(entries=10)

        async def work():
            with self.assertRaises(KeyError):
                await cache.aget_or_load("a", lambda key: {}[key])
            return await cache.aget_or_load("a", lambda key: 7)

        self.assertEqual(self.run_in_loop(work), 7)
        self.holds_exactly(cache, 1)

    def test_a_task_that_is_cancelled_leaves_its_load_to_those_who_joined(self):
        cache, made = Cache(entries=10), []

        async def load(key):
            made.append(key)
            if len(made) == 1:
                await asyncio.Event().wait()
            return 7

        async def work():
            leader = asyncio.create_task(cache.aget_or_load("a", load))
            while not made:
                await asyncio.sleep(0)
            joiner = asyncio.create_task(cache.aget_or_load("a", load))
            await joins(cache, 1)
            leader.cancel()
            self.assertEqual(await joiner, 7)
            with self.assertRaises(asyncio.CancelledError):
                await leader

        self.run_in_loop(work)
        self.assertEqual(len(made), 2)
        self.holds_exactly(cache, 1)

    def test_a_load_that_waits_for_itself_is_told_whichever_task_asks(self):
        cache, told = Cache(entries=10), []

        async def ask(key):
            try:
                await cache.aget_or_load(key, load)
            except WaitsForItself:
                told.append("a task")

        async def load(key):
            await ask(key)
            await asyncio.create_task(ask(key))
            # A get in the loop's thread would keep the load from ending.
            try:
                cache.get_or_load(key, lambda key: 1)
            except WaitsForItself:
                told.append("the thread")
            try:
                await asyncio.get_running_loop().run_in_executor(None, threading.get_ident)
            finally:
                return 7

        self.assertEqual(self.run_in_loop(lambda: cache.aget_or_load("a", load)), 7)
        self.assertEqual(told, ["a task", "a task", "the thread"])
        self.holds_exactly(cache, 1)

    def test_a_coroutine_that_gc_closes_ends_its_load_at_once(self):
        cache = Cache(entries=10)

        async def work():
            coroutine = cache.aget_or_load("a", lambda key: asyncio.Event().wait())
            coroutine.send(None)
            self.assertEqual(cache.kept(), (0, 1))
            del coroutine
            gc.collect()
            self.assertEqual(cache.kept(), (0, 0))
            return await cache.aget_or_load("a", lambda key: 7)

        self.assertEqual(self.run_in_loop(work), 7)
        self.assertEqual((cache.stats().failed, cache.stats().loads), (1, 1))
        self.holds_exactly(cache, 1)

    def test_a_task_waits_for_a_thread_s_load_and_a_thread_for_a_task_s(self):
        cache, begun = Cache(entries=10), threading.Event()

        def load(key):
            begun.set()
            while cache.stats().joins < 1:
                time.sleep(0.001)
            return "by a thread"

        thread = threading.Thread(target=lambda: cache.get_or_load("a", load))
        thread.start()
        begun.wait()

        async def load_in_loop(key):
            got = []
            thread = threading.Thread(target=lambda: got.append(cache.get_or_load("b", None)))
            thread.start()
            await joins(cache, 2)
            asyncio.get_running_loop().call_later(0.001, thread.join)
            return "by a task"

        async def work():
            return await cache.aget_or_load("a", never), await cache.aget_or_load("b", load_in_loop)

        self.assertEqual(self.run_in_loop(work), ("by a thread", "by a task"))
        thread.join()
        self.holds_exactly(cache, 2)


if __name__ == "__main__":
    unittest.main()
