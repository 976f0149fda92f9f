#!/usr/bin/env python3
"""get_many, aget_many and put_many: several keys at once, whose loads others share."""
import asyncio
import threading
import time
import unittest
import warnings

from rookdresser import Cache, LeftOut, Refused, TooManyFlights, WaitsForItself
from threads import CacheTest, never, wait_for_joins, within_a_minute


class Many(CacheTest):
    def test_many_are_put_and_loaded_together(self):
        asked = []

        def load_many(keys):
            asked.append(keys)
            return {key: key * 2 for key in keys if key < 10}

        with Cache(entries=100) as cache:
            cache.put_many({1: 2, 2: 4})
            cache.put_many([(3, 6)])
            self.assertEqual(cache.get_many([1, 5, 3, 5, 7, 20], load_many), {1: 2, 5: 10, 3: 6, 7: 14})
            self.assertEqual((asked, cache.get_many((key for key in (5, 7)), load_many), cache.get_many([], never)), ([[5, 7, 20]], {5: 10, 7: 14}, {}))
            stats = cache.stats()
            self.assertEqual((stats.hits, stats.misses, stats.loads, stats.failed), (4, 3, 2, 1))
            self.holds_exactly(cache, 5)

    def test_what_load_many_raises_is_raised_in_all_who_share_a_load(self):
        with Cache(entries=100) as cache:
            raised = []

            def load_many(keys):
                joiner.start()
                wait_for_joins(cache, 1)
                raise ValueError(keys)

            def join():
                try:
                    cache.get_or_load("b", None)
                except ValueError as error:
                    raised.append(error.args)

            joiner = threading.Thread(target=join)
            with self.assertRaises(ValueError):
                cache.get_many(["a", "b"], load_many)
            within_a_minute(joiner.join)
            self.assertEqual(raised, [(["a", "b"],)])
            for ending in (SystemExit, KeyboardInterrupt, WaitsForItself):
                with self.assertRaises(ending):
                    cache.get_many(["a", "b"], lambda keys: self.raises(ending))
            self.holds_exactly(cache, 0)

    def raises(self, error):
        raise error

    def test_many_with_one_that_can_t_be_hashed_leaves_no_load_open(self):
        with Cache(entries=100, flights=2, refuse_at_limit=True) as cache:
            with self.assertRaises(TypeError):
                cache.get_many(["a", []], never)
            with self.assertRaises(Refused):
                cache.get_many(["a", "b", "c"], never)
            with self.assertRaises(TypeError):
                cache.get_many(["a", "b"], lambda keys: None)
            with self.assertRaises(TypeError):
                cache.get_many(["a", "b"], None)
            self.holds_exactly(cache, 0)

    def test_a_due_entry_keeps_its_value_if_load_many_fails_or_leaves_it_out(self):
        now = [0]
        with Cache(entries=10, refresh=10, clock=lambda: now[0]) as cache:
            cache.put_many({"a": 1, "b": None})
            now[0] = 10
            self.assertEqual(cache.get_many(["a", "b"], lambda keys: {}), {"a": 1, "b": None})
            self.assertEqual(cache.get_many(["a", "b"], lambda keys: 1 // 0), {"a": 1, "b": None})
            with self.assertRaises(ZeroDivisionError):
                cache.get_many(["a", "new"], lambda keys: 1 // 0)
            self.assertEqual(cache.get_many(["a", "b"], lambda keys: {"a": 5, "b": 6}), {"a": 5, "b": 6})
            self.holds_exactly(cache, 2)

    def test_who_loads_some_keys_shares_the_loads_of_others(self):
        with Cache(entries=100) as cache:
            asked, got = [], []

            def load_many(keys):
                asked.append(keys)
                if keys == [0, 1, 2]:
                    # The other one makes its own load before it waits for these.
                    other.start()
                    while cache.stats().loads < 1 or cache.stats().joins < 2:
                        time.sleep(0)
                return {key: -key for key in keys}

            other = threading.Thread(target=lambda: got.append(cache.get_many([1, 2, 3], load_many)))
            self.assertEqual(within_a_minute(lambda: cache.get_many([0, 1, 2], load_many)), {0: 0, 1: -1, 2: -2})
            within_a_minute(other.join)
            self.assertEqual((asked, got), ([[0, 1, 2], [3]], [{1: -1, 2: -2, 3: -3}]))
            self.holds_exactly(cache, 4)

    def test_many_share_what_another_s_load_raises_but_not_its_end(self):
        for ending, wanted in ((ValueError, ValueError), (SystemExit, {"a": 2, "b": 3})):
            with self.subTest(ending), Cache(entries=100) as cache:
                got = []

                def load(key):
                    other.start()
                    wait_for_joins(cache, 1)
                    raise ending

                def load_many(keys):
                    return {key: 2 + "ab".index(key) for key in keys}

                def ask():
                    try:
                        got.append(cache.get_many(["a", "b"], load_many))
                    except ValueError as error:
                        got.append(type(error))

                other = threading.Thread(target=ask)
                with self.assertRaises(ending):
                    cache.get_or_load("a", load)
                within_a_minute(other.join)
                self.assertEqual(got, [wanted])
                self.holds_exactly(cache)

    def test_many_wait_no_longer_than_the_time_limit_for_another_s_load(self):
        with Cache(entries=100) as cache:
            begun, may_end = threading.Event(), threading.Event()
            other = threading.Thread(target=lambda: cache.get_or_load("a", lambda key: (begun.set(), may_end.wait())))
            other.start()
            begun.wait()
            with self.assertRaises(TimeoutError):
                cache.get_many(["a", "b"], lambda keys: dict.fromkeys(keys, 1), timeout=0)
            self.assertEqual(cache.look("b"), 1)
            may_end.set()
            other.join()
            self.holds_exactly(cache, 2)

    def test_who_shares_a_key_that_load_many_leaves_out_is_told(self):
        with Cache(entries=100) as cache:
            told = []

            def load_many(keys):
                joiner.start()
                wait_for_joins(cache, 1)
                return {}

            def join():
                try:
                    cache.get_or_load("a", None)
                except LeftOut as error:
                    told.append(error.args)

            joiner = threading.Thread(target=join)
            self.assertEqual(cache.get_many(["a"], load_many), {})
            within_a_minute(joiner.join)
            self.assertEqual(told, [("a",)])


class ManyInTasks(CacheTest):
    """aget_many: the same for tasks, whose loop goes on meanwhile."""

    def run_in_loop(self, work):
        return within_a_minute(lambda: asyncio.run(work()))

    async def joined(self, cache, joins):
        while cache.stats().joins < joins:
            await asyncio.sleep(0)

    def test_many_are_loaded_together_by_a_function_of_either_kind(self):
        asked = []

        def load_many(keys):
            asked.append(keys)
            return {key: key * 2 for key in keys if key < 10}

        async def load_in_task(keys):
            await asyncio.sleep(0)
            return load_many(keys)

        async def work(cache, load):
            return await cache.aget_many([1, 5, 5, 20], load), await cache.aget_many(iter([5, 1]), never), await cache.aget_many([], never)

        for load in (load_many, load_in_task):
            with Cache(entries=100) as cache:
                cache.put(1, 2)
                self.assertEqual((self.run_in_loop(lambda: work(cache, load)), asked), (({1: 2, 5: 10}, {1: 2, 5: 10}, {}), [[5, 20]]))
                self.assertEqual(cache.stats()[:5], (3, 2, 0, 1, 1))
                self.holds_exactly(cache, 2)
            asked.clear()

    def test_tasks_and_threads_share_loads_of_many(self):
        with Cache(entries=100) as cache:
            asked, got = [], []

            async def load_in_task(keys):
                asked.append(keys)
                other.start()
                # The thread joins two of these loads, and makes its own.
                await self.joined(cache, 2)
                while cache.stats().loads < 1:
                    await asyncio.sleep(0)
                return {key: -key for key in keys}

            def load_many(keys):
                asked.append(keys)
                return {key: -key for key in keys}

            other = threading.Thread(target=lambda: got.append(cache.get_many([1, 2, 3], load_many)))
            self.assertEqual(self.run_in_loop(lambda: cache.aget_many([0, 1, 2], load_in_task)), {0: 0, 1: -1, 2: -2})
            within_a_minute(other.join)
            self.assertEqual((asked, got), ([[0, 1, 2], [3]], [{1: -1, 2: -2, 3: -3}]))
            self.holds_exactly(cache, 4)

    def test_tasks_that_ask_for_the_same_keys_in_two_orders_wait_for_no_circle(self):
        cache, asked = Cache(entries=100), []

        async def load_many(keys):
            asked.extend(keys)
            await asyncio.sleep(0)
            return dict.fromkeys(keys, 7)

        async def work():
            orders = [range(20), range(19, -1, -1), range(10, 30), range(5)]
            return await asyncio.gather(*(cache.aget_many(keys, load_many) for keys in orders))

        self.assertEqual([sorted(one) for one in self.run_in_loop(work)], [list(range(20)), list(range(20)), list(range(10, 30)), list(range(5))])
        self.assertEqual(sorted(asked), list(range(30)))
        self.holds_exactly(cache, 30)

    def test_a_task_shares_what_another_s_load_raises_but_not_its_end(self):
        for ending, wanted in ((ValueError, ValueError), (asyncio.CancelledError, {"a": 2, "b": 3}), (LeftOut, {"b": 3})):
            cache = Cache(entries=100)

            async def load(key):
                await self.joined(cache, 1)
                raise ending(key)

            async def load_many(keys):
                return {key: 2 + "ab".index(key) for key in keys}

            async def ask():
                try:
                    return await cache.aget_many(["a", "b"], load_many)
                except ValueError as error:
                    return type(error)

            async def work():
                leader = asyncio.create_task(cache.aget_or_load("a", load))
                await asyncio.sleep(0)
                got = await ask()
                return got, (await asyncio.gather(leader, return_exceptions=True))[0]

            with self.subTest(ending):
                got, raised = self.run_in_loop(work)
                self.assertEqual((got, type(raised)), (wanted, ending))
                self.holds_exactly(cache)

    def test_what_load_many_raises_is_raised_in_all_who_share_a_load(self):
        cache = Cache(entries=100)

        async def load_many(keys):
            await self.joined(cache, 2)
            raise ValueError(keys)

        async def work():
            leader = asyncio.create_task(cache.aget_many(["a", "b"], load_many))
            await asyncio.sleep(0)
            return await asyncio.gather(leader, cache.aget_or_load("b", never), cache.aget_many(["a"], never), return_exceptions=True)

        told = self.run_in_loop(work)
        self.assertEqual([(type(one), one.args) for one in told], [(ValueError, (["a", "b"],))] * 3)
        self.holds_exactly(cache, 0)

    def test_a_task_that_is_cancelled_or_closed_leaves_its_loads_to_those_who_joined(self):
        async def load_many(keys):
            made.append(keys)
            if len(made) == 1:
                await asyncio.Event().wait()
            return dict.fromkeys(keys, 7)

        async def cancel(cache):
            leader = asyncio.create_task(cache.aget_many(["a", "b"], load_many))
            await asyncio.sleep(0)
            joiner = asyncio.create_task(cache.aget_many(["b", "a"], load_many))
            await self.joined(cache, 2)
            leader.cancel()
            got = await joiner
            with self.assertRaises(asyncio.CancelledError):
                await leader
            return got

        async def close(cache):
            coroutine = cache.aget_many(["a", "b"], load_many)
            coroutine.send(None)
            self.assertEqual(cache.kept(), (0, 2))
            coroutine.close()
            self.assertEqual(cache.kept(), (0, 0))
            return await cache.aget_many(["b", "a"], load_many)

        for work in (cancel, close):
            cache, made = Cache(entries=10), []
            self.assertEqual(self.run_in_loop(lambda: work(cache)), {"a": 7, "b": 7})
            self.holds_exactly(cache, 2)

    def test_a_load_of_many_that_asks_for_its_own_keys_is_told(self):
        cache, told = Cache(entries=10), []

        async def load_many(keys):
            for call in (lambda: cache.aget_many(["b"], load_many), lambda: cache.aget_or_load("a", never)):
                try:
                    await call()
                except WaitsForItself:
                    told.append("a task")
            try:
                cache.get_many(["a"], never)
            except WaitsForItself:
                told.append("the thread")
            return dict.fromkeys(keys, 7)

        self.assertEqual(self.run_in_loop(lambda: cache.aget_many(["a", "b"], load_many)), {"a": 7, "b": 7})
        self.assertEqual(told, ["a task", "a task", "the thread"])
        self.holds_exactly(cache, 2)

    def test_a_due_entry_keeps_its_value_if_load_many_fails_or_leaves_it_out(self):
        now = [0]

        async def leaves_out(keys):
            return {}

        async def fails(keys):
            return 1 // 0

        async def work():
            found = [await cache.aget_many(["a", "b"], load) for load in (leaves_out, fails)]
            with self.assertRaises(ZeroDivisionError):
                await cache.aget_many(["a", "new"], fails)
            return found, await cache.aget_many(["a", "b"], lambda keys: {"a": 5, "b": 6})

        with Cache(entries=10, refresh=10, clock=lambda: now[0]) as cache:
            cache.put_many({"a": 1, "b": None})
            now[0] = 10
            self.assertEqual(self.run_in_loop(work), ([{"a": 1, "b": None}] * 2, {"a": 5, "b": 6}))
            self.holds_exactly(cache, 2)

    def test_calls_that_are_wrong_leave_no_load_open(self):
        async def coroutine():
            return 7

        async def work(cache):
            for keys, load, error in ((["a", []], never, TypeError), (["a", "b", "c"], never, TooManyFlights), (["a", "b"], lambda keys: None, TypeError),
                                      (["a"], None, TypeError), (5, never, TypeError), (["a"], lambda keys: {"a": coroutine()}, TypeError)):
                with self.assertRaises(error):
                    await cache.aget_many(keys, load)
                self.assertEqual(cache.kept(), (0, 0))

        with Cache(entries=100, flights=2, refuse_at_limit=True) as cache:
            self.run_in_loop(lambda: work(cache))
            with self.assertRaises(RuntimeError):
                cache.aget_many(["a"], never).send(None)
            with self.assertRaisesRegex(TypeError, "use aget_many$"):
                cache.get_many(["a"], lambda keys: coroutine())
            self.holds_exactly(cache, 0)

    def test_the_old_name_of_aget_or_load_warns_where_it_is_called(self):
        cache = Cache(entries=10)

        async def work():
            with warnings.catch_warnings(record=True) as told:
                warnings.simplefilter("always")
                got = await cache.aget("a", str.upper), await asyncio.create_task(cache.aget("a", never))
            return got, [(str(one.message), one.category, one.filename) for one in told]

        self.assertEqual(self.run_in_loop(work), (("A", "A"), [("call aget_or_load in place of aget", DeprecationWarning, __file__)] * 2))


if __name__ == "__main__":
    unittest.main()
