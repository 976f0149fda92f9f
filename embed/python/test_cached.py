#!/usr/bin/env python3
"""cached: functions, methods, async functions, and what they are asked for as functions of functools.lru_cache are."""
import asyncio
import copy
import functools
import inspect
import pickle
import unittest

from rookdresser import Cache, CacheInfo, Refused, WaitsForItself, cached
from threads import CacheTest, together, wait_for_joins, within_a_minute

made = []


@cached(entries=10)
def add(a, b=0):
    """Adds."""
    made.append((a, b))
    return a + b


class Cached(CacheTest):
    def setUp(self):
        del made[:]
        add.cache_clear()

    def test_cached_without_settings_is_told_what_to_write(self):
        for wrong in (lambda: cached(len), lambda: cached(1000)):
            with self.assertRaisesRegex(TypeError, "write @cached\\(entries=1000\\) above the function$"):
                wrong()

    def test_a_cached_function_runs_once_for_equal_arguments(self):
        self.assertEqual((add(1, b=2), add(1, b=2), add(2), add(2), add.__doc__, add.__name__), (3, 3, 2, 2, "Adds.", "add"))
        add.cache.clear()
        self.assertEqual((add(2), made), (2, [(1, 2), (2, 0), (2, 0)]))

    def test_arguments_by_place_by_name_and_in_any_order_are_told_apart(self):
        @cached(entries=100)
        def show(*arguments, **named):
            return arguments, named

        calls = [((), {}), ((1,), {}), (((1,),), {}), ((1, 2), {}), ((), {"a": 1}), ((1,), {"a": 1}), ((), {"a": 1, "b": 2}), (("a", 1), {}), ((("a", 1),), {})]
        for _ in range(2):
            for arguments, named in calls:
                self.assertEqual(show(*arguments, **named), (arguments, named))
        self.assertEqual(show(b=2, a=1), ((), {"a": 1, "b": 2}))
        self.assertEqual(show.cache_info(), CacheInfo(hits=10, misses=9, maxsize=100, currsize=9))

    def test_cache_info_and_cache_clear_are_those_of_lru_cache(self):
        plain = functools.lru_cache(maxsize=10)(lambda a: a)
        ours = cached(entries=10)(lambda a: a)
        for function in (plain, ours):
            for argument in (1, 2, 1, 1, 3):
                function(argument)
        self.assertEqual((tuple(ours.cache_info()), ours.cache_info()._fields), (tuple(plain.cache_info()), plain.cache_info()._fields))
        for function in (plain, ours):
            function.cache_clear()
            function(1)
        self.assertEqual(tuple(ours.cache_info()), tuple(plain.cache_info()))
        self.assertEqual(tuple(ours.cache_info()), (0, 1, 10, 1))

    def test_a_key_of_one_s_own(self):
        @cached(entries=10, key=lambda text, *, loud=False: text.lower())
        def shout(text, *, loud=False):
            made.append(text)
            return text.upper()

        self.assertEqual((shout("Ab"), shout("aB", loud=True), made), ("AB", "AB", ["Ab"]))
        with self.assertRaises(TypeError):
            shout("a", 1)
        self.holds_exactly(shout.cache, 1)

    def test_methods_go_by_their_objects(self):
        class Account:
            def __init__(self, owner):
                self.owner = owner

            @cached(entries=10)
            def balance(self, year):
                """Of a year."""
                made.append((self.owner, year))
                return len(made)

            @classmethod
            @cached(entries=10)
            def kind(cls, of):
                made.append(of)
                return cls.__name__ + of

            @staticmethod
            @cached(entries=10)
            def rate(of):
                made.append(of)
                return 2 * of

        one, other = Account("one"), Account("other")
        self.assertEqual([one.balance(1), one.balance(1), other.balance(1), Account.balance(one, 1), one.balance(year=1), one.balance.__doc__],
                         [1, 1, 2, 1, 3, "Of a year."])
        self.assertEqual([one.kind("s"), Account.kind("s"), one.rate(2), Account.rate(2)], ["Accounts", "Accounts", 4, 4])
        self.assertEqual(len(made), 5)
        self.assertEqual((one.balance.cache_info().currsize, Account.balance.cache_info().hits), (3, 2))

    def test_what_it_raises_is_raised_and_not_kept(self):
        @cached(entries=10)
        def fails(a):
            made.append(a)
            raise KeyError(a)

        for _ in range(2):
            with self.assertRaises(KeyError):
                fails(1)
        self.assertEqual(made, [1, 1])
        self.holds_exactly(fails.cache, 0)
        with self.assertRaises(TypeError):
            add([])
        with self.assertRaises(TypeError):
            add()

    def test_64_threads_run_it_once(self):
        @cached(entries=10)
        def slow(a):
            made.append(a)
            wait_for_joins(slow.cache, 63)
            return 2 * a

        got = []
        within_a_minute(lambda: together(64, lambda i: got.append(slow(21))))
        self.assertEqual((made, got), ([21], [42] * 64))

    def test_a_function_that_asks_for_itself_is_told(self):
        @cached(entries=10)
        def asks(a):
            return asks(a)

        with self.assertRaises(WaitsForItself):
            within_a_minute(lambda: asks(1))
        self.holds_exactly(asks.cache, 0)

    def test_a_cached_async_function_runs_once_for_equal_arguments(self):
        @cached(entries=10)
        async def double(a):
            """Doubles."""
            made.append(a)
            while double.cache.stats().joins < 2:
                await asyncio.sleep(0)
            return 2 * a

        async def work():
            return await asyncio.gather(*(double(4) for _ in range(3)))

        self.assertEqual((within_a_minute(lambda: asyncio.run(work())), made), ([8, 8, 8], [4]))
        self.assertTrue(inspect.iscoroutinefunction(double))
        self.assertEqual((double.__doc__, tuple(double.cache_info())), ("Doubles.", (0, 3, 10, 1)))

    def test_async_methods_objects_and_parts_of_functions(self):
        class Asks:
            async def __call__(self, a):
                made.append(a)
                return a

            @cached(entries=10)
            async def method(self, a, b=0):
                made.append(a)
                return a + b

        class Plain:
            def __call__(self, a):
                made.append(a)
                return a

        one = Asks()
        part = cached(entries=10)(functools.partial(one.method.__wrapped__, one))
        of_object = cached(entries=10)(one)

        async def work():
            return [await one.method(1), await one.method(1), await one.method(1, b=2), await part(3), await part(3), await of_object(5), await of_object(5)]

        self.assertEqual((within_a_minute(lambda: asyncio.run(work())), made), ([1, 1, 3, 3, 3, 5, 5], [1, 1, 3, 5]))
        plain = cached(entries=10)(Plain())
        self.assertEqual((plain(1), plain(1), cached(entries=1)(len)("abc"), made[4:]), (1, 1, 3, [1]))

    def test_generators_and_what_is_no_function_are_refused(self):
        def generates():
            yield 1

        async def generates_in_tasks():
            yield 1

        class Generates:
            def __call__(self):
                yield 1

        for wrong in (generates, generates_in_tasks, Generates(), functools.partial(generates), 7, classmethod(len), staticmethod(len)):
            with self.subTest(wrong), self.assertRaises(TypeError):
                cached(entries=10)(wrong)
        with self.assertRaises(TypeError):
            cached(entries=10, no_such_setting=1)(len)
        with self.assertRaises(TypeError):
            cached(len)

    def test_a_cached_function_is_copied_and_pickled_as_a_function_is(self):
        for other in (copy.copy(add), copy.deepcopy(add), pickle.loads(pickle.dumps(add))):
            self.assertIs(other, add)
        self.assertIn("add", repr(add))
        self.assertEqual(str(inspect.signature(add)), "(a, b=0)")

    def test_settings_are_those_of_a_cache(self):
        now, left = [0], []

        @cached(entries=10, after_write=100, clock=lambda: now[0], on_leave=lambda *of: left.append(of))
        def get(a):
            made.append(a)
            return a

        self.assertEqual((get(1), get(1)), (1, 1))
        now[0] = 100
        self.assertEqual((get(1), made, left), (1, [1, 1], [((1,), 1, "expired")]))
        get.cache.close()
        with self.assertRaises(Refused):
            get(1)
        self.assertIsInstance(get.cache, Cache)

    def test_a_circle_through_a_cached_function_is_collected(self):
        import gc
        import weakref

        class Object:
            @cached(entries=10)
            def of_class(self):
                return self

        one = Object()
        one.method = cached(entries=10)(lambda: one)
        one.method()
        gone = weakref.ref(one)
        del one
        gc.collect()
        self.assertIsNone(gone())


if __name__ == "__main__":
    unittest.main()
