#!/usr/bin/env python3
"""What a loader, weigh, on_leave and clock may do. embed/CALLBACKS.md names these tests."""
import asyncio
import inspect
import logging
import re
import threading
import time
import unittest
from pathlib import Path

from rookdresser import Cache, Refused, WaitsForItself, cached
from threads import CacheTest, together, wait_for_joins, within_a_minute


class Callbacks(CacheTest):
    # The loader.

    def test_a_loader_that_raises_raises_in_all_who_joined(self):
        cache, raised = Cache(entries=10), []

        def load(key):
            wait_for_joins(cache, 3)
            raise KeyError(key)

        def ask(_):
            try:
                cache.get_or_load("a", load)
            except KeyError as error:
                raised.append(error.args)

        within_a_minute(lambda: together(4, ask))
        self.assertEqual(raised, [("a",)] * 4)
        self.holds_exactly(cache, 0)

    def test_a_loader_that_is_told_to_exit_ends_its_own_caller_alone(self):
        for ending in (SystemExit, KeyboardInterrupt):
            cache, made, ended = Cache(entries=10), [], []

            def load(key):
                made.append(key)
                if len(made) == 1:
                    wait_for_joins(cache, 1)
                    raise ending(3)
                return 7

            def ask(_):
                try:
                    self.assertEqual(cache.get_or_load("a", load), 7)
                except ending as error:
                    ended.append(error)

            within_a_minute(lambda: together(2, ask))
            self.assertEqual((len(ended), len(made)), (1, 2))
            self.holds_exactly(cache, 1)

    def test_a_loader_that_asks_for_its_own_key_is_told(self):
        cache, told = Cache(entries=10), []

        def load(key):
            try:
                cache.get_or_load(key, load)
            except WaitsForItself as error:
                told.append(error)
            return 7

        self.assertEqual(within_a_minute(lambda: cache.get_or_load("a", load)), 7)
        self.assertEqual(len(told), 1)
        self.holds_exactly(cache, 1)

    def test_loaders_of_two_threads_that_wait_for_each_other_are_told(self):
        cache, gate, told = Cache(entries=10), threading.Barrier(2), []

        def ask(i):
            def load(key):
                gate.wait()
                try:
                    cache.get_or_load(1 - key, lambda key: key)
                except WaitsForItself as error:
                    told.append(error)
                return key

            self.assertEqual(cache.get_or_load(i, load), i)

        within_a_minute(lambda: together(2, ask))
        self.assertEqual(len(told), 1)
        self.holds_exactly(cache, 2)

    def test_a_loader_may_use_the_cache_for_other_keys_and_change_its_own(self):
        cache = Cache(entries=10)

        def load(key):
            cache.put(key, 5)
            return cache.get_or_load("b", lambda key: 20) + 1

        self.assertEqual(cache.get_or_load("a", load), 21)
        self.assertEqual((cache.look("a"), cache.look("b"), cache.stats().loose), (5, 20, 1))
        self.holds_exactly(cache, 2)

    def test_a_loader_that_closes_the_cache_has_its_value_returned(self):
        cache, left = Cache(entries=10, on_leave=lambda *of: left.append(of)), []
        cache.put("b", 1)

        def load(key):
            cache.close()
            return 7

        self.assertEqual(cache.get_or_load("a", load), 7)
        self.assertEqual((left, cache.kept()), ([("b", 1, "explicit")], (0, 0)))

    def test_who_waits_for_a_load_may_give_up(self):
        cache, begun, may_end = Cache(entries=10), threading.Event(), threading.Event()

        def load(key):
            begun.set()
            may_end.wait()
            return 7

        leader = threading.Thread(target=lambda: cache.get_or_load("a", load))
        leader.start()
        begun.wait()
        with self.assertRaises(TimeoutError):
            cache.get_or_load("a", load, timeout=0.01)
        may_end.set()
        leader.join()
        self.assertEqual(cache.look("a"), 7)
        self.holds_exactly(cache, 1)

    def test_the_age_of_a_loaded_value_counts_from_the_get(self):
        now = [1000]
        cache = Cache(entries=10, after_write=100, clock=lambda: now[0])

        def load(key):
            now[0] = 1080
            return 7

        self.assertEqual(cache.get_or_load("a", load), 7)
        now[0] = 1099
        self.assertEqual(cache.look("a"), 7)
        now[0] = 1100
        self.assertIsNone(cache.look("a"))

    # weigh and clock.

    def test_a_weight_that_is_no_whole_number_moves_nothing(self):
        for wrong, error in ((lambda: 1.5, TypeError), (lambda: -1, ValueError), (lambda: 2 ** 32 + 1, ValueError), (lambda: 1 // 0, ZeroDivisionError)):
            weight = [wrong]
            cache = Cache(entries=10, bound=100, weigh=lambda key, value: weight[0]())
            with self.assertRaises(error):
                within_a_minute(lambda: cache.get_or_load("a", lambda key: 7))
            with self.assertRaises(error):
                cache.put("a", 7)
            self.holds_exactly(cache, 0)
            weight[0] = lambda: 1
            self.assertEqual(within_a_minute(lambda: cache.get_or_load("a", lambda key: 8)), 8)
            self.holds_exactly(cache, 1)

    def test_a_clock_that_is_no_whole_number_moves_nothing(self):
        for wrong, error in ((time.monotonic, TypeError), (lambda: -1, ValueError), (lambda: 2 ** 64, ValueError), (lambda: 1 // 0, ZeroDivisionError)):
            cache = Cache(entries=10, clock=wrong)
            for call in (lambda: cache.put("a", 1), lambda: cache.get_or_load("a", lambda key: 1), lambda: cache.look("a"), lambda: cache.drop("a"), cache.clear):
                with self.assertRaises(error):
                    within_a_minute(call)
            self.holds_exactly(cache, 0)

    def test_a_clock_that_goes_back_counts_as_the_latest_moment(self):
        now = [1000]
        cache = Cache(entries=10, after_write=100, clock=lambda: now[0])

        def is_there(key, moment):
            now[0] = moment
            return cache.get(key) is not None

        self.assertFalse(is_there("a", 1000))
        now[0] = 5
        cache.put("a", 1)
        self.assertTrue(is_there("a", 1099))
        self.assertFalse(is_there("a", 1100))
        # So does a landing whose get was made before a call at a later moment.
        now[0] = 2000
        cache.get_or_load("b", lambda key: is_there("a", 2090))
        self.assertTrue(is_there("b", 2189))
        self.assertFalse(is_there("b", 2190))
        self.holds_exactly(cache, 0)

    def test_weigh_and_clock_may_use_the_cache(self):
        def weigh(key, value):
            cache.look("b")
            return 1

        def clock():
            if not asked:
                asked.append(1)
                cache.look("b")
            return 0

        asked = []
        cache = Cache(entries=10, weigh=weigh, clock=clock)
        self.assertEqual(within_a_minute(lambda: cache.get_or_load("a", lambda key: 7)), 7)
        self.holds_exactly(cache, 1)

    def callbacks(self, act):
        """Each of weigh, clock, a key's hash and its equality, as (name, a cache, a key): act() is called by that one, if `armed`."""
        for name in ("weigh", "clock", "hash", "equality"):
            armed = []

            def acts(of, name=name, armed=armed):
                if of == name and armed:
                    armed.clear()
                    act()

            class Key:
                def __init__(self, acts=acts):
                    self.acts = acts

                def __hash__(self):
                    self.acts("hash")
                    return 5

                def __eq__(self, other):
                    self.acts("equality")
                    return True

            def weigh(key, value, acts=acts):
                acts("weigh")
                return 1

            def clock(acts=acts):
                acts("clock")
                return 0

            cache = Cache(entries=10, weigh=weigh, clock=clock)
            cache.put(Key(), 1)
            armed.append(1)
            yield name, cache, Key()

    def test_weigh_clock_hash_and_equality_that_are_told_to_exit_move_nothing(self):
        def exits():
            raise SystemExit

        for name, cache, key in self.callbacks(exits):
            with self.subTest(name), self.assertRaises(SystemExit):
                within_a_minute(lambda: cache.put(key, 2))
            self.assertEqual((cache.look(key), cache.stats().replaced), (1, 0))
            self.holds_exactly(cache, 1)

    def test_weigh_clock_hash_and_equality_that_close_the_cache_have_the_call_refused(self):
        opened = []
        for name, cache, key in self.callbacks(lambda: opened[-1].close()):
            opened.append(cache)
            with self.subTest(name), self.assertRaises(Refused) as caught:
                within_a_minute(lambda: cache.put(key, 2))
            self.assertEqual((caught.exception.fault, cache.kept()), (100, (0, 0)))

    def test_weigh_clock_hash_and_equality_that_block_stop_no_other_call(self):
        begun, end = threading.Barrier(2), threading.Barrier(2)

        def blocks():
            begun.wait()
            end.wait()

        for name, cache, key in self.callbacks(blocks):
            def meanwhile(cache=cache):
                begun.wait()
                self.assertEqual(cache.get_or_load("b", lambda key: 20), 20)
                self.assertEqual(cache.look("b"), 20)
                end.wait()

            with self.subTest(name):
                blocked = threading.Thread(target=cache.put, args=(key, 2))
                blocked.start()
                within_a_minute(meanwhile)
                blocked.join()
                self.assertEqual(cache.look(key), 2)
                self.holds_exactly(cache, 2)

    # on_leave.

    def test_on_leave_that_raises_is_logged_and_loses_nothing(self):
        now, told = [0], []

        def on_leave(*of):
            told.append(of)
            raise ValueError("of on_leave")

        cache = Cache(entries=2, window=1, after_write=100, clock=lambda: now[0], on_leave=on_leave)
        with self.assertLogs("rookdresser", logging.ERROR) as logged:
            cache.put("a", 1)
            now[0] = 200
            self.assertEqual(within_a_minute(lambda: cache.get_or_load("a", lambda key: 2)), 2)
            self.assertEqual(within_a_minute(lambda: cache.get_or_load("a", lambda key: 3)), 2)
            cache.put("a", 4)
            cache.put("b", 5)
            self.assertEqual(told, [("a", 1, "expired"), ("a", 2, "replaced")])
            cache.clear()
        self.assertEqual(sorted(told[2:]), [("a", 4, "explicit"), ("b", 5, "explicit")])
        self.assertEqual(len(logged.records), 4)
        self.holds_exactly(cache, 0)

    def test_on_leave_that_is_told_to_exit_ends_the_call_and_loses_nothing(self):
        told = []

        def on_leave(*of):
            told.append(of)
            raise SystemExit

        cache = Cache(entries=10, on_leave=on_leave)
        cache.put("a", 1)
        cache.put("b", 2)
        with self.assertRaises(SystemExit):
            cache.clear()
        self.assertEqual(sorted(told), [("a", 1, "explicit"), ("b", 2, "explicit")])
        self.holds_exactly(cache, 0)

    def test_on_leave_may_ask_for_the_key_that_left(self):
        now, told = [0], []
        cache = Cache(entries=10, after_write=100, clock=lambda: now[0], on_leave=lambda key, value, cause: told.append(cache.get_or_load(key, lambda key: 9)))
        cache.put("a", 1)
        now[0] = 200
        self.assertEqual(within_a_minute(lambda: cache.get_or_load("a", lambda key: 2)), 2)
        # The value that the get loaded was there by the time that on_leave was called.
        self.assertEqual(told, [2])
        self.holds_exactly(cache, 1)

    def test_a_loader_or_on_leave_that_blocks_stops_no_other_call(self):
        begun, end = threading.Barrier(2), threading.Barrier(2)

        def block(*of):
            begun.wait()
            end.wait()
            return 7

        def meanwhile():
            begun.wait()
            self.assertEqual(cache.get_or_load("b", lambda key: 20), 20)
            self.assertIsNone(cache.look("c"))
            end.wait()

        cache = Cache(entries=10, on_leave=block)
        for blocked in (lambda: cache.get_or_load("a", block), lambda: cache.drop("a")):
            thread = threading.Thread(target=blocked)
            thread.start()
            within_a_minute(meanwhile)
            thread.join()
        self.holds_exactly(cache, 1)

    def test_on_leave_may_close_the_cache(self):
        cache = Cache(entries=10, on_leave=lambda *of: cache.close())
        for key in range(3):
            cache.put(key, key)
        self.assertTrue(within_a_minute(lambda: cache.drop(1)))
        self.assertEqual(cache.kept(), (0, 0))

    def test_closing_tells_on_leave_and_keeps_nothing(self):
        told = []
        cache = Cache(entries=10, on_leave=lambda *of: told.append(of))
        cache.put("a", 1)
        cache.close()
        cache.close()
        self.assertEqual((told, cache.kept()), ([("a", 1, "explicit")], (0, 0)))

    # What isn't a loader.

    def test_a_coroutine_that_a_loader_returns_is_closed_and_not_stored(self):
        made = []

        async def load(key):
            raise AssertionError("it runs")

        def plainly(key):
            made.append(load(key))
            return made[-1]

        async def by_aget(cache):
            async def returns_one(key):
                return plainly(key)

            await cache.aget_or_load("a", returns_one)

        for call, why in ((lambda cache: cache.get_or_load("a", plainly), "load returned a coroutine: use aget_or_load"),
                          (lambda cache: asyncio.run(by_aget(cache)), "the loaded value is a coroutine, which could be awaited once"),
                          (lambda cache: cache.get_many("a", lambda keys: {"a": plainly("a")}), "the loaded value is a coroutine, which could be awaited once"),
                          (lambda cache: cache.get_many("a", plainly), "load_many returned a coroutine, and has to return a mapping: use aget_many"),
                          (lambda cache: cached(entries=10)(plainly)("a"), "the function returned a coroutine, and isn't an async function")):
            cache = Cache(entries=10)
            with self.subTest(why), self.assertRaises(TypeError) as caught:
                call(cache)
            self.assertEqual((str(caught.exception), inspect.getcoroutinestate(made[-1])), (why, inspect.CORO_CLOSED))
            self.holds_exactly(cache, 0)

    def test_a_future_that_a_loader_returns_is_stored_as_many_may_await_it(self):
        cache = Cache(entries=10)

        async def work():
            future = cache.get_or_load("a", lambda key: asyncio.get_running_loop().create_future())
            future.set_result(7)
            return [await cache.get_or_load("a", None) for _ in range(2)]

        self.assertEqual(asyncio.run(work()), [7, 7])

    def test_a_default_in_place_of_a_loader_is_told_what_to_call(self):
        cache, why = Cache(entries=10), "load has to be callable; for a default call get(key, default)"
        for wrong in (5, None):
            for call in (lambda: cache.get_or_load("a", wrong), lambda: asyncio.run(cache.aget_or_load("a", wrong))):
                with self.assertRaises(TypeError) as caught:
                    call()
                self.assertEqual(str(caught.exception), why)
        with self.assertRaisesRegex(TypeError, "^load_many has to be callable$"):
            cache.get_many("a", 5)
        self.assertEqual(cache.get_or_load("a", lambda key: 7), 7)
        self.holds_exactly(cache, 1)

    # Settings.

    def test_settings_out_of_range_are_named(self):
        rows = (
            ({"entries": 0}, "entries is 0, and has to be from 1 to 268435456"),
            ({"entries": -1}, "entries is -1, and has to be from 1 to 268435456"),
            ({"entries": 268_435_457}, "entries is 268435457, and has to be from 1 to 268435456"),
            ({"entries": -(1 << 20_000)}, "entries is minus about 2^20000, and has to be from 1 to 268435456"),
            ({"entries": 70_000, "shards": 1}, "entries is 70000, and has to be from 1 to 65536"),
            ({"entries": 131_073, "shards": 2}, "entries is 131073, and has to be from 1 to 131072, 1 to 65536 for each shard"),
            ({"entries": 10, "shards": 0}, "shards is 0, and has to be from 1 to 4096"),
            ({"entries": 10, "shards": 4097}, "shards is 4097, and has to be from 1 to 4096"),
            ({"entries": 10, "shards": 11}, "shards is 11, and has to be from 1 to 10, the entries"),
            ({"entries": 10, "window": 0}, "window is 0, and has to be from 1 to 10, the entries"),
            ({"entries": 10, "window": 20}, "window is 20, and has to be from 1 to 10, the entries"),
            ({"entries": 10, "flights": 0}, "flights is 0, and has to be from 1 to 4096"),
            ({"entries": 10, "flights": 4097}, "flights is 4097, and has to be from 1 to 4096"),
            ({"entries": 10, "bound": 0}, "bound is 0, and has to be from 1 to 281474976710656"),
            ({"entries": 10, "bound": 2 ** 48 + 1}, "bound is 281474976710657, and has to be from 1 to 281474976710656"),
            ({"entries": 10, "bound": 0, "shards": 2}, "bound is 0, and has to be from 2 to 562949953421312, 1 to 281474976710656 for each shard"),
            ({"entries": 10, "bound": 9, "shards": 10}, "bound is 9, and has to be from 10 to 2814749767106560, 1 to 281474976710656 for each shard"),
            ({"entries": 10, "after_write": -1}, "after_write is -1, and has to be from 0 to 18446744073709551615"),
            ({"entries": 10, "after_access": 2 ** 64}, "after_access is 18446744073709551616, and has to be from 0 to 18446744073709551615"),
            ({"entries": 10, "refresh": -5}, "refresh is -5, and has to be from 0 to 18446744073709551615"),
            ({"entries": 10, "refresh": 10, "after_write": 5}, "refresh is 10, and has to be below after_write, 5"),
            ({"entries": 10, "refresh": 5, "after_write": 5}, "refresh is 5, and has to be below after_write, 5"),
        )
        for settings, why in rows:
            with self.assertRaises(Refused) as caught:
                Cache(**settings)
            self.assertEqual((caught.exception.fault, str(caught.exception)), (2, why))
        for name in ("entries", "shards", "window", "flights", "bound", "after_write", "after_access", "refresh"):
            of = " of milliseconds or a timedelta" if name in ("after_write", "after_access", "refresh") else ""
            with self.assertRaisesRegex(TypeError, "^%s is 10.0, and has to be a whole number%s$" % (name, of)):
                Cache(**{"entries": 10, name: 10.0})
        for settings in ({"entries": 65_536, "shards": 1}, {"entries": 131_072, "shards": 2}, {"entries": 10, "window": 10, "flights": 4096, "bound": 2 ** 48},
                         {"entries": 1, "window": 1, "flights": 1, "bound": 1, "shards": 1},
                         {"entries": 4096, "window": 1, "flights": 1, "bound": 4096, "shards": 4096}, {"entries": 10, "refresh": 4, "after_write": 5},
                         {"entries": 10, "refresh": 2 ** 64 - 1}, {"entries": 10, "after_write": 2 ** 64 - 1, "after_access": 2 ** 64 - 1}):
            with Cache(**settings) as cache:
                cache.put("a", 1)
                self.assertEqual(cache.look("a"), 1)

    def test_a_cache_has_a_shard_for_each_65536_entries(self):
        opened = []

        class Tells(Cache):
            def _open(self, setup, shards, *rest):
                opened.append((setup[:4], shards))
                super()._open(setup, shards, *rest)

        for settings in ({"entries": 65_536}, {"entries": 65_537}, {"entries": 131_073, "window": 4}, {"entries": 10, "shards": 3, "bound": 10}):
            Tells(**settings).close()
        self.assertEqual(opened, [((65_536, 0, 1024, 2 ** 48), 1), ((65_537, 0, 1024, 2 ** 48), 2), ((131_073, 4, 1024, 2 ** 48), 3), ((10, 0, 1024, 10), 3)])

    def test_a_setting_that_opens_the_cache_itself_leaves_it_as_it_opened_it(self):
        class Opens:
            def __index__(self):
                if not opened:
                    opened.append(True)
                    cache.__init__(100)
                    cache.put_many((i, [i]) for i in range(50))
                return 8

        for settings in ({"entries": Opens()}, {"entries": 10, "shards": Opens()}, {"entries": 10, "refresh": Opens()}):
            cache, opened = Cache.__new__(Cache), []
            with self.assertRaises(ValueError):
                cache.__init__(**settings)
            self.assertEqual([cache.pop(i) for i in range(50)], [[i] for i in range(50)])
            cache.put_many((i, i) for i in range(200))
            self.holds_exactly(cache, 100)

    # The page.

    def test_the_pages_name_tests_that_are_there(self):
        embed = Path(__file__).resolve().parent.parent
        tests = "".join(path.read_text() for pattern in ("rust/tests/*.rs", "go/*_test.go", "python/test_*.py") for path in embed.glob(pattern))
        for page, least in (("CALLBACKS.md", 50), ("README.md", 30)):
            named = re.findall(r"`(Test\w+|(?!rd_)[a-z]+(?:_[a-z0-9]+){3,})`", (embed / page).read_text())
            self.assertEqual([name for name in named if not re.search(r"(?:fn|def|func) %s\(" % name, tests)], [])
            self.assertGreater(len(named), least)

    def test_the_page_s_names_of_the_same_call_are_those_of_each_language(self):
        embed = Path(__file__).resolve().parent.parent
        sources = ["".join(path.read_text() for path in sorted(embed.glob(pattern))) for pattern in ("rust/src/*.rs", "go/*.go", "c/rookdresser_loading.h")]
        heads = [r"pub (?:async )?fn %s[<(]", r"(?m)^func (?:\(\w+ \*Cache\[K, V\]\) )?%s[\[(]", r"static inline \w+ \**rd_loading_%s\("]
        section = (embed / "README.md").read_text().split("## One name for one call")[1].split("\n## ")[0]
        rows = re.findall(r"^\| (.*?) \| (.*?) \| (.*?) \| (.*?) \| (.*?) \|$", section, re.M)[1:]
        self.assertEqual(len(rows), 16)
        for what, rust, go, python, c in rows:
            for source, head, cell in zip(sources, heads, (rust, go, c)):
                for name in re.findall(r"`(\w+)`", cell):
                    self.assertRegex(source, head % name, what)
            for name in re.findall(r"`(\w+)`", python):
                self.assertTrue(name in ("in", "on_leave") or callable(getattr(Cache, name)), name)


if __name__ == "__main__":
    unittest.main()
