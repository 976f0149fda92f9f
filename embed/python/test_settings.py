#!/usr/bin/env python3
"""Settings by name and by place, durations, and what refused calls raise."""
import copy
import inspect
import pickle
import threading
import time
import unittest
import warnings
from datetime import timedelta

import rookdresser
from rookdresser import BadSetup, Cache, Closed, LeftOut, OutOfMemory, Refused, StepsSpent, TooHeavy, TooManyFlights, WaitsForItself, cached
from threads import CacheTest, never, within_a_minute

CLASSES = {1: OutOfMemory, 2: BadSetup, 3: TooHeavy, 4: TooManyFlights, 5: StepsSpent, 100: Closed}


class Settings(CacheTest):
    def test_settings_by_place_are_taken_and_warned_of(self):
        left = []
        with warnings.catch_warnings():
            warnings.simplefilter("error")
            Cache(10), Cache(10, window=2), Cache(entries=10, window=2)
            with self.assertRaises(DeprecationWarning):
                Cache(10, 2)
        with warnings.catch_warnings(record=True) as told:
            warnings.simplefilter("always")
            cache = Cache(10, 2, 3, 50, 100, 0, 0, lambda key, value: 7, lambda *of: left.append(of), lambda: 5, False, 1, None)
            window = Cache(10, 4, adaptive=False).window()
        self.assertEqual([(str(one.message), one.category, one.filename) for one in told], [
            ("give settings by name: window=, flights=, bound=, after_write=, after_access=, refresh=, weigh=, on_leave=, clock=, seeded=, shards=, adaptive=",
             DeprecationWarning, __file__), ("give settings by name: window=", DeprecationWarning, __file__)])
        cache["a"] = 1
        self.assertEqual((cache.window(), window, cache.numbers()["weight"], cache.numbers()["latest"], repr(cache)), (2, 4, 7, 5, "<Cache of 10 entries, 1 held>"))
        cache.close()
        self.assertEqual(left, [("a", 1, "explicit")])
        for wrong, why in ((lambda: Cache(10, 2, window=3), "window is given twice"), (lambda: Cache(*range(14)), "a cache has 13 settings, and was given 14"),
                           (lambda: Cache(), "missing 1 required positional argument: 'entries'"), (lambda: Cache(10, entries=10), "multiple values for argument 'entries'"),
                           (lambda: Cache(10, ttl=5), "unexpected keyword argument 'ttl'")):
            with self.assertRaisesRegex(TypeError, why), warnings.catch_warnings():
                warnings.simplefilter("error")
                wrong()

    def test_the_signature_has_the_settings_by_name(self):
        kinds = {name: one.kind.name for name, one in inspect.signature(Cache).parameters.items()}
        self.assertEqual(kinds.pop("entries"), "POSITIONAL_OR_KEYWORD")
        self.assertEqual((set(kinds.values()), list(kinds)[:2], len(kinds)), ({"KEYWORD_ONLY"}, ["window", "flights"], 15))

    def test_a_subclass_passes_settings_on(self):
        class Mine(Cache):
            def __init__(self, **settings):
                super().__init__(100, **settings)

        self.assertEqual(repr(Mine(after_write=5)), "<Cache of 100 entries, 0 held>")

    def test_a_duration_is_milliseconds_or_a_timedelta(self):
        for given in (1500, timedelta(seconds=1.5), timedelta(milliseconds=1499, microseconds=1)):
            for name in ("after_write", "after_access"):
                now = [0]
                with Cache(entries=10, clock=lambda: now[0], **{name: given}) as cache:
                    cache["a"] = 1
                    now[0] = 1499
                    self.assertTrue("a" in cache)
                    now[0] = 1500
                    self.assertFalse("a" in cache)
        now, made = [0], []
        with Cache(entries=10, refresh=timedelta(seconds=1), clock=lambda: now[0]) as cache:
            for now[0] in (0, 999, 1000):
                cache.get_or_load("a", made.append)
            self.assertEqual(made, ["a", "a"])
        # A duration above 0 is never rounded to 0, which is for ever.
        for given, ends in ((timedelta(microseconds=1), 1), (timedelta(microseconds=999), 1), (timedelta(microseconds=1001), 2), (timedelta(0), None), (0, None),
                            (timedelta.max, 86_400_000_000_000_000), (timedelta.max - timedelta(microseconds=1), 86_400_000_000_000_000),
                            (timedelta.max - timedelta(microseconds=1000), 86_399_999_999_999_999)):
            now = [0]
            with Cache(entries=10, after_write=given, clock=lambda: now[0]) as cache:
                cache["a"] = 1
                now[0] = (ends or 1 << 63) - 1
                self.assertTrue("a" in cache)
                now[0] += 1
                self.assertEqual("a" in cache, ends is None)
        f = cached(entries=10, after_write=timedelta(minutes=10))(abs)
        self.assertEqual((f(-7), f(-7), f.cache_info().hits), (7, 7, 1))

    def test_a_duration_out_of_range_is_named_in_milliseconds(self):
        # What is below 0, as a computed rest of a life may be, is never rounded to 0, which is for ever.
        rows = (({"after_write": timedelta(seconds=-1)}, BadSetup, "after_write is -1000, and has to be from 0 to 18446744073709551615"),
                ({"after_write": timedelta(microseconds=-1)}, BadSetup, "after_write is -1, and has to be from 0 to 18446744073709551615"),
                ({"after_access": timedelta(microseconds=-900)}, BadSetup, "after_access is -1, and has to be from 0 to 18446744073709551615"),
                ({"refresh": timedelta(microseconds=-1100)}, BadSetup, "refresh is -2, and has to be from 0 to 18446744073709551615"),
                ({"after_write": timedelta.min}, BadSetup, "after_write is -86399999913600000, and has to be from 0 to 18446744073709551615"),
                ({"refresh": timedelta.max, "after_write": timedelta.max}, BadSetup, "refresh is 86400000000000000, and has to be below after_write, 86400000000000000"),
                ({"after_write": timedelta(seconds=1), "refresh": timedelta(minutes=1)}, BadSetup, "refresh is 60000, and has to be below after_write, 1000"),
                ({"window": timedelta(1)}, TypeError, r"window is datetime.timedelta\(days=1\), and has to be a whole number"),
                ({"after_access": "5"}, TypeError, "after_access is '5', and has to be a whole number of milliseconds or a timedelta"))
        for settings, error, why in rows:
            with self.assertRaisesRegex(error, "^%s$" % why):
                Cache(entries=10, **settings)

    def test_a_subclass_of_timedelta_counts_as_that_whatever_else_it_is(self):
        class Float(timedelta):
            def __float__(self):
                return 99.0

        class Int(timedelta):
            def __int__(self):
                return 5

        class Index(timedelta):
            def __index__(self):
                return 7

        loads = Cache(entries=10)
        begun, may_end = threading.Event(), threading.Event()
        leader = threading.Thread(target=lambda: loads.get_or_load("a", lambda key: (begun.set(), may_end.wait())))
        leader.start()
        begun.wait()
        for of in (Float, Int, Index):
            given = of(milliseconds=3)
            for settings, ttl in (({}, given), ({}, lambda key, value: given), ({"after_write": given}, None), ({"after_access": given}, None)):
                now = [0]
                cache = Cache(entries=10, clock=lambda: now[0], **settings)
                cache.put("a", 1, ttl=ttl)
                now[0] = 2
                self.assertTrue("a" in cache)
                now[0] = 3
                self.assertFalse("a" in cache)
            with self.assertRaisesRegex(TimeoutError, "longer than 0:00:00.003000$"):
                within_a_minute(lambda: loads.get_or_load("a", never, timeout=given))
        may_end.set()
        leader.join()

        class Alike:
            days, seconds, microseconds = 0, 0, 5000

            def total_seconds(self):
                return 0.005

        for call in (lambda: loads.put("a", 1, ttl=Alike()), lambda: Cache(entries=10, refresh=Alike())):
            with self.assertRaisesRegex(TypeError, "has to be a whole number of milliseconds or a timedelta$"):
                call()

    def test_none_stands_for_a_setting_only_where_it_says_not_given(self):
        for name in ("entries", "flights", "bound", "after_write", "after_access", "refresh"):
            of = " of milliseconds or a timedelta" if name in ("after_write", "after_access", "refresh") else ""
            with self.assertRaisesRegex(TypeError, "^%s is None, and has to be a whole number%s$" % (name, of)):
                Cache(**{"entries": 10, name: None})
        given = dict.fromkeys(("window", "shards", "adaptive", "weigh", "on_leave", "clock"))
        with Cache(entries=10, **given) as cache:
            cache.put("a", 1, ttl=None)
            self.assertEqual((cache.get_or_load("a", never, timeout=None, ttl=None), cache.window()), (1, 1))

    def test_a_timeout_is_seconds_or_a_timedelta(self):
        cache, begun, may_end = Cache(entries=10), threading.Event(), threading.Event()
        leader = threading.Thread(target=lambda: cache.get_or_load("a", lambda key: (begun.set(), may_end.wait())))
        leader.start()
        begun.wait()
        for given, told in ((timedelta(milliseconds=5), "0:00:00.005000"), (timedelta(seconds=-1), "-1 day, 23:59:59"), (0.005, "0.005 s"), (0, "0 s")):
            for call in (lambda: cache.get_or_load("a", None, timeout=given), lambda: cache.get_many(["a"], dict, given)):
                with self.assertRaisesRegex(TimeoutError, "^the load of the key took longer than %s$" % told):
                    within_a_minute(call)
        for wrong in ("5", [], object()):
            with self.assertRaises(TypeError):
                cache.get_or_load("a", None, timeout=wrong)

        class Odd(timedelta):
            def total_seconds(self):
                raise KeyError("odd")

        with self.assertRaises(KeyError):
            cache.get_or_load("a", None, timeout=Odd(5))
        may_end.set()
        leader.join()
        self.assertEqual(within_a_minute(lambda: cache.get_or_load("a", None, timeout=timedelta(days=999_999))), (None, True))
        self.holds_exactly(cache, 1)


class Faults(CacheTest):
    def raised(self):
        """Each fault that a call can be brought to raise, with the calls."""
        closed = Cache(entries=10)
        closed.close()
        heavy, narrow = Cache(entries=10, bound=5, weigh=lambda key, value: value), Cache(entries=10, flights=1, refuse_at_limit=True)
        for call in (lambda: Cache(entries=0), lambda: Cache(entries=10, refresh=5, after_write=5), lambda: Cache(entries=10, adaptive=True)):
            yield 2, call
        for call in (lambda: heavy.put("a", 6), lambda: heavy.setdefault("a", 6), lambda: heavy.update(a=6), lambda: heavy.__setitem__("a", 6)):
            yield 3, call
        for call in (lambda: narrow.get_many("ab", dict.fromkeys), lambda: narrow.get_or_load("a", lambda key: narrow.get_or_load("b", len))):
            yield 4, call
        for call in (lambda: closed.get("a"), lambda: closed.peek("a"), lambda: "a" in closed, lambda: closed.get_or_load("a", len), lambda: len(closed),
                     lambda: list(closed), lambda: list(closed.keys()), lambda: list(closed.items()), closed.popitem, closed.clear, closed.numbers,
                     closed.window, lambda: closed.setdefault("a", 1), lambda: closed.pop("a", 1), lambda: closed.get_many("a", dict.fromkeys)):
            yield 100, call

    def test_each_fault_has_a_class_that_is_raised(self):
        for fault, call in self.raised():
            with self.assertRaises(CLASSES[fault]) as caught:
                call()
            self.assertEqual((type(caught.exception), caught.exception.fault, isinstance(caught.exception, Refused)), (CLASSES[fault], fault, True))
            # A clause names the class, or what it is of.
            try:
                call()
            except CLASSES[fault]:
                pass

    def test_refused_of_a_number_is_of_the_fault_s_class(self):
        for fault, of in CLASSES.items():
            self.assertEqual((type(Refused(fault)), Refused(fault).fault, str(Refused(fault)), str(Refused(fault, "why"))), (of, fault, rookdresser._faults.FAULTS[fault], "why"))
        self.assertEqual((type(Refused(77)), str(Refused(77)), Refused(77).fault), (Refused, "fault 77", 77))
        self.assertEqual([issubclass(of, base) for of, base in ((TooHeavy, ValueError), (BadSetup, ValueError), (OutOfMemory, MemoryError), (Closed, ValueError))],
                         [True, True, True, False])

        # As a class that is raised by itself.
        for fault, of in CLASSES.items():
            with self.assertRaises(of) as caught:
                raise of
            self.assertEqual((caught.exception.fault, str(caught.exception), of.fault), (fault, rookdresser._faults.FAULTS[fault], fault))

        class Mine(Refused):
            pass

        self.assertEqual((type(Mine(3)), Mine(3).fault, type(Refused()), Refused().fault), (Mine, 3, Refused, 0))

    def test_exceptions_are_pickled_and_copied_whole(self):
        def same(error):
            told = error.args, vars(error), str(error), type(error)
            copies = [pickle.loads(pickle.dumps(error, protocol)) for protocol in range(pickle.HIGHEST_PROTOCOL + 1)] + [copy.copy(error), copy.deepcopy(error)]
            self.assertEqual([(one.args, vars(one), str(one), type(one)) for one in copies], [told] * len(copies))

        for fault in (*CLASSES, 77):
            for error in (Refused(fault), Refused(fault, "a sentence of its own"), CLASSES.get(fault, Refused)()):
                same(error)
                error.of = "what the caller noted"
                same(error)
        same(LeftOut(("a", 1)))
        same(WaitsForItself("the load of the key waits for this very caller"))
        try:
            Cache(entries=0)
        except BadSetup as error:
            same(error)


if __name__ == "__main__":
    unittest.main()
