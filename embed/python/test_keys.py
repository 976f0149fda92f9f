#!/usr/bin/env python3
"""Keys: which are equal, and what their hash and equality may do."""
import datetime
import enum
import itertools
import random
import threading
import time
import unittest
import uuid
from decimal import Decimal
from fractions import Fraction

from rookdresser import Cache
from threads import CacheTest, never, together, within_a_minute


class Whole(int):
    pass


class Pair(tuple):
    pass


class Set(frozenset):
    def __iter__(self):
        raise AssertionError("a set's own parts are read")


class Id(uuid.UUID):
    pass


class Delta(datetime.timedelta):
    days = seconds = 7


class Number(float):
    def __float__(self):
        return 7.0

    as_integer_ratio = __float__


class Ratio(Fraction):
    pass


class Angle(float):
    def __eq__(self, other):
        return (float(self) - float(other)) % 360 == 0

    def __hash__(self):
        return hash(float(self) % 360)


class Money(Decimal):
    def __eq__(self, other):
        return round(Decimal(self), 1) == round(Decimal(other), 1)

    def __hash__(self):
        return hash(round(Decimal(self), 1))


class Modulo(Fraction):
    def __eq__(self, other):
        return (self - other) % 7 == 0

    def __hash__(self):
        return hash(self % 7)


class Alike:
    """Keys of one hash, told apart by their names."""

    def __init__(self, name):
        self.name = name

    def __hash__(self):
        return 5

    def __eq__(self, other):
        return isinstance(other, Alike) and self.name == other.name


Enum = enum.IntEnum("Enum", {"GREAT": 2 ** 62})
Flag = enum.IntFlag("Flag", {"GREAT": 2 ** 62})


class Keys(CacheTest):
    def test_a_key_is_told_from_one_of_its_hash_that_is_there_and_due_and_loaded(self):
        now, one, other = [0], Alike(1), Alike(2)
        cache = Cache(entries=10, refresh=5, seeded=False, clock=lambda: now[0])
        cache[one] = 1
        now[0] = 5

        def load(key):
            # Its entry, a load that is forgotten and this one have the same key.
            cache.forget(one)
            return cache.get_or_load(one, lambda key: (other in cache, cache.get(other, 7)))

        self.assertEqual(within_a_minute(lambda: cache.get_or_load(one, load)), (False, 7))
        self.holds_exactly(cache, 1)

    def test_keys_that_are_equal_are_one_key_whatever_their_types(self):
        half = (0.5, Decimal("0.5"), Fraction(1, 2), complex(0.5))
        great = (2 ** 62, Whole(2 ** 62), Enum.GREAT, Flag.GREAT, Decimal(2 ** 62), Fraction(2 ** 62), complex(2 ** 62), float(2 ** 62))
        vast = (10 ** 400, Decimal("1E+400"), Fraction(10 ** 400))
        small = (5, Whole(5), 5.0, Decimal(5), Fraction(5), complex(5))
        negative = (-(2 ** 62), Whole(-(2 ** 62)), Decimal(-(2 ** 62)), float(-(2 ** 62)))
        deep = ((1, (2 ** 62, "a")), (True, Pair((2.0 ** 62, "a"))), Pair((Decimal(1), (Fraction(2 ** 62), "a"))))
        sets = (frozenset((1, 2 ** 62)), frozenset((2.0 ** 62, Decimal(1))))
        for equal in (half, great, vast, small, negative, deep, sets, (0, False, -0.0, Decimal("-0")), (b"a", memoryview(b"a"))):
            for one, other in itertools.permutations(equal, 2):
                with self.subTest(repr(one)[:40] + " and " + repr(other)[:40]):
                    self.assertEqual((one == other, hash(one)), (True, hash(other)))
                    cache = Cache(entries=10)
                    cache.put(one, 1)
                    self.assertEqual((cache.look(other), cache.drop(other), len(cache)), (1, True, 0))

    def test_keys_of_subclasses_are_equal_as_python_compares_them(self):
        kept = ((Set((1, 2)), frozenset((1, 2))), (Id(int=2 ** 100), uuid.UUID(int=2 ** 100)), (Delta(1, 5), datetime.timedelta(1, 5)),
                (Number(0.5), 0.5, Ratio(1, 2), Decimal("0.5")), (Number(2.0 ** 70), 2 ** 70, Ratio(2 ** 70)))
        # These compare otherwise than their base does.
        own = ((Angle(10.5), Angle(370.5)), (Money("1.21"), Money("1.24")), (Modulo(1, 2), Modulo(15, 2)))
        for equal in kept + own:
            for wrap in (lambda key: key, lambda key: (key, "a"), lambda key: frozenset((key,))):
                for one, other in itertools.permutations(map(wrap, equal), 2):
                    with self.subTest("%s and %s" % (type(one), type(other))):
                        self.assertEqual((one == other, hash(one)), (True, hash(other)))
                        cache = Cache(entries=10)
                        cache.put(one, 1)
                        self.assertEqual((cache.look(other), cache.drop(other), len(cache)), (1, True, 0))

    def test_numbers_of_numpy_are_one_key_with_python_s(self):
        try:
            import numpy
        except ImportError:
            self.skipTest("numpy isn't there")
        for one, other in ((numpy.float64(0.5), 0.5), (numpy.float32(0.5), 0.5), (numpy.int64(-1), -1), (numpy.complex128(0.5), 0.5)):
            cache = Cache(entries=10)
            cache.put(one, 1)
            self.assertEqual((cache.look(other), cache.drop(other), len(cache)), (1, True, 0), one)

    def test_keys_that_differ_are_several(self):
        keys = [-1, -2, 1, 2 ** 61 - 1, 2 ** 61, -(2 ** 61), (), ((),), (1,), ((1,),), (1, 2), (2, 1), ((1, 2),), "1", b"1", None, 0.5, float("inf"),
                -float("inf"), frozenset(), frozenset((1,)), frozenset((1, 2)), Decimal("1E-400"), Decimal("-1E+400"), uuid.UUID(int=1),
                datetime.timedelta(1), datetime.date(2000, 1, 1), complex(0, 1), ("a", "b"), ("ab",), Alike("a"), Alike("b"), int, len]
        cache = Cache(entries=100)
        for i, key in enumerate(keys):
            cache.put(key, i)
        self.assertEqual([cache.look(key) for key in keys], list(range(len(keys))))
        # Those of Alike have one hash(), and so have "1" and b"1"; a UUID stands for its whole number.
        self.assertEqual(len({hashed for hashed, _, _ in cache._uses()}), len(keys) - 3)

    def test_a_key_whose_comparison_puts_others_of_its_hash_comes_to_an_end(self):
        for entries in (50, 5000):
            cache, depth = Cache(entries=entries), []

            class Restless(Alike):
                __hash__ = Alike.__hash__

                def __eq__(self, other):
                    if not depth:
                        depth.append(1)
                        cache.put(Alike(object()), 1)
                        depth.pop()
                    return super().__eq__(other)

            cache.put(Alike("a"), 1)
            with self.assertRaises(RuntimeError):
                within_a_minute(lambda: cache.put(Restless("b"), 2))
            # Each of its 1,000 scans compares with the one key that was put since.
            self.assertEqual((cache.numbers()["entries"], cache.look(Alike("b"))), (min(entries, 1001), None))
            self.holds_exactly(cache)

    def while_another_thread_compares(self, cache, call, meanwhile):
        """Makes call(key) in a thread, and meanwhile(key) in this one while the first compares its key with another of its hash."""
        begun, may_end = threading.Event(), threading.Event()

        class Slow(Alike):
            __hash__ = Alike.__hash__

            def __eq__(self, other):
                if threading.current_thread() is thread and not begun.is_set():
                    begun.set()
                    may_end.wait(60)
                return super().__eq__(other)

        def work():
            begun.wait()
            try:
                meanwhile(Slow("b"))
            finally:
                may_end.set()

        thread = threading.Thread(target=lambda: call(Slow("b")))
        cache.put(Slow("a"), "of another key")
        thread.start()
        within_a_minute(work)
        within_a_minute(thread.join)
        return Slow("b")

    def test_a_key_that_another_thread_puts_during_a_comparison_has_one_entry(self):
        for others in ("", "c"):
            cache = Cache(entries=10)
            cache.put_many((Alike(name), 0) for name in others)
            key = self.while_another_thread_compares(cache, lambda key: cache.put(key, 1), lambda key: cache.put(key, 2))
            self.assertEqual([key.name for key in cache].count("b"), 1)
            self.assertEqual((cache.look(key), cache.drop(key), cache.look(key), cache.drop(key)), (1, True, None, False))
            self.holds_exactly(cache)

    def test_a_key_that_another_thread_loads_during_a_comparison_is_loaded_once(self):
        cache, loads = Cache(entries=10), []
        key = self.while_another_thread_compares(cache, lambda key: self.assertEqual(cache.get_or_load(key, loads.append), None),
                                                 lambda key: cache.get_or_load(key, loads.append))
        self.assertEqual((len(loads), cache.look(key, 7), cache.stats().loads), (1, None, 1))
        self.holds_exactly(cache, 2)

    def test_a_key_that_is_put_anew_under_another_number_during_a_comparison_has_one_entry(self):
        cache = Cache(entries=10)
        cache.put(Alike("b"), 0)

        def meanwhile(key):
            # "a" left the number that "b" gets now.
            cache.clear()
            cache.put(key, 2)

        key = self.while_another_thread_compares(cache, lambda key: cache.put(key, 1), meanwhile)
        self.assertEqual((len(cache), cache.look(key), cache.drop(key), cache.look(key)), (1, 1, True, None))
        self.holds_exactly(cache, 0)

    def test_threads_that_switch_in_every_comparison_give_no_key_two_entries(self):
        class Yields(Alike):
            __hash__ = Alike.__hash__

            def __eq__(self, other):
                time.sleep(0)
                return super().__eq__(other)

        cache, doubled = Cache(entries=100), []

        def work(thread):
            rng = random.Random(thread)
            for _ in range(300):
                key = Yields(rng.randrange(4))
                rng.choice((cache.drop, lambda key: cache.put(key, thread), lambda key: cache.get_or_load(key, lambda key: thread)))(key)
                names = [key.name for key in cache]
                doubled.extend(names if len(names) > len(set(names)) else ())

        within_a_minute(lambda: together(4, work))
        self.assertEqual(doubled, [])
        self.holds_exactly(cache)

    def test_a_key_whose_comparison_always_takes_out_the_other_is_told(self):
        cache = Cache(entries=10)

        class Replaces(Alike):
            __hash__ = Alike.__hash__

            def __eq__(self, other):
                if "b" in (self.name, other.name):
                    # Another object of the same hash comes in for the one that is compared with.
                    cache.clear()
                    cache.put(Replaces("a"), 1)
                return False

        cache.put(Replaces("a"), 1)
        with self.assertRaises(RuntimeError):
            within_a_minute(lambda: cache.look(Replaces("b")))
        self.holds_exactly(cache, 1)

    def test_a_key_may_be_nested_200_levels_deep(self):
        def nested(wrap, levels):
            key = 1
            for _ in range(levels):
                key = wrap(key)
            return key

        wraps = (lambda key: (key,), lambda key: frozenset((key,)), lambda key: Pair((key,)))
        rows = [(nested(wrap, 200), nested(wrap, 200), (nested(wrap, 201), nested(wrap, 20_000))) for wrap in wraps]
        rows.append([*(nested(lambda key: frozenset(((key,),)), levels) for levels in (100, 100)), (nested(lambda key: frozenset(((key,),)), 101),)])

        def work():
            for good, same, bad in rows:
                cache = Cache(entries=10)
                cache.put(good, 1)
                self.assertEqual(cache.look(same), 1)
                for key in bad:
                    for call in (lambda: cache.put(key, 1), lambda: cache.look(key), lambda: cache.drop(key), lambda: cache.get_or_load(key, never)):
                        with self.assertRaises(RecursionError):
                            call()
                self.holds_exactly(cache, 1)

        work()
        before = threading.stack_size(256 * 1024)
        try:
            within_a_minute(work)
        finally:
            threading.stack_size(before)

    def test_the_same_nan_is_found_and_another_is_not(self):
        cache, nan = Cache(entries=10), float("nan")
        cache.put(nan, 1)
        self.assertEqual((cache.look(nan), cache.look(float("nan"))), (1, None))
        cache.put(Decimal("nan"), 2)
        with self.assertRaises(TypeError):
            cache.put(Decimal("snan"), 2)
        self.holds_exactly(cache, 2)

    def test_a_key_that_cannot_be_hashed_or_compared_moves_nothing(self):
        class Odd:
            def __init__(self, name, bad):
                self.name, self.bad = name, bad

            def __hash__(self):
                if self.bad == "hash":
                    raise ValueError("of the hash")
                return 5

            def __eq__(self, other):
                if "eq" in (self.bad, other.bad):
                    raise ValueError("of the equality")
                return self.name == other.name

        cache = Cache(entries=10)
        cache.put(Odd("a", ""), 1)
        cache.put(Odd("b", ""), 2)
        for bad in ("hash", "eq"):
            for call in (lambda: cache.get_or_load(Odd("c", bad), lambda key: 3), lambda: cache.put(Odd("c", bad), 3), lambda: cache.drop(Odd("c", bad))):
                with self.assertRaises(ValueError):
                    within_a_minute(call)
            self.holds_exactly(cache, 2)
        with self.assertRaises(TypeError):
            cache.get_or_load([], lambda key: 1)
        self.assertEqual((cache.look(Odd("a", "")), cache.look(Odd("b", "")), cache.look(Odd("c", ""))), (1, 2, None))
        self.holds_exactly(cache, 2)

    def test_a_key_s_hash_and_equality_may_use_the_cache(self):
        class Asks:
            def __init__(self, name):
                self.name = name

            def __hash__(self):
                cache.look("x")
                return 5

            def __eq__(self, other):
                cache.put("x", 1)
                cache.drop("x")
                return self.name == other.name

        cache = Cache(entries=10)

        def work():
            for name in "abab":
                self.assertEqual(cache.get_or_load(Asks(name), lambda key: key.name), name)

        within_a_minute(work)
        self.assertEqual(cache.stats().loads, 2)
        self.holds_exactly(cache, 2)

    def test_a_key_s_equality_may_take_out_what_it_is_compared_with(self):
        cache, taken = Cache(entries=10), []

        class Takes:
            def __init__(self, name):
                self.name = name

            def __hash__(self):
                return 5

            def __eq__(self, other):
                if other.name == "taker" and self.name not in taken:
                    taken.append(self.name)
                    cache.clear()
                    for name in ("s", "t", "u", "v"):
                        cache.put(name, [name] * 50)
                return self.name == other.name

        for call in (lambda key: cache.put(key, 1), lambda key: cache.get_or_load(key, lambda key: 1), cache.look, cache.drop):
            del taken[:]
            cache.clear()
            for name in "abcd":
                cache.put(Takes(name), [name] * 50)
            call(Takes("taker"))
            self.assertEqual(len(taken), 1)
            self.holds_exactly(cache)

    def test_a_key_s_hash_and_equality_that_contradict_themselves_leak_nothing(self):
        asked = itertools.count(1)

        class Fickle:
            def __hash__(self):
                return next(asked) * 0x9E3779B97F4A7C15 % 2 ** 64 >> 33 & 3

            def __eq__(self, other):
                return (next(asked) * 0x9E3779B97F4A7C15 % 2 ** 64 >> 33) % 3 == 0

        now = [0]
        cache = Cache(entries=16, after_write=40, refresh=15, clock=lambda: now[0])

        def fails(key):
            raise KeyError

        def work():
            for now[0] in range(3000):
                key = Fickle()
                if now[0] % 5 == 0:
                    cache.put(key, 1)
                elif now[0] % 5 == 1:
                    cache.look(key)
                elif now[0] % 5 == 2:
                    cache.drop(key)
                elif now[0] % 5 == 3:
                    try:
                        cache.get_or_load(key, fails)
                    except KeyError:
                        pass
                else:
                    cache.get_or_load(key, lambda key: 2)
                self.holds_exactly(cache)

        within_a_minute(work)
        self.assertGreater(cache.stats().hits, 0)
        self.assertGreater(cache.stats().misses, 0)


if __name__ == "__main__":
    unittest.main()
