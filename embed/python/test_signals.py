#!/usr/bin/env python3
"""Signals that raise at any moment, and interrupts in the callbacks of a call while loads are open."""
import signal
import sys
import threading
import time
import unittest

from rookdresser import Cache
from threads import CacheTest, never, within_a_minute


class Struck(BaseException):
    pass


class Key:
    """A key with a hash and an equality of Python's own."""

    def __init__(self, number):
        self.number = number

    def __hash__(self):
        return len((self.number, 2))

    def __eq__(self, other):
        return [self.number] == [other.number]


class OpenLoads(CacheTest):
    """One interrupt, in a callback of another call, while loads are open."""

    def interrupted_calls(self, armed):
        """A cache whose clock is struck once `armed` has something, and each call that is struck."""
        def clock():
            if armed:
                armed.pop()
                raise KeyboardInterrupt
            return 0

        cache = Cache(entries=10, clock=clock, on_leave=lambda *of: None)
        return cache, (lambda: cache.look("b"), lambda: cache.put("b", 1), lambda: cache.drop("b"), lambda: cache.get_or_load("b", None), cache.clear,
                       lambda: cache.get_many(["b", "c"], never), lambda: cache.pop("b", None), lambda: cache.forget("b"), cache.clean)

    def strike(self, armed, call):
        armed.append(1)
        with self.assertRaises(KeyboardInterrupt):
            call()

    def test_a_key_with_two_open_loads_keeps_to_itself_after_an_interrupt(self):
        # The keys are of one hash() each.
        for one, other in (((0,), (sys.hash_info.modulus,)), (1, 2 ** 61), (Key(1), Key(2))):
            armed = []
            cache, calls = self.interrupted_calls(armed)
            for call in calls:
                events, threads = [threading.Event() for _ in range(3)], []
                for event in events:
                    opened = cache.numbers()["flights"]
                    threads.append(threading.Thread(target=cache.get_or_load, args=(one, lambda key, event=event: (event.wait(), "of one")[1])))
                    threads[-1].start()
                    while cache.numbers()["flights"] == opened:
                        time.sleep(0)
                    if len(threads) < 3:
                        cache.drop(one)
                    if len(threads) == 2:
                        self.strike(armed, call)
                for event, thread in zip(events, threads):
                    event.set()
                    within_a_minute(thread.join)
                self.assertEqual(cache.get_or_load(other, lambda key: "of the other"), "of the other")
                self.holds_exactly(cache, 2)
                cache.clear()
                self.holds_exactly(cache, 0)

    def test_all_who_joined_a_load_get_its_value_after_an_interrupt(self):
        armed = []
        cache, calls = self.interrupted_calls(armed)
        for call in calls:
            got, may_end, joins = [], threading.Event(), cache.stats().joins

            def ask():
                got.append(cache.get_or_load("a", lambda key: (may_end.wait(), 7)[1]))

            threads = [threading.Thread(target=ask) for _ in range(4)]
            for thread in threads:
                thread.start()
            while cache.stats().joins < joins + 3:
                time.sleep(0)
            self.strike(armed, call)
            may_end.set()
            for thread in threads:
                within_a_minute(thread.join)
            self.assertEqual(got, [7] * 4)
            self.holds_exactly(cache, 1)
            cache.clear()


@unittest.skipUnless(hasattr(signal, "setitimer"), "there are no timers here")
class Signals(CacheTest):
    def test_signals_that_raise_at_any_moment_leave_a_whole_cache(self):
        cache, stop, wrong = Cache(entries=50, refresh=1, weigh=lambda key, value: 1, on_leave=lambda *of: None), threading.Event(), []

        def calls(i):
            key = i % 90
            cache.put(key, key)
            if cache.get_or_load((key * 7) % 90, lambda key: key) != (key * 7) % 90:
                wrong.append(key)
            cache.get_many([key, key + 1, "a", (key, 2 ** 70)], lambda keys: {key: key for key in keys})
            cache.look(key), cache.pop(key, None), cache.forget(key + 1), cache.drop(key + 2)
            cache.setdefault(key, key), cache.update({key + 3: key + 3}), key in cache, cache.peek(key)
            if i % 10 == 0:
                cache.popitem()
                wrong.extend(item for item in cache.items() if type(item[0]) is int and item[0] != item[1])
            if i % 500 == 0:
                cache.clear()

        def work():
            i = 0
            while not stop.is_set():
                i += 1
                cache.get_or_load(i % 90, lambda key: key)

        def strike(*_):
            raise Struck

        before, threads, strikes, i = signal.signal(signal.SIGALRM, strike), [threading.Thread(target=work) for _ in range(2)], 0, 0
        for thread in threads:
            thread.start()
        try:
            while strikes < 300:
                try:
                    # One strike at a time.
                    signal.setitimer(signal.ITIMER_REAL, 0.0005 + strikes % 10 / 10_000)
                    while True:
                        i += 1
                        calls(i)
                except Struck:
                    strikes += 1
        finally:
            signal.setitimer(signal.ITIMER_REAL, 0)
            signal.signal(signal.SIGALRM, before)
            stop.set()
        for thread in threads:
            within_a_minute(thread.join)
        self.assertEqual(wrong, [])
        self.holds_exactly(cache)
        self.assertEqual(within_a_minute(lambda: [cache.get_or_load(key, lambda key: key) for key in range(90)]), list(range(90)))


if __name__ == "__main__":
    unittest.main()
