#!/usr/bin/env python3
"""A signal handler raises, as Ctrl-C does, at each point of a call: nothing hangs, and what is kept is what the library holds."""
import asyncio
import dis
import gc
import sys
import threading
import time
import unittest
import warnings
import weakref
from pathlib import Path

import rookdresser
from rookdresser import Cache
from threads import never, within_a_minute

FILES = {str(path) for path in Path(rookdresser.__file__).resolve().parent.glob("*.py")}


class Interrupt:
    """Raises KeyboardInterrupt at a point of the package's code, or of a callback, in this thread, counted from 0.

    The points are those at which CPython lets a signal handler run: as a function begins, and right after a call of a function
    of C. Python lets one run in the midst of other code, too, as in a loop; there are no long ones here.
    """

    def __init__(self, at):
        self.left, self.calls, self.before = at, 0, {}

    def __enter__(self):
        sys.settrace(self.called)

    def __exit__(self, *_):
        sys.settrace(None)

    def point(self):
        self.left -= 1
        if self.left < 0:
            # A trace function that raises is called no more.
            raise KeyboardInterrupt

    def called(self, frame, event, argument):
        self.calls += 1
        if frame.f_code.co_filename not in FILES and frame.f_code not in CALLBACKS:
            return None
        frame.f_trace_opcodes, frame.f_trace_lines = True, False
        self.point()
        return self.stepped

    def stepped(self, frame, event, argument):
        if event == "opcode":
            was_call, calls = self.before.get(frame, (False, 0))
            self.before[frame] = dis.opname[frame.f_code.co_code[frame.f_lasti]].startswith("CALL"), self.calls
            # If a function of Python was called, its end isn't such a point.
            if was_call and calls == self.calls:
                self.point()
        elif event == "return":
            self.before.pop(frame, None)
        return self.stepped


CALLBACKS = set()


def callback(function):
    """A function in which interrupts strike, too."""
    CALLBACKS.add(function.__code__)
    return function


class Value:
    pass


class Key:
    """A key with a hash and an equality of Python's own."""

    def __init__(self, number):
        self.number = number

    @callback
    def __hash__(self):
        return len((self.number, 2))

    @callback
    def __eq__(self, other):
        return [self.number] == [other.number]


@unittest.skipUnless(sys.implementation.name == "cpython" and sys.version_info < (3, 12),
                     "from Python 3.12 on sys.settrace disturbs what it traces")
class Interrupts(unittest.TestCase):
    def interrupted(self, begin, work, check):
        """Makes one work(begin()) after another, each interrupted at a point further on, and checks each. Returns how many points."""
        at = 0
        while True:
            subject, was_interrupted = begin(), False
            gc.disable()
            try:
                with Interrupt(at):
                    work(subject)
            except KeyboardInterrupt:
                was_interrupted = True
            gc.enable()
            check(subject, was_interrupted)
            if not was_interrupted:
                return at
            at += 1

    def test_a_call_that_is_interrupted_leaves_a_whole_cache(self):
        now, live = [0], weakref.WeakSet()

        @callback
        def value(_=None):
            made = Value()
            live.add(made)
            return made

        @callback
        def fails(_):
            raise KeyError

        @callback
        def drops(key):
            cache[0].drop(key)
            return value()

        @callback
        def clock():
            return int(now[0])

        @callback
        def on_leave(*of):
            told.append(of)

        @callback
        def weigh(key, value):
            return len("1")

        def begin():
            now[0] = 0
            cache[0] = Cache(entries=3, window=1, after_write=100, refresh=50, clock=clock, weigh=weigh, on_leave=on_leave)
            cache[0].put(keys[0], value())
            cache[0].put(keys[1], value())
            told.clear()
            return cache[0]

        def work(cache):
            cache.put(Key(1), value())
            cache.get_or_load(Key(1), None)
            cache.get_or_load(keys[2], value)
            cache.get_or_load(keys[3], drops)
            now[0] = 60
            cache.get_or_load(Key(0), value)
            try:
                cache.get_or_load(keys[1], fails)
                cache.get_or_load(keys[4], fails)
            except KeyError:
                pass
            cache.look(keys[5])
            now[0] = 120
            cache.look(keys[1])
            cache.forget(keys[1])
            cache.clean()
            cache.put(keys[6], value())
            cache.drop(Key(6))
            cache.put_many({keys[1]: value()})
            cache.get_many(keys[:3], lambda asked: {key: value() for key in asked})
            cache.setdefault(keys[1], value())
            cache.setdefault(keys[2], value())
            cache.update({keys[3]: value()})
            list(cache.items()), keys[3] in cache, keys[4] in cache.keys(), None in cache.values()
            cache.popitem()
            cache.pop(keys[1], None)
            cache.clear()
            cache.stats()

        def alive():
            told.clear()
            if live:
                # An error of a load keeps frames in a circle.
                gc.collect()
            return len(live)

        def check(cache, was_interrupted):
            def ask():
                return [type(cache.get_or_load(key, value)) for key in keys]

            self.assertEqual(len(told), len({id(value) for _, value, _ in told}))
            # Another thread waits for no lock and no load that the interrupt left.
            self.assertEqual(within_a_minute(ask), [Value] * 7)
            numbers = cache.numbers()
            self.assertEqual((cache.kept(), numbers["flights"]), ((numbers["entries"],) * 2, 0))
            self.assertEqual(alive(), numbers["entries"])
            cache.close()
            self.assertEqual((cache.kept(), alive()), ((0, 0), 0))

        cache, told, keys = [None], [], [Key(number) for number in range(7)]
        points = self.interrupted(begin, work, check)
        print("%d points of calls" % points)
        self.assertGreater(points, 150)

    def test_who_waits_for_a_load_that_is_interrupted_asks_again(self):
        def begin():
            return Cache(entries=10), []

        def work(of):
            cache, joiners = of
            got = []

            @callback
            def load(key):
                joiner = threading.Thread(target=lambda: got.append(cache.get_or_load("a", lambda key: 7)), daemon=True)
                joiner.start()
                joiners.append((joiner, got))
                while cache._counts()[2] < 1:
                    time.sleep(0)
                return 7

            cache.get_or_load("a", load)

        def check(of, was_interrupted):
            cache, joiners = of
            for joiner, got in joiners:
                joiner.join(60)
                self.assertEqual(got, [7])
            self.assertEqual(within_a_minute(lambda: cache.get_or_load("a", lambda key: 7)), 7)
            self.assertEqual((cache.kept(), cache.numbers()["flights"]), ((1, 1), 0))

        points = self.interrupted(begin, work, check)
        print("%d points of a load" % points)
        self.assertGreater(points, 2)

    def test_a_wait_that_is_interrupted_keeps_nobody_else_from_waiting(self):
        def begin():
            cache, may_end = Cache(entries=10), threading.Event()
            begun = threading.Event()

            def load(key):
                begun.set()
                while not may_end.is_set() and cache._counts()[2] < 1:
                    time.sleep(0)
                return 7

            leader = threading.Thread(target=lambda: cache.get_or_load("a", load), daemon=True)
            leader.start()
            begun.wait()
            return cache, leader, may_end

        def work(of):
            self.assertEqual(of[0].get_or_load("a", lambda key: 7), 7)

        def check(of, was_interrupted):
            cache, leader, may_end = of
            may_end.set()
            leader.join(60)
            self.assertFalse(leader.is_alive())
            self.assertEqual(rookdresser._waits.waits.behind((leader.ident, None), 1 << 63), [])
            self.assertEqual(within_a_minute(lambda: cache.get_or_load("a", lambda key: 7)), 7)
            self.assertEqual((cache.kept(), cache.numbers()["flights"]), ((1, 1), 0))

        points = self.interrupted(begin, work, check)
        print("%d points of a wait" % points)
        self.assertGreater(points, 8)

    def test_a_task_that_is_interrupted_leaves_a_whole_cache(self):
        def begin():
            now[0] = 0
            cache = Cache(entries=10, refresh=50, clock=lambda: now[0])
            cache.put("due", 1)
            now[0] = 60
            return cache

        @callback
        async def load(key):
            await asyncio.sleep(0)
            if key == "fails":
                raise KeyError
            return len((key,))

        @callback
        def load_at_once(key):
            return len((key,))

        @callback
        async def load_many(keys):
            await asyncio.sleep(0)
            return dict.fromkeys(keys, 1)

        async def ask(cache):
            await asyncio.gather(*(cache.aget_or_load(key, load) for key in ("a", "a", "b", "fails", "fails", "due")), return_exceptions=True)
            await asyncio.gather(cache.aget_many(["a", "d", "e"], load_many), cache.aget_many(["e", "d", "due"], load_many), return_exceptions=True)
            return await cache.aget_or_load("a", never), await cache.aget_or_load("c", load_at_once)

        def work(cache):
            asyncio.run(ask(cache))

        def check(cache, was_interrupted):
            gc.collect()
            self.assertEqual(within_a_minute(lambda: [cache.get_or_load(key, lambda key: 1) for key in ("a", "b", "c", "d", "e", "fails", "due")]), [1] * 7)
            numbers = cache.numbers()
            self.assertEqual((cache.kept(), numbers["flights"]), ((numbers["entries"],) * 2, 0))

        now = [0]
        with warnings.catch_warnings():
            warnings.filterwarnings("ignore", "coroutine .* was never awaited")
            points = self.interrupted(begin, work, check)
        print("%d points of tasks" % points)
        self.assertGreater(points, 100)


if __name__ == "__main__":
    unittest.main()
