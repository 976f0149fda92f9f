#!/usr/bin/env python3
"""Forked children, the end of the interpreter, and the recursion limit."""
import os
import signal
import subprocess
import sys
import threading
import time
import unittest

from rookdresser import Cache, cached
from threads import CacheTest, wait_for_joins, within_a_minute

HERE = os.path.dirname(os.path.abspath(__file__))


def forked(work):
    """What a forked child ends with, which does work() and is stopped after a minute."""
    child = os.fork()
    if child == 0:
        signal.alarm(60)
        try:
            os._exit(work())
        except BaseException:
            os._exit(99)
    return os.WEXITSTATUS(os.waitpid(child, 0)[1])


def deep(frames, work):
    return work() if frames <= 0 else deep(frames - 1, work)


@unittest.skipUnless(hasattr(os, "fork"), "there is no fork here")
class Forks(CacheTest):
    @unittest.skipUnless(hasattr(os, "fork"), "there is no fork here")
    def test_a_child_that_is_forked_beside_busy_threads_has_a_whole_cache(self):
        cache, stop = Cache(entries=4096), threading.Event()

        def work():
            i = 0
            while not stop.is_set():
                i += 1
                cache.get_or_load(i % 3000, lambda key: key)

        busy = [threading.Thread(target=work, daemon=True) for _ in range(3)]
        for thread in busy:
            thread.start()
        ended = []
        for _ in range(30):
            child = os.fork()
            if child == 0:
                signal.alarm(60)
                values = [cache.get_or_load(key, lambda key: key) for key in range(3000)]
                numbers = cache.numbers()
                whole = cache.kept() == (numbers["entries"],) * 2 and numbers["flights"] == 0
                os._exit(0 if values == list(range(3000)) and whole else 1)
            ended.append(os.waitpid(child, 0)[1])
        stop.set()
        for thread in busy:
            thread.join()
        self.assertEqual(ended, [0] * 30)
        self.holds_exactly(cache)


    def test_a_child_asks_for_a_key_that_a_thread_of_its_parent_was_loading(self):
        cache, begun, may_end = Cache(entries=10), threading.Event(), threading.Event()

        def load(key):
            begun.set()
            may_end.wait()
            return 7

        leader = threading.Thread(target=lambda: cache.get_or_load("a", load))
        leader.start()
        begun.wait()
        child = os.fork()
        if child == 0:
            signal.alarm(60)
            os._exit(cache.get_or_load("a", lambda key: 8))
        status = os.waitpid(child, 0)[1]
        may_end.set()
        leader.join()
        self.assertEqual((os.WEXITSTATUS(status), cache.look("a")), (8, 7))

    def test_a_child_has_whole_caches_of_a_subclass_whose_caches_are_equal_or_have_no_hash(self):
        class Equal(Cache):
            def __eq__(self, other):
                return isinstance(other, Equal)

            def __hash__(self):
                return 7

        class Unhashable(Cache):
            __hash__ = None

        caches = [Equal(entries=10), Equal(entries=10), Unhashable(entries=10)]
        begun, may_end = threading.Barrier(4), threading.Event()
        leaders = [threading.Thread(target=cache.get_or_load, args=("a", lambda key: (begun.wait(), may_end.wait()))) for cache in caches]
        for leader in leaders:
            leader.start()
        begun.wait()
        ended = forked(lambda: sum(cache.get_or_load("a", lambda key: 2) for cache in caches))
        may_end.set()
        for leader in leaders:
            leader.join()
        self.assertEqual(ended, 6)

    def test_a_child_that_is_forked_in_a_callback_has_a_whole_cache(self):
        # As a finalizer or a signal handler may fork, in the midst of a call of its thread and beside another thread's load.
        ended, begun, may_end, forks = [], threading.Event(), threading.Event(), []

        def weigh(key, value):
            if key == "b" and not forks:
                forks.append(1)
                ended.append(forked(lambda: cache.get_or_load("a", lambda key: 8)))
            return 1

        cache = Cache(entries=10, weigh=weigh)
        leader = threading.Thread(target=lambda: cache.get_or_load("a", lambda key: (begun.set(), may_end.wait(), 7)[2]))
        leader.start()
        begun.wait()
        cache.put("b", 1)
        may_end.set()
        leader.join()
        self.assertEqual((ended, cache.look("a")), ([8], 7))
        self.holds_exactly(cache, 2)

    def test_stats_and_numbers_of_a_child_agree_on_what_failed(self):
        cache, begun, may_end = Cache(entries=10), threading.Event(), threading.Event()
        leader = threading.Thread(target=lambda: cache.get_or_load("a", lambda key: (begun.set(), may_end.wait())))
        leader.start()
        begun.wait()
        ended = forked(lambda: 10 * cache.stats().failed + cache.numbers()["failed"])
        may_end.set()
        leader.join()
        self.assertEqual(ended, 11)

    def test_callbacks_that_open_caches_beside_a_thread_that_forks_hang_nothing(self):
        cache, ended, stop = Cache(entries=50, weigh=lambda key, value: Cache(entries=1).close() or 1), [], threading.Event()

        def work():
            ended.extend(forked(lambda: 0) for _ in range(60))
            stop.set()

        forker = threading.Thread(target=work)
        forker.start()
        i = 0
        while not stop.is_set():
            i += 1
            cache.put(i % 60, i)
        within_a_minute(forker.join)
        self.assertEqual(ended, [0] * 60)
        self.holds_exactly(cache)

    def test_a_waiter_of_the_parent_is_no_waiter_of_the_child(self):
        cache, got = Cache(entries=10), []

        def load(key):
            waiter.start()
            wait_for_joins(cache, 1)
            # The child has this load, of this very thread, and no waiter.
            ended.append(forked(lambda: 0 if cache._land(*self.open_load(cache, 5)) == 5 and cache.look("a") == 5 else 1))
            return 7

        ended = []
        waiter = threading.Thread(target=lambda: got.append(cache.get_or_load("a", None)))
        self.assertEqual(cache.get_or_load("a", load), 7)
        within_a_minute(waiter.join)
        self.assertEqual((ended, got), ([0], [7]))

    def open_load(self, cache, value):
        load, = (load for _, _, load in cache._uses() if load is not None)
        return load, value


class Ends(unittest.TestCase):
    def test_the_interpreter_ends_beside_busy_threads_and_finalizers(self):
        program = """
import sys, threading, types
from rookdresser import Cache
cache, begun = Cache(entries=512), threading.Barrier(5)
class Late:
    def __init__(self): self.cache = cache
    def __del__(self): self.cache.%s
module = types.ModuleType("module"); sys.modules["module"] = module; module.late = Late(); del module
def work():
    begun.wait()
    i = 0
    while True: i += 1; cache.get_or_load(i %% 1000, lambda key: key)
for _ in range(4): threading.Thread(target=work, daemon=True).start()
begun.wait()
for i in range(3000): cache.put(i, i)
"""
        for call in ("put(1, 1)", "look(1)", "close()"):
            for _ in range(3):
                done = subprocess.run([sys.executable, "-c", program % call], cwd=HERE, capture_output=True, text=True, timeout=60)
                self.assertEqual((done.returncode, done.stderr), (0, ""))

    def test_the_interpreter_ends_beside_threads_that_wait(self):
        program = """
import threading
from rookdresser import Cache
cache, never = Cache(entries=10), threading.Event()
threads = [threading.Thread(target=lambda: cache.get_or_load("a", lambda key: never.wait()), daemon=True) for _ in range(5)]
for thread in threads: thread.start()
while cache.stats().joins < 4: pass
"""
        done = subprocess.run([sys.executable, "-c", program], cwd=HERE, capture_output=True, text=True, timeout=60)
        self.assertEqual((done.returncode, done.stderr), (0, ""))

    def test_a_finalizer_asks_for_a_key_whose_load_the_interpreter_s_end_has_stopped(self):
        program = """
import asyncio, builtins, os, threading
from rookdresser import Cache
cache, loop, kept = Cache(entries=10), asyncio.new_event_loop(), []
class Late:
    def __del__(self, cache=cache, write=os.write): write(1, b"%%r" %% (cache.%s,))
async def slow(key): await asyncio.Event().wait()
def in_thread(): cache.get_or_load("a", lambda key: threading.Event().wait())
def in_thread_s_loop(): asyncio.run(cache.aget_or_load("a", slow))
def in_loop(): kept.append(loop.create_task(cache.aget_or_load("a", slow))), loop.run_until_complete(asyncio.sleep(0))
if %r == "in_loop": in_loop()
else: threading.Thread(target=%s, daemon=True).start()
while not cache.numbers()["flights"]: pass
builtins.late = Late()
"""
        calls = {'get_or_load("a", lambda key: 7)': "7", 'get_or_load("a", lambda key: 7, timeout=60)': "7", 'get_many(["a"], lambda keys: {"a": 7})': "{'a': 7}"}
        for call, told in calls.items():
            for load in ("in_thread", "in_thread_s_loop", "in_loop"):
                with self.subTest(call, load=load):
                    done = subprocess.run([sys.executable, "-c", program % (call, load, load)], cwd=HERE, capture_output=True, text=True, timeout=60)
                    self.assertEqual((done.stdout, done.returncode), (told, 0), done.stderr)


class Recursion(CacheTest):
    LIMIT = 400

    def at_each_depth(self):
        """Depths of the stack from which a call comes to the recursion limit, or doesn't."""
        before = sys.getrecursionlimit()
        for depth in range(self.LIMIT - 100, self.LIMIT):
            try:
                yield depth
            finally:
                sys.setrecursionlimit(before)

    def called(self, depth, call):
        sys.setrecursionlimit(self.LIMIT)
        try:
            deep(depth, call)
        except (RecursionError, KeyError) as error:
            return type(error)
        return None

    def test_each_call_at_each_depth_leaves_a_whole_cache(self):
        def fails(key):
            raise KeyError

        calls = {
            "put": lambda cache: cache.put(9, "v9"),
            "get": lambda cache: cache.get_or_load(0, None),
            "get that loads": lambda cache: cache.get_or_load(9, lambda key: "v9"),
            "get that fails": lambda cache: cache.get_or_load(9, fails),
            "get that recurs": lambda cache: cache.get_or_load(9, lambda key: deep(9999, int)),
            "many": lambda cache: cache.get_many([0, 8, 9], lambda keys: {key: "v%d" % key for key in keys}),
            "look": lambda cache: cache.get(0),
            "items": lambda cache: (0, "v0") in cache.items() and dict(cache.items()),
            "setdefault": lambda cache: cache.setdefault(9, "v9"),
            "update": lambda cache: cache.update({9: "v9"}),
            "drop": lambda cache: cache.drop(8),
            "clear": lambda cache: cache.clear(),
            "stats": lambda cache: cache.stats(),
        }
        raised = set()
        for name, call in calls.items():
            for depth in self.at_each_depth():
                cache = Cache(entries=3, on_leave=lambda *of: None)
                cache.put(0, "v0")
                cache.put(1, "v1")
                error = self.called(depth, lambda: call(cache))
                raised.add(error)
                with self.subTest(name, depth=depth):
                    if error is RecursionError and name != "clear":
                        self.assertEqual(cache.look(1), "v1")
                    self.holds_exactly(cache)
                    self.assertEqual([cache.get_or_load(key, lambda key: "v%d" % key) for key in range(4)], ["v0", "v1", "v2", "v3"])
        self.assertEqual(raised, {None, RecursionError, KeyError})

    def test_who_joined_a_load_near_the_limit_is_woken(self):
        for depth in self.at_each_depth():
            cache, got, is_over, lock = Cache(entries=3), [], threading.Event(), threading.Lock()
            lock.acquire()

            def join():
                while not cache.stats().misses and not is_over.is_set():
                    time.sleep(0)
                joiner.start()
                while not cache.stats().joins and joiner.is_alive():
                    time.sleep(0)
                lock.release()

            joiner = threading.Thread(target=lambda: got.append(cache.get_or_load(True, lambda key: "asked again")), daemon=True)
            watcher = threading.Thread(target=join)
            watcher.start()
            # The loader is a function of C, which needs no frame, and ends once somebody has joined.
            self.called(depth, lambda: cache.get_or_load(True, lock.acquire))
            is_over.set()
            watcher.join()
            joiner.join(60)
            with self.subTest(depth=depth):
                self.assertIn(got, ([True], ["asked again"]))
                self.holds_exactly(cache, 1)

    def test_a_recursive_cached_function_may_go_beyond_the_limit(self):
        for depth in self.at_each_depth():
            @cached(entries=5000)
            def fib(n):
                return n if n < 2 else fib(n - 1) + fib(n - 2)

            self.called(depth - 300, lambda: fib(4000))
            self.holds_exactly(fib.cache)
            self.assertEqual(fib(30), 832040)
            self.holds_exactly(fib.cache)


if __name__ == "__main__":
    unittest.main()
