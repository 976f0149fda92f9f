#!/usr/bin/env python3
"""A million random calls of a cache as a mapping: each returns what a dict would, of what was stored, is young enough and hasn't left."""
import itertools
import random
import unittest

from rookdresser import Cache
from threads import CacheTest, never

ABSENT = object()


class Beside(CacheTest):
    """What each call returns, by a dict of what was stored and when, from which `on_leave` takes what leaves."""

    def setUp(self):
        self.now, self.stored, self.left = 0, {}, 0
        self.cache = Cache(entries=200, after_write=5000, clock=lambda: self.now, on_leave=self.leave)

    def leave(self, key, value, cause):
        self.left += 1
        if cause != "replaced":
            self.assertEqual(self.stored.pop(key)[0], value)

    def there(self, key):
        value, at = self.stored.get(key, (ABSENT, 0))
        return ABSENT if self.now - at >= 5000 else value

    def store(self, key, value, call):
        """A call that stores. The entry itself may leave at once, so the dict has it before."""
        self.stored[key] = value, self.now
        return call(key, value)

    def setdefault(self, key, value):
        found = self.there(key)
        if found is not ABSENT:
            return self.cache.setdefault(key, value), found
        return self.store(key, value, self.cache.setdefault), value

    def pop(self, key, default):
        found = self.there(key)
        return self.cache.pop(key, default), default if found is ABSENT else found

    def popitem(self, *_):
        live = {key for key in self.stored if self.there(key) is not ABSENT}
        if not live:
            with self.assertRaises(KeyError):
                self.cache.popitem()
            return None, None
        before = dict(self.stored)
        key, value = self.cache.popitem()
        return (key in live, value, key in self.stored), (True, before[key][0], False)

    def load(self, key, value):
        found = self.there(key)
        if found is not ABSENT:
            return self.cache.get_or_load(key, never), found
        return self.store(key, value, lambda key, value: self.cache.get_or_load(key, lambda key: value)), value

    def read(self, call, key):
        found = self.there(key)
        return call(key, ABSENT), found

    def test_a_million_random_calls_are_those_of_a_dict(self):
        cache, rng = self.cache, random.Random(11)
        values = itertools.count()
        calls = {
            "get": (30, lambda key, value: self.read(cache.get, key)), "peek": (10, lambda key, value: self.read(cache.peek, key)),
            "in": (10, lambda key, value: (key in cache, self.there(key) is not ABSENT)), "load": (15, self.load),
            "put": (10, lambda key, value: (self.store(key, value, cache.put), None)), "setdefault": (10, self.setdefault),
            "set": (5, lambda key, value: (self.store(key, value, cache.__setitem__), None)), "pop": (5, self.pop),
            "update": (4, lambda key, value: (self.store(key, value, lambda key, value: cache.update({key: value})), None)),
            "popitem": (0.05, self.popitem), "clean": (0.01, lambda *_: (cache.clean(), None)), "clear": (0.001, lambda *_: (cache.clear(), None)),
        }
        names = rng.choices(list(calls), [weight for weight, _ in calls.values()], k=1_000_000)
        for at, name in enumerate(names):
            self.now += at % 7 == 0
            # Half of the keys are often asked for.
            key = rng.randrange(100) if at % 2 else rng.randrange(1000)
            ours, theirs = calls[name][1](key, next(values))
            if ours != theirs:
                self.fail("call %d, %s of %d: %r, and not %r" % (at, name, key, ours, theirs))
            if at % 50_000 == 0:
                self.assertEqual(dict(cache.items()), {key: value for key, (value, _) in self.stored.items() if self.there(key) is not ABSENT})
                self.assertEqual(len(cache), len(self.stored))
        self.assertGreater(self.left, 100_000)
        self.assertEqual(set(names), set(calls))
        self.holds_exactly(cache, len(self.stored))


if __name__ == "__main__":
    unittest.main()
