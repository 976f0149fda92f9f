#!/usr/bin/env python3
"""The window that follows the look-ups, beside the rules of tools/model over plain lists, which know nothing of this package."""
import asyncio
import collections
import ctypes
import gc
import itertools
import random
import sys
import threading
import time
import unittest
from pathlib import Path

import rookdresser
from rookdresser import Cache, Refused, _native, cached
from test_processes import forked
from threads import CacheTest, together, within_a_minute

TOOLS = Path(__file__).resolve().parent.parent.parent / "tools"
sys.path += [str(TOOLS), str(TOOLS / "lib")]

from model.adviser import Adviser  # noqa: E402
from model.scenario import DEFAULTS, Played, as_key  # noqa: E402

library = ctypes.PyDLL(_native.__file__)
refuse_after, blocks = (getattr(library, name, None) for name in ("refuse_after", "blocks"))
refuses = unittest.skipUnless(refuse_after, "the module was built without refusal.c")

SPREAD = 0x9E3779B97F4A7C15


class Ruled:
    """What the calls of a cache do by the rules: its shards, its adviser, and the look-ups that this one hasn't seen yet.

    Keys are whole numbers, which the library gets as they are if the cache isn't `seeded`.
    """

    def __init__(self, entries, shards=1, write=None):
        self.adviser, self.noted, self.count, self.moment = Adviser(entries), [], shards, 0
        settings = {**DEFAULTS, "flights": 1024, "write": write}
        self.shards = [Played({**settings, "entries": self.part(entries, i), "window": self.share(i)}) for i in range(shards)]

    def part(self, number, shard):
        """The part of a number that is shared out: the first ones have one more, if it doesn't come out even."""
        return number // self.count + (shard < number % self.count)

    def share(self, shard=0):
        return max(1, self.part(self.adviser.wanted(), shard))

    def window(self):
        return sum(shard.window_most for shard in self.shards)

    def shard_of(self, number):
        return self.shards[self.place_of(number)]

    def place_of(self, number):
        return (number * SPREAD % 2 ** 64 >> 32) * self.count >> 32

    def follow(self, number):
        """The key's shard, once its window has moved ahead of a call."""
        shard, share = self.shard_of(number), self.share(self.place_of(number))
        for _ in range(4):
            if shard.window_most != share:
                shard.call_slide(self.moment, as_key(number), "wider" if shard.window_most < share else "narrower")
        return shard

    def looked(self, number):
        self.noted.append(number)
        if len(self.noted) == 64:
            for word in self.noted:
                self.adviser.saw(word)
            self.noted.clear()

    def look(self, number):
        found = self.follow(number).call_look(self.moment, as_key(number))
        self.looked(number)
        return found.startswith("hit")

    def peek(self, number):
        return self.shard_of(number).call_peek(self.moment, as_key(number)).startswith("hit")

    def there(self):
        """The keys whose entries haven't expired."""
        return sorted(key[1] for shard in self.shards for key in shard.entries if self.peek(key[1]))

    def seek(self, number):
        """The number of the load that it opens, or None."""
        words = self.follow(number).call_seek(self.moment, as_key(number)).split()
        self.looked(number)
        return int(words[1]) if words[0] == "lead" else None

    def land(self, number, load):
        self.follow(number).call_land(self.moment, as_key(number), load, "keep", (0, 1, 0))

    def get(self, number):
        load = self.seek(number)
        if load is not None:
            self.land(number, load)
        return load is None

    def get_many(self, numbers):
        loads = {number: self.seek(number) for number in dict.fromkeys(numbers)}
        for number, load in loads.items():
            if load is not None:
                self.land(number, load)

    def put(self, number):
        self.follow(number).call_put(self.moment, as_key(number), (0, 1, 0))

    def drop(self, number):
        return self.shard_of(number).call_drop(self.moment, as_key(number)) == "dropped"

    def pop(self, number):
        found = self.look(number)
        self.drop(number)
        return found


def zipf(keys, count, seed=1):
    return random.Random(seed).choices(range(keys), cum_weights=list(itertools.accumulate(1 / (i + 1) ** 0.9 for i in range(keys))), k=count)


def shift(hot, turn, count, seed=1):
    """Keys of a hot set that moves on after so many of them."""
    rng = random.Random(seed)
    return [10 ** 6 + at // turn * hot + rng.randrange(hot) for at in range(count)]


def in_turn(keys, count):
    """So many keys in turn, and between them others that never come again."""
    return [at // 2 % keys if at % 2 else 10 ** 7 + at for at in range(count)]


class WindowTest(CacheTest):
    def agrees(self, cache, rule):
        """Each entry is held that the rules hold, and the window is as wide; and the library made as many steps, slides too."""
        self.assertEqual(cache.window(), rule.window())
        numbers = cache.numbers()
        self.assertEqual((numbers["step"], numbers["hits"]), (sum(shard.steps for shard in rule.shards), sum(shard.counts["hits"] for shard in rule.shards)))
        self.assertEqual((len(cache), sorted(cache)), (sum(len(shard.entries) for shard in rule.shards), rule.there()))
        self.holds_exactly(cache)

    def gets(self, cache, rule, keys):
        """The windows in their order, as the keys are got from both."""
        windows = []
        for key in keys:
            cache.get_or_load(key, abs)
            rule.get(key)
            self.assertEqual(cache.window(), rule.window())
            if windows[-1:] != [rule.window()]:
                windows.append(rule.window())
        return windows


class Settings(WindowTest):
    def test_the_window_follows_by_default_with_64_to_4194304_entries(self):
        rows = (
            # 10 hundredths at first, or else a hundredth of each shard's entries, and one at least.
            ({"entries": 63}, 1), ({"entries": 64}, 6), ({"entries": 63, "shards": 3}, 3), ({"entries": 512, "shards": 3}, 51),
            ({"entries": 1000, "shards": 7}, 100), ({"entries": 65_537}, 6_553), ({"entries": 512, "adaptive": True}, 51),
            ({"entries": 512, "adaptive": False}, 5), ({"entries": 5, "adaptive": False}, 1), ({"entries": 512, "window": 9}, 9),
            ({"entries": 512, "window": 9, "adaptive": False}, 9), ({"entries": 512, "window": 9, "shards": 2}, 9),
            ({"entries": 512, "window": 2, "shards": 3}, 3), ({"entries": 400, "shards": 3}, 40), ({"entries": 600, "shards": 600}, 600),
        )
        for settings, window in rows:
            with self.subTest(settings), Cache(**settings) as cache:
                self.assertEqual(cache.window(), window)
        given = {"flights": 1, "bound": 65, "after_write": 0, "after_access": 0, "refresh": 0}
        for entries, follows in ((63, False), (64, True), (4_194_304, True), (4_194_305, False)):
            self.assertIs(rookdresser._settings.setup_of({**given, "entries": entries}, None)[3], follows)

    def test_what_can_t_follow_is_refused_by_name(self):
        said = "adaptive is True, and has to be False or None, since "
        rows = (
            ({"entries": 1000, "window": 10}, "a window is given"), ({"entries": 100, "window": 10}, "a window is given"),
            ({"entries": 63}, "entries is 63, and an adviser is for 64 to 4194304"),
            ({"entries": 4_194_305}, "entries is 4194305, and an adviser is for 64 to 4194304"),
        )
        for settings, why in rows:
            with self.assertRaises(Refused) as caught:
                Cache(**settings, adaptive=True)
            self.assertEqual((caught.exception.fault, str(caught.exception)), (2, said + why))
        for wrong in (0, 1, "no", 7.5, []):
            with self.assertRaises(TypeError) as caught:
                Cache(entries=1000, adaptive=wrong)
            self.assertEqual(str(caught.exception), "adaptive is %r, and has to be True, False or None" % (wrong,))
        # A window that is out of its range is named first.
        with self.assertRaisesRegex(Refused, "^window is 0, "):
            Cache(entries=1000, window=0, adaptive=True)

    def test_cached_takes_the_setting(self):
        for settings, window in (({"entries": 1000}, 100), ({"entries": 1000, "adaptive": False}, 10), ({"entries": 1000, "window": 7}, 7)):
            self.assertEqual(cached(**settings)(abs).cache.window(), window)
        with self.assertRaisesRegex(Refused, "^adaptive is True, "):
            cached(entries=10, adaptive=True)(abs)

    def test_a_closed_cache_has_no_window(self):
        for adaptive in (True, False):
            cache = Cache(entries=512, adaptive=adaptive)
            cache.close()
            with self.assertRaises(Refused) as caught:
                cache.window()
            self.assertEqual(caught.exception.fault, 100)

    def test_a_window_of_all_entries_is_lru(self):
        # As README.md says to users of lru_cache and cachetools.
        cache, lru = Cache(entries=100, window=100), collections.OrderedDict()
        for key in zipf(400, 5000):
            self.assertEqual(cache.look(key) is not None, key in lru)
            if key in lru:
                lru.move_to_end(key)
            else:
                cache.put(key, key)
                lru[key] = key
                if len(lru) > 100:
                    lru.popitem(last=False)
        self.assertEqual(sorted(cache), sorted(lru))


class Rules(WindowTest):
    def test_the_window_widens_as_the_hot_keys_move_on_and_narrows_on_skewed_ones(self):
        cache, rule = Cache(entries=512, seeded=False), Ruled(512)
        windows = self.gets(cache, rule, shift(400, 1500, 6000))
        # Up to four entries ahead of a seek, and as many ahead of the landing.
        self.assertEqual((windows[0], windows[-1], max(abs(one - other) for one, other in zip(windows, windows[1:]))), (51, 512, 8))
        windows = self.gets(cache, rule, zipf(2000, 20_000))
        self.assertEqual(windows[-1], 5)
        self.agrees(cache, rule)

    def test_under_a_seed_the_window_widens_and_narrows_too(self):
        # All entries, and then 40 hundredths or fewer, whichever keys are of the sample.
        cache = Cache(entries=1024)
        for key in shift(700, 2000, 30_000):
            cache.get_or_load(key, abs)
        self.assertEqual(cache.window(), 1024)
        for key in zipf(50_000, 60_000):
            cache.get_or_load(key, abs)
        self.assertLessEqual(cache.window(), 409)

    def test_every_call_shows_what_it_looks_up_once(self):
        now = [0]
        cache, rule, rng = Cache(entries=600, seeded=False, shards=3, after_write=900, clock=lambda: now[0]), Ruled(600, 3, 900), random.Random(7)
        loop = asyncio.new_event_loop()
        self.addCleanup(loop.close)
        calls = {
            "look": (lambda key: cache.look(key) is not None, rule.look),
            "item": (lambda key: self.item(cache, key), rule.look),
            "get": (lambda key: cache.get(key) is not None, rule.look),
            "in": (lambda key: key in cache, rule.peek),
            "peek": (lambda key: cache.peek(key) is not None, rule.peek),
            "setdefault": (lambda key: cache.setdefault(key, key), lambda key: rule.look(key) or rule.put(key)),
            "pop": (lambda key: cache.pop(key, None) is not None, rule.pop),
            "put": (lambda key: cache.put(key, key), rule.put),
            "drop": (cache.drop, rule.drop),
            "get_or_load": (lambda key: cache.get_or_load(key, abs), rule.get),
            "get_or_load that fails": (lambda key: self.fails(cache, key), lambda key: self.fails_by(rule, key)),
            "aget_or_load": (lambda key: loop.run_until_complete(cache.aget_or_load(key, abs)), rule.get),
            "get_many": (lambda key: cache.get_many([key, key + 1, key], lambda keys: {key: key for key in keys}), lambda key: rule.get_many([key, key + 1])),
            "aget_many": (lambda key: loop.run_until_complete(cache.aget_many([key, key + 1], lambda keys: {key: key for key in keys})),
                          lambda key: rule.get_many([key, key + 1])),
        }
        names = list(calls) + ["look", "get_or_load", "get_or_load"] * 6
        windows = set()
        for keys in (zipf(50_000, 3000, 3), shift(450, 1500, 4500), in_turn(550, 10_000)):
            for key in keys:
                now[0] = rule.moment = now[0] + rng.randrange(2)
                name = rng.choice(names)
                ours, theirs = (call(key) for call in calls[name])
                if name in ("look", "item", "get", "in", "peek", "pop", "drop"):
                    self.assertEqual(ours, theirs, name)
                self.assertEqual((cache.window(), cache.numbers()["latest"]), (rule.window(), max(shard.latest for shard in rule.shards)), name)
                windows.add(cache.window())
            self.agrees(cache, rule)
        # 2 entries of each shard are a hundredth; all are 600.
        self.assertLessEqual({6, 600}, windows)

    def item(self, cache, key):
        try:
            return cache[key] is not None
        except KeyError:
            return False

    def fails(self, cache, key):
        def load(key):
            raise ValueError

        try:
            cache.get_or_load(key, load)
        except ValueError:
            pass

    def fails_by(self, rule, number):
        load = rule.seek(number)
        if load is not None:
            # No window moves ahead of a landing without a value.
            rule.shard_of(number).call_land(rule.moment, as_key(number), load, "failed", ())

    def test_a_seek_that_is_refused_is_not_shown(self):
        cache, rule, faults = Cache(entries=512, seeded=False, flights=1, refuse_at_limit=True), Ruled(512), set()

        def load(key):
            opened = rule.seek(key)
            for other in range(10 ** 9, 10 ** 9 + 1000):
                with self.assertRaises(Refused) as caught:
                    cache.get_or_load(other, abs)
                faults.add(caught.exception.fault)
                rule.follow(other)
            rule.land(key, opened)
            return key

        # All entries are wanted from about the 2,000th look-up on, or the 1,000th if the refused ones counted.
        stream = shift(400, 1500, 3000)
        self.gets(cache, rule, stream[:900])
        cache.get_or_load(7, load)
        self.gets(cache, rule, stream[900:])
        self.agrees(cache, rule)
        self.assertEqual(faults, {4})

    def test_each_shard_has_its_share(self):
        for entries, shards in ((1000, 7), (2000, 2), (600, 600), (515, 4)):
            cache, rule = Cache(entries=entries, shards=shards, seeded=False), Ruled(entries, shards)
            self.assertEqual(cache.window(), rule.window())
            self.gets(cache, rule, shift(entries * 3 // 4, 3 * entries, 6 * entries) + zipf(5000, 3000))
            self.agrees(cache, rule)


class Key:
    """A key whose comparison is written in Python, and whose number is the library's."""

    def __init__(self, number):
        self.number = number

    def __hash__(self):
        return self.number

    def __eq__(self, other):
        self.compares()
        return isinstance(other, Key) and self.number == other.number

    def compares(self):
        pass


class Comparisons(WindowTest):
    def test_what_a_comparison_looks_up_is_shown_first(self):
        class Looks(Key):
            def compares(self):
                if asked:
                    inner = asked.pop()
                    cache.look(inner)
                    rule.look(inner)

        cache, rule, asked = Cache(entries=512, seeded=False), Ruled(512), []
        stream = shift(400, 1500, 9000) + zipf(5000, 9000)
        for key, inner in zip(stream, shift(350, 1200, 18_000, 2)):
            # A comparison of a key that is there looks another one up, in the midst of the call.
            asked[:] = [2 * 10 ** 6 + inner]
            found = cache.look(Looks(key)) is not None
            self.assertEqual(found, rule.look(key))
            asked.clear()
            if not found:
                cache.put(Looks(key), key)
                rule.put(key)
            self.assertEqual(cache.window(), rule.window())
        self.assertEqual(cache.numbers()["lookups"], sum(shard.counts["lookups"] for shard in rule.shards))
        self.assertGreater(cache.numbers()["lookups"], len(stream) + 1000)

    def test_threads_that_switch_within_comparisons_show_each_look_up_once(self):
        class Yields(Key):
            def compares(self):
                time.sleep(0)

        # Within a turn all look the same key up, so their order is one.
        cache, rule, gate = Cache(entries=512, seeded=False), Ruled(512), threading.Barrier(5)
        stream = shift(400, 1500, 2400)

        def work(i):
            for key in stream:
                gate.wait()
                if i < 4:
                    cache.look(Yields(key))
                gate.wait()
                if i == 4:
                    for _ in range(4):
                        found = rule.look(key)
                    if not found:
                        cache.put(Yields(key), key)
                        rule.put(key)
                    windows.append((cache.window(), rule.window()))

        windows = []
        within_a_minute(lambda: together(5, work))
        self.assertEqual([ours for ours, _ in windows], [theirs for _, theirs in windows])
        self.assertEqual((windows[0], windows[-1]), ((51, 51), (512, 512)))
        self.holds_exactly(cache)

    def test_busy_threads_leave_a_whole_cache(self):
        with Cache(entries=700, shards=2) as cache:
            def work(seed):
                rng = random.Random(seed)
                for key in shift(500, 1000, 6000, seed):
                    what = rng.random()
                    if what < 0.7:
                        self.assertEqual(cache.get_or_load(key, abs), key)
                    elif what < 0.9:
                        cache.put(key, key)
                    else:
                        cache.pop(key, None)
                    self.assertTrue(2 <= cache.window() <= 700)

            together(4, work)
            self.holds_exactly(cache)


class Lives(WindowTest):
    def test_a_child_goes_on_from_the_look_up_at_which_it_was_forked(self):
        cache, rule, stream = Cache(entries=512, seeded=False), Ruled(512), shift(400, 1500, 9000)
        # In the midst of 64.
        self.gets(cache, rule, stream[:2000 + 17])

        def rest():
            return 0 if len(self.gets(cache, rule, stream[2017:])) > 50 else 1

        self.assertEqual(forked(rest), 0)
        self.assertEqual(rest(), 0)
        self.agrees(cache, rule)

    @refuses
    def test_the_adviser_is_given_up_however_the_cache_ends(self):
        def used():
            cache = Cache(entries=512, shards=2)
            for key in shift(400, 1500, 3000):
                cache.get_or_load(key, abs)
            self.assertGreater(blocks(), before)
            return cache

        def circle():
            cache = used()
            cache.put("me", cache)

        gc.collect()
        before = blocks()
        for end in (lambda: used().close(), used, circle):
            end()
            gc.collect()
            self.assertEqual(blocks(), before)
        # A closed cache keeps nothing of the library's, and closing it again does nothing.
        cache = used()
        cache.close(), cache.close()
        self.assertEqual(blocks(), before)

    def test_a_finalizer_may_use_a_cache_that_is_collected(self):
        told = []

        class Value:
            def __init__(self, cache):
                self.cache = cache

            def __del__(self):
                for key in range(70):
                    try:
                        self.cache.look(key)
                    except Refused as error:
                        told.append(error.fault)

        cache = Cache(entries=512)
        for key in range(300):
            cache.put(key, Value(cache))
        del cache
        gc.collect()
        self.assertIn(set(told), ({100}, set()))


@refuses
class Memory(WindowTest):
    def tearDown(self):
        refuse_after(-1)

    def test_an_opening_that_is_refused_leaves_nothing_open(self):
        gc.collect()
        before = blocks()
        for n in range(300):
            cache = Cache.__new__(Cache)
            refuse_after(n)
            try:
                cache.__init__(512, shards=3)
                break
            except Refused as raised:
                self.assertEqual((raised.fault, refuse_after(-1) > 0, blocks()), (1, True, before))
            with self.assertRaises(Refused) as caught:
                cache.window()
            self.assertEqual(caught.exception.fault, 100)
        refuse_after(-1)
        # The adviser with four small caches, and three shards.
        self.assertGreater(n, 7)
        self.assertEqual(cache.window(), 51)

    def test_a_slide_that_is_refused_fails_no_call_and_is_made_ahead_of_a_later_one(self):
        cache, rule, refused = Cache(entries=512, seeded=False), Ruled(512), 0
        for key in shift(400, 1500, 30_000):
            self.gets(cache, rule, [key])
            missing = abs(rule.share() - rule.window())
            if not missing or len(cache) < 512 or len(rule.noted) == 63:
                continue
            # The key's entry is in the window or in protected, so its look-up takes no memory.
            window = cache.window()
            refuse_after(0)
            self.assertEqual(cache.look(key), key)
            refused = refuse_after(-1)
            self.assertEqual(cache.window(), window)
            self.assertEqual(cache.look(key), key)
            self.assertEqual(abs(cache.window() - window), min(missing, 4))
            break
        self.assertGreater(refused, 0)

    def test_keys_that_the_adviser_was_refused_memory_for_are_not_shown_again(self):
        cache, rule, fresh, refused = Cache(entries=512, seeded=False), Ruled(512), itertools.count(5 * 10 ** 6), 0
        keys = shift(400, 1500, 12_800)
        for begin in range(0, len(keys), 64):
            self.gets(cache, rule, keys[begin:begin + 64])
            if rule.window() == rule.share():
                refused += self.refused(cache, rule, itertools.islice(fresh, 64))
        self.agrees(cache, rule)
        self.assertGreater(refused, 100)

    def refused(self, cache, rule, keys):
        """Looks 64 keys up that were never there, which needs no memory, and the adviser is refused all that it asks for. Returns how often."""
        small = rule.adviser.small.values()
        for one in small:
            one.store = lambda *of: None
        refuse_after(0)
        for key in keys:
            self.assertIsNone(cache.look(key))
            rule.look(key)
        for one in small:
            del one.store
        return refuse_after(-1)


if __name__ == "__main__":
    unittest.main()
