#!/usr/bin/env python3
"""What README.md shows: its lines of Python are run, its settings and calls are those of the package."""
import asyncio
import doctest
import functools
import inspect
import io
import re
import subprocess
import sys
import threading
import unittest
from pathlib import Path

import rookdresser
from rookdresser import Cache, cached

HERE = Path(__file__).resolve().parent
README = (HERE / "README.md").read_text()
BLOCKS = re.findall(r"^```python\n(.*?)^```$", README, re.M | re.S)

# The classes whose calls a cache has.
PARTS = Cache, rookdresser._loads.Loads, rookdresser._native.Table

# What the page takes for given.
GIVEN = "url, load, read = 'a', lambda key: 'the page', lambda *of: 'read %s %s' % of\n"


def run(text, python=sys.executable):
    return subprocess.run([python, "-c", text], cwd=HERE, capture_output=True, text=True)


# The examples of functools' page, with what the shell shows of them.
OF_FUNCTOOLS = """
from functools import lru_cache

@lru_cache
def count_vowels(sentence):
    return sum(sentence.count(vowel) for vowel in 'AEIOUaeiou')

vowels = count_vowels("an example")

@lru_cache(maxsize=32)
def get_pep(num):
    'Retrieve text of a Python Enhancement Proposal'
    resource = f'https://peps.python.org/pep-{num:04d}'
    try:
        with urllib.request.urlopen(resource) as s:
            return s.read()
    except urllib.error.HTTPError:
        return 'Not Found'

lengths = []
for n in 8, 290, 308, 320, 8, 218, 320, 279, 289, 320, 9991:
    pep = get_pep(n)
    lengths.append(len(pep))

@lru_cache(maxsize=None)
def fib(n):
    if n < 2:
        return n
    return fib(n-1) + fib(n-2)

fibs = [fib(n) for n in range(16)]
"""
# The example of cachetools' README.
OF_CACHETOOLS = """
from cachetools import cached, LRUCache, TTLCache

# speed up calculating Fibonacci numbers with dynamic programming
@cached(cache={})
def fib(n):
    return n if n < 2 else fib(n - 1) + fib(n - 2)

# cache least recently used Python Enhancement Proposals
@cached(cache=LRUCache(maxsize=32))
def get_pep(num):
    url = 'http://www.python.org/dev/peps/pep-%04d/' % num
    with urllib.request.urlopen(url) as s:
        return s.read()

# cache weather data for no longer than ten minutes
@cached(cache=TTLCache(maxsize=1024, ttl=600))
def get_weather(place):
    return owm.weather_at_place(place).get_weather()
"""


class Web:
    """Stands for urllib, without a network: the text of a page is its number, and from 9000 on there is none."""

    class HTTPError(Exception):
        pass

    def __init__(self):
        self.asked, self.request, self.error = [], self, self

    def urlopen(self, url):
        number = url.strip("/").rpartition("-")[2].lstrip("0")
        self.asked.append(number)
        if int(number) >= 9000:
            raise self.HTTPError
        return io.StringIO(number)


class Weather:
    """Stands for a service that tells the weather."""

    def __init__(self, asked):
        self.asked = asked

    def weather_at_place(self, place):
        self.asked.append(place)
        return self

    def get_weather(self):
        return "rain"


class Pages(unittest.TestCase):
    def test_the_lines_of_the_page_run(self):
        first, of_cached, of_prometheus = BLOCKS
        done = run(GIVEN + first + of_cached)
        self.assertEqual((done.stdout.splitlines(), done.stderr, done.returncode),
                         (["the page True None", "1", "read 7 en CacheInfo(hits=0, misses=1, maxsize=1000, currsize=1)"], "", 0))

    def test_prometheus_gets_the_numbers(self):
        has = [python for python in (sys.executable, "/usr/bin/python3")
               if run("import sys, prometheus_client; raise SystemExit(sys.version_info < (3, 10))", python).returncode == 0]
        if not has:
            self.skipTest("prometheus_client isn't there")
        done = run("from rookdresser import Cache\ncache = Cache(entries=10)\ncache.put('a', 1), cache.look('a'), cache.look('a'), cache.look('b')\n"
                   + BLOCKS[2], has[0])
        self.assertEqual((done.stderr, done.returncode), ("", 0))
        told = dict(line.split() for line in done.stdout.splitlines() if line and not line.startswith("#"))
        wanted = {"cache_%s_total{cache=\"pages\"}" % field: 0.0 for field in rookdresser.Stats._fields}
        wanted.update({"cache_hits_total{cache=\"pages\"}": 2.0, "cache_misses_total{cache=\"pages\"}": 1.0})
        self.assertEqual({name: float(number) for name, number in told.items()}, wanted)

    def test_every_setting_and_every_call_stands_in_the_page(self):
        settings = set(inspect.signature(Cache.__init__).parameters) - {"self"}
        calls = {name for of in PARTS for name in vars(of) if not name.startswith("_")}
        words = set(re.findall(r"`(?:await )?(\w+)", README))
        self.assertEqual((settings - words, calls - words), (set(), set()))
        self.assertEqual({name for name in rookdresser.__all__ if name not in set(re.findall(r"\w+", README))} - {"CacheInfo", "LeftOut"}, set())
        faults = {name: int(fault) for name, fault in re.findall(r"^  \| `(\w+)`.*?\| (\d+) \|", README, re.M)}
        self.assertEqual(faults, {of.__name__: fault for fault, of in rookdresser._faults._CLASSES.items()})
        self.assertEqual({field for field in rookdresser.Stats._fields if field not in set(re.findall(r"\w+", README))}, set())
        named = {word for cell in re.findall(r"^\| `(.*?)\|", README.split("| Setting")[1].split("## cached")[0], re.M) for word in re.findall(r"\w+", cell)}
        self.assertEqual(named, settings)

    def test_what_the_page_tells_users_of_lru_cache(self):
        def joined(asked):
            return hasattr(asked, "cache") and asked.cache.stats().joins

        def runs(decorate):
            """How often a function runs if a second call with equal arguments begins while the first one runs it."""
            made = []

            def run(number):
                made.append(number)
                if len(made) == 1:
                    thread.start()
                    while len(made) == 1 and not joined(asked):
                        pass
                return number

            asked = decorate(run)
            thread = threading.Thread(target=asked, args=(7,))
            asked(7)
            thread.join()
            return len(made)

        self.assertEqual((runs(functools.lru_cache(10)), runs(cached(entries=10))), (2, 1))
        for decorate in (functools.lru_cache(10), cached(entries=10)):
            f = decorate(lambda x: x)
            f(1), f(1), f(2)
            self.assertEqual((tuple(f.cache_info()), f.__wrapped__(3), f.cache_clear(), tuple(f.cache_info())), ((1, 2, 10, 2), 3, None, (0, 0, 10, 0)))
        typed, plain = cached(entries=10, key=lambda x: (type(x), x))(lambda x: x), cached(entries=10)(lambda x: x)
        self.assertEqual([repr(f(x)) for f in (typed, plain) for x in (1, 1.0)], ["1", "1.0", "1", "1"])
        self.assertEqual((plain.cache.drop((1,)), repr(plain(1.0)), hasattr(plain, "cache_parameters")), (True, "1.0", False))

    def test_what_the_page_tells_users_of_cachetools(self):
        try:
            import cachetools
        except ImportError:
            self.skipTest("cachetools isn't there")
        now, left = [0], []
        theirs = cachetools.TTLCache(10, ttl=60, timer=lambda: now[0])
        ours = Cache(entries=10, after_write=60_000, clock=lambda: 1000 * now[0], on_leave=lambda *of: left.append(of))
        theirs.update({"a": 1, "b": 2})
        ours.put_many({"a": 1, "b": 2})
        for cache in (theirs, ours):
            self.assertEqual((cache["a"], "b" in cache, cache.get("c"), cache.get("c", 7), cache.pop("b"), cache.pop("b", 8), len(cache)),
                             (1, True, None, 7, 2, 8, 1))
            self.assertEqual((cache.setdefault("a", 9), cache.setdefault("d", 4), sorted(cache.keys()), sorted(cache.values()), sorted(cache.items())),
                             (1, 4, ["a", "d"], [1, 4], [("a", 1), ("d", 4)]))
            cache.update(d=5)
            self.assertEqual((sorted([cache.popitem(), cache.popitem()]), len(cache)), ([("a", 1), ("d", 5)], 0))
            with self.assertRaises(KeyError):
                cache.popitem()
            cache["a"] = 1
        del left[1:]
        now[0] = 60
        self.assertEqual((len(theirs), len(ours), theirs.get("a"), list(theirs)), (0, 1, None, []))
        theirs.expire(), ours.clean()
        self.assertEqual((len(ours), left), (0, [("b", 2, "explicit"), ("a", 1, "expired")]))
        for heavy in (cachetools.LRUCache(5, getsizeof=lambda value: value), Cache(entries=10, bound=5, weigh=lambda key, value: value)):
            with self.assertRaises(ValueError):
                heavy["a"] = 6
        for decorate in (cachetools.cached(cachetools.LRUCache(10), key=lambda x: x // 2), cached(entries=10, key=lambda x: x // 2)):
            f = decorate(lambda x: x)
            self.assertEqual((f(2), f(3), f(4)), (2, 2, 4))

    def lines_here(self, text):
        """The text of an example with the lines of the page in place of theirs."""
        rows = re.findall(r"^\| `(.*?)` \| `(.*?)` \|$", README.split("line for line")[1], re.M)
        self.assertEqual(len(rows), 8)
        for theirs, ours in rows:
            text = re.sub("^%s$" % re.escape(theirs), ours, text, flags=re.M)
        return text

    def test_the_examples_of_functools_line_for_line(self):
        # 16 numbers are made once each, and those from 2 on ask for two that are there.
        fib = [0, 1, 1, 2, 3, 5, 8, 13, 21, 34, 55, 89, 144, 233, 377, 610]
        for text, maxsize in ((OF_FUNCTOOLS, (32, None)), (self.lines_here(OF_FUNCTOOLS), (32, 1000))):
            self.assertEqual("lru_cache" in text, maxsize[1] is None)
            names = {"urllib": Web()}
            exec(text, names)
            self.assertEqual((names["lengths"], names["fibs"], names["vowels"]), ([1, 3, 3, 3, 1, 3, 3, 3, 3, 3, 9], fib, 4))
            self.assertEqual(tuple(names["get_pep"].cache_info()), (3, 8, maxsize[0], 8))
            self.assertEqual(tuple(names["fib"].cache_info()), (28, 16, maxsize[1], 16))
            self.assertEqual(names["urllib"].asked, ["8", "290", "308", "320", "218", "279", "289", "9991"])

    def test_the_examples_of_cachetools_line_for_line(self):
        try:
            import cachetools  # noqa: F401
        except ImportError:
            self.skipTest("cachetools isn't there")
        for text in (OF_CACHETOOLS, self.lines_here(OF_CACHETOOLS)):
            self.assertEqual("LRUCache" in text, text is OF_CACHETOOLS)
            asked = []
            names = {"urllib": Web(), "owm": Weather(asked)}
            exec(text, names)
            self.assertEqual([names["fib"](number) for number in (10, 100)], [55, 354224848179261915075])
            self.assertEqual([names["get_pep"](number) for number in (8, 9, 8)], ["8", "9", "8"])
            self.assertEqual([names["get_weather"](place) for place in ("here", "there", "here")], ["rain", "rain", "rain"])
            self.assertEqual((names["urllib"].asked, asked), (["8", "9"], ["here", "there"]))

    def test_every_call_has_an_example_that_does_as_it_says(self):
        def documented():
            for name in sorted(set(rookdresser.__all__) - {"CacheInfo", "LeftOut", "OpenLoad", "Stats"}):
                yield name, getattr(rookdresser, name)
            for of in (*PARTS, rookdresser._decorator._Info):
                yield from ((name, call) for name, call in vars(of).items() if not name.startswith("_"))

        given, names = {name: getattr(rookdresser, name) for name in rookdresser.__all__}, []
        for name, call in documented():
            examples = doctest.DocTestParser().get_doctest(inspect.getdoc(call), {**given, "asyncio": asyncio, "cache": Cache(entries=10)}, name, name, 0)
            names.append(name)
            with self.subTest(name):
                self.assertGreater(len(examples.examples), 0)
                told = []
                doctest.DocTestRunner().run(examples, out=told.append)
                self.assertEqual("".join(told), "")
        self.assertEqual(len(names), len(set(names)))
        self.assertLessEqual({"get", "get_or_load", "aget_or_load", "aget_many", "get_many", "items", "popitem", "look", "put", "cached", "cache_info", "Refused"}, set(names))


if __name__ == "__main__":
    unittest.main()
