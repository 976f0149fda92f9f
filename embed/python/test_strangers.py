#!/usr/bin/env python3
"""Keys that strangers choose: they don't meet in the tables, neither the library's nor this side's."""
import datetime
import os
import subprocess
import sys
import unittest
import uuid
from decimal import Decimal
from fractions import Fraction

from rookdresser import Cache, Refused, _keys, _loads, _native, _waits, cached
from threads import CacheTest

MODULUS = sys.hash_info.modulus


class Whole(int):
    pass


class Pair(tuple):
    pass


def cost(keys):
    """What it costs to find each key, in keys that are compared and in steps along a bucket, as table.c chains them."""
    cache = Cache(entries=len(keys))
    for key in keys:
        cache.put(key, 1)
    uses = cache._uses()
    hashes, buckets = {}, {}
    mask = 1
    while mask < len(keys) + 1024:
        mask *= 2
    for hashed, number, _ in uses:
        hashes[hashed] = hashes.get(hashed, 0) + 1
        bucket = (number ^ number >> 32) & mask - 1
        buckets[bucket] = buckets.get(bucket, 0) + 1
    return sum(n * n for n in hashes.values()), sum(n * n for n in buckets.values())


def sip_hash(seed, words, compressions=1, finals=3):
    """SipHash over whole words, from its authors' description."""
    mask = 2 ** 64 - 1
    one, two = (int.from_bytes(seed[at:at + 8], "little") for at in (0, 8))
    a, b, c, d = one ^ 0x736f6d6570736575, two ^ 0x646f72616e646f6d, one ^ 0x6c7967656e657261, two ^ 0x7465646279746573

    def rotated(x, by):
        return (x << by | x >> 64 - by) & mask

    def rounds(a, b, c, d, count):
        for _ in range(count):
            a, c = (a + b) & mask, (c + d) & mask
            b, d = rotated(b, 13) ^ a, rotated(d, 16) ^ c
            a = rotated(a, 32)
            c, a = (c + b) & mask, (a + d) & mask
            b, d = rotated(b, 17) ^ c, rotated(d, 21) ^ a
            c = rotated(c, 32)
        return a, b, c, d

    for word in words:
        a, b, c, d = rounds(a, b, c, d ^ word, compressions)
        a ^= word
    a, b, c, d = rounds(a, b, c ^ 0xff, d, finals)
    return a ^ b ^ c ^ d


class Strangers(CacheTest):
    def test_the_number_of_a_key_is_siphash_of_the_words_that_stand_for_it(self):
        seed, mask, prime = bytes(range(24)), 2 ** 64 - 1, _keys.secret_prime()
        # The authors' vector for the text of the bytes 0 to 7, by SipHash-2-4: its second word is the length.
        self.assertEqual(sip_hash(seed, [0x0706050403020100, 8 << 56], 2, 4), 0x93f5f5799a932462)
        mark = int.from_bytes(seed[16:], "little")
        keys = {
            7: [7], -1: [mask], -7: [-7 & mask], 2.0: [2], 2 ** 63: [2 ** 63 % prime], -(2 ** 80): [-(2 ** 80) % prime], 0.5: [pow(2, -1, prime)],
            "text": [hash("text") & mask], (): [mark ^ mask], (1, (2,)): [mark ^ mask ^ 2, 1, mark ^ mask ^ 1, 2], len: [hash(len) & mask],
            frozenset((1, 2)): [mark + 1, (sip_hash(seed, [1]) + sip_hash(seed, [2])) & mask],
        }
        for key, words in keys.items():
            table = _native.Table()
            table._open((10, 1, 1, 10, 0, 0, 0), 1, 0, seed, True, False, 0, None, None, None, None, None, _keys.plain, prime, _native.Load, Refused, datetime.timedelta, _waits.waits, _loads.TimedOut, _loads.Abandoned, False)
            table.put(key, 1)
            self.assertEqual([hashed for hashed, _, _ in table._uses()], [sip_hash(seed, words)], key)

    def test_keys_that_strangers_choose_cost_no_more_than_twice_random_ones(self):
        count = 8000
        chosen = {
            "whole numbers": [i * MODULUS for i in range(count)],
            "tuples": [(i * MODULUS,) for i in range(count)],
            "pairs": [("a", i * MODULUS) for i in range(count)],
            "tuples of empty tuples": [tuple(() if i >> bit & 1 else ((),) for bit in range(13)) for i in range(count)],
            "floats": [float(2 ** 61 * i) for i in range(count)],
            "Decimals": [Decimal(i * MODULUS) for i in range(count)],
            "great Decimals": [Decimal(i * MODULUS).scaleb(61 * 10) for i in range(count)],
            "Fractions": [Fraction(1 + i * MODULUS, 7) for i in range(count)],
            "complex numbers": [complex(0, 2.0 ** 61 * i) for i in range(count)],
            "UUIDs": [uuid.UUID(int=i * MODULUS) for i in range(count)],
            "timedeltas": [datetime.timedelta(i) for i in range(count)],
            "sets": [frozenset((i * MODULUS,)) for i in range(count)],
            "a subclass": [Whole(i * MODULUS) for i in range(count)],
            "named tuples": [Pair((i * MODULUS, 1)) for i in range(count)],
        }
        random = cost([os.urandom(8) for _ in range(count)])
        for name, keys in chosen.items():
            with self.subTest(name):
                self.assertEqual(len(set(keys[:50])), 50)
                compared, steps = cost(keys)
                self.assertLessEqual(compared, 2 * random[0])
                self.assertLessEqual(steps, 2 * random[1])
        # Where hash() is the library's number they meet, so the test can fail.
        plain = Cache(entries=100, seeded=False)
        for i in range(50):
            plain.put(i * MODULUS, i)
        self.assertEqual({hashed for hashed, _, _ in plain._uses()}, {0})

    def test_arguments_that_strangers_choose_are_spread(self):
        @cached(entries=200)
        def page(number):
            return number

        for i in range(100):
            page(i * MODULUS)
        self.assertEqual(len({hashed for hashed, _, _ in page.cache._uses()}), 100)

    def test_text_goes_by_its_bytes_if_python_has_no_secret_for_it(self):
        program = """
from rookdresser import Cache, _keys
class Text(str): pass
one, other = Cache(entries=10), Cache(entries=10)
for cache in (one, other):
    cache.put("a", 1), cache.put(b"a" * 20, 2), cache.put("\\ud800", 3)
print(_keys.SECRET, one.look(Text("a")), one.look(memoryview(b"a" * 20)), one.look("\\ud800"), one.look("b"), len(one))
print({hashed for hashed, _, _ in one._uses()} & {hashed for hashed, _, _ in other._uses()})
"""
        for seed, secret in (("0", False), ("7", False), ("random", True)):
            said = subprocess.run([sys.executable, "-c", program.replace("\\\\", "\\")], env={**os.environ, "PYTHONHASHSEED": seed}, capture_output=True, text=True,
                                  check=True, cwd=os.path.dirname(os.path.abspath(__file__))).stdout
            self.assertEqual(said.splitlines(), ["%s 1 2 3 None 3" % secret, "set()"])

    def test_the_secret_prime_is_a_prime_of_61_bits(self):
        prime = _keys.secret_prime()
        self.assertEqual(prime.bit_length(), 61)
        self.assertTrue(all(pow(base, prime - 1, prime) == 1 for base in range(41, 200)))
        # Known primes, and numbers that are none: the last is the least that the bases up to 31 take for a prime.
        self.assertEqual([_keys._is_prime(n) for n in (2 ** 61 - 1, 10 ** 18 + 9, 2 ** 61 + 1, 3825123056546413051)], [True, True, False, False])

    def test_numbers_that_python_hashes_alike_are_spread(self):
        cache, alike = Cache(entries=200), [i * (2 ** 61 - 1) for i in range(100)]
        self.assertEqual({hash(number) for number in alike}, {0})
        for number in alike:
            cache.put(number, number)
        self.assertEqual([cache.look(number) for number in alike], alike)
        # -1 and -2 are of one hash.
        cache.put(-1, "one")
        cache.put(-2, "two")
        self.assertEqual((cache.look(-1), cache.look(-2)), ("one", "two"))
        cache.put(1, "whole")
        self.assertEqual(cache.look(1.0), "whole")

    def test_the_numbers_of_keys_are_under_a_seed_of_each_cache_s_own(self):
        first, second, plain = Cache(entries=10), Cache(entries=10), Cache(entries=10, seeded=False)
        for cache in (first, second, plain):
            cache.put(7, 1)
            cache.put("seven", 1)
        numbers = [{number for _, number, _ in cache._uses()} for cache in (first, second, plain)]
        self.assertTrue(numbers[0].isdisjoint(numbers[1]))
        self.assertEqual(numbers[2], {7, hash("seven") % 2 ** 64})


if __name__ == "__main__":
    unittest.main()
