"""What stands for a key of a kind that keys.c doesn't know: something of a kind that it knows, the same for keys that are equal."""
from __future__ import annotations

import functools
import math
import os
import sys
from decimal import Decimal
from fractions import Fraction
from numbers import Complex, Integral, Number, Rational, Real
from types import FunctionType
from typing import Any

# The greatest exponent of a decimal number that is written out.
WRITTEN_OUT = 300
NUMBERS = (float, complex, Decimal, Fraction)


def hash_is_secret() -> bool:
    """Returns whether nobody outside can know the hash() of a text: not if PYTHONHASHSEED names a seed."""
    named = "random" if sys.flags.ignore_environment else os.environ.get("PYTHONHASHSEED") or "random"
    return bool(sys.flags.hash_randomization) and named == "random"


SECRET = hash_is_secret()


def plain(key: Any) -> Any:
    """Returns what stands for the key, a whole number, a tuple or bytes; or None for its hash()."""
    kind = type(key)
    if isinstance(key, int):
        return int.__index__(key) if _is_equal_as(kind, int) else None
    if isinstance(key, tuple):
        return tuple.__getitem__(key, slice(None)) if _is_equal_as(kind, tuple) else None
    if isinstance(key, (str, bytes, memoryview)):
        return None if SECRET or not any(_is_equal_as(kind, base) for base in (str, bytes, memoryview)) else _bytes_of(key)
    if isinstance(key, frozenset):
        return frozenset(key) if _is_equal_as(kind, frozenset) else None
    if isinstance(key, Number):
        return _number(key) if all(_is_equal_as_number(kind, base) for base in NUMBERS if isinstance(key, base)) else None
    return _known(key, kind)


def _is_equal_as(kind: Any, base: Any) -> bool:
    """Whether keys of this kind are hashed and compared as those of the base are."""
    return kind.__hash__ is base.__hash__ and kind.__eq__ is base.__eq__


def _is_equal_as_number(kind: Any, base: Any) -> bool:
    """The same of a kind of numbers. One that isn't written in Python, as numpy.float64, has an equality of its own that does as the base's."""
    return _is_equal_as(kind, base) or not isinstance(kind.__eq__, FunctionType)


def _bytes_of(key: Any) -> bytes:
    return str.encode(key, "utf-8", "surrogatepass") if isinstance(key, str) else bytes(key)


def _number(key: Any) -> Any:
    """A number stands for its value modulo a secret prime, as hash() takes it modulo one that everybody knows."""
    if isinstance(key, Decimal):
        return _decimal(Decimal(key)) if Decimal.is_finite(key) else None
    if isinstance(key, float):
        key = float.__pos__(key)
    if isinstance(key, Integral):
        return int(key)
    if isinstance(key, Rational):
        return _ratio(int(key.numerator), int(key.denominator))
    if isinstance(key, Real):
        # The infinities have one hash() each, and each nan equals nothing but itself.
        value = float(key)
        return _ratio(*value.as_integer_ratio()) if math.isfinite(value) else None
    if isinstance(key, Complex):
        return _number(key.real) if key.imag == 0 else (key.real, key.imag)
    return None


def _ratio(numerator: int, denominator: int) -> int:
    if denominator == 1:
        return numerator
    prime = secret_prime()
    # The prime divides no denominator that somebody comes upon by chance; pow() would raise ValueError.
    return numerator * pow(denominator, -1, prime) % prime if denominator % prime else 0


def _decimal(key: Decimal) -> int:
    """As _ratio; a great exponent isn't written out, which would take long."""
    if key.adjusted() < WRITTEN_OUT and key == key.to_integral_value():
        return int(key)
    prime, (sign, digits, exponent) = secret_prime(), key.as_tuple()
    number = functools.reduce(lambda number, digit: (number * 10 + digit) % prime, digits, 0)
    return (-number if sign else number) * pow(10, int(exponent), prime) % prime


def _known(key: Any, kind: Any) -> Any:
    """Kinds of the standard library whose hash() is made of whole numbers alone."""
    for base in kind.__mro__:
        name = base.__module__, base.__qualname__
        if name == ("uuid", "UUID"):
            return int(key.int) if _is_equal_as(kind, base) else None
        if name == ("datetime", "timedelta"):
            return (base.days.__get__(key), base.seconds.__get__(key), base.microseconds.__get__(key)) if _is_equal_as(kind, base) else None
    return None


@functools.lru_cache(maxsize=None)
def secret_prime() -> int:
    """Returns a prime of 61 bits that nobody can guess, the same as long as the process lives."""
    while True:
        number = int.from_bytes(os.urandom(8), "little") % 2 ** 60 | 1 << 60 | 1
        if _is_prime(number):
            return number


def _is_prime(number: int) -> bool:
    """The test of Miller and Rabin, by the bases that decide for every number of 64 bits."""
    bases = (2, 3, 5, 7, 11, 13, 17, 19, 23, 29, 31, 37)
    twos = (number - 1 & 1 - number).bit_length() - 1
    for base in bases:
        power = pow(base, number - 1 >> twos, number)
        if power in (1, number - 1):
            continue
        for _ in range(twos - 1):
            power = power * power % number
            if power == number - 1:
                break
        else:
            return False
    return True
