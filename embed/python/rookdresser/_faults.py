"""What a call raises if it is refused: one class for each fault."""
from __future__ import annotations

from typing import Any, Dict, Optional, Tuple, Type

BAD_SETUP = 2
FAULTS = {1: "out of memory", BAD_SETUP: "a setting is out of its range", 3: "the value is heavier than the bound", 4: "too many loads are open",
          5: "2^60 steps were made", 100: "the cache is closed"}


class Refused(Exception):
    """A call was refused, and nothing has changed. `fault` is its number in rookdresser.h.

    Each fault has a class of its own, by which it is raised: OutOfMemory, BadSetup, TooHeavy, TooManyFlights, StepsSpent, Closed.
    Refused(number) makes one of that class, and of Refused itself for any other number.

    >>> try:
    ...     Cache(entries=0)
    ... except Refused as refused:
    ...     print(type(refused).__name__, refused.fault, refused)
    BadSetup 2 entries is 0, and has to be from 1 to 268435456
    """

    fault: int = 0

    def __new__(cls, fault: Optional[int] = None, why: Optional[str] = None) -> Refused:
        """Returns an exception of the fault's class."""
        return Exception.__new__(_CLASSES.get(fault or 0, cls) if cls is Refused else cls, fault, why)  # type: ignore[call-arg]

    def __init__(self, fault: Optional[int] = None, why: Optional[str] = None) -> None:
        self.fault = self.fault if fault is None else fault
        super().__init__(why or FAULTS.get(self.fault) or "fault %s" % self.fault)

    def __reduce__(self) -> Tuple[Any, ...]:
        """Returns what pickle and copy make it of: the fault and the sentence, and what was set on it."""
        return type(self), (self.fault, *self.args), self.__dict__


class OutOfMemory(Refused, MemoryError):
    """An allocation failed in the library. The same call may succeed later.

    >>> Refused(1), issubclass(OutOfMemory, MemoryError)
    (OutOfMemory('out of memory'), True)
    """

    fault: int = 1


class BadSetup(Refused, ValueError):
    """A setting is out of its range. The sentence has its name, its value and the range.

    >>> try:
    ...     Cache(entries=10, window=11)
    ... except BadSetup as refused:
    ...     print(refused)
    window is 11, and has to be from 1 to 10, the entries
    """

    fault: int = BAD_SETUP


class TooHeavy(Refused, ValueError):
    """The value weighs more than its shard's part of `bound`. Only what stores raises it: a load returns such a value.

    >>> try:
    ...     Cache(entries=10, bound=5, weigh=lambda key, value: value).put("a", 6)
    ... except TooHeavy as refused:
    ...     print(refused)
    the value is heavier than the bound
    """

    fault: int = 3


class TooManyFlights(Refused):
    """As many loads are open in the key's shard as `flights` allows, and the cache has refuse_at_limit. Ask again once one has ended.

    >>> cache = Cache(entries=10, flights=1, refuse_at_limit=True)
    >>> try:
    ...     cache.get_many(["a", "b"], dict.fromkeys)
    ... except TooManyFlights as refused:
    ...     print(refused)
    too many loads are open
    """

    fault: int = 4


class StepsSpent(Refused):
    """The shard has made 2^60 calls, after which it makes no more. At a thousand million a second that takes 36 years.

    >>> Refused(5)
    StepsSpent('2^60 steps were made')
    """

    fault: int = 5


class Closed(Refused):
    """The cache is closed.

    >>> cache.close()
    >>> try:
    ...     cache.get("a")
    ... except Closed as refused:
    ...     print(refused)
    the cache is closed
    """

    fault: int = 100


_CLASSES: Dict[int, Type[Refused]] = {of.fault: of for of in (OutOfMemory, BadSetup, TooHeavy, TooManyFlights, StepsSpent, Closed)}
