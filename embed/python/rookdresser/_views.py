"""What keys, values and items of a cache return: views that read the cache as they are asked."""
from __future__ import annotations

from collections.abc import ItemsView, KeysView, ValuesView
from typing import TYPE_CHECKING, Any, Hashable, Iterator, List, Tuple, TypeVar, cast

if TYPE_CHECKING:
    from ._native import Table

K = TypeVar("K", bound=Hashable)
V = TypeVar("V")
T = TypeVar("T")
_ABSENT = object()


def each(lists: List[List[T]]) -> Iterator[T]:
    """Yields what is in these lists, of which each is freed once it was yielded. Other threads may run between two of them."""
    lists.reverse()
    while lists:
        yield from lists.pop()


class Keys(KeysView[K]):
    """The keys. To iterate reads them first, and to ask for one is no use of its entry."""

    __slots__ = ()
    _mapping: Table[K, Any]

    def __iter__(self) -> Iterator[K]:
        """Iterates over the keys that the cache has now."""
        return iter(self._mapping)


class Items(ItemsView[K, V]):
    """The pairs of key and value."""

    __slots__ = ()
    _mapping: Table[K, V]

    def __contains__(self, item: object) -> bool:
        """Returns whether the pair's value is there under its key."""
        key, value = cast("Tuple[K, V]", item)
        found = self._mapping.peek(key, _ABSENT)
        return found is not _ABSENT and (found is value or found == value)

    def __iter__(self) -> Iterator[Tuple[K, V]]:
        """Iterates over the pairs that the cache has now."""
        return each(self._mapping._pairs())


class Values(ValuesView[V]):
    """The values."""

    __slots__ = ()
    _mapping: Table[Any, V]

    def __contains__(self, value: object) -> bool:
        """Returns whether the value is there."""
        return any(found is value or found == value for found in self)

    def __iter__(self) -> Iterator[V]:
        """Iterates over the values that the cache has now."""
        return (value for _, value in each(self._mapping._pairs()))
