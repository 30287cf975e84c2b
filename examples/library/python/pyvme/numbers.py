"""Whole numbers that fit the fields of C."""

from __future__ import annotations

from collections.abc import Callable, Sequence
from ctypes import Array, Structure, c_size_t, c_uint8, c_uint16, c_uint32, sizeof
from operator import index

_KINDS = (c_uint8, c_uint16, c_uint32, c_size_t)


def fitting(field: str, value: int, kind: type) -> int:
    """The number, which must fit a field of this type. Raises `ValueError` with field, value and range if it does not, since
    C would keep its low bits alone, and `TypeError` if it is no whole number."""
    most = 256 ** sizeof(kind) - 1
    number = index(value)
    if not 0 <= number <= most:
        raise ValueError(f"{field} is from 0 to {most}, not {number}")
    return number


class Number:
    """An argument of a function of C: a whole number that must fit its type."""

    def __init__(self, name: str, kind: type) -> None:
        self.name, self.kind = name, kind


def checked(function: Callable[..., int], arguments: Sequence[type | Number]) -> Callable[..., int]:
    """A function of C that raises `ValueError` for a number that does not fit its argument."""
    function.argtypes = [it.kind if isinstance(it, Number) else it for it in arguments]
    numbers = [(place, it) for place, it in enumerate(arguments) if isinstance(it, Number)]

    def call(*given: object) -> int:
        for place, number in numbers:
            fitting(number.name, given[place], number.kind)
        return function(*given)

    return call


class Record(Structure):
    """A struct of C whose numbers must fit their fields."""

    def __init__(self, *values: object, **named: object) -> None:
        super().__init__()
        if len(values) > len(self._fields_):
            raise TypeError(f"{type(self).__name__} has {len(self._fields_)} fields, not {len(values)}")
        for (name, _), value in zip(self._fields_, values):
            setattr(self, name, value)
        for name, value in named.items():
            setattr(self, name, value)

    def __setattr__(self, name: str, value: object) -> None:
        kind = dict(self._fields_).get(name)
        if kind is None:
            raise AttributeError(f"{type(self).__name__} has no field {name}")
        super().__setattr__(name, fitting(name, value, kind) if kind in _KINDS else value)


class Lanes(Array):
    """The eight data lanes of a cycle."""

    _type_, _length_ = c_uint16, 8

    def __setitem__(self, place: int | slice, value: object) -> None:
        for one in value if isinstance(place, slice) else [value]:
            fitting("a lane", one, c_uint16)
        super().__setitem__(place, value)
