"""Cuts a text into tokens by the o200k pattern and its variants, by a proved library.

  >>> from njuxaleet import cut
  >>> cut(b'THD 1250')
  [b'THD', b' ', b'125', b'0']

A text is bytes, a bytearray or a memoryview that holds UTF-8. A token is told by its end: the offset, in bytes from the
text's first, of the byte after it. A text that cannot be cut raises Refused.

The shared library is the file that NJUXALEET_SO names, or else libnjuxaleet.so beside this module or in ../../target/bindings.
"""
from __future__ import annotations

import ctypes
import operator
import os
from array import array
from enum import IntEnum
from itertools import chain
from typing import NamedTuple

__all__ = ['Class', 'LONGEST', 'O200K', 'Options', 'Refused', 'class_of', 'cut', 'ends', 'next_end']

# The longest text that is taken, in bytes.
LONGEST = 1048576


class Options(NamedTuple):
    """By which variant of the pattern a text is cut; the named setting o200k where nothing else is said.

    contractions: does a suffix such as 't stay with its word?
    digits: the digit mode, how Number characters go: 0 one by one, 1 by three from the left, 2 by three from the right
    slash: does the tail of punctuation take slashes?
    """
    contractions: bool = True
    digits: int = 1
    slash: bool = True


O200K = Options(contractions=True, digits=1, slash=True)


class Class(IntEnum):
    """The classes of scalar values."""
    UPPER = 0
    LOWER = 1
    CASELESS = 2
    MARK = 3
    NUMBER = 4
    WHITESPACE = 5
    OTHER = 6


class Refused(ValueError):
    """A call was refused: `number` says why, 1 to 6, and `place` where."""
    REASONS = {
        1: 'the digit mode is above 2',
        2: 'the text is over 1,048,576 bytes',
        3: 'the text is not UTF-8',
        4: 'the start is past the end',
        5: 'the start is inside a character',
        6: 'the number is not a scalar value',
    }

    def __init__(self, number: int, place: int):
        super().__init__(number, place)
        self.number = number
        self.place = place

    def __str__(self):
        return f'refused {self.number} at {self.place}: {self.REASONS[self.number]}'


def _library_file():
    here = os.path.dirname(os.path.abspath(__file__))
    named = os.environ.get('NJUXALEET_SO')
    folders = [here, os.path.join(here, '..', '..', 'target', 'bindings')]
    files = [named] if named else [os.path.normpath(os.path.join(f, 'libnjuxaleet.so')) for f in folders]
    for file in files:
        if os.path.isfile(file):
            return os.path.abspath(file)
    raise ImportError(f'njuxaleet: there is no shared library at {" or ".join(files)}; '
                      'build it with the command tools/bindings, or name its file in NJUXALEET_SO')


def _load():
    file = _library_file()
    try:
        library = ctypes.CDLL(file)
        size, place = ctypes.c_size_t, ctypes.POINTER(ctypes.c_size_t)
        text_and_options = [ctypes.c_char_p, size, ctypes.c_bool, ctypes.c_uint8, ctypes.c_bool]
        library.njuxaleet_next_end.argtypes = text_and_options + [size, place]
        library.njuxaleet_fill.argtypes = text_and_options + [size, ctypes.c_void_p, size, place, place]
        library.njuxaleet_class_of.argtypes = [ctypes.c_uint32, ctypes.POINTER(ctypes.c_uint32)]
        for function in (library.njuxaleet_next_end, library.njuxaleet_fill, library.njuxaleet_class_of):
            function.restype = ctypes.c_uint32
    except (OSError, AttributeError) as error:
        raise ImportError(f'njuxaleet: {file} is not the shared library ({error}); build it with the command tools/bindings') from error
    return library


_library = _load()


def _text(data):
    """The text as bytes, uncopied if it is bytes already."""
    if isinstance(data, str):
        raise TypeError("a text is bytes, not str: encode it first, as in data.encode('utf-8')")
    if not isinstance(data, (bytes, bytearray, memoryview)):
        raise TypeError(f'a text is bytes, a bytearray or a memoryview, not {type(data).__name__}')
    return bytes(data)


def _number(value, most, name):
    """The value, or `most` if it is above that: both are refused alike, and ctypes would cut a larger one down."""
    value = operator.index(value)
    if value < 0:
        raise ValueError(f'{name} is below 0: {value}')
    return min(value, most)


def _arguments(data, options, start):
    text = _text(data)
    contractions, digits, slash = options
    digits = _number(digits, 0xFF, 'the digit mode')
    start = _number(start, len(text) + 1, 'the start')
    return text, len(text), bool(contractions), digits, bool(slash), start


def next_end(data: bytes, start: int, options: Options = O200K) -> int | None:
    """The end of the token at `start`, or None exactly at the end of the text.

    Every call checks the whole text, so use `ends` or `cut` for a walk."""
    at = ctypes.c_size_t()
    number = _library.njuxaleet_next_end(*_arguments(data, options, start), ctypes.byref(at))
    if number:
        raise Refused(number, at.value)
    return None if at.value == start else at.value


def ends(data: bytes, options: Options = O200K, start: int = 0) -> list[int]:
    """The ends of all tokens from `start` on.

    The library is called once, with room for as many ends as there are bytes, since every call checks the whole text."""
    arguments = _arguments(data, options, start)
    # One entry at the least: the list's pointer must not be null.
    room = max(1, min(arguments[1], LONGEST))
    found = array('I', bytes(4 * room))
    count, at = ctypes.c_size_t(), ctypes.c_size_t()
    number = _library.njuxaleet_fill(*arguments, found.buffer_info()[0], room, ctypes.byref(count), ctypes.byref(at))
    if number:
        raise Refused(number, at.value)
    return found[:count.value].tolist()


def cut(data: bytes, options: Options = O200K) -> list[bytes]:
    """The tokens of the whole text. Joined, they are the text again."""
    text = _text(data)
    found = ends(text, options)
    return [text[start:end] for start, end in zip(chain((0,), found), found)]


def class_of(c: int) -> Class:
    """The class of a scalar value, such as ord('a')."""
    found = ctypes.c_uint32()
    number = _library.njuxaleet_class_of(_number(c, 0xFFFFFFFF, 'the value'), ctypes.byref(found))
    if number:
        raise Refused(number, 0)
    return Class(found.value)
