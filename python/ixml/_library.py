"""The library's calls as the headers declare them, by ctypes.

Each function takes bytes and the lengths of what is lent, and gives the answer
and the buffer. :mod:`ixml` has the same calls for everyday use.
"""

from __future__ import annotations

import ctypes
import os
import pathlib
import threading
from ctypes import POINTER, Structure, c_bool, c_double, c_size_t, c_uint8, c_uint32, c_uint64

GRAMMAR_TABLE = 16_384
GRAMMAR_SIZE = 512
RECORD_CHARACTERS = 200
READING_NUMBERS = 4_096
GRAMMAR_BYTES = 4_096
STATE = 4_904
_FINISHED = 2


class Places(Structure):
    """Where a job is at fault; 0 where the number names no such place."""

    _fields_ = [("byte", c_size_t), ("fault", c_size_t), ("grammar", c_size_t)]
    byte: int
    fault: int
    grammar: int


class Answer(Structure):
    """What a call answers: 0 or the number of a refusal, a length, two marks, places."""

    _fields_ = [
        ("number", c_uint32),
        ("length", c_size_t),
        ("ambiguous", c_bool),
        ("version", c_bool),
        ("places", Places),
    ]
    number: int
    length: int
    ambiguous: bool
    version: bool
    places: Places


class Progress(Structure):
    """What a call of a read in rounds answers: the common answer, and the rounds done."""

    _fields_ = [("answer", Answer), ("rounds", c_size_t)]
    answer: Answer
    rounds: int


class GateAnswer(Structure):
    """0 and a verdict, or the number of a refusal."""

    _fields_ = [("number", c_uint32), ("verdict", c_uint32)]
    number: int
    verdict: int


class NumberAnswer(Structure):
    """0 and the value of a number text, or 31."""

    _fields_ = [("number", c_uint32), ("value", c_double)]
    number: int
    value: float


def _load() -> ctypes.CDLL:
    """The shared library: ``IXML_LIBRARY``, or the one beside this file, which
    ``python/build`` makes from the proved archives."""
    beside = pathlib.Path(__file__).with_name("libixml.so")
    path = os.environ.get("IXML_LIBRARY", str(beside))
    try:
        return ctypes.CDLL(path)
    except OSError as error:
        raise ImportError(f"{error}; python/build makes the library") from error


_BYTES = [POINTER(c_uint8), c_size_t]
_NUMBERS = [POINTER(c_uint32), c_size_t]
_library = _load()


def _declare(name: str, arguments: list, result: type) -> ctypes._CFuncPtr:
    function = getattr(_library, name)
    function.argtypes = arguments
    function.restype = result
    return function


_check = _declare("ixml_check", _BYTES, Answer)
_tidy = _declare("ixml_tidy", _BYTES + _BYTES, Answer)
_category = _declare("ixml_category", [c_uint32], c_uint32)
_JOB = _BYTES + _BYTES + _NUMBERS + _NUMBERS
_read = _declare("ixml_read", _JOB + _NUMBERS, Answer)
_read_plain = _declare("ixml_read_plain", _JOB + _NUMBERS, Answer)
_convert = _declare("ixml_convert", _JOB + _BYTES, Answer)
_SCRATCH = [POINTER(c_uint64), c_size_t]
_judge = _declare("ixml_judge", _BYTES + _BYTES + _NUMBERS + _NUMBERS + _SCRATCH + _BYTES, Answer)
_STATE = [POINTER(c_uint32)]
_start = _declare("ixml_start", _JOB + _STATE, Progress)
_round = _declare("ixml_round", _JOB + _STATE, Progress)
_finish_read = _declare("ixml_finish_read", _JOB + _STATE + _NUMBERS, Progress)
_finish_convert = _declare("ixml_finish_convert", _JOB + _STATE + _BYTES, Progress)
_box = _declare("ixml_gate_box", [c_double] * 4 + _BYTES + _BYTES, GateAnswer)
_band = _declare("ixml_gate_band", [c_double] * 2 + _BYTES + _BYTES, GateAnswer)
_anywhere = _declare("ixml_gate_anywhere", _BYTES + _BYTES, GateAnswer)
_number = _declare("ixml_number", _BYTES, NumberAnswer)


def _bytes(text: bytes) -> ctypes.Array:
    # No pointer may be NULL, so there is room for one byte at least.
    return (c_uint8 * max(len(text), 1)).from_buffer_copy(text or b"\0")


class _Tables(threading.local):
    """Work tables of this thread, as long as its longest job needed."""

    def __init__(self) -> None:
        self.main = (c_uint32 * 1)()
        self.grammar = (c_uint32 * GRAMMAR_TABLE)()

    def lend(self, length: int) -> ctypes.Array:
        if len(self.main) < length:
            self.main = (c_uint32 * length)()
        return self.main


_tables = _Tables()


def main_table(size: int, characters: int) -> int:
    """The numbers that a grammar of this size needs for so many characters."""
    size = min(size, GRAMMAR_SIZE)
    characters = min(characters, RECORD_CHARACTERS)
    return size * (characters + 1) * (characters + 2) // 2


def check(grammar: bytes) -> Answer:
    return _check(_bytes(grammar), len(grammar))


def tidy(grammar: bytes, room: int) -> tuple[Answer, bytes]:
    result = (c_uint8 * max(room, 1))(*b"\x07" * min(room, 1))
    ctypes.memset(result, 7, room)
    answer = _tidy(_bytes(grammar), len(grammar), result, room)
    return answer, bytes(result)[:room]


def category(code: int) -> int:
    return _category(code)


def _lent(main: int, grammar_table: int) -> list:
    return [_tables.lend(main), main, _tables.grammar, grammar_table]


def read(
    grammar: bytes, record: bytes, main: int, grammar_table: int, room: int, plain: bool = False
) -> tuple[Answer, list[int]]:
    """Reads by the quick engine, or by the plain one. The buffer held 7 in every cell."""
    result = (c_uint32 * max(room, 1))(*[7] * max(room, 1))
    call = _read_plain if plain else _read
    job = [_bytes(grammar), len(grammar), _bytes(record), len(record)]
    answer = call(*job, *_lent(main, grammar_table), result, room)
    return answer, list(result)[:room]


def convert(
    grammar: bytes, record: bytes, main: int, grammar_table: int, room: int
) -> tuple[Answer, bytes]:
    """Converts. The buffer held 7 in every cell."""
    result = (c_uint8 * max(room, 1))()
    ctypes.memset(result, 7, len(result))
    job = [_bytes(grammar), len(grammar), _bytes(record), len(record)]
    answer = _convert(*job, *_lent(main, grammar_table), result, room)
    return answer, bytes(result)[:room]


def judge(
    grammar: bytes, record: bytes, numbers: list[int], grammar_table: int, scratch: int, room: int
) -> tuple[Answer, bytes]:
    """Judges a list of numbers of 32 bits. The buffer held 7 in every cell."""
    result = (c_uint8 * max(room, 1))()
    ctypes.memset(result, 7, len(result))
    entries = (c_uint32 * max(len(numbers), 1))(*numbers)
    notes = (c_uint64 * max(scratch, 1))()
    job = [_bytes(grammar), len(grammar), _bytes(record), len(record), entries, len(numbers)]
    answer = _judge(*job, _tables.grammar, grammar_table, notes, scratch, result, room)
    return answer, bytes(result)[:room]


class Cut:
    """A read in rounds, with a main table and a state of its own. ``started`` is what
    its start answered."""

    def __init__(self, grammar: bytes, record: bytes, main: int, grammar_table: int) -> None:
        self._main = (c_uint32 * max(main, 1))()
        self._state = (c_uint32 * STATE)()
        texts = [_bytes(grammar), len(grammar), _bytes(record), len(record)]
        self._job = [*texts, self._main, main, _tables.grammar, grammar_table]
        self.started = _start(*self._job, self._state)

    def is_finished(self) -> bool:
        return self._state[_FINISHED] == 1

    def round(self) -> Progress:
        return _round(*self._job, self._state)

    def read(self, room: int) -> tuple[Progress, list[int]]:
        """Ends the read as numbers. The buffer held 7 in every cell."""
        result = (c_uint32 * max(room, 1))(*[7] * max(room, 1))
        progress = _finish_read(*self._job, self._state, result, room)
        return progress, list(result)[:room]

    def convert(self, room: int) -> tuple[Progress, bytes]:
        """Ends the read as XML. The buffer held 7 in every cell."""
        result = (c_uint8 * max(room, 1))()
        ctypes.memset(result, 7, len(result))
        progress = _finish_convert(*self._job, self._state, result, room)
        return progress, bytes(result)[:room]


def gate(limits: list[float], lat: bytes, lon: bytes) -> GateAnswer:
    """A box has four limits, a band two, anywhere none."""
    call = {4: _box, 2: _band, 0: _anywhere}[len(limits)]
    return call(*limits, _bytes(lat), len(lat), _bytes(lon), len(lon))


def number(text: bytes) -> NumberAnswer:
    return _number(_bytes(text), len(text))
