"""Invisible XML for short records, by the proved library.

>>> grammar = "p: @lat, -' ', @lon. lat: d+. lon: d+. -d: ['0'-'9']."
>>> convert(grammar, "45 12").xml
"<p lat='45' lon='12'/>"

A grammar that fits a record two ways never passes in silence:

>>> convert("p: (@a, -' ', @b; @b, -' ', @a). a: ['0'-'9']+. b: ['0'-'9']+.", "45 12").ambiguous
True

What cannot be done is an exception with the refusal's number, sentence and place:

>>> convert(grammar, "45;12")
Traceback (most recent call last):
    ...
ixml.NoReading: refused 16: the grammar does not derive the record, at character 2

Limits: a grammar has at most 4,096 bytes and size 512, a record at most 200
characters of U+0000 to U+017F, U+0300 to U+036F, U+203F and U+2040. All calls may
be used from several threads at once; each thread keeps work tables of its own, of
42 MB at most.
"""

from __future__ import annotations

import dataclasses
import enum
import importlib.resources
from typing import Callable, Optional, Sequence, Tuple, Union

from . import _library

__all__ = [
    "Band",
    "Box",
    "Anywhere",
    "Converted",
    "NoReading",
    "Reading",
    "Refused",
    "Rounds",
    "Verdict",
    "category",
    "check",
    "convert",
    "judge",
    "judge_position",
    "number",
    "read",
    "sentence",
    "tidy",
]

Text = Union[str, bytes]

_NO_READING = 16
_RESULT_TOO_LONG = 23
_NO_DERIVATION = 25

_CATEGORIES = (
    "Lu Ll Lt Lm Lo Mn Mc Me Nd Nl No Pc Pd Ps Pe Pi Pf Po Sm Sc Sk So Zs Zl Zp Cc Cf Cs Co Cn".split()
)


def _sentences() -> dict[int, str]:
    table = importlib.resources.files(__name__).joinpath("refusals.tsv").read_text("utf-8")
    lines = (line.split("\t", 1) for line in table.splitlines())
    return {int(number): text for number, text in lines}


_SENTENCES = _sentences()


def sentence(number: int) -> str:
    """What a refusal means, in words.

    >>> sentence(9)
    'the grammar has a range that runs backwards'
    """
    return _SENTENCES[number]


class Refused(Exception):
    """A job that has no result.

    ``number`` is the refusal's number, ``sentence`` says what it means. Of the
    places those are 0 that the number does not name: ``byte`` (2, 3, 12, 13: of the
    grammar or the record), ``grammar_character`` (5 to 10, after a byte order mark),
    ``record_character`` (16).
    """

    def __init__(self, number: int, places: Tuple[int, int, int] = (0, 0, 0)) -> None:
        self.number = number
        self.sentence = sentence(number)
        self.byte, self.record_character, self.grammar_character = places
        place = {2: "byte", 3: "byte", 12: "byte", 13: "byte", _NO_READING: "record_character"}
        place.update({n: "grammar_character" for n in range(5, 11)})
        text = f"refused {number}: {self.sentence}"
        if number in place:
            unit = "byte" if place[number] == "byte" else "character"
            text += f", at {unit} {getattr(self, place[number])}"
        super().__init__(text)


class NoReading(Refused):
    """The grammar does not derive the record. Its first ``record_character``
    characters begin some text that the grammar accepts, and no more do."""


@dataclasses.dataclass(frozen=True)
class Converted:
    """A record as XML. ``ambiguous``: the grammar fits the record in more than one
    way; the XML says so too."""

    xml: str
    ambiguous: bool
    version_mismatch: bool


@dataclasses.dataclass(frozen=True)
class Reading:
    """The chosen reading: the number of each node's alternative, top node first."""

    numbers: Tuple[int, ...]
    ambiguous: bool
    version_mismatch: bool


def _encoded(text: Text) -> bytes:
    return text.encode("utf-8") if isinstance(text, str) else bytes(text)


def _settled(answer: _library.Answer) -> _library.Answer:
    if answer.number == 0:
        return answer
    places = answer.places
    kind = NoReading if answer.number == _NO_READING else Refused
    raise kind(answer.number, (places.byte, places.fault, places.grammar))


def _room(record: bytes) -> int:
    characters = sum(byte & 0xC0 != 0x80 for byte in record)
    return _library.main_table(_library.GRAMMAR_SIZE, characters)


def check(grammar: Text) -> None:
    """Raises :class:`Refused` unless the grammar is accepted.

    >>> check("a: 'x'*.")
    >>> check("a: b.")
    Traceback (most recent call last):
        ...
    ixml.Refused: refused 5: the grammar uses a name that has no rule, at character 3
    """
    _settled(_library.check(_encoded(grammar)))


def tidy(grammar: Text) -> str:
    """The grammar in one layout: the same rules, names and marks, no comments.

    >>> tidy("-a={x}'b'|#0A,[L|'c']+.")
    '-a: "b"; #a, [L; "c"]+.\\n'
    """
    answer, text = _library.tidy(_encoded(grammar), _library.GRAMMAR_BYTES)
    return text[: _settled(answer).length].decode("utf-8")


def read(grammar: Text, record: Text, *, plain: bool = False) -> Reading:
    """The chosen reading of a record, by the quick engine or the plain one; both
    give the same.

    >>> read("a: 'x'*.", "xx").numbers
    (0, 0, 0, 1)
    """
    record = _encoded(record)
    answer, numbers = _library.read(
        _encoded(grammar),
        record,
        _room(record),
        _library.GRAMMAR_TABLE,
        _library.READING_NUMBERS,
        plain,
    )
    length = _settled(answer).length
    return Reading(tuple(numbers[:length]), answer.ambiguous, answer.version)


def convert(grammar: Text, record: Text) -> Converted:
    """A record as XML."""
    grammar, record = _encoded(grammar), _encoded(record)
    main, table = _room(record), _library.GRAMMAR_TABLE
    return _in_room(lambda room: _library.convert(grammar, record, main, table, room))


def judge(grammar: Text, record: Text, numbers: Sequence[int]) -> Converted:
    """The XML of the derivation of the record that a left parse names, whoever made
    the list; it says nothing of ambiguity. A list that names none is refused as 25.

    >>> judge("a: b; c. b: 'x'. c: 'x'.", "x", [1, 0]).xml
    '<a><c>x</c></a>'
    >>> judge("a: 'x'.", "x", [7])
    Traceback (most recent call last):
        ...
    ixml.Refused: refused 25: the list of numbers is no derivation of the record by the grammar
    """
    grammar, record, numbers = _encoded(grammar), _encoded(record), list(numbers)
    if not all(0 <= number < 1 << 32 for number in numbers):
        raise Refused(_NO_DERIVATION)
    table, scratch = _library.GRAMMAR_TABLE, 2 * len(numbers)
    return _in_room(lambda room: _library.judge(grammar, record, numbers, table, scratch, room))


def _in_room(call: Callable[[int], Tuple[_library.Answer, bytes]]) -> Converted:
    """Calls with more and more room for the XML, until that is enough."""
    room = 1 << 16
    answer, xml = call(room)
    while answer.number == _RESULT_TOO_LONG:
        room *= 8
        answer, xml = call(room)
    length = _settled(answer).length
    return Converted(xml[:length].decode("utf-8"), answer.ambiguous, answer.version)


class Rounds:
    """A record read in rounds, so that a program can do other things in between: an
    iterator that does one round at each step, gives how many were done and ends when
    the read is finished. To cancel it, stop asking.

    >>> rounds = Rounds("a: 'x'*.", "xx")
    >>> list(rounds)
    [1, 2, 3, 4, 5]
    >>> rounds.read().numbers
    (0, 0, 0, 1)
    >>> rounds.convert().xml
    '<a>xx</a>'

    Asked too early it is refused as 26:

    >>> Rounds("a: 'x'.", "x").read()
    Traceback (most recent call last):
        ...
    ixml.Refused: refused 26: the read is not finished: it needs more rounds
    """

    def __init__(self, grammar: Text, record: Text) -> None:
        record = _encoded(record)
        table = _library.GRAMMAR_TABLE
        self._cut = _library.Cut(_encoded(grammar), record, _room(record), table)
        _settled(self._cut.started.answer)

    def __iter__(self) -> "Rounds":
        return self

    def __next__(self) -> int:
        if self._cut.is_finished():
            raise StopIteration
        progress = self._cut.round()
        _settled(progress.answer)
        return progress.rounds

    def read(self) -> Reading:
        """The chosen reading, once the read is finished."""
        progress, numbers = self._cut.read(_library.READING_NUMBERS)
        answer = _settled(progress.answer)
        return Reading(tuple(numbers[: answer.length]), answer.ambiguous, answer.version)

    def convert(self) -> Converted:
        """The record as XML, once the read is finished."""

        def end(room: int) -> Tuple[_library.Answer, bytes]:
            progress, xml = self._cut.convert(room)
            return progress.answer, xml

        return _in_room(end)


def category(character: Union[str, int]) -> Optional[str]:
    """Unicode's general category of a character of the alphabet, or None.

    >>> category("é"), category("€")
    ('Ll', None)
    """
    code = ord(character) if isinstance(character, str) else character
    place = _library.category(code)
    return _CATEGORIES[place] if place < len(_CATEGORIES) else None


class Verdict(enum.Enum):
    """What a gate says of a position."""

    INSIDE = 1
    SWAPPED = 2
    SUSPECT = 3


@dataclasses.dataclass(frozen=True)
class Box:
    """Four limits, in degrees; each is included."""

    south: float
    north: float
    west: float
    east: float


@dataclasses.dataclass(frozen=True)
class Band:
    """Limits of latitude alone."""

    south: float
    north: float


@dataclasses.dataclass(frozen=True)
class Anywhere:
    """No limits."""


def judge_position(
    gate: Union[Box, Band, Anywhere], *, latitude: str, longitude: str
) -> Verdict:
    """The verdict of a gate on the texts of two attributes.

    >>> judge_position(Box(44, 46.5, 11, 13), latitude="12", longitude="45.25")
    <Verdict.SWAPPED: 2>
    """
    limits = [float(limit) for limit in dataclasses.astuple(gate)]
    answer = _library.gate(limits, latitude.encode("utf-8"), longitude.encode("utf-8"))
    if answer.number != 0:
        raise Refused(answer.number)
    return Verdict(answer.verdict)


def number(text: str) -> float:
    """The value of a number text, to the bit.

    >>> number("-12.5")
    -12.5
    """
    answer = _library.number(text.encode("utf-8"))
    if answer.number != 0:
        raise Refused(answer.number)
    return answer.value
