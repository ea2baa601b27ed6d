"""The text form of a job, that of examples/jobtext.c: one field on a line.

examples/README.md, "A job by hand", describes it.  What is wrong with a text is
said in the words of jobtext, with line and column.
"""
from __future__ import annotations

import re
from dataclasses import dataclass
from typing import Dict, List, NamedTuple, Optional, Sequence, Tuple, Union

from .job import Hazard, Job, Side
from .metres import DIGITS_MAX
from .number_form import Malformed, put_numbers
from .turning import Orientation
from .whole import shown

INPUT_MAX = 1048576  # bytes of a file
NAME_MAX = 60  # characters of a hazard's name
SHOWN_MAX = 40  # characters of a word in a message

# What a number counts: by that a wrong one is spoken of.
_NUMBER, _LENGTH, _STATION = "number", "length", "station"
_KIND, _BEGIN, _END, _OPPOSITE, _PANEL, _HAZARD_COUNT = 1, 2, 3, 5, 14, 15
_SIDES = {"right": int(Side.RIGHT), "left": int(Side.LEFT)}


class _Field(NamedTuple):
    """A header line: the header numbers (of kind 2) of its values, and their unit."""

    places: Tuple[int, ...]
    unit: str


_FIELDS: Dict[str, _Field] = {
    "kind": _Field((_KIND,), _NUMBER),
    "road": _Field((_BEGIN, _END), _STATION),
    "runout-forward": _Field((4,), _LENGTH),
    "runout-opposite": _Field((_OPPOSITE,), _LENGTH),
    "clear-zone": _Field((6,), _LENGTH),
    "centreline": _Field((7,), _LENGTH),
    "barrier-offset": _Field((8,), _LENGTH),
    "deflection": _Field((9,), _LENGTH),
    "flare": _Field((10, 11), _NUMBER),
    "straight": _Field((12,), _LENGTH),
    "continuity": _Field((13,), _LENGTH),
    "panel": _Field((_PANEL,), _LENGTH),
    "hazards": _Field((_HAZARD_COUNT,), _NUMBER),
}
# The units of a hazard's numbers after its side.
_HAZARD_UNITS = (_STATION, _STATION, _LENGTH, _LENGTH, _NUMBER)
# The lines that say how the road is driven: what is usual, and what is not.
_CHOICES = {"drives": ("right", "left"), "stations": ("rise", "fall")}
_BLANKS = " \t\r"
_DIGITS = re.compile("[0-9]+")
_KILOMETRES = re.compile(r"([0-9]+)\+([0-9]{3})(?:\.([0-9]{3}))?")
_DECIMAL = re.compile("[.,]*[0-9][0-9.,]*")
_WITH_PLUS = re.compile(r"[0-9.,]*\+[0-9.,+]*")


@dataclass(frozen=True)
class TextJob:
    """A job as it was read: its bytes, and what is not in them.

    The bytes are as the engine takes them, turned and swapped where the text
    says `stations fall` or `drives left`; orientation undoes it.  A hazard
    without a name has an empty one; lines are those of the hazards in the text.
    """

    data: bytes
    names: Tuple[str, ...] = ()
    orientation: Orientation = Orientation(0, 0)
    lines: Tuple[int, ...] = ()


class _Place(NamedTuple):
    line: int
    column: int


class _Word(NamedTuple):
    text: str
    place: _Place
    quoted: bool = False


def _is_control(letter: str) -> bool:
    return letter < " " or "\x7f" <= letter < "\xa0"


def _shown(word: str) -> str:
    """A word of the text, so far as it is shown: no control character of it."""
    cut = "".join("?" if _is_control(letter) else letter for letter in word[:SHOWN_MAX])
    return cut if len(word) <= SHOWN_MAX else cut + "..."


def _wrong(place: _Place, what: str, word: Optional[str] = None) -> Malformed:
    said = what if word is None else f"{what}: {_shown(word)}"
    return Malformed(f"line {place.line}, column {place.column}: {said}")


def _wrong_word(word: _Word, what: str) -> Malformed:
    return _wrong(word.place, what, word.text)


def _lower(word: str) -> str:
    """Without capital letters; letters that are not ASCII stay as they are."""
    return "".join(c.lower() if "A" <= c <= "Z" else c for c in word)


# A line's words.

def _quoted(line: str, at: int, place: _Place) -> str:
    """The name that begins with the quote at an index, without its quotes."""
    end = line.find('"', at + 1)
    if end < 0:
        raise _wrong(place, "the name has no closing quote")
    if line[end + 1:end + 2] not in ("", "#", *_BLANKS):
        raise _wrong(_Place(place.line, end + 2), "a blank has to follow the name")
    return line[at + 1:end]


def _plain(line: str, at: int) -> str:
    end = at
    while end < len(line) and line[end] not in _BLANKS + "#":
        end += 1
    return line[at:end]


def _words(line: str, number: int) -> Tuple[List[_Word], str]:
    """The words of a line, and its comment."""
    found: List[_Word] = []
    at = 0
    while at < len(line) and line[at] != "#":
        place = _Place(number, at + 1)
        if line[at] in _BLANKS:
            at += 1
        elif line[at] == '"':
            found.append(_Word(_quoted(line, at, place), place, True))
            at += len(found[-1].text) + 2
        else:
            found.append(_Word(_plain(line, at), place))
            at += len(found[-1].text)
    return found, line[at + 1:]


# Numbers.

def _of_digits(word: _Word, first: str, rest: str = "") -> int:
    """A number from its digits: so many are looked at, and no more."""
    if len(first) > DIGITS_MAX:
        raise _wrong_word(word, f"a number has at most {DIGITS_MAX} digits")
    if int(first + rest) >= 1 << 64:
        raise _wrong_word(word, "too great for 64 bits")
    return int(first + rest)


def _kilometres(word: _Word) -> int:
    match = _KILOMETRES.fullmatch(word.text)
    if match is None:
        raise _wrong_word(word, "a station in kilometres is like 1+250 or 1+250.000")
    return _of_digits(word, match.group(1), match.group(2) + (match.group(3) or "000"))


def _number(word: _Word, unit: str) -> int:
    if unit == _STATION and _WITH_PLUS.fullmatch(word.text):
        return _kilometres(word)
    if _DIGITS.fullmatch(word.text):
        return _of_digits(word, word.text)
    if _DECIMAL.fullmatch(word.text) and unit == _NUMBER:
        raise _wrong_word(word, "a whole number is wanted, without a point or comma")
    if _DECIMAL.fullmatch(word.text):
        raise _wrong_word(
            word, "whole millimetres are wanted, without a point or comma (9000 for 9 m)")
    if word.text[:1] == "-" and _DIGITS.fullmatch(word.text[1:]):
        raise _wrong_word(word, "no number is below 0")
    raise _wrong_word(word, "not a number")


def _side(word: _Word) -> int:
    known = _SIDES.get(word.text)
    if known is not None:
        return known
    if _lower(word.text) in _SIDES:
        raise _wrong_word(word, "write right or left in small letters")
    if not _DIGITS.fullmatch(word.text):
        raise _wrong_word(word, "a side is right or left")
    return _number(word, _NUMBER)


# Names.

def _comment_name(comment: str) -> str:
    """A comment as a name: without blanks at its ends, cut."""
    letters = "".join(" " if _is_control(letter) else letter for letter in comment)
    return letters.lstrip(" ")[:NAME_MAX].rstrip(" ")


def _name(word: _Word) -> str:
    if not 1 <= len(word.text) <= NAME_MAX:
        raise _wrong(word.place, f"a name has 1 to {NAME_MAX} characters")
    if any(_is_control(letter) for letter in word.text):
        raise _wrong(word.place, "a name has no control characters")
    return word.text


class _Read(NamedTuple):
    """A hazard as it stands in the text."""

    hazard: Hazard
    name: str
    first: _Place  # where its stations stand
    end: _Place


class _Reader:
    """What was read so far."""

    def __init__(self) -> None:
        self.header: Dict[int, int] = {}
        self.hazards: List[_Read] = []
        self.choices: Dict[str, Tuple[bool, _Place]] = {}

    def hazard(self, words: List[_Word], comment: str) -> None:
        named = len(words) == 8 and words[7].quoted
        if not (named or len(words) == 7) or any(word.quoted for word in words[1:7]):
            raise _wrong(words[0].place, "a hazard is side, first, end, near, far, level, and a "
                                         "name in quotes if wanted")
        numbers = [_side(words[1])] + [
            _number(word, unit) for word, unit in zip(words[2:7], _HAZARD_UNITS)]
        name = _name(words[7]) if named else _comment_name(comment)
        self.hazards.append(_Read(Hazard(*numbers), name, words[2].place, words[3].place))

    def field(self, words: List[_Word]) -> None:
        name = words[0]
        places, unit = _FIELDS[name.text]
        if len(words) != 1 + len(places):
            raise _wrong_word(name, f"wants {'one number' if len(places) == 1 else 'two numbers'}")
        if places[0] in self.header:
            raise _wrong_word(name, "given a second time")
        self.header.update(zip(places, [_number(word, unit) for word in words[1:]]))

    def choice(self, words: List[_Word]) -> None:
        name = words[0]
        usual, other = _CHOICES[name.text]
        wants = f"{name.text} wants {usual} or {other}"
        if len(words) != 2:
            raise _wrong(name.place, wants)
        if name.text in self.choices:
            raise _wrong_word(name, "given a second time")
        if _lower(words[1].text) not in (usual, other):
            raise _wrong(name.place, wants)
        if words[1].text not in (usual, other):
            raise _wrong_word(words[1], f"write {usual} or {other} in small letters")
        self.choices[name.text] = words[1].text == other, name.place

    def line(self, number: int, line: str) -> None:
        words, comment = _words(line, number)
        if not words:
            return
        name = words[0]
        if name.text == "hazard" and not name.quoted:
            self.hazard(words, comment)
            return
        if name.quoted or name.text not in (*_FIELDS, *_CHOICES):
            known = _lower(name.text) in ("hazard", *_FIELDS, *_CHOICES) and not name.quoted
            raise _wrong_word(name, "write it in small letters" if known else "no such field")
        for word in words[1:9]:
            if word.quoted:
                raise _wrong(word.place, "only a hazard has a name")
        if name.text in _CHOICES:
            self.choice(words)
        else:
            self.field(words)

    def complete(self, lines: int) -> None:
        """The numbers that may be left out, and those that may not."""
        self.header.setdefault(_KIND, 2 if _PANEL in self.header else 1)
        self.header.setdefault(_HAZARD_COUNT, len(self.hazards))
        for name, (places, _) in _FIELDS.items():
            if name != "panel" and places[0] not in self.header:
                raise _wrong(_Place(lines, 1), "the text ends without the field", name)

    def orientation(self) -> Orientation:
        """How the road is driven; what cannot be turned round is reported."""
        begin, end = self.header[_BEGIN], self.header[_END]
        falls, place = self.choices.get("stations", (False, _Place(0, 0)))
        if falls and self.header[_OPPOSITE] != 0:
            raise _wrong(place, "stations fall is for one-way and separated carriageways: "
                                "runout-opposite has to be 0")
        for read in self.hazards if falls else ():
            for station, where in ((read.hazard.start, read.first), (read.hazard.end, read.end)):
                if not begin <= station <= end:
                    raise _wrong(where, "where stations fall a hazard has to lie on the road")
        left, _ = self.choices.get("drives", (False, place))
        return Orientation(begin, end, left, falls)

    def job(self, lines: int) -> TextJob:
        self.complete(lines)
        lies = self.orientation()
        row = [self.header[place] for place in sorted(self.header)]
        for read in self.hazards:
            row += lies.hazard(read.hazard).numbers()
        return TextJob(put_numbers(row), tuple(read.name for read in self.hazards), lies,
                       tuple(read.first.line for read in self.hazards))


def _test_utf16(data: bytes) -> None:
    marked = data[:2] in (b"\xff\xfe", b"\xfe\xff")
    if marked or len(data) > 1 and (data[0] == 0) != (data[1] == 0):
        raise _wrong(_Place(1, 1), "this is UTF-16; save it as UTF-8")


def _decoded(data: bytes) -> str:
    """Text from its bytes; Malformed, with line and column, where it is none."""
    _test_utf16(data)
    if data[:3] == b"\xef\xbb\xbf":
        data = data[3:]
    try:
        text = data.decode("utf-8")
    except UnicodeDecodeError as error:
        raise _wrong(_place(data[:error.start].decode("utf-8")),
                     "this is not UTF-8; save it as UTF-8") from None
    if "\0" in text:
        raise _wrong(_place(text[:text.index("\0")]), "a zero byte is no text")
    return text


def _place(before: str) -> _Place:
    """The place after a text."""
    return _Place(before.count("\n") + 1, len(before) - before.rfind("\n"))


def _tested(data: bytes) -> bytes:
    if len(data) > INPUT_MAX:
        raise Malformed(f"the input is longer than {INPUT_MAX} bytes")
    if not data:
        raise Malformed("the input is empty")
    return data


def _are_bytes(data: bytes) -> bool:
    """A job's bytes begin with its kind, 1 or 2, and no text does."""
    return data[:1] in (b"\1", b"\2")


def read_text(text: Union[str, bytes]) -> TextJob:
    """A job from its text; Malformed, with line and column, where it is none.

    A line `kind` or `hazards` gives only that number, so bytes that the engine
    refuses can be written too.
    """
    data = _tested(text.encode("utf-8", "surrogatepass") if isinstance(text, str) else bytes(text))
    if _are_bytes(data):
        raise Malformed("these are a job's bytes, not its text")
    reader = _Reader()
    lines = _decoded(data).split("\n")
    for number, line in enumerate(lines, 1):
        reader.line(number, line)
    return reader.job(len(lines))


def bytes_of_text(text: Union[str, bytes]) -> bytes:
    """A job's bytes from its text, as read_text reads it."""
    return read_text(text).data


def read_job(data: bytes) -> TextJob:
    """A job from its bytes or its text: bytes begin with 1 or 2, text never does.

    Bytes have no names, and are taken as they are: whether they are a job is for
    the engine to say.
    """
    data = _tested(bytes(data))
    if _are_bytes(data):
        return _of_bytes(data)
    _test_utf16(data)
    if data[0] < 0x20 and data[:1] not in (b"\t", b"\n", b"\r"):
        raise Malformed("neither a job in bytes nor text")
    return read_text(data)


def _of_bytes(data: bytes) -> TextJob:
    try:
        job = Job.from_bytes(data)
    except Malformed:
        return TextJob(data)
    return TextJob(data, ("",) * len(job.hazards), Orientation(job.header.begin, job.header.end))


def text_of_job(job: Job, names: Sequence[str] = ()) -> str:
    """The text whose bytes are this job's, with the names of its hazards.

    A name that the text form does not have is a ValueError.
    """
    header = job.header
    rows = [
        f"road {header.begin} {header.end}",
        f"runout-forward {header.runout_forward}",
        f"runout-opposite {header.runout_opposite}",
        f"clear-zone {header.clear_zone}",
        f"centreline {header.centreline}",
        f"barrier-offset {header.barrier_offset}",
        f"deflection {header.deflection}",
        f"flare {header.flare_along} {header.flare_across}",
        f"straight {header.straight}",
        f"continuity {header.continuity}",
    ]
    if header.panel is not None:
        rows.append(f"panel {header.panel}")
    words = {number: word for word, number in _SIDES.items()}
    for index, hazard in enumerate(job.hazards):
        side, *rest = hazard.numbers()
        name = names[index] if index < len(names) else ""
        row = ["hazard", words.get(side, str(side))] + [str(n) for n in rest]
        if name and ('"' in name or len(name) > NAME_MAX or any(map(_is_control, name))):
            raise ValueError(f"a name has 1 to {NAME_MAX} characters, none of them a quotation mark "
                             f"or a control character, not {shown(name)}")
        rows.append(" ".join(row + ([f'"{name}"'] if name else [])))
    return "\n".join(rows) + "\n"
