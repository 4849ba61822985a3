"""Lines of `dig`, or of a zone file: owner, time to live, class, type and data.

An entry in brackets goes over several lines. Names without a final dot are completed by the origin, and a record without
a time to live has that of $TTL. Comments, other directives, and records of types without fields are left out.
"""

from __future__ import annotations

import re
from typing import Iterable, Iterator, NamedTuple

from . import _library
from .errors import HollywhistError, ScanError
from .names import completed
from .records import TYPES, Https, Param, RecordData, Svcb

CLASS = re.compile(r"IN|CH|HS|CS|CLASS\d{1,5}", re.IGNORECASE)

# A time to live in seconds, or with the units that BIND takes.
TTL = re.compile(r"(?:\d+[smhdw]?)+", re.IGNORECASE)

UNITS = {"": 1, "s": 1, "m": 60, "h": 3600, "d": 86400, "w": 604800}

# Which token of the data is a name, by the number of the type. In IPSECKEY it is one where the gateway's type is 3.
IPSECKEY = TYPES["IPSECKEY"]
NAME_PLACES = {TYPES["SVCB"]: 1, TYPES["HTTPS"]: 1, IPSECKEY: 3}

# What stands between tokens, and what a token is: octets in quotes and others, with escapes.
GAP = re.compile(r"(?:[ \t\r\n()]|;[^\n]*)*")
TOKEN = re.compile(r'(?:"(?:\\.|[^"\\])*"?|\\.|[^ \t\r\n();"\\])+', re.DOTALL)

END_OF_ENTRY = _library.NAMES["HW_S_END_OF_ENTRY"]


class Place(NamedTuple):
    """A place in the input, each number from 1 on."""

    line: int
    column: int


class Entry(NamedTuple):
    """A record whose data was read."""

    line: int
    owner: str
    ttl: str | None
    rclass: str | None
    rtype: str
    data: RecordData | Svcb | Https

    @property
    def seconds(self) -> int | None:
        """The time to live in seconds, where there is one."""
        return None if self.ttl is None else ttl_seconds(self.ttl)


class Fault(NamedTuple):
    """A record whose data was refused: where, and why."""

    place: Place
    owner: str
    rtype: str
    error: HollywhistError


def ttl_seconds(text: str) -> int:
    """A time to live in seconds: `3600`, `1h`, `1h30m`. `ValueError`: the text is none."""
    if not TTL.fullmatch(text):
        raise ValueError(f"no time to live: {text}")
    return sum(int(count) * UNITS[unit.lower()] for count, unit in re.findall(r"(\d+)([smhdw]?)", text, re.IGNORECASE))


def read(lines: Iterable[str], origin: str | None = None) -> Iterator[Entry | Fault]:
    """What each record is, or the fault that it has. The origin is an absolute name, which $ORIGIN changes. Names stay
    as they are where there is none."""
    owner = ""
    default_ttl = None
    for first, text in _joined(lines):
        tokens = list(_tokens(text, 0))
        if not tokens:
            continue
        if text.startswith("$"):
            directive, *words = (token.group() for token in tokens)
            if directive.upper() == "$ORIGIN" and words:
                origin = _absolute(words[0], origin)
            elif directive.upper() == "$TTL" and words and TTL.fullmatch(words[0]):
                default_ttl = words[0]
            continue
        if not text[0].isspace():
            owner = _absolute(tokens.pop(0).group(), origin)
        found = _fields(tokens)
        if found is None:
            continue
        ttl, rclass, rtype, start = found
        number = _type_number(rtype)
        if number is None:
            continue
        try:
            data = _data(number, _with_origin(number, text[start:], origin))
            yield Entry(first, owner, default_ttl if ttl is None else ttl, rclass, rtype, data)
        except HollywhistError as error:
            yield Fault(_place(first, text, _fault_start(number, text, start, error)), owner, rtype, error)


def _joined(lines: Iterable[str]) -> Iterator[tuple[int, str]]:
    """The entries, each with the number of its first line; lines within brackets are one entry."""
    first, text, depth = 1, "", 0
    for number, line in enumerate(lines, 1):
        if depth == 0:
            first, text = number, ""
        line = line.rstrip("\r\n")
        text += line if depth == 0 else "\n" + line
        depth = max(depth + _depth(line), 0)
        if depth == 0:
            yield first, text
    if depth:
        yield first, text


def _depth(line: str) -> int:
    """How many more brackets a line opens than it closes."""
    bare = re.sub(r'\\.|"(?:\\.|[^"\\])*"|;[^\n]*', "", line)
    return bare.count("(") - bare.count(")")


def _tokens(text: str, pos: int) -> Iterator[re.Match[str]]:
    while True:
        pos = GAP.match(text, pos).end()  # type: ignore[union-attr]
        token = TOKEN.match(text, pos)
        if token is None:
            return
        yield token
        pos = token.end()


def _fields(tokens: list[re.Match[str]]) -> tuple[str | None, str | None, str, int] | None:
    """The time to live, the class, the type, and the place behind them. The first two come in any order, or not."""
    ttl = rclass = None
    for token in tokens:
        word = token.group()
        if rclass is None and CLASS.fullmatch(word):
            rclass = word.upper()
        elif ttl is None and TTL.fullmatch(word):
            ttl = word
        else:
            return ttl, rclass, word.upper(), token.end()
    return None


def _absolute(name: str, origin: str | None) -> str:
    return name if origin is None else completed(name, origin)


def _with_origin(number: int, text: str, origin: str | None) -> str:
    """The text of data, with the name in it completed."""
    tokens = list(_tokens(text, 0))
    place = NAME_PLACES.get(number)
    if place is None or place >= len(tokens) or (number == IPSECKEY and tokens[1].group() != "3"):
        return text
    name = tokens[place]
    if '"' in name.group():
        return text
    return text[: name.start()] + _absolute(name.group(), origin) + text[name.end() :]


def _type_number(word: str) -> int | None:
    """The number of a type that is read. Other types without a number in their name are left out."""
    if word in TYPES:
        return TYPES[word]
    number = re.fullmatch(r"TYPE(\d{1,5})", word)
    return int(number[1]) if number and int(number[1]) < 65536 else None


def _data(number: int, text: str) -> RecordData | Svcb | Https:
    for kind in (Svcb, Https):
        if number == kind.RTYPE:
            return kind.from_text(text)
    return RecordData.from_text(number, text)


def _fault_start(number: int, text: str, start: int, error: HollywhistError) -> int:
    """Where the token begins with which a fault comes: the last of the fewest that are refused so. A fault that comes
    at the end alone stands there."""
    end = start
    for token in _tokens(text, start):
        end = token.end()
        front = text[start:end]
        try:
            _library.scan(number, front + " )" * _depth(front))
        except ScanError as found:
            if found.status == error.status and found.status != END_OF_ENTRY:
                return token.start()
        except HollywhistError:
            pass
    return end


def _place(first: int, text: str, pos: int) -> Place:
    before = text[:pos]
    return Place(first + before.count("\n"), pos - (before.rfind("\n") + 1) + 1)


def shown(entry: Entry) -> dict[str, object]:
    """An entry as JSON has it."""
    fields: dict[str, object] = {
        "line": entry.line,
        "owner": entry.owner,
        "ttl": entry.ttl,
        "class": entry.rclass,
        "type": entry.rtype,
        "data": str(entry.data),
        "wire": entry.data.to_wire().hex(),
    }
    if isinstance(entry.data, (Svcb, Https)):
        fields["priority"] = entry.data.priority
        fields["target"] = [token.group() for token in _tokens(str(entry.data), 0)][1]
        fields["params"] = [_param(param) for param in entry.data]
    return fields


def _param(param: Param) -> dict[str, object]:
    return {"key": param.key, "text": str(param), "value": param.value.hex()}
