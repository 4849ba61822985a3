"""The calls of the C library, by ctypes. It is the file that HOLLYWHIST_SO names, or the one that the system has."""

from __future__ import annotations

import ctypes
import os
from ctypes import POINTER, byref, c_char_p, c_size_t, c_uint8, c_uint16, c_uint32, c_void_p
from typing import Callable, TypeVar

from .errors import NAMES, check

Found = TypeVar("Found", int, bytes)

HW_OK = NAMES["HW_OK"]
HW_E_ROOM = NAMES["HW_E_ROOM"]
HW_END = NAMES["HW_END"]

# The most octets of a name in wire form.
MAX_NAME = 255

# The room of a first call. Nearly all that is asked for fits, and the rest is told how much it needs.
FIRST_ROOM = 512


class Message(ctypes.Structure):
    """The header of a message, and where its records begin."""

    _fields_ = [
        ("id", c_uint16),
        ("flags", c_uint16),
        ("qdcount", c_uint16),
        ("ancount", c_uint16),
        ("nscount", c_uint16),
        ("arcount", c_uint16),
        ("records_start", c_size_t),
    ]


class Record(ctypes.Structure):
    """A record in a message."""

    _fields_ = [
        ("rtype", c_uint16),
        ("rclass", c_uint16),
        ("ttl", c_uint32),
        ("owner_len", c_size_t),
        ("data_start", c_size_t),
        ("data_len", c_size_t),
        ("next", c_size_t),
    ]


class SvcbRecord(ctypes.Structure):
    """What was read of the data of an SVCB or HTTPS record."""

    _fields_ = [
        ("priority", c_uint16),
        ("target_len", c_uint16),
        ("params_count", c_uint32),
        ("params_start", c_size_t),
    ]


class SvcbParam(ctypes.Structure):
    """A parameter, or one that is to be added."""

    _fields_ = [("key", c_uint16), ("len", c_uint16), ("start", c_size_t)]


class Item(ctypes.Structure):
    """An item in the value of a parameter."""

    _fields_ = [("start", c_size_t), ("len", c_size_t)]


def _load() -> ctypes.CDLL:
    """The library. `ImportError`: it can't be loaded."""
    name = os.environ.get("HOLLYWHIST_SO", "libhollywhist.so.1")
    try:
        return ctypes.CDLL(name)
    except OSError as error:
        raise ImportError(f"{error}: set HOLLYWHIST_SO to the file libhollywhist.so.1") from error


_library = _load()

# The octets of a `bytes` are passed as they stand, and are never NULL.
_OCTETS = [c_char_p, c_size_t]
_TARGET = [c_void_p, c_size_t]


def _call(name: str, *arguments: object) -> Callable[..., int]:
    call = getattr(_library, name)
    call.argtypes = [kind for item in arguments for kind in (item if isinstance(item, list) else [item])]
    call.restype = c_uint32
    return call


_version = _call("hw_version")
_message_begin = _call("hw_message_begin", _OCTETS, POINTER(Message))
_message_next = _call("hw_message_next", _OCTETS, c_size_t, _TARGET, POINTER(Record))
_text = _call("hw_rr_text", c_uint16, _OCTETS, c_size_t, c_size_t, _TARGET, POINTER(c_size_t))
_scan = _call("hw_rr_scan", c_uint16, _OCTETS, _TARGET, POINTER(c_size_t))
_canonical_cmp = _call("hw_rr_canonical_cmp", c_uint16, _OCTETS, _OCTETS, POINTER(c_uint32))
_svcb_read = _call("hw_svcb_read", _OCTETS, c_size_t, c_size_t, _TARGET, POINTER(SvcbRecord))
_svcb_next = _call("hw_svcb_next", _OCTETS, c_size_t, c_size_t, POINTER(SvcbParam))
_svcb_rebuild = _call(
    "hw_svcb_rebuild",
    _OCTETS,
    c_size_t,
    c_size_t,
    [POINTER(SvcbParam), c_size_t],
    _OCTETS,
    c_size_t,
    _TARGET,
    _TARGET,
    POINTER(c_size_t),
)
_param_port = _call("hw_param_port", _OCTETS, POINTER(c_uint16))
_param_number_next = _call("hw_param_number_next", _OCTETS, c_size_t, POINTER(c_uint16))
_param_address_next = _call("hw_param_address_next", _OCTETS, c_size_t, c_size_t, POINTER(Item))
_param_alpn_next = _call("hw_param_alpn_next", _OCTETS, c_size_t, POINTER(Item))
_name_text = _call("hw_name_text", _OCTETS, _TARGET, POINTER(c_size_t))
_name_scan = _call("hw_name_scan", _OCTETS, _TARGET, POINTER(c_size_t))
_choose = _call("hw_svcb_choose", _OCTETS, _TARGET, POINTER(c_size_t), POINTER(c_uint32))
_cds_check = _call("hw_cds_check", _OCTETS, _TARGET, POINTER(c_size_t), POINTER(c_uint32))
_zonemd_check = _call("hw_zonemd_check", _OCTETS, _TARGET, POINTER(c_size_t), POINTER(c_uint32))


def _place(number: int) -> int:
    """A number that a place or a count may have; ctypes would drop its high bits without a word."""
    if not 0 <= number < 2**64:
        raise OverflowError("a place or a count is from 0 to 2**64 - 1")
    return number


def _number16(number: int) -> int:
    if not 0 <= number < 2**16:
        raise OverflowError("a type or a key is from 0 to 65535")
    return number


def _written(call: Callable[[ctypes.Array[ctypes.c_char], int, c_size_t], int]) -> bytes:
    """What a call writes, called again with the room that it needs where that was too short."""
    room = FIRST_ROOM
    while True:
        target = ctypes.create_string_buffer(room)
        written = c_size_t(0)
        status = call(target, room, written)
        if status != HW_E_ROOM:
            check(status)
            return target.raw[: written.value]
        room = written.value


def version() -> int:
    """The version: 10,000 times its first number, 100 times the second, and the third."""
    return _version()


def text(rtype: int, message: bytes, start: int = 0, length: int | None = None) -> str:
    """The text of the record data in `length` octets from `start` on in a message, under the number of a type."""
    count = max(len(message) - start, 0) if length is None else length
    octets = _written(
        lambda target, room, written: _text(
            _number16(rtype), message, len(message), _place(start), _place(count), target, room, byref(written)
        )
    )
    return octets.decode("ascii")


def scan(rtype: int, entry: str | bytes) -> bytes:
    """The octets of the record data that the text of one entry of a zone file spells, behind the type."""
    octets = entry.encode("utf-8", "surrogateescape") if isinstance(entry, str) else entry
    return _written(
        lambda target, room, written: _scan(_number16(rtype), octets, len(octets), target, room, byref(written))
    )


def canonical_cmp(rtype: int, first: bytes, second: bytes) -> int:
    """The canonical order (RFC 4034, section 6.3) of the data of two records of one type: -1, 0 or 1."""
    order = c_uint32(1)
    check(_canonical_cmp(_number16(rtype), first, len(first), second, len(second), byref(order)))
    return order.value - 1


def svcb_read(message: bytes, start: int, length: int) -> tuple[SvcbRecord, bytes]:
    """What is read of the data of an SVCB or HTTPS record, and its target uncompressed."""
    record = SvcbRecord()
    target = ctypes.create_string_buffer(MAX_NAME)
    check(_svcb_read(message, len(message), _place(start), _place(length), target, MAX_NAME, byref(record)))
    return record, target.raw[: record.target_len]


def svcb_next(message: bytes, end: int, pos: int) -> SvcbParam | None:
    """The parameter at a place, or None at the end of the data."""
    param = SvcbParam()
    status = _svcb_next(message, len(message), _place(end), _place(pos), byref(param))
    if status == HW_END:
        return None
    check(status)
    return param


def svcb_rebuild(data: bytes, pushes: list[tuple[int, bytes]], limit: int) -> tuple[bytes, list[int]]:
    """Data with parameters added, and the number of a reply to each push."""
    named = (SvcbParam * max(len(pushes), 1))()
    values = b""
    for place, (key, value) in enumerate(pushes):
        named[place] = SvcbParam(_number16(key), _number16(len(value)), len(values))
        values += value
    replies = (c_uint8 * max(len(pushes), 1))()
    octets = _written(
        lambda target, room, written: _svcb_rebuild(
            data,
            len(data),
            0,
            len(data),
            named,
            len(pushes),
            values,
            len(values),
            _place(limit),
            target,
            room,
            replies,
            len(pushes),
            byref(written),
        )
    )
    return octets, list(replies[: len(pushes)])


def param_port(value: bytes) -> int:
    """The port that the value of a `port` parameter is."""
    port = c_uint16(0)
    check(_param_port(value, len(value), byref(port)))
    return port.value


def param_numbers(value: bytes) -> list[int]:
    """The keys of a `mandatory` parameter, or the groups of a `tls-supported-groups` parameter."""
    number, pos, found = c_uint16(0), 0, []
    while (status := _param_number_next(value, len(value), pos, byref(number))) == HW_OK:
        found.append(number.value)
        pos += 2
    return _whole(status, found)


def param_addresses(value: bytes, length: int) -> list[bytes]:
    """The addresses, of 4 or 16 octets each, of an `ipv4hint` or `ipv6hint` parameter."""
    return _items(lambda pos, item: _param_address_next(value, len(value), _place(length), pos, item), value)


def param_alpn(value: bytes) -> list[bytes]:
    """The protocols of an `alpn` parameter."""
    return _items(lambda pos, item: _param_alpn_next(value, len(value), pos, item), value)


def _items(call: Callable[..., int], value: bytes) -> list[bytes]:
    item, pos, found = Item(), 0, []
    while (status := call(pos, byref(item))) == HW_OK:
        pos = item.start + item.len
        found.append(value[item.start : pos])
    return _whole(status, found)


def _whole(status: int, found: list[Found]) -> list[Found]:
    """What was found, where it ends with the value."""
    if status != HW_END:
        check(status)
    return found


def name_text(octets: bytes) -> str:
    """The text of the name that octets wholly are, with its final dot."""
    written_text = _written(
        lambda target, room, written: _name_text(octets, len(octets), target, room, byref(written))
    )
    return written_text.decode("ascii")


def name_scan(name: str | bytes) -> bytes:
    """The octets of the name that a text spells, which is absolute."""
    octets = name.encode("utf-8", "surrogateescape") if isinstance(name, str) else name
    return _written(lambda target, room, written: _name_scan(octets, len(octets), target, room, byref(written)))


def message_begin(message: bytes) -> Message:
    """The header of a message, and where its records begin."""
    begun = Message()
    check(_message_begin(message, len(message), byref(begun)))
    return begun


def message_next(message: bytes, pos: int) -> tuple[Record, bytes]:
    """The record at a place in a message, and its owner uncompressed."""
    record = Record()
    owner = ctypes.create_string_buffer(MAX_NAME)
    check(_message_next(message, len(message), _place(pos), owner, MAX_NAME, byref(record)))
    return record, owner.raw[: record.owner_len]


def _answer(call: Callable[..., int], lines: str | bytes) -> tuple[int, str]:
    """How a check of lines ended, and its report."""
    octets = lines.encode("utf-8", "surrogateescape") if isinstance(lines, str) else lines
    outcome = c_uint32(0)
    report = _written(
        lambda target, room, written: call(octets, len(octets), target, room, byref(written), byref(outcome))
    )
    return outcome.value, report.decode("ascii")


def choose(lines: str | bytes) -> tuple[int, str]:
    """The endpoints that a client chooses."""
    return _answer(_choose, lines)


def cds_check(lines: str | bytes) -> tuple[int, str]:
    """Whether CDS and CDNSKEY records ask for the same keys."""
    return _answer(_cds_check, lines)


def zonemd_check(lines: str | bytes) -> tuple[int, str]:
    """Whether a zone has the digest of its ZONEMD record."""
    return _answer(_zonemd_check, lines)
