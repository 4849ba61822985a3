"""Record data: of SVCB and HTTPS by its parts, and of any other type as octets and text."""

from __future__ import annotations

import enum
import functools
import ipaddress
from typing import ClassVar, Iterator, NamedTuple, TypeVar

from . import _library

# The largest limit on the octets of parameters.
MAX_LIMIT = 2**31 - 1

# The numbers of the types whose data has fields.
TYPES = {
    "A": 1,
    "AAAA": 28,
    "SSHFP": 44,
    "IPSECKEY": 45,
    "TLSA": 52,
    "CDS": 59,
    "CDNSKEY": 60,
    "OPENPGPKEY": 61,
    "ZONEMD": 63,
    "SVCB": 64,
    "HTTPS": 65,
}

Service = TypeVar("Service", bound="ServiceData")


class Param(NamedTuple):
    """A parameter: its key, and the octets of its value."""

    key: int
    value: bytes

    def __str__(self) -> str:
        """Its text, as a zone file has it."""
        alone = b"\x00\x01\x00" + self.key.to_bytes(2, "big") + len(self.value).to_bytes(2, "big") + self.value
        return _library.text(TYPES["SVCB"], alone).removeprefix("1 . ")


class Reply(enum.Enum):
    """The reply to a parameter that was to be added."""

    ACCEPTED = 0
    DUPLICATE_KEY = 1
    OVER_LIMIT = 2


@functools.total_ordering
class RecordData:
    """The data of a record of any type, in octets by themselves. Its order is the canonical one, by type and octets."""

    def __init__(self, rtype: int, octets: bytes) -> None:
        self._text = _library.text(rtype, octets)
        self._rtype = rtype
        self._octets = octets

    @classmethod
    def from_text(cls, rtype: int, text: str) -> RecordData:
        """The data that the text of one entry of a zone file spells, behind the type."""
        return cls(rtype, _library.scan(rtype, text))

    @property
    def rtype(self) -> int:
        """The number of the type."""
        return self._rtype

    def to_wire(self) -> bytes:
        """The octets."""
        return self._octets

    def __str__(self) -> str:
        return self._text

    def __repr__(self) -> str:
        return f"RecordData({self._rtype}, {self._octets!r})"

    def __eq__(self, other: object) -> bool:
        if not isinstance(other, RecordData):
            return NotImplemented
        return (self._rtype, self._octets) == (other._rtype, other._octets)

    def __lt__(self, other: RecordData) -> bool:
        if self._rtype != other._rtype:
            return self._rtype < other._rtype
        return _library.canonical_cmp(self._rtype, self._octets, other._octets) < 0

    def __hash__(self) -> int:
        return hash((self._rtype, self._octets))


@functools.total_ordering
class ServiceData:
    """The data of an SVCB or HTTPS record (RFC 9460): a priority, a target, and parameters by ascending keys."""

    RTYPE: ClassVar[int]

    def __init__(self, message: bytes, start: int, length: int) -> None:
        record, target = _library.svcb_read(message, start, length)
        params = message[record.params_start : start + length]
        self._octets = record.priority.to_bytes(2, "big") + target + params
        self._priority = record.priority
        self._target = target
        self._values = dict(_params(self._octets, 2 + len(target)))

    @classmethod
    def from_wire(cls: type[Service], octets: bytes) -> Service:
        """The data that octets are."""
        return cls(octets, 0, len(octets))

    @classmethod
    def from_message(cls: type[Service], message: bytes, start: int, length: int) -> Service:
        """The data in `length` octets from `start` on in a message. Its target may be compressed."""
        return cls(message, start, length)

    @classmethod
    def from_text(cls: type[Service], text: str) -> Service:
        """The data that the text of one entry of a zone file spells, behind the type."""
        return cls.from_wire(_library.scan(cls.RTYPE, text))

    @property
    def priority(self) -> int:
        """The priority; 0 is alias mode."""
        return self._priority

    @property
    def target(self) -> bytes:
        """The target in uncompressed wire form."""
        return self._target

    def __iter__(self) -> Iterator[Param]:
        """The parameters by ascending keys."""
        return (Param(key, value) for key, value in self._values.items())

    def __len__(self) -> int:
        return len(self._values)

    def __contains__(self, key: object) -> bool:
        return key in self._values

    def __getitem__(self, key: int) -> bytes:
        """The octets of the value under a key."""
        return self._values[key]

    def get(self, key: int) -> bytes | None:
        """The octets of the value under a key, where it is there."""
        return self._values.get(key)

    @property
    def mandatory(self) -> list[int]:
        """The keys that a client must understand."""
        return _library.param_numbers(self._values.get(0, b""))

    @property
    def alpn(self) -> list[bytes]:
        """The protocols that are listed."""
        return _library.param_alpn(self._values.get(1, b""))

    @property
    def port(self) -> int | None:
        """The port, where one is given."""
        return None if 3 not in self._values else _library.param_port(self._values[3])

    @property
    def ipv4hint(self) -> list[ipaddress.IPv4Address]:
        """The IPv4 addresses that are listed."""
        return [ipaddress.IPv4Address(octets) for octets in _library.param_addresses(self._values.get(4, b""), 4)]

    @property
    def ipv6hint(self) -> list[ipaddress.IPv6Address]:
        """The IPv6 addresses that are listed."""
        return [ipaddress.IPv6Address(octets) for octets in _library.param_addresses(self._values.get(6, b""), 16)]

    def with_params(
        self: Service, pushes: list[tuple[int, bytes]], limit: int = MAX_LIMIT
    ) -> tuple[Service, list[Reply]]:
        """The data with parameters added in order within a limit on the octets of all, and a reply to each."""
        octets, replies = _library.svcb_rebuild(self._octets, pushes, limit)
        return type(self).from_wire(octets), [Reply(reply) for reply in replies]

    def to_wire(self) -> bytes:
        """The octets, the target uncompressed."""
        return self._octets

    def __str__(self) -> str:
        return _library.text(self.RTYPE, self._octets)

    def __repr__(self) -> str:
        return f"{type(self).__name__}.from_text({str(self)!r})"

    def __eq__(self, other: object) -> bool:
        if type(other) is not type(self):
            return NotImplemented
        return self._octets == other._octets

    def __lt__(self: Service, other: Service) -> bool:
        if type(other) is not type(self):
            return NotImplemented
        return _library.canonical_cmp(self.RTYPE, self._octets, other._octets) < 0

    def __hash__(self) -> int:
        return hash((self.RTYPE, self._octets))


class Svcb(ServiceData):
    """The data of an SVCB record."""

    RTYPE = TYPES["SVCB"]


class Https(ServiceData):
    """The data of an HTTPS record."""

    RTYPE = TYPES["HTTPS"]


def _params(octets: bytes, pos: int) -> Iterator[tuple[int, bytes]]:
    while (param := _library.svcb_next(octets, len(octets), pos)) is not None:
        pos = param.start + param.len
        yield param.key, octets[param.start : pos]
