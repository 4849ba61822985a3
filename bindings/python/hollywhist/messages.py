"""From a message to its records."""

from __future__ import annotations

from typing import Iterator, TypeVar

from . import _library
from .records import Https, ServiceData, Svcb

Service = TypeVar("Service", bound=ServiceData)


class Record:
    """A record in a message."""

    def __init__(self, message: bytes, fields: _library.Record, owner: bytes) -> None:
        self._message = message
        self._start: int = fields.data_start
        self._len: int = fields.data_len
        self.owner = owner
        self.rtype: int = fields.rtype
        self.rclass: int = fields.rclass
        self.ttl: int = fields.ttl

    @property
    def data(self) -> bytes:
        """The octets of the data as they stand in the message, where names may be compressed."""
        return self._message[self._start : self._start + self._len]

    def text(self) -> str:
        """The text of the data."""
        return _library.text(self.rtype, self._message, self._start, self._len)

    def svcb(self) -> Svcb | None:
        """The data, where the record is of the type SVCB."""
        return self._service(Svcb)

    def https(self) -> Https | None:
        """The data, where the record is of the type HTTPS."""
        return self._service(Https)

    def _service(self, kind: type[Service]) -> Service | None:
        if self.rtype != kind.RTYPE:
            return None
        return kind.from_message(self._message, self._start, self._len)


class Message:
    """A message whose header and questions were read."""

    def __init__(self, octets: bytes) -> None:
        begun = _library.message_begin(octets)
        self._octets = octets
        self._start: int = begun.records_start
        self.id: int = begun.id
        self.flags: int = begun.flags
        self.qdcount: int = begun.qdcount
        self.ancount: int = begun.ancount
        self.nscount: int = begun.nscount
        self.arcount: int = begun.arcount

    def answers(self) -> Iterator[Record]:
        """The answer records, in order."""
        return self._records(self.ancount)

    def records(self) -> Iterator[Record]:
        """The records of all three sections, in order."""
        return self._records(self.ancount + self.nscount + self.arcount)

    def _records(self, count: int) -> Iterator[Record]:
        pos = self._start
        for _ in range(count):
            fields, owner = _library.message_next(self._octets, pos)
            pos = fields.next
            yield Record(self._octets, fields, owner)
