"""Checks of records that lines spell. `hollywhist.h` says what stands in the lines."""

from __future__ import annotations

from . import _library


class BadLines(ValueError):
    """A line has a fault of form, or the records are out of order; the message says which."""


def choose(lines: str | bytes) -> str:
    """The endpoints that a client chooses for an owner from its SVCB or HTTPS records (RFC 9460, sections 2.4 and 2.5),
    a line each."""
    return _report(*_library.choose(lines))


def check_cds(lines: str | bytes) -> str:
    """Whether the CDS and CDNSKEY records of an owner ask the parent zone for the same keys (RFC 7344, section 4)."""
    return _report(*_library.cds_check(lines))


def check_zonemd(lines: str | bytes) -> str:
    """Whether a zone has the digest of its ZONEMD record (RFC 8976, section 4)."""
    return _report(*_library.zonemd_check(lines))


def _report(outcome: int, report: str) -> str:
    if outcome != 0:
        raise BadLines(report.rstrip("\n"))
    return report
