"""Statuses, and the exceptions that tell of them."""

from __future__ import annotations

# The statuses by their names in hollywhist.h.
NAMES = {
    "HW_OK": 0,
    "HW_E_PLACE": 1,
    "HW_E_SHORT": 2,
    "HW_E_FORM": 3,
    "HW_E_ROOM": 4,
    "HW_E_LIMIT": 5,
    "HW_E_TOO_LONG": 6,
    "HW_E_ARGUMENT": 7,
    "HW_E_MEMORY": 8,
    "HW_END": 9,
    "HW_E_TYPE": 10,
    "HW_S_END_OF_ENTRY": 64,
    "HW_S_BAD_SYMBOL": 65,
    "HW_S_BAD_ESCAPE": 66,
    "HW_S_OPEN_QUOTE": 67,
    "HW_S_BAD_BRACKET": 68,
    "HW_S_BAD_NUMBER": 69,
    "HW_S_BAD_NAME": 70,
    "HW_S_BAD_ADDRESS": 71,
    "HW_S_BAD_BASE64": 72,
    "HW_S_BAD_BASE16": 73,
    "HW_S_EMPTY_PARAM": 74,
    "HW_S_BAD_KEY_CHAR": 75,
    "HW_S_UNKNOWN_KEY": 76,
    "HW_S_MISSING_VALUE": 77,
    "HW_S_UNEXPECTED_VALUE": 78,
    "HW_S_BAD_LIST_ESCAPE": 79,
    "HW_S_EMPTY_ITEM": 80,
    "HW_S_LONG_ITEM": 81,
    "HW_S_BAD_PORT": 82,
    "HW_S_KEY_ZERO_IN_MANDATORY": 83,
    "HW_S_DUPLICATE_ITEM": 84,
    "HW_S_DUPLICATE_KEY": 85,
    "HW_S_MANDATORY_MISSING": 86,
    "HW_S_BAD_UTF8": 87,
    "HW_S_LONG_VALUE": 88,
    "HW_S_LONG_RECORD": 89,
    "HW_S_WRONG_GATEWAY": 90,
    "HW_S_UNKNOWN_GATEWAY": 91,
    "HW_S_MISSING_KEY": 92,
    "HW_S_UNKNOWN_TYPE": 93,
    "HW_S_TRAILING_TOKENS": 94,
}


class HollywhistError(ValueError):
    """A call was refused. `status` is the library's number, and the message says what it means."""

    status = -1
    meaning = "unknown status"

    def __init__(self, message: str | None = None) -> None:
        super().__init__(self.meaning if message is None else message)


class WireError(HollywhistError):
    """Octets were refused."""


class ScanError(HollywhistError):
    """A text was refused, for its first fault."""


class PlaceError(WireError):
    """The place is not within the message."""

    status = 1
    meaning = "place outside the message"


class ShortInput(WireError):
    """Octets are missing."""

    status = 2
    meaning = "short input"


class FormError(WireError):
    """An octet, a length, a pointer or two keys are not allowed, or octets are left behind the data."""

    status = 3
    meaning = "form error"


class OverLimit(HollywhistError):
    """The parameters that were read exceed the limit."""

    status = 5
    meaning = "parameters over the limit"


class TooLong(HollywhistError):
    """The result would exceed 65,535 octets."""

    status = 6
    meaning = "long record data"


class BadArgument(HollywhistError):
    """An argument is out of its bounds."""

    status = 7
    meaning = "bad argument"


class WantOfMemory(HollywhistError):
    """Memory is wanting."""

    status = 8
    meaning = "want of memory"


class UnreadType(HollywhistError):
    """The type's data has names, which the library doesn't read yet."""

    status = 10
    meaning = "type with names that are not read"


class EndOfEntry(ScanError):
    """A token was asked for, and none was left."""

    status = 64
    meaning = "end of entry"


class BadSymbol(ScanError):
    """An octet that no text may have at its place."""

    status = 65
    meaning = "bad symbol"


class BadEscape(ScanError):
    """A backslash with no escape behind it."""

    status = 66
    meaning = "bad escape"


class OpenQuote(ScanError):
    """The text ends within quotes."""

    status = 67
    meaning = "open quote"


class BadBracket(ScanError):
    """A closing bracket with no opening one, or the text ends within brackets."""

    status = 68
    meaning = "bad bracket"


class BadNumber(ScanError):
    """The token is no number text in range, or a count isn't that of the octets behind it."""

    status = 69
    meaning = "bad number"


class BadName(ScanError):
    """The token is no name text."""

    status = 70
    meaning = "bad name"


class BadAddress(ScanError):
    """The token is no address text."""

    status = 71
    meaning = "bad address"


class BadBase64(ScanError):
    """The tokens joined are no base64 text."""

    status = 72
    meaning = "bad base64"


class BadBase16(ScanError):
    """The tokens joined are no base16 text."""

    status = 73
    meaning = "bad base16"


class EmptyParam(ScanError):
    """A parameter's token has no octets."""

    status = 74
    meaning = "empty parameter"


class BadKeyChar(ScanError):
    """An octet that no key of a parameter may have."""

    status = 75
    meaning = "bad key character"


class UnknownKey(ScanError):
    """A text that names no key."""

    status = 76
    meaning = "unknown key"


class MissingValue(ScanError):
    """A parameter without the value that its key asks for."""

    status = 77
    meaning = "missing value"


class UnexpectedValue(ScanError):
    """A parameter with a value that its key doesn't take."""

    status = 78
    meaning = "unexpected value"


class BadListEscape(ScanError):
    """A backslash in a list where it may not stand."""

    status = 79
    meaning = "escape in list"


class EmptyItem(ScanError):
    """An item of a list without octets."""

    status = 80
    meaning = "empty item"


class LongItem(ScanError):
    """An item of a list with more octets than it may have."""

    status = 81
    meaning = "long item"


class BadPort(ScanError):
    """A value that is no port."""

    status = 82
    meaning = "bad port"


class KeyZeroInMandatory(ScanError):
    """The key `mandatory` in its own list."""

    status = 83
    meaning = "mandatory in mandatory"


class DuplicateItem(ScanError):
    """An item that stands twice in a list."""

    status = 84
    meaning = "duplicate item"


class DuplicateKey(ScanError):
    """A key that two parameters have."""

    status = 85
    meaning = "duplicate key"


class MandatoryMissing(ScanError):
    """A key that is mandatory and that no parameter has."""

    status = 86
    meaning = "mandatory key missing"


class BadUtf8(ScanError):
    """A value that is no UTF-8."""

    status = 87
    meaning = "bad utf-8"


class LongValue(ScanError):
    """A value of more than 65,535 octets."""

    status = 88
    meaning = "long value"


class LongRecord(ScanError):
    """Record data of more than 65,535 octets."""

    status = 89
    meaning = "long record data"


class WrongGateway(ScanError):
    """A gateway that isn't of the type that was given."""

    status = 90
    meaning = "wrong gateway"


class UnknownGateway(ScanError):
    """A type of gateways that is not known."""

    status = 91
    meaning = "unknown gateway type"


class MissingKey(ScanError):
    """A key that must be there is missing."""

    status = 92
    meaning = "missing key"


class UnknownType(ScanError):
    """A record type whose data has no text of its own."""

    status = 93
    meaning = "unknown type"


class TrailingTokens(ScanError):
    """Something is left behind the entry, or a token behind the data."""

    status = 94
    meaning = "trailing tokens"


_ERRORS: dict[int, type[HollywhistError]] = {
    error.status: error
    for error in (
        PlaceError,
        ShortInput,
        FormError,
        OverLimit,
        TooLong,
        BadArgument,
        WantOfMemory,
        UnreadType,
        EndOfEntry,
        BadSymbol,
        BadEscape,
        OpenQuote,
        BadBracket,
        BadNumber,
        BadName,
        BadAddress,
        BadBase64,
        BadBase16,
        EmptyParam,
        BadKeyChar,
        UnknownKey,
        MissingValue,
        UnexpectedValue,
        BadListEscape,
        EmptyItem,
        LongItem,
        BadPort,
        KeyZeroInMandatory,
        DuplicateItem,
        DuplicateKey,
        MandatoryMissing,
        BadUtf8,
        LongValue,
        LongRecord,
        WrongGateway,
        UnknownGateway,
        MissingKey,
        UnknownType,
        TrailingTokens,
    )
}


def check(status: int) -> None:
    """Raises what a status tells, unless it is HW_OK."""
    if status != 0:
        raise _ERRORS[status]() if status in _ERRORS else HollywhistError(f"status {status}")
