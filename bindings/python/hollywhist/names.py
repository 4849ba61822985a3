"""Names, as octets and as text."""

from __future__ import annotations

from . import _library


class Name:
    """A name in uncompressed wire form. Names are equal where their octets are, ASCII case ignored (RFC 4343)."""

    def __init__(self, octets: bytes) -> None:
        self._text = _library.name_text(octets)
        self._octets = octets

    @classmethod
    def from_text(cls, text: str, origin: Name | None = None) -> Name:
        """The name that a text spells. One without a final dot is completed by an origin, and `@` is the origin."""
        if origin is not None:
            text = completed(text, str(origin))
        return cls(_library.name_scan(text))

    def to_wire(self) -> bytes:
        """The octets: each label behind its length, and the root's octet 0."""
        return self._octets

    def __str__(self) -> str:
        """The text with its final dot."""
        return self._text

    def __repr__(self) -> str:
        return f"Name.from_text({self._text!r})"

    def __eq__(self, other: object) -> bool:
        if not isinstance(other, Name):
            return NotImplemented
        return self._octets.lower() == other._octets.lower()

    def __hash__(self) -> int:
        return hash(self._octets.lower())


def is_absolute(text: str) -> bool:
    """Whether the text of a name ends with a dot that isn't escaped."""
    front = text[:-1]
    escapes = len(front) - len(front.rstrip("\\"))
    return text.endswith(".") and escapes % 2 == 0


def completed(text: str, origin: str) -> str:
    """The absolute text of a name in a zone with an origin (RFC 1035, section 5.1)."""
    if text == "@":
        return origin
    if is_absolute(text):
        return text
    return text + origin if origin == "." else f"{text}.{origin}"
