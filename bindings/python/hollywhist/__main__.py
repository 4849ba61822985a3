"""usage: python3 -m hollywhist [--json] [FILE..]

Reads lines of dig or of a zone file (owner, time to live, class, type, data) from the files, or from standard input,
and prints what each record of a type with fields holds, or its fault with line and column. --json prints an object a
line. The status is 0 where no record has a fault, and else 1.
"""

from __future__ import annotations

import json
import sys
from typing import Iterable

from .entries import Entry, Fault, read, shown
from .records import Https, Svcb


def main(arguments: list[str]) -> int:
    """Answers the command."""
    if "-h" in arguments or "--help" in arguments:
        print(__doc__, end="")
        return 0
    files = [argument for argument in arguments if argument != "--json"]
    if any(file.startswith("-") and file != "-" for file in files):
        print(__doc__, end="", file=sys.stderr)
        return 64
    as_json = "--json" in arguments
    statuses = [_answer(file, as_json) for file in files or ["-"]]
    return max(statuses)


def _answer(file: str, as_json: bool) -> int:
    if file == "-":
        sys.stdin.reconfigure(encoding="utf-8", errors="surrogateescape")  # type: ignore[union-attr]
        return _print_all("-", sys.stdin, as_json)
    try:
        with open(file, encoding="utf-8", errors="surrogateescape") as lines:
            return _print_all(file, lines, as_json)
    except OSError as error:
        print(f"{file}: {error.strerror}", file=sys.stderr)
        return 66


def _print_all(file: str, lines: Iterable[str], as_json: bool) -> int:
    status = 0
    for found in read(lines):
        if isinstance(found, Fault):
            status = 1
        if as_json:
            print(json.dumps(_fault(file, found) if isinstance(found, Fault) else {"file": file, **shown(found)}))
        elif isinstance(found, Fault):
            print(f"{file}:{found.place.line}:{found.place.column}: {found.rtype} of {found.owner}: {found.error}")
        else:
            _print_entry(found)
    return status


def _fault(file: str, found: Fault) -> dict[str, object]:
    return {
        "file": file,
        "line": found.place.line,
        "column": found.place.column,
        "owner": found.owner,
        "type": found.rtype,
        "fault": str(found.error),
    }


def _print_entry(entry: Entry) -> None:
    if not isinstance(entry.data, (Svcb, Https)):
        print(f"{entry.owner} {entry.rtype} {entry.data}")
        return
    fields = shown(entry)
    print(f"{entry.owner} {entry.rtype} priority {fields['priority']} target {fields['target']}")
    for param in entry.data:
        print(f"    {param}")


if __name__ == "__main__":
    sys.exit(main(sys.argv[1:]))
