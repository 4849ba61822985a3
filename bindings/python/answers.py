"""Answers lines `show TYPE OCTETS` and `scan TYPE OCTETS` from standard input, type numbers in decimal and octets in
hexadecimal: with the text, or with the octets in hexadecimal, or with `error: ` and the fault."""

import sys

import hollywhist


def answer(command: str, rtype: str, octets: str = "") -> str:
    given = bytes.fromhex(octets)
    try:
        if command == "show":
            return hollywhist.text(int(rtype), given)
        return hollywhist.scan(int(rtype), given).hex()
    except hollywhist.HollywhistError as error:
        return f"error: {error}"


for line in sys.stdin:
    print(answer(*line.split()))
