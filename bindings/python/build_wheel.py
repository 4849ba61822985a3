"""Builds the package's wheel with Python alone, for pip (PEP 517). It is plain Python, so there is nothing to compile."""

from __future__ import annotations

import base64
import hashlib
import zipfile
from pathlib import Path

NAME = "hollywhist"
VERSION = "0.2.0"
SUMMARY = "The data of SVCB, HTTPS and other DNS records, read, written and compared by proved code"
INFO = f"{NAME}-{VERSION}.dist-info"

METADATA = f"""Metadata-Version: 2.1
Name: {NAME}
Version: {VERSION}
Summary: {SUMMARY}
Requires-Python: >=3.9
"""

WHEEL = f"""Wheel-Version: 1.0
Generator: {NAME}
Root-Is-Purelib: true
Tag: py3-none-any
"""


def build_wheel(wheel_directory: str, config_settings: object = None, metadata_directory: str | None = None) -> str:
    """Writes the wheel, and answers its name."""
    package = Path(__file__).resolve().parent / NAME
    files = {f"{NAME}/{path.name}": path.read_bytes() for path in sorted(package.iterdir()) if path.is_file()}
    files[f"{INFO}/METADATA"] = METADATA.encode()
    files[f"{INFO}/WHEEL"] = WHEEL.encode()
    record = "".join(f"{name},{_digest(octets)},{len(octets)}\n" for name, octets in files.items())
    files[f"{INFO}/RECORD"] = (record + f"{INFO}/RECORD,,\n").encode()

    wheel = f"{NAME}-{VERSION}-py3-none-any.whl"
    with zipfile.ZipFile(Path(wheel_directory, wheel), "w", zipfile.ZIP_DEFLATED) as archive:
        for name, octets in files.items():
            archive.writestr(zipfile.ZipInfo(name, (2026, 1, 1, 0, 0, 0)), octets)
    return wheel


def build_sdist(sdist_directory: str, config_settings: object = None) -> str:
    """There is no archive of sources: the repository is."""
    raise NotImplementedError("hollywhist has no source distribution")


def _digest(octets: bytes) -> str:
    return "sha256=" + base64.urlsafe_b64encode(hashlib.sha256(octets).digest()).rstrip(b"=").decode()
