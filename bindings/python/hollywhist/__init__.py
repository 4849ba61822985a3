"""The data of SVCB, HTTPS and other DNS records, read, written and compared by proved code.

>>> https = Https.from_text("1 . alpn=h2,h3 port=8443")
>>> https.priority
1
>>> [str(param) for param in https]
['alpn=h2,h3', 'port=8443']
>>> Https.from_wire(https.to_wire()) == https
True
"""

from . import errors
from ._library import canonical_cmp, scan, text, version
from .checks import BadLines, check_cds, check_zonemd, choose
from .errors import HollywhistError, ScanError, WireError
from .messages import Message, Record
from .names import Name
from .records import TYPES, Https, Param, RecordData, Reply, ServiceData, Svcb

__all__ = [
    "TYPES",
    "BadLines",
    "HollywhistError",
    "Https",
    "Message",
    "Name",
    "Param",
    "Record",
    "RecordData",
    "Reply",
    "ScanError",
    "ServiceData",
    "Svcb",
    "WireError",
    "canonical_cmp",
    "check_cds",
    "check_zonemd",
    "choose",
    "errors",
    "scan",
    "text",
    "version",
]
