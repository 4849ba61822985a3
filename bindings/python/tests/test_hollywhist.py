"""The package against values that were worked by hand from RFC 9460, RFC 1035 and RFC 4034."""

import doctest
import io
import json
import unittest
from contextlib import redirect_stdout
from pathlib import Path
from tempfile import NamedTemporaryFile

import hollywhist
from hollywhist import Https, Message, Name, Param, RecordData, Reply, Svcb, errors
from hollywhist.__main__ import main
from hollywhist.entries import Entry, Fault, Place, read, ttl_seconds

# Priority 1, the root as target, port 53.
DATA = bytes([0, 1, 0, 0, 3, 0, 2, 0, 53])
TEXT = "1 . port=53"

# A response to "x. HTTPS" with that data, its owner a pointer to the question, its time to live 60.
RESPONSE = (
    bytes.fromhex("1234 8180 0001 0001 0000 0000 0178 00 0041 0001 c00c 0041 0001 0000003c 0009") + DATA
)


class DataIsReadAndWritten(unittest.TestCase):
    def test_parts(self) -> None:
        https = Https.from_wire(DATA)
        self.assertEqual((https.priority, https.target, len(https)), (1, b"\0", 1))
        self.assertEqual(list(https), [Param(3, b"\x00\x35")])
        self.assertEqual(https[3], b"\x00\x35")
        self.assertIsNone(https.get(1))
        self.assertIn(3, https)
        self.assertEqual(str(https), TEXT)
        self.assertEqual(Https.from_text(TEXT).to_wire(), DATA)

    def test_compressed_target(self) -> None:
        svcb = Svcb.from_message(b"\x03www\x00\x00\x01\xc0\x00", 5, 4)
        self.assertEqual(svcb.to_wire(), b"\x00\x01\x03www\x00")
        self.assertEqual(str(svcb), "1 www. ")

    def test_parameters_are_added(self) -> None:
        https = Https.from_wire(DATA)
        result, replies = https.with_params([(1, b"\x02h2"), (3, b"\x00\x36")])
        self.assertEqual(str(result), "1 . alpn=h2 port=53")
        self.assertEqual(replies, [Reply.ACCEPTED, Reply.DUPLICATE_KEY])
        self.assertEqual(https.with_params([(1, b"\x02h2")], 6), (https, [Reply.OVER_LIMIT]))
        self.assertEqual(https.with_params([]), (https, []))
        with self.assertRaises(errors.OverLimit):
            https.with_params([], 5)

    def test_refusals(self) -> None:
        with self.assertRaises(errors.ShortInput):
            Https.from_wire(b"\0")
        with self.assertRaises(errors.FormError):
            hollywhist.text(1, bytes(5))
        with self.assertRaises(errors.PlaceError):
            hollywhist.text(1, bytes(4), 1, 2**64 - 1)
        with self.assertRaises(errors.PlaceError):
            hollywhist.text(1, bytes(4), 5)
        with self.assertRaisesRegex(errors.BadPort, "bad port"):
            Https.from_text("1 . port=x")
        with self.assertRaises(errors.UnknownType):
            hollywhist.scan(999, "x")
        for number in (-1, 2**64):
            with self.assertRaises(OverflowError):
                hollywhist.text(1, bytes(4), number, 4)
        with self.assertRaises(OverflowError):
            hollywhist.scan(65536, "x")

    def test_no_octet_is_lost(self) -> None:
        long_data = RecordData(999, bytes(3000))
        self.assertEqual(len(str(long_data)), len("\\# 3000 ") + 6000)
        self.assertEqual(RecordData.from_text(999, str(long_data)), long_data)
        with self.assertRaises(hollywhist.ScanError):
            hollywhist.scan(1, b"192.0.2.1\x00")

    def test_orders(self) -> None:
        low, high = Https.from_text("1 . port=53"), Https.from_text("2 .")
        self.assertLess(low, high)
        self.assertEqual(sorted([high, low]), [low, high])
        self.assertEqual(hollywhist.canonical_cmp(1, bytes([192, 0, 2, 200]), bytes([192, 0, 2, 1])), 1)
        self.assertEqual(hollywhist.canonical_cmp(1, bytes(4), bytes(4)), 0)

    def test_messages(self) -> None:
        message = Message(RESPONSE)
        self.assertEqual((message.id, message.flags, message.ancount), (0x1234, 0x8180, 1))
        (record,) = message.answers()
        self.assertEqual((record.owner, record.rtype, record.rclass, record.ttl), (b"\x01x\x00", 65, 1, 60))
        self.assertEqual((record.data, record.text()), (DATA, TEXT))
        self.assertEqual(record.https(), Https.from_wire(DATA))
        self.assertIsNone(record.svcb())
        with self.assertRaises(errors.ShortInput):
            Message(RESPONSE[:11])
        with self.assertRaises(errors.ShortInput):
            list(Message(RESPONSE[:30]).records())


class LinesAreChecked(unittest.TestCase):
    """The examples of the repository: keys and digests of BIND and ldns, and the zones of RFC 8976, appendix A."""

    EXAMPLES = Path(__file__).resolve().parents[3] / "examples"

    def test_examples(self) -> None:
        for check, folder in ((hollywhist.choose, "choose"), (hollywhist.check_cds, "cds")):
            for lines in self.EXAMPLES.glob(folder + "/*.txt"):
                self.assertEqual(check(lines.read_bytes()), lines.with_suffix(".out").read_text(), lines)
        for lines in self.EXAMPLES.glob("zones/*.lines"):
            self.assertEqual(hollywhist.check_zonemd(lines.read_text()), "match\n", lines)

    def test_refusals(self) -> None:
        for check in (hollywhist.choose, hollywhist.check_cds, hollywhist.check_zonemd):
            with self.assertRaises(hollywhist.BadLines):
                check("")


class NamesAndValuesAreRead(unittest.TestCase):
    def test_names(self) -> None:
        name = Name.from_text("a\\.b.c")
        self.assertEqual((str(name), name.to_wire()), ("a\\.b.c.", b"\x03a.b\x01c\x00"))
        self.assertEqual(Name.from_text("WWW", Name(b"\x07example\x00")), Name(b"\x03www\x07EXAMPLE\x00"))
        with self.assertRaises(errors.BadName):
            Name.from_text("a..b")
        with self.assertRaises(errors.ShortInput):
            Name(b"\x01a")

    def test_values(self) -> None:
        https = Https.from_text("1 . mandatory=port alpn=h2,h3 port=53 ipv4hint=192.0.2.1,192.0.2.2 ipv6hint=::1")
        self.assertEqual((https.mandatory, https.alpn, https.port), ([3], [b"h2", b"h3"], 53))
        self.assertEqual([str(address) for address in https.ipv4hint], ["192.0.2.1", "192.0.2.2"])
        self.assertEqual([str(address) for address in https.ipv6hint], ["::1"])
        self.assertEqual((Https.from_wire(DATA).alpn, Https.from_wire(DATA).ipv4hint), ([], []))
        self.assertIsNone(Https.from_text("1 .").port)

    def test_unread_types(self) -> None:
        with self.assertRaises(errors.UnreadType):
            hollywhist.text(15, b"\0\1\0")


class LinesAreRead(unittest.TestCase):
    def test_lines_of_dig(self) -> None:
        lines = [
            "; <<>> DiG 9.18 <<>> example.com HTTPS\n",
            "\n",
            "example.com.\t\t300\tIN\tHTTPS\t1 . alpn=\"h3,h2\" port=8443\n",
            "example.com. 300 IN NS ns.example.com.\n",
        ]
        (entry,) = read(lines)
        assert isinstance(entry, Entry)
        self.assertEqual((entry.line, entry.owner, entry.ttl, entry.rclass), (3, "example.com.", "300", "IN"))
        self.assertEqual(str(entry.data), "1 . alpn=h3,h2 port=8443")

    def test_lines_of_a_zone_file(self) -> None:
        lines = [
            "$TTL 3600\n",
            "a.example. IN 1h HTTPS 1 . ( alpn=h2 ; the protocols\n",
            "    port=8443 )\n",
            "    CLASS1 A 192.0.2.1\n",
        ]
        first, second = read(lines)
        assert isinstance(first, Entry) and isinstance(second, Entry)
        self.assertEqual((first.line, str(first.data)), (2, "1 . alpn=h2 port=8443"))
        self.assertEqual((second.line, second.owner, str(second.data)), (4, "a.example.", "192.0.2.1"))

    def test_names_are_completed(self) -> None:
        lines = [
            "$ORIGIN example.\n",
            "$TTL 1h30m\n",
            "@ HTTPS 1 svc port=53\n",
            "$ORIGIN sub\n",
            "a HTTPS 0 @\n",
            "a\\. 60 IPSECKEY 10 3 0 gateway\n",
        ]
        first, second, third = read(lines)
        assert isinstance(first, Entry) and isinstance(second, Entry) and isinstance(third, Entry)
        self.assertEqual((first.owner, str(first.data)), ("example.", "1 svc.example. port=53"))
        self.assertEqual((first.seconds, third.seconds), (5400, 60))
        self.assertEqual((second.owner, str(second.data)), ("a.sub.example.", "0 sub.example. "))
        self.assertEqual(third.owner, "a\\..sub.example.")
        self.assertEqual(third.data.to_wire(), b"\x0a\x03\x00\x07gateway\x03sub\x07example\x00")

    def test_times(self) -> None:
        self.assertEqual([ttl_seconds(text) for text in ("60", "1M", "1w1s")], [60, 60, 604801])
        with self.assertRaises(ValueError):
            ttl_seconds("1y")

    def test_places_of_faults(self) -> None:
        def place(*lines: str) -> Place:
            (fault,) = read(lines)
            assert isinstance(fault, Fault)
            return fault.place

        self.assertEqual(place("x. HTTPS 1 . port=x"), Place(1, 14))
        self.assertEqual(place("\n", "x. HTTPS 1 . (\n", "  alpn=h2\n", "  port=x )\n"), Place(4, 3))
        self.assertEqual(place("x. HTTPS 1 . port=1 port=2"), Place(1, 21))
        self.assertEqual(place("x. HTTPS 1"), Place(1, 11))
        self.assertEqual(place("x. A 192.0.2.1 y"), Place(1, 16))

    def test_command(self) -> None:
        with NamedTemporaryFile("w", suffix=".zone") as file:
            file.write("x. 60 IN HTTPS 1 . port=53\ny. A 192.0.2\n")
            file.flush()
            plain, as_json = io.StringIO(), io.StringIO()
            with redirect_stdout(plain):
                self.assertEqual(main([file.name]), 1)
            with redirect_stdout(as_json):
                self.assertEqual(main(["--json", file.name]), 1)
        self.assertEqual(
            plain.getvalue(),
            f"x. HTTPS priority 1 target .\n    port=53\n{file.name}:2:6: A of y.: bad address\n",
        )
        first, second = map(json.loads, as_json.getvalue().splitlines())
        self.assertEqual((first["priority"], first["target"], first["wire"]), (1, ".", DATA.hex()))
        self.assertEqual(first["params"], [{"key": 3, "text": "port=53", "value": "0035"}])
        self.assertEqual((second["line"], second["column"], second["fault"]), (2, 6, "bad address"))


def load_tests(loader: unittest.TestLoader, tests: unittest.TestSuite, pattern: str) -> unittest.TestSuite:
    tests.addTests(doctest.DocTestSuite(hollywhist))
    return tests


if __name__ == "__main__":
    unittest.main()
