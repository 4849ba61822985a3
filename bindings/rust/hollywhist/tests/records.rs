//! The crate against values that were worked by hand from RFC 9460, RFC 1035 and RFC 4034.

use hollywhist::{
    canonical_cmp, check_cds, check_zonemd, choose, scan, text, values, CheckError, Error, Https,
    Message, Name, Push, RecordData, Reply, ScanFault, Svcb,
};
use std::cmp::Ordering;

/// Priority 1, the root as target, port 53.
const DATA: &[u8] = &[0, 1, 0, 0, 3, 0, 2, 0, 53];
const TEXT: &str = "1 . port=53";

/// A response to "x. HTTPS" with that data, its owner a pointer to the question, its time to live 60.
const RESPONSE: &[u8] = &[
    0x12, 0x34, 0x81, 0x80, 0, 1, 0, 1, 0, 0, 0, 0, 1, b'x', 0, 0, 65, 0, 1, 0xc0, 12, 0, 65, 0, 1,
    0, 0, 0, 60, 0, 9, 0, 1, 0, 0, 3, 0, 2, 0, 53,
];

#[test]
fn data_is_read_printed_and_scanned() {
    let https = Https::from_wire(DATA).unwrap();
    assert_eq!(https.priority(), 1);
    assert_eq!(https.target(), [0]);
    let params: Vec<_> = https
        .params()
        .map(|param| (param.key, param.value))
        .collect();
    assert_eq!(params, [(3, [0, 53].as_slice())]);
    assert_eq!(https.value(3), Some([0, 53].as_slice()));
    assert_eq!(https.value(1), None);
    assert_eq!(https.to_string(), TEXT);
    assert_eq!(TEXT.parse::<Https>().unwrap().as_octets(), DATA);
}

#[test]
fn a_compressed_target_is_followed() {
    let message = [3, b'w', b'w', b'w', 0, 0, 1, 0xc0, 0];
    let svcb = Svcb::from_message(&message, 5, 4).unwrap();
    assert_eq!(svcb.as_octets(), b"\x00\x01\x03www\x00");
    assert_eq!(svcb.to_string(), "1 www. ");
}

#[test]
fn parameters_are_added() {
    let https = Https::from_wire(DATA).unwrap();
    let alpn = Push {
        key: 1,
        value: b"\x02h2",
    };
    let port = Push {
        key: 3,
        value: &[0, 54],
    };
    let (with, replies) = https.with_params(&[alpn, port]).unwrap();
    assert_eq!(with.to_string(), "1 . alpn=h2 port=53");
    assert_eq!(replies, [Reply::Accepted, Reply::DuplicateKey]);
    let (within, replies) = https.with_params_within(&[alpn], 6).unwrap();
    assert_eq!((within, replies), (https.clone(), vec![Reply::OverLimit]));
    assert_eq!(https.with_params_within(&[], 5), Err(Error::Limit));
    assert_eq!(https.with_params(&[]).unwrap(), (https, vec![]));
}

#[test]
fn refusals_have_their_errors() {
    assert_eq!(Https::from_wire(&[0]), Err(Error::Short));
    assert_eq!(text(1, &[1, 2, 3, 4, 5], 0, 5), Err(Error::Form));
    assert_eq!(text(1, &[1, 2, 3, 4], 1, usize::MAX), Err(Error::Place));
    assert_eq!(
        "1 . port=x".parse::<Https>(),
        Err(Error::Scan(ScanFault::BadPort))
    );
    assert_eq!(Error::Scan(ScanFault::BadPort).to_string(), "bad port");
    assert_eq!(scan(999, "x"), Err(Error::Scan(ScanFault::UnknownType)));
}

#[test]
fn long_texts_get_their_room() {
    let data = RecordData::from_wire(999, &[0; 3000]).unwrap();
    assert_eq!(data.as_str().len(), "\\# 3000 ".len() + 6000);
    assert_eq!(RecordData::from_text(999, data.as_str()).unwrap(), data);
}

#[test]
fn orders_are_canonical() {
    assert_eq!(
        canonical_cmp(1, &[192, 0, 2, 1], &[192, 0, 2, 200]),
        Ok(Ordering::Less)
    );
    let low: Https = "1 . port=53".parse().unwrap();
    let high: Https = "2 .".parse().unwrap();
    assert_eq!(low.cmp(&high), Ordering::Less);
    assert_eq!(low.canonical_cmp(&high), Ok(Ordering::Less));
    assert_eq!(high.canonical_cmp(&low), Ok(Ordering::Greater));
    assert_eq!(low.canonical_cmp(&low), Ok(Ordering::Equal));
}

#[test]
fn messages_give_their_records() {
    let message = Message::from_octets(RESPONSE).unwrap();
    assert_eq!(message.header().id, 0x1234);
    let records: Vec<_> = message.answers().collect::<Result<_, _>>().unwrap();
    assert_eq!(records.len(), 1);
    let record = &records[0];
    assert_eq!(record.owner(), b"\x01x\x00");
    assert_eq!((record.rtype(), record.class(), record.ttl()), (65, 1, 60));
    assert_eq!(record.data(), DATA);
    assert_eq!(record.text().unwrap(), TEXT);
    assert_eq!(
        record.service::<65>().unwrap().unwrap(),
        Https::from_wire(DATA).unwrap()
    );
    assert!(record.service::<64>().is_none());
    assert_eq!(
        Message::from_octets(&RESPONSE[..11]).err(),
        Some(Error::Short)
    );
    let cut = Message::from_octets(&RESPONSE[..30]).unwrap();
    assert!(matches!(
        cut.records().collect::<Vec<_>>().as_slice(),
        [Err(Error::Short)]
    ));
}

/// RFC 9460, section 7: a port, protocols behind their lengths, addresses, keys.
#[test]
fn values_are_read_by_their_types() {
    assert_eq!(values::port(b"\x00\x35"), Ok(53));
    assert_eq!(values::port(b"\x00"), Err(Error::Short));
    assert_eq!(values::port(b"\x00\x35\x00"), Err(Error::Form));
    let protocols: Vec<&[u8]> = vec![b"h2", b"h3"];
    assert_eq!(values::alpn(b"\x02h2\x02h3"), Ok(protocols));
    assert_eq!(values::alpn(b"\x02h"), Err(Error::Short));
    assert_eq!(values::numbers(b"\x00\x01\x00\x04"), Ok(vec![1, 4]));
    assert_eq!(
        values::addresses::<4>(&[192, 0, 2, 1]),
        Ok(vec![[192, 0, 2, 1]])
    );
    assert_eq!(values::addresses::<16>(&[192, 0, 2, 1]), Err(Error::Form));
}

/// RFC 1035, section 5.1: a dot within a label is escaped. RFC 4343: case doesn't matter.
#[test]
fn names_are_texts_and_octets() {
    let name: Name = "a\\.b.c".parse().unwrap();
    assert_eq!(name.as_octets(), b"\x03a.b\x01c\x00");
    assert_eq!(name.to_string(), "a\\.b.c.");
    assert_eq!(name, Name::from_wire(b"\x03A.B\x01C\x00").unwrap());
    assert_eq!("a..b".parse::<Name>(), Err(Error::Scan(ScanFault::BadName)));
    assert_eq!(Name::from_wire(b"\x01a"), Err(Error::Short));
}

/// Names of MX are compressed, and compared in lower case.
#[test]
fn types_with_names_are_refused() {
    assert_eq!(text(15, b"\x00\x01\x00", 0, 3), Err(Error::Type));
}

/// The examples of the repository: keys and digests of BIND and ldns, and the zone of RFC 8976, appendix A.1.
#[test]
fn lines_are_checked() {
    let agree = include_bytes!("../../../../examples/cds/ldns-key2ds.txt");
    assert_eq!(check_cds(agree).as_deref(), Ok("agree\n"));
    let zone = include_bytes!("../../../../examples/zones/simple.lines");
    assert_eq!(check_zonemd(zone).as_deref(), Ok("match\n"));
    let chosen = choose(include_bytes!(
        "../../../../examples/choose/three-records.txt"
    ));
    assert_eq!(
        chosen.as_deref(),
        Ok("endpoint 1 example.com. 8443 h2,http/1.1\nendpoint 3 bar. - http/1.1\n")
    );
    assert!(matches!(
        choose(b"example.com.\nport\n-\n0001\n"),
        Err(CheckError::BadLines(_))
    ));
}
