//! What svcbedit does with the benchmark's inputs, as one writes it in Rust without proofs: the measure of `bench/run`.

use std::collections::BTreeMap;
use std::fmt::Write as _;
use std::io::{Read, Write as _};
use std::net::{Ipv4Addr, Ipv6Addr};

type Reply<T> = Result<T, &'static str>;

const KEYS: [&str; 10] = [
    "mandatory", "alpn", "no-default-alpn", "port", "ipv4hint", "ech", "ipv6hint", "dohpath", "ohttp",
    "tls-supported-groups",
];

// ---- hexadecimal and base64

fn nibble(c: u8) -> Option<u8> {
    (c as char).to_digit(16).map(|d| d as u8)
}

fn from_hex(text: &[u8]) -> Reply<Vec<u8>> {
    if text.len() % 2 != 0 {
        return Err("odd");
    }
    text.chunks_exact(2)
        .map(|pair| Some(nibble(pair[0])? << 4 | nibble(pair[1])?))
        .collect::<Option<_>>()
        .ok_or("digit")
}

fn put_hex(out: &mut String, octets: &[u8], digits: &[u8; 16]) {
    out.reserve(2 * octets.len());
    for octet in octets {
        out.push(digits[usize::from(octet >> 4)] as char);
        out.push(digits[usize::from(octet & 15)] as char);
    }
}

const LETTERS: &[u8; 64] = b"ABCDEFGHIJKLMNOPQRSTUVWXYZabcdefghijklmnopqrstuvwxyz0123456789+/";

fn from_base64(text: &[u8]) -> Reply<Vec<u8>> {
    let digits = text.iter().rposition(|c| *c != b'=').map_or(0, |i| i + 1);
    let mut values = [255; 256];
    for (value, letter) in LETTERS.iter().enumerate() {
        values[usize::from(*letter)] = value as u32;
    }
    let mut out = Vec::with_capacity(text.len() / 4 * 3);
    for chunk in text[..digits].chunks(4) {
        let mut word = 0;
        for c in chunk {
            let value = values[usize::from(*c)];
            if value == 255 {
                return Err("letter");
            }
            word = word << 6 | value;
        }
        word <<= 6 * (4 - chunk.len());
        out.extend_from_slice(&word.to_be_bytes()[1..chunk.len()]);
    }
    Ok(out)
}

// ---- the text of an entry

fn escape(text: &[u8], at: usize) -> Reply<(u8, usize)> {
    match text.get(at + 1..at + 4) {
        Some(d) if d.iter().all(u8::is_ascii_digit) => {
            let n = d.iter().fold(0u32, |n, c| n * 10 + u32::from(c - b'0'));
            Ok((u8::try_from(n).map_err(|_| "escape")?, 4))
        }
        _ => Ok((*text.get(at + 1).ok_or("escape")?, 2)),
    }
}

/// The tokens, each octet with whether it is escaped.
fn tokens(text: &[u8]) -> Reply<Vec<Vec<(u8, bool)>>> {
    let mut tokens = Vec::new();
    let mut token: Option<Vec<(u8, bool)>> = None;
    let (mut at, mut depth, mut quoted) = (0, 0usize, false);
    while at < text.len() {
        let mut len = 1;
        match text[at] {
            b'"' => {
                quoted = !quoted;
                token.get_or_insert_with(Vec::new);
            }
            b'\\' => {
                let (octet, taken) = escape(text, at)?;
                token.get_or_insert_with(Vec::new).push((octet, true));
                len = taken;
            }
            c if quoted => token.get_or_insert_with(Vec::new).push((c, false)),
            c @ (b' ' | b'\t' | b'\r' | b'\n' | b'(' | b')' | b';') => {
                tokens.extend(token.take());
                match c {
                    b'(' => depth += 1,
                    b')' => depth = depth.checked_sub(1).ok_or("bracket")?,
                    b';' => len = text[at..].iter().position(|c| *c == b'\n').unwrap_or(text.len() - at),
                    _ => {}
                }
            }
            c => token.get_or_insert_with(Vec::new).push((c, false)),
        }
        at += len;
    }
    tokens.extend(token);
    if quoted || depth != 0 { Err("open") } else { Ok(tokens) }
}

fn octets(token: &[(u8, bool)]) -> Vec<u8> {
    token.iter().map(|symbol| symbol.0).collect()
}

fn number<T: std::str::FromStr>(token: &[(u8, bool)]) -> Reply<T> {
    let octets = octets(token);
    std::str::from_utf8(&octets).ok().and_then(|text| text.parse().ok()).ok_or("number")
}

fn name(token: &[(u8, bool)]) -> Reply<Vec<u8>> {
    let mut wire = Vec::new();
    for label in token.split(|symbol| *symbol == (b'.', false)).filter(|label| !label.is_empty()) {
        wire.push(u8::try_from(label.len()).map_err(|_| "label")?);
        wire.extend(label.iter().map(|symbol| symbol.0));
    }
    wire.push(0);
    Ok(wire)
}

fn rest(tokens: &[Vec<(u8, bool)>]) -> Vec<u8> {
    tokens.iter().flatten().map(|symbol| symbol.0).collect()
}

// ---- parameters

fn key(text: &[u8]) -> Reply<u16> {
    if let Some(key) = KEYS.iter().position(|name| name.as_bytes().eq_ignore_ascii_case(text)) {
        return Ok(key as u16);
    }
    let digits = text.strip_prefix(b"key").ok_or("key")?;
    std::str::from_utf8(digits).ok().and_then(|digits| digits.parse().ok()).ok_or("key")
}

fn put_key(out: &mut String, key: u16) {
    match KEYS.get(usize::from(key)) {
        Some(name) => out.push_str(name),
        None => write!(out, "key{key}").unwrap(),
    }
}

fn items(value: &[u8]) -> impl Iterator<Item = Reply<&str>> {
    value.split(|c| *c == b',').map(|item| std::str::from_utf8(item).map_err(|_| "item"))
}

fn value(key_number: u16, text: &[u8]) -> Reply<Vec<u8>> {
    let mut out = Vec::new();
    match key_number {
        0 => {
            let mut keys = std::collections::BTreeSet::new();
            for item in text.split(|c| *c == b',') {
                if !keys.insert(key(item)?) {
                    return Err("duplicate");
                }
            }
            keys.iter().for_each(|key| out.extend(key.to_be_bytes()));
        }
        1 => {
            for item in text.split(|c| *c == b',') {
                out.push(item.len() as u8);
                out.extend_from_slice(item);
            }
        }
        2 | 8 => {}
        3 => {
            let port = std::str::from_utf8(text).ok().and_then(|digits| digits.parse::<u16>().ok());
            out.extend(port.ok_or("port")?.to_be_bytes());
        }
        4 => {
            for item in items(text) {
                out.extend(item?.parse::<Ipv4Addr>().map_err(|_| "address")?.octets());
            }
        }
        5 => out = from_base64(text)?,
        6 => {
            for item in items(text) {
                out.extend(item?.parse::<Ipv6Addr>().map_err(|_| "address")?.octets());
            }
        }
        9 => {
            let mut groups = std::collections::BTreeSet::new();
            for item in items(text) {
                let group = item?.parse::<u16>().map_err(|_| "group")?;
                if !groups.insert(group) {
                    return Err("duplicate");
                }
                out.extend(group.to_be_bytes());
            }
        }
        _ => out.extend_from_slice(text),
    }
    Ok(out)
}

fn put_octets(out: &mut String, octets: &[u8]) {
    for octet in octets {
        match octet {
            b' ' | b'"' | b'\\' | b';' | b'(' | b')' => {
                out.push('\\');
                out.push(*octet as char);
            }
            0x21..=0x7E => out.push(*octet as char),
            _ => write!(out, "\\{octet:03}").unwrap(),
        }
    }
}

fn put_list<T>(out: &mut String, items: impl Iterator<Item = T>, mut put: impl FnMut(&mut String, T)) {
    for (i, item) in items.enumerate() {
        if i > 0 {
            out.push(',');
        }
        put(out, item);
    }
}

fn put_param(out: &mut String, key: u16, value: &[u8]) {
    put_key(out, key);
    if value.is_empty() {
        return;
    }
    out.push('=');
    let number = |pair: &[u8]| u16::from_be_bytes([pair[0], pair[1]]);
    match key {
        0 => put_list(out, value.chunks_exact(2).map(number), put_key),
        1 => {
            let mut left = value;
            let protocols = std::iter::from_fn(|| {
                let (len, more) = left.split_first()?;
                let (protocol, more) = more.split_at_checked(usize::from(*len))?;
                left = more;
                Some(protocol)
            });
            put_list(out, protocols, |out, protocol| put_octets(out, protocol));
        }
        3 => write!(out, "{}", number(value)).unwrap(),
        4 => put_list(out, value.chunks_exact(4), |out, a| {
            write!(out, "{}", Ipv4Addr::from(<[u8; 4]>::try_from(a).unwrap())).unwrap()
        }),
        6 => put_list(out, value.chunks_exact(16), |out, a| {
            write!(out, "{}", Ipv6Addr::from(<[u8; 16]>::try_from(a).unwrap())).unwrap()
        }),
        9 => put_list(out, value.chunks_exact(2).map(number), |out, n| write!(out, "{n}").unwrap()),
        _ => put_octets(out, value),
    }
}

// ---- record data

fn scan(kind: &str, text: &[u8]) -> Reply<Vec<u8>> {
    let tokens = tokens(text)?;
    let field = |i: usize| tokens.get(i).map(Vec::as_slice).ok_or("short");
    let mut out = Vec::new();
    match kind {
        "https" | "svcb" => {
            out.extend(number::<u16>(field(0)?)?.to_be_bytes());
            out.extend(name(field(1)?)?);
            let mut params = BTreeMap::new();
            for token in &tokens[2..] {
                let token = octets(token);
                let at = token.iter().position(|c| *c == b'=').unwrap_or(token.len());
                let key = key(&token[..at])?;
                if params.insert(key, value(key, token.get(at + 1..).unwrap_or(b""))?).is_some() {
                    return Err("duplicate");
                }
            }
            for (key, value) in params {
                put_pair(&mut out, key, &value);
            }
        }
        "tlsa" => {
            for i in 0..3 {
                out.push(number(field(i)?)?);
            }
            out.extend(from_hex(&rest(&tokens[3..]))?);
        }
        "zonemd" => {
            out.extend(number::<u32>(field(0)?)?.to_be_bytes());
            out.push(number(field(1)?)?);
            out.push(number(field(2)?)?);
            out.extend(from_hex(&rest(&tokens[3..]))?);
        }
        "ipseckey" => {
            for i in 0..3 {
                out.push(number(field(i)?)?);
            }
            let gateway = octets(field(3)?);
            let gateway = std::str::from_utf8(&gateway).map_err(|_| "gateway")?;
            match out[1] {
                0 => {}
                1 => out.extend(gateway.parse::<Ipv4Addr>().map_err(|_| "gateway")?.octets()),
                2 => out.extend(gateway.parse::<Ipv6Addr>().map_err(|_| "gateway")?.octets()),
                _ => out.extend(name(field(3)?)?),
            }
            out.extend(from_base64(&rest(&tokens[4..]))?);
        }
        "openpgpkey" => out = from_base64(&rest(&tokens))?,
        _ => return Err("type"),
    }
    Ok(out)
}

fn put_pair(out: &mut Vec<u8>, key: u16, value: &[u8]) {
    out.extend(key.to_be_bytes());
    out.extend((value.len() as u16).to_be_bytes());
    out.extend_from_slice(value);
}

/// What stands before a place, and behind it.
fn part(data: &[u8], at: usize) -> Reply<(&[u8], &[u8])> {
    data.split_at_checked(at).ok_or("short")
}

fn pairs(data: &[u8]) -> Reply<Vec<(u16, &[u8])>> {
    let mut left = data;
    let mut pairs = Vec::new();
    while !left.is_empty() {
        let (head, more) = part(left, 4)?;
        let len = u16::from_be_bytes([head[2], head[3]]);
        let (value, more) = part(more, usize::from(len))?;
        pairs.push((u16::from_be_bytes([head[0], head[1]]), value));
        left = more;
    }
    Ok(pairs)
}

/// The length of the name that data begins with.
fn name_len(data: &[u8]) -> Reply<usize> {
    let mut at = 0;
    while *data.get(at).ok_or("short")? != 0 {
        at += 1 + usize::from(data[at]);
    }
    Ok(at + 1)
}

fn show(kind: &str, data: &[u8]) -> Reply<String> {
    let mut out = String::new();
    const UPPER: &[u8; 16] = b"0123456789ABCDEF";
    match kind {
        "https" | "svcb" => {
            let (priority, more) = part(data, 2)?;
            let (name, params) = part(more, name_len(more)?)?;
            write!(out, "{} ", u16::from_be_bytes([priority[0], priority[1]])).unwrap();
            let mut left = name;
            if name.len() == 1 {
                out.push('.');
            }
            while left[0] != 0 {
                let (label, more) = part(&left[1..], usize::from(left[0]))?;
                put_octets(&mut out, label);
                out.push('.');
                left = more;
            }
            for (key, value) in pairs(params)? {
                out.push(' ');
                put_param(&mut out, key, value);
            }
        }
        "tlsa" => {
            let (head, last) = part(data, 3)?;
            write!(out, "{} {} {} ( ", head[0], head[1], head[2]).unwrap();
            put_hex(&mut out, last, UPPER);
            out.push_str(" )");
        }
        "zonemd" => {
            let (head, last) = part(data, 6)?;
            let serial = u32::from_be_bytes(head[..4].try_into().unwrap());
            write!(out, "{serial} {} {} ( ", head[4], head[5]).unwrap();
            put_hex(&mut out, last, UPPER);
            out.push_str(" )");
        }
        _ => return Err("type"),
    }
    Ok(out)
}

/// Adds parameters to record data, as `svcbedit edit` does with `raw` lines.
fn edit(input: &[u8]) -> Reply<String> {
    let mut lines = input.split(|c| *c == b'\n');
    let words = |line: &[u8]| -> Reply<Vec<usize>> {
        let text = std::str::from_utf8(line).map_err(|_| "line")?;
        text.split(' ').map(|word| word.parse().map_err(|_| "line")).collect()
    };
    let bounds = words(lines.next().ok_or("line")?)?;
    let message = from_hex(lines.next().ok_or("line")?)?;
    let data = message.get(bounds[0]..bounds[0] + bounds[1]).ok_or("place")?;
    let head = 2 + name_len(&data[2..])?;
    let mut params: BTreeMap<u16, Vec<u8>> = BTreeMap::new();
    let mut held = 0;
    for (key, value) in pairs(&data[head..])? {
        held += 4 + value.len();
        params.insert(key, value.to_vec());
    }
    let mut out = String::new();
    for line in lines.filter(|line| !line.is_empty()) {
        let mut words = line.strip_prefix(b"raw ").ok_or("line")?.splitn(2, |c| *c == b' ');
        let key = std::str::from_utf8(words.next().unwrap()).ok().and_then(|t| t.parse().ok()).ok_or("line")?;
        let value = from_hex(words.next().unwrap_or(b""))?;
        if params.contains_key(&key) {
            out.push_str("duplicate key\n");
        } else if held + 4 + value.len() > bounds[2] {
            out.push_str("short buffer\n");
        } else {
            held += 4 + value.len();
            params.insert(key, value);
            out.push_str("accepted\n");
        }
    }
    let mut wire = data[..head].to_vec();
    for (key, value) in &params {
        put_pair(&mut wire, *key, value);
    }
    put_hex(&mut out, &wire, b"0123456789abcdef");
    Ok(out)
}

fn run(words: &[String], input: &[u8]) -> Reply<String> {
    let line = input.strip_suffix(b"\n").unwrap_or(input);
    match words {
        [command] if command == "edit" => edit(input),
        [command, kind] if command == "show" => show(kind, &from_hex(line)?),
        [command, kind] if command == "scan" => {
            let mut out = String::new();
            put_hex(&mut out, &scan(kind, input)?, b"0123456789abcdef");
            Ok(out)
        }
        _ => Err("unknown command"),
    }
}

fn main() {
    let words: Vec<String> = std::env::args().skip(1).collect();
    let mut input = Vec::new();
    if words != ["none"] {
        std::io::stdin().read_to_end(&mut input).unwrap();
    }
    match run(&words, &input) {
        Ok(text) => std::io::stdout().write_all(format!("{text}\n").as_bytes()).unwrap(),
        Err(fault) => std::io::stdout().write_all(format!("error: {fault}\n").as_bytes()).unwrap(),
    }
}
