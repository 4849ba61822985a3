//! Answers lines `show TYPE OCTETS` and `scan TYPE OCTETS` from standard input, type numbers in decimal and octets in
//! hexadecimal: with the text, or with the octets in hexadecimal, or with `error: ` and the fault.

use std::io::{stdin, stdout, BufWriter, Write};

fn octets(hexadecimal: &str) -> Vec<u8> {
    let digits = hexadecimal.as_bytes().chunks(2);
    digits
        .map(|pair| u8::from_str_radix(std::str::from_utf8(pair).unwrap(), 16).unwrap())
        .collect()
}

fn answer(line: &str) -> Result<String, hollywhist::Error> {
    let mut words = line.split(' ');
    let (command, rtype) = (
        words.next().unwrap(),
        words.next().unwrap().parse().unwrap(),
    );
    let given = octets(words.next().unwrap_or_default());
    match command {
        "show" => hollywhist::text(rtype, &given, 0, given.len()),
        _ => {
            let scanned = hollywhist::scan_octets(rtype, &given)?;
            Ok(scanned.iter().map(|octet| format!("{octet:02x}")).collect())
        }
    }
}

fn main() {
    let mut output = BufWriter::new(stdout());
    for line in stdin().lines() {
        match answer(&line.unwrap()) {
            Ok(text) => writeln!(output, "{text}").unwrap(),
            Err(error) => writeln!(output, "error: {error}").unwrap(),
        }
    }
}
