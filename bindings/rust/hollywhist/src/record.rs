//! Record data of any type.

use crate::calls::written;
use crate::error::{checked, Error};
use alloc::string::String;
use alloc::vec::Vec;
use core::cmp::Ordering;
use core::fmt;
use hollywhist_sys as sys;

/// The text of the record data in the `len` octets from `start` on in a message, under the number of a type. Names in
/// it are followed through the whole message.
pub fn text(rtype: u16, message: &[u8], start: usize, len: usize) -> Result<String, Error> {
    // A slice is good for its length, and the buffers that are written are of this call alone.
    let octets = written(|target, count| unsafe {
        sys::hw_rr_text(
            rtype,
            message.as_ptr(),
            message.len(),
            start,
            len,
            target.as_mut_ptr(),
            target.len(),
            count,
        )
    })?;
    String::from_utf8(octets).map_err(|_| Error::Form)
}

/// The octets of the record data that the text of one entry of a zone file spells, behind the type.
pub fn scan(rtype: u16, text: &str) -> Result<Vec<u8>, Error> {
    scan_octets(rtype, text.as_bytes())
}

/// As [`scan`], of a text in any octets.
pub fn scan_octets(rtype: u16, text: &[u8]) -> Result<Vec<u8>, Error> {
    // As in `text`.
    written(|target, count| unsafe {
        sys::hw_rr_scan(
            rtype,
            text.as_ptr(),
            text.len(),
            target.as_mut_ptr(),
            target.len(),
            count,
        )
    })
}

/// The canonical order (RFC 4034, section 6.3) of the data of two records of one type.
pub fn canonical_cmp(rtype: u16, first: &[u8], second: &[u8]) -> Result<Ordering, Error> {
    let mut order = 1;
    // As in `text`.
    checked(unsafe {
        sys::hw_rr_canonical_cmp(
            rtype,
            first.as_ptr(),
            first.len(),
            second.as_ptr(),
            second.len(),
            &mut order,
        )
    })?;
    Ok(order.cmp(&1))
}

/// The data of a record of any type, in octets by themselves.
#[derive(Clone, Debug, PartialEq, Eq, Hash)]
pub struct RecordData {
    rtype: u16,
    octets: Vec<u8>,
    text: String,
}

impl RecordData {
    /// The data that octets are under the number of a type.
    pub fn from_wire(rtype: u16, octets: &[u8]) -> Result<RecordData, Error> {
        Ok(RecordData {
            rtype,
            octets: octets.into(),
            text: text(rtype, octets, 0, octets.len())?,
        })
    }

    /// The data that the text of one entry of a zone file spells.
    pub fn from_text(rtype: u16, text: &str) -> Result<RecordData, Error> {
        RecordData::from_wire(rtype, &scan(rtype, text)?)
    }

    /// The number of the type.
    pub fn rtype(&self) -> u16 {
        self.rtype
    }

    /// The octets.
    pub fn as_octets(&self) -> &[u8] {
        &self.octets
    }

    /// The text.
    pub fn as_str(&self) -> &str {
        &self.text
    }
}

impl fmt::Display for RecordData {
    fn fmt(&self, f: &mut fmt::Formatter<'_>) -> fmt::Result {
        f.write_str(&self.text)
    }
}
