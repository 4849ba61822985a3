//! Names as octets and as text.

use crate::calls::written;
use crate::error::Error;
use alloc::string::String;
use alloc::vec::Vec;
use core::fmt;
use core::str::FromStr;
use hollywhist_sys as sys;

/// A name in uncompressed wire form (RFC 1035, section 3.1). Names are equal where their octets are, ASCII case ignored.
#[derive(Clone, Debug)]
pub struct Name {
    octets: Vec<u8>,
    text: String,
}

impl Name {
    /// The name that octets wholly are.
    pub fn from_wire(octets: &[u8]) -> Result<Name, Error> {
        // A slice is good for its length, and the buffers that are written are of this call alone.
        let text = written(|target, count| unsafe {
            sys::hw_name_text(
                octets.as_ptr(),
                octets.len(),
                target.as_mut_ptr(),
                target.len(),
                count,
            )
        })?;
        Ok(Name {
            octets: octets.into(),
            text: String::from_utf8(text).map_err(|_| Error::Form)?,
        })
    }

    /// The octets: each label behind its length, and the root's octet 0.
    pub fn as_octets(&self) -> &[u8] {
        &self.octets
    }

    /// The text with its final dot.
    pub fn as_str(&self) -> &str {
        &self.text
    }
}

impl FromStr for Name {
    type Err = Error;

    /// The name that a text spells. It is absolute, with its final dot or without.
    fn from_str(text: &str) -> Result<Name, Error> {
        // As in `from_wire`.
        let octets = written(|target, count| unsafe {
            sys::hw_name_scan(
                text.as_ptr(),
                text.len(),
                target.as_mut_ptr(),
                target.len(),
                count,
            )
        })?;
        Name::from_wire(&octets)
    }
}

impl fmt::Display for Name {
    fn fmt(&self, f: &mut fmt::Formatter<'_>) -> fmt::Result {
        f.write_str(&self.text)
    }
}

impl PartialEq for Name {
    fn eq(&self, other: &Name) -> bool {
        self.octets.eq_ignore_ascii_case(&other.octets)
    }
}

impl Eq for Name {}
