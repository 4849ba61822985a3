//! Checks of records that lines spell. `hollywhist.h` says what stands in the lines.

use crate::calls::written;
use crate::error::Error;
use alloc::string::String;
use core::fmt;
use hollywhist_sys as sys;

/// Why lines were not checked.
#[derive(Clone, Debug, PartialEq, Eq)]
#[non_exhaustive]
pub enum CheckError {
    /// A line has a fault of form, or the records are out of order; the text says which.
    BadLines(String),
    /// The library refused the call.
    Refused(Error),
}

impl fmt::Display for CheckError {
    fn fmt(&self, f: &mut fmt::Formatter<'_>) -> fmt::Result {
        match self {
            CheckError::BadLines(text) => f.write_str(text.trim_end()),
            CheckError::Refused(error) => error.fmt(f),
        }
    }
}

impl core::error::Error for CheckError {}

/// A call on lines.
type Check = unsafe extern "C" fn(*const u8, usize, *mut u8, usize, *mut usize, *mut u32) -> u32;

fn answer(check: Check, lines: &[u8]) -> Result<String, CheckError> {
    let mut outcome = 0;
    // A slice is good for its length, and what is written is of this call alone.
    let octets = written(|target, count| unsafe {
        check(
            lines.as_ptr(),
            lines.len(),
            target.as_mut_ptr(),
            target.len(),
            count,
            &mut outcome,
        )
    })
    .map_err(CheckError::Refused)?;
    let text = String::from_utf8(octets).map_err(|_| CheckError::Refused(Error::Form))?;
    match outcome {
        0 => Ok(text),
        _ => Err(CheckError::BadLines(text)),
    }
}

/// The endpoints that a client chooses for an owner from its SVCB or HTTPS records (RFC 9460, sections 2.4 and 2.5), a
/// line each.
pub fn choose(lines: &[u8]) -> Result<String, CheckError> {
    answer(sys::hw_svcb_choose, lines)
}

/// Whether the CDS and CDNSKEY records of an owner ask the parent zone for the same keys (RFC 7344, section 4).
pub fn check_cds(lines: &[u8]) -> Result<String, CheckError> {
    answer(sys::hw_cds_check, lines)
}

/// Whether a zone has the digest of its ZONEMD record (RFC 8976, section 4).
pub fn check_zonemd(lines: &[u8]) -> Result<String, CheckError> {
    answer(sys::hw_zonemd_check, lines)
}
