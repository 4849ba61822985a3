//! The data of SVCB and HTTPS records.

use crate::calls::written;
use crate::error::{checked, Error};
use crate::record::{scan, text};
use alloc::string::String;
use alloc::vec;
use alloc::vec::Vec;
use core::cmp::Ordering;
use core::fmt;
use core::str::FromStr;
use hollywhist_sys as sys;

/// The most octets that a name has in wire form (RFC 1035, section 3.1).
const MAX_NAME: usize = 255;

/// The largest limit on the octets of parameters.
const MAX_LIMIT: usize = (1 << 31) - 1;

/// The data of an SVCB record.
pub type Svcb = ServiceData<64>;

/// The data of an HTTPS record.
pub type Https = ServiceData<65>;

/// The data of an SVCB or HTTPS record (RFC 9460, section 2.2), by the number of its type: a priority, a target, and
/// parameters by ascending keys, in octets by themselves, the target uncompressed.
///
/// Its order is the canonical one (RFC 4034, section 6.3).
#[derive(Clone, PartialEq, Eq, PartialOrd, Ord, Hash)]
pub struct ServiceData<const RTYPE: u16> {
    octets: Vec<u8>,
    priority: u16,
    target_len: u16,
}

/// A parameter: its key, and the octets of its value.
#[derive(Clone, Copy, Debug, PartialEq, Eq, Hash)]
pub struct Param<'a> {
    /// The key.
    pub key: u16,
    /// The octets of the value.
    pub value: &'a [u8],
}

/// A parameter that is to be added.
pub type Push<'a> = Param<'a>;

/// The reply to a push.
#[derive(Clone, Copy, Debug, PartialEq, Eq, Hash)]
pub enum Reply {
    /// It was added.
    Accepted,
    /// Its key is there already.
    DuplicateKey,
    /// With it the parameters would exceed the limit.
    OverLimit,
}

impl<const RTYPE: u16> ServiceData<RTYPE> {
    /// The number of the record type.
    pub const RTYPE: u16 = RTYPE;

    /// The data that octets are.
    pub fn from_wire(octets: &[u8]) -> Result<Self, Error> {
        Self::from_message(octets, 0, octets.len())
    }

    /// The data in the `len` octets from `start` on in a message. Its target may be compressed.
    pub fn from_message(message: &[u8], start: usize, len: usize) -> Result<Self, Error> {
        let mut record = sys::svcb_record::default();
        let mut target = [0; MAX_NAME];
        // A slice is good for its length, and what is written is of this call alone.
        checked(unsafe {
            sys::hw_svcb_read(
                message.as_ptr(),
                message.len(),
                start,
                len,
                target.as_mut_ptr(),
                target.len(),
                &mut record,
            )
        })?;
        let mut octets = Vec::from(record.priority.to_be_bytes());
        octets.extend_from_slice(&target[..usize::from(record.target_len)]);
        octets.extend_from_slice(&message[record.params_start..start + len]);
        Ok(ServiceData {
            octets,
            priority: record.priority,
            target_len: record.target_len,
        })
    }

    /// The priority; 0 is alias mode.
    pub fn priority(&self) -> u16 {
        self.priority
    }

    /// The target in uncompressed wire form.
    pub fn target(&self) -> &[u8] {
        &self.octets[2..self.params_start()]
    }

    fn params_start(&self) -> usize {
        2 + usize::from(self.target_len)
    }

    /// The parameters by ascending keys.
    pub fn params(&self) -> Params<'_> {
        Params {
            octets: &self.octets,
            pos: self.params_start(),
        }
    }

    /// The octets of the value under a key.
    pub fn value(&self, key: u16) -> Option<&[u8]> {
        self.params()
            .find(|param| param.key == key)
            .map(|param| param.value)
    }

    /// The octets in wire form.
    pub fn as_octets(&self) -> &[u8] {
        &self.octets
    }

    /// The data with parameters added in order, and a reply to each. A push that is refused changes nothing.
    pub fn with_params(&self, pushes: &[Push<'_>]) -> Result<(Self, Vec<Reply>), Error> {
        self.with_params_within(pushes, MAX_LIMIT)
    }

    /// As [`with_params`](Self::with_params), within a limit on the octets of all parameters.
    pub fn with_params_within(
        &self,
        pushes: &[Push<'_>],
        limit: usize,
    ) -> Result<(Self, Vec<Reply>), Error> {
        let mut values = Vec::new();
        let mut named = Vec::with_capacity(pushes.len());
        for push in pushes {
            named.push(sys::svcb_push {
                key: push.key,
                len: u16::try_from(push.value.len()).map_err(|_| Error::Argument)?,
                start: values.len(),
            });
            values.extend_from_slice(push.value);
        }
        let mut replies = vec![0; pushes.len()];
        // As in `from_message`.
        let octets = written(|target, count| unsafe {
            sys::hw_svcb_rebuild(
                self.octets.as_ptr(),
                self.octets.len(),
                0,
                self.octets.len(),
                named.as_ptr(),
                named.len(),
                values.as_ptr(),
                values.len(),
                limit,
                target.as_mut_ptr(),
                target.len(),
                replies.as_mut_ptr(),
                replies.len(),
                count,
            )
        })?;
        Ok((
            Self::from_wire(&octets)?,
            replies.into_iter().map(reply).collect(),
        ))
    }

    /// The text, as a zone file has it.
    pub fn to_text(&self) -> Result<String, Error> {
        text(RTYPE, &self.octets, 0, self.octets.len())
    }

    /// The canonical order as the library answers it. It is the order of the octets, so that of `cmp`.
    pub fn canonical_cmp(&self, other: &Self) -> Result<Ordering, Error> {
        crate::record::canonical_cmp(RTYPE, &self.octets, &other.octets)
    }
}

/// The reply that a number tells.
fn reply(number: u8) -> Reply {
    match number {
        0 => Reply::Accepted,
        1 => Reply::DuplicateKey,
        _ => Reply::OverLimit,
    }
}

impl<const RTYPE: u16> FromStr for ServiceData<RTYPE> {
    type Err = Error;

    fn from_str(text: &str) -> Result<Self, Error> {
        Self::from_wire(&scan(RTYPE, text)?)
    }
}

impl<const RTYPE: u16> fmt::Display for ServiceData<RTYPE> {
    fn fmt(&self, f: &mut fmt::Formatter<'_>) -> fmt::Result {
        f.write_str(&self.to_text().map_err(|_| fmt::Error)?)
    }
}

impl<const RTYPE: u16> fmt::Debug for ServiceData<RTYPE> {
    fn fmt(&self, f: &mut fmt::Formatter<'_>) -> fmt::Result {
        write!(f, "ServiceData<{RTYPE}>({self})")
    }
}

impl<'a, const RTYPE: u16> IntoIterator for &'a ServiceData<RTYPE> {
    type Item = Param<'a>;
    type IntoIter = Params<'a>;

    fn into_iter(self) -> Params<'a> {
        self.params()
    }
}

/// The parameters of data, by ascending keys.
#[derive(Clone, Debug)]
pub struct Params<'a> {
    octets: &'a [u8],
    pos: usize,
}

impl<'a> Iterator for Params<'a> {
    type Item = Param<'a>;

    fn next(&mut self) -> Option<Param<'a>> {
        let mut param = sys::svcb_param::default();
        // As in `ServiceData::from_message`.
        let status = unsafe {
            sys::hw_svcb_next(
                self.octets.as_ptr(),
                self.octets.len(),
                self.octets.len(),
                self.pos,
                &mut param,
            )
        };
        if status != sys::HW_OK {
            return None;
        }
        self.pos = param.start + usize::from(param.len);
        Some(Param {
            key: param.key,
            value: &self.octets[param.start..self.pos],
        })
    }
}
