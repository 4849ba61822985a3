//! From a message to its records.

use crate::error::{checked, Error};
use crate::record::text;
use crate::service::ServiceData;
use alloc::string::String;
use alloc::vec::Vec;
use hollywhist_sys as sys;

/// The most octets that a name has in wire form (RFC 1035, section 3.1).
const MAX_NAME: usize = 255;

/// A message whose header and questions were read.
#[derive(Clone, Copy, Debug)]
pub struct Message<'a> {
    octets: &'a [u8],
    header: sys::hw_message,
}

/// The fields of a header (RFC 1035, section 4.1.1).
#[derive(Clone, Copy, Debug, PartialEq, Eq)]
pub struct Header {
    /// The number that a query and its response share.
    pub id: u16,
    /// The 16 bits behind it, from `qr` to `rcode`.
    pub flags: u16,
    /// The count of questions.
    pub qdcount: u16,
    /// The count of answer records.
    pub ancount: u16,
    /// The count of authority records.
    pub nscount: u16,
    /// The count of additional records.
    pub arcount: u16,
}

impl<'a> Message<'a> {
    /// A message of these octets.
    pub fn from_octets(octets: &'a [u8]) -> Result<Message<'a>, Error> {
        let mut header = sys::hw_message::default();
        // A slice is good for its length, and what is written is of this call alone.
        checked(unsafe { sys::hw_message_begin(octets.as_ptr(), octets.len(), &mut header) })?;
        Ok(Message { octets, header })
    }

    /// The header.
    pub fn header(&self) -> Header {
        Header {
            id: self.header.id,
            flags: self.header.flags,
            qdcount: self.header.qdcount,
            ancount: self.header.ancount,
            nscount: self.header.nscount,
            arcount: self.header.arcount,
        }
    }

    /// The records of all three sections, in order, up to the first fault.
    pub fn records(&self) -> Records<'a> {
        let counts = [
            self.header.ancount,
            self.header.nscount,
            self.header.arcount,
        ];
        Records {
            octets: self.octets,
            pos: self.header.records_start,
            left: counts.into_iter().map(u32::from).sum(),
        }
    }

    /// The answer records, in order, up to the first fault.
    pub fn answers(&self) -> Records<'a> {
        Records {
            left: u32::from(self.header.ancount),
            ..self.records()
        }
    }
}

/// A record in a message.
#[derive(Clone, Debug)]
pub struct Record<'a> {
    message: &'a [u8],
    owner: Vec<u8>,
    fields: sys::hw_record,
}

impl<'a> Record<'a> {
    /// The owner in uncompressed wire form.
    pub fn owner(&self) -> &[u8] {
        &self.owner
    }

    /// The number of the type.
    pub fn rtype(&self) -> u16 {
        self.fields.rtype
    }

    /// The class, which is 1 for the internet.
    pub fn class(&self) -> u16 {
        self.fields.rclass
    }

    /// For how many seconds the record may be kept.
    pub fn ttl(&self) -> u32 {
        self.fields.ttl
    }

    /// The octets of the data as they stand in the message, where names may be compressed.
    pub fn data(&self) -> &'a [u8] {
        &self.message[self.fields.data_start..self.fields.data_start + self.fields.data_len]
    }

    /// The text of the data.
    pub fn text(&self) -> Result<String, Error> {
        text(
            self.rtype(),
            self.message,
            self.fields.data_start,
            self.fields.data_len,
        )
    }

    /// The data as that of an SVCB or HTTPS record. None where the record is of another type.
    pub fn service<const RTYPE: u16>(&self) -> Option<Result<ServiceData<RTYPE>, Error>> {
        (self.rtype() == RTYPE).then(|| {
            ServiceData::from_message(self.message, self.fields.data_start, self.fields.data_len)
        })
    }
}

/// The records of a message that are left. After the first fault there are none.
#[derive(Clone, Debug)]
pub struct Records<'a> {
    octets: &'a [u8],
    pos: usize,
    left: u32,
}

impl<'a> Iterator for Records<'a> {
    type Item = Result<Record<'a>, Error>;

    fn next(&mut self) -> Option<Self::Item> {
        self.left = self.left.checked_sub(1)?;
        let mut owner = [0; MAX_NAME];
        let mut fields = sys::hw_record::default();
        // As in `Message::from_octets`.
        let status = unsafe {
            sys::hw_message_next(
                self.octets.as_ptr(),
                self.octets.len(),
                self.pos,
                owner.as_mut_ptr(),
                owner.len(),
                &mut fields,
            )
        };
        if let Err(error) = checked(status) {
            self.left = 0;
            return Some(Err(error));
        }
        self.pos = fields.next;
        Some(Ok(Record {
            message: self.octets,
            owner: owner[..fields.owner_len].into(),
            fields,
        }))
    }
}
