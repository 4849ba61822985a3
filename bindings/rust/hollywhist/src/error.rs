//! Why a call was refused.

use core::fmt;
use hollywhist_sys as sys;

/// Why a call was refused.
#[derive(Clone, Copy, Debug, PartialEq, Eq, Hash)]
#[non_exhaustive]
pub enum Error {
    /// The place is not within the message.
    Place,
    /// Octets are missing.
    Short,
    /// An octet, a length, a pointer or two keys are not allowed, or octets are left behind the data.
    Form,
    /// The parameters that were read exceed the limit.
    Limit,
    /// The result would exceed 65,535 octets.
    TooLong,
    /// An argument is out of its bounds.
    Argument,
    /// Memory is wanting.
    Memory,
    /// The type's data has names, which the library doesn't read yet.
    Type,
    /// The first fault of a text.
    Scan(ScanFault),
    /// A status that this version doesn't know.
    Other(u32),
}

/// The first fault of a text.
#[derive(Clone, Copy, Debug, PartialEq, Eq, Hash)]
#[non_exhaustive]
pub enum ScanFault {
    /// A token was asked for, and none was left.
    EndOfEntry,
    /// An octet that no text may have at its place.
    BadSymbol,
    /// A backslash with no escape behind it.
    BadEscape,
    /// The text ends within quotes.
    OpenQuote,
    /// A closing bracket with no opening one, or the text ends within brackets.
    BadBracket,
    /// The token is no number text in range, or a count isn't that of the octets behind it.
    BadNumber,
    /// The token is no name text.
    BadName,
    /// The token is no address text.
    BadAddress,
    /// The tokens joined are no base64 text.
    BadBase64,
    /// The tokens joined are no base16 text.
    BadBase16,
    /// A parameter's token has no octets.
    EmptyParam,
    /// An octet that no key of a parameter may have.
    BadKeyChar,
    /// A text that names no key.
    UnknownKey,
    /// A parameter without the value that its key asks for.
    MissingValue,
    /// A parameter with a value that its key doesn't take.
    UnexpectedValue,
    /// A backslash in a list where it may not stand.
    BadListEscape,
    /// An item of a list without octets.
    EmptyItem,
    /// An item of a list with more octets than it may have.
    LongItem,
    /// A value that is no port.
    BadPort,
    /// The key `mandatory` in its own list.
    KeyZeroInMandatory,
    /// An item that stands twice in a list.
    DuplicateItem,
    /// A key that two parameters have.
    DuplicateKey,
    /// A key that is mandatory and that no parameter has.
    MandatoryMissing,
    /// A value that is no UTF-8.
    BadUtf8,
    /// A value of more than 65,535 octets.
    LongValue,
    /// Record data of more than 65,535 octets.
    LongRecord,
    /// A gateway that isn't of the type that was given.
    WrongGateway,
    /// A type of gateways that is not known.
    UnknownGateway,
    /// A key that must be there is missing.
    MissingKey,
    /// A record type whose data has no text of its own.
    UnknownType,
    /// Something is left behind the entry, or a token behind the data.
    TrailingTokens,
}

impl ScanFault {
    /// The fault that a status tells, where it tells one.
    fn of_status(status: u32) -> Option<ScanFault> {
        Some(match status {
            sys::HW_S_END_OF_ENTRY => ScanFault::EndOfEntry,
            sys::HW_S_BAD_SYMBOL => ScanFault::BadSymbol,
            sys::HW_S_BAD_ESCAPE => ScanFault::BadEscape,
            sys::HW_S_OPEN_QUOTE => ScanFault::OpenQuote,
            sys::HW_S_BAD_BRACKET => ScanFault::BadBracket,
            sys::HW_S_BAD_NUMBER => ScanFault::BadNumber,
            sys::HW_S_BAD_NAME => ScanFault::BadName,
            sys::HW_S_BAD_ADDRESS => ScanFault::BadAddress,
            sys::HW_S_BAD_BASE64 => ScanFault::BadBase64,
            sys::HW_S_BAD_BASE16 => ScanFault::BadBase16,
            sys::HW_S_EMPTY_PARAM => ScanFault::EmptyParam,
            sys::HW_S_BAD_KEY_CHAR => ScanFault::BadKeyChar,
            sys::HW_S_UNKNOWN_KEY => ScanFault::UnknownKey,
            sys::HW_S_MISSING_VALUE => ScanFault::MissingValue,
            sys::HW_S_UNEXPECTED_VALUE => ScanFault::UnexpectedValue,
            sys::HW_S_BAD_LIST_ESCAPE => ScanFault::BadListEscape,
            sys::HW_S_EMPTY_ITEM => ScanFault::EmptyItem,
            sys::HW_S_LONG_ITEM => ScanFault::LongItem,
            sys::HW_S_BAD_PORT => ScanFault::BadPort,
            sys::HW_S_KEY_ZERO_IN_MANDATORY => ScanFault::KeyZeroInMandatory,
            sys::HW_S_DUPLICATE_ITEM => ScanFault::DuplicateItem,
            sys::HW_S_DUPLICATE_KEY => ScanFault::DuplicateKey,
            sys::HW_S_MANDATORY_MISSING => ScanFault::MandatoryMissing,
            sys::HW_S_BAD_UTF8 => ScanFault::BadUtf8,
            sys::HW_S_LONG_VALUE => ScanFault::LongValue,
            sys::HW_S_LONG_RECORD => ScanFault::LongRecord,
            sys::HW_S_WRONG_GATEWAY => ScanFault::WrongGateway,
            sys::HW_S_UNKNOWN_GATEWAY => ScanFault::UnknownGateway,
            sys::HW_S_MISSING_KEY => ScanFault::MissingKey,
            sys::HW_S_UNKNOWN_TYPE => ScanFault::UnknownType,
            sys::HW_S_TRAILING_TOKENS => ScanFault::TrailingTokens,
            _ => return None,
        })
    }

    /// The library's status.
    pub fn status(self) -> u32 {
        match self {
            ScanFault::EndOfEntry => sys::HW_S_END_OF_ENTRY,
            ScanFault::BadSymbol => sys::HW_S_BAD_SYMBOL,
            ScanFault::BadEscape => sys::HW_S_BAD_ESCAPE,
            ScanFault::OpenQuote => sys::HW_S_OPEN_QUOTE,
            ScanFault::BadBracket => sys::HW_S_BAD_BRACKET,
            ScanFault::BadNumber => sys::HW_S_BAD_NUMBER,
            ScanFault::BadName => sys::HW_S_BAD_NAME,
            ScanFault::BadAddress => sys::HW_S_BAD_ADDRESS,
            ScanFault::BadBase64 => sys::HW_S_BAD_BASE64,
            ScanFault::BadBase16 => sys::HW_S_BAD_BASE16,
            ScanFault::EmptyParam => sys::HW_S_EMPTY_PARAM,
            ScanFault::BadKeyChar => sys::HW_S_BAD_KEY_CHAR,
            ScanFault::UnknownKey => sys::HW_S_UNKNOWN_KEY,
            ScanFault::MissingValue => sys::HW_S_MISSING_VALUE,
            ScanFault::UnexpectedValue => sys::HW_S_UNEXPECTED_VALUE,
            ScanFault::BadListEscape => sys::HW_S_BAD_LIST_ESCAPE,
            ScanFault::EmptyItem => sys::HW_S_EMPTY_ITEM,
            ScanFault::LongItem => sys::HW_S_LONG_ITEM,
            ScanFault::BadPort => sys::HW_S_BAD_PORT,
            ScanFault::KeyZeroInMandatory => sys::HW_S_KEY_ZERO_IN_MANDATORY,
            ScanFault::DuplicateItem => sys::HW_S_DUPLICATE_ITEM,
            ScanFault::DuplicateKey => sys::HW_S_DUPLICATE_KEY,
            ScanFault::MandatoryMissing => sys::HW_S_MANDATORY_MISSING,
            ScanFault::BadUtf8 => sys::HW_S_BAD_UTF8,
            ScanFault::LongValue => sys::HW_S_LONG_VALUE,
            ScanFault::LongRecord => sys::HW_S_LONG_RECORD,
            ScanFault::WrongGateway => sys::HW_S_WRONG_GATEWAY,
            ScanFault::UnknownGateway => sys::HW_S_UNKNOWN_GATEWAY,
            ScanFault::MissingKey => sys::HW_S_MISSING_KEY,
            ScanFault::UnknownType => sys::HW_S_UNKNOWN_TYPE,
            ScanFault::TrailingTokens => sys::HW_S_TRAILING_TOKENS,
        }
    }
}

impl Error {
    /// The library's status.
    pub fn status(self) -> u32 {
        match self {
            Error::Place => sys::HW_E_PLACE,
            Error::Short => sys::HW_E_SHORT,
            Error::Form => sys::HW_E_FORM,
            Error::Limit => sys::HW_E_LIMIT,
            Error::TooLong => sys::HW_E_TOO_LONG,
            Error::Argument => sys::HW_E_ARGUMENT,
            Error::Memory => sys::HW_E_MEMORY,
            Error::Type => sys::HW_E_TYPE,
            Error::Scan(fault) => fault.status(),
            Error::Other(status) => status,
        }
    }
}

/// Nothing where a status says that a call did what it says.
pub(crate) fn checked(status: u32) -> Result<(), Error> {
    Err(match status {
        sys::HW_OK => return Ok(()),
        sys::HW_E_PLACE => Error::Place,
        sys::HW_E_SHORT => Error::Short,
        sys::HW_E_FORM => Error::Form,
        sys::HW_E_LIMIT => Error::Limit,
        sys::HW_E_TOO_LONG => Error::TooLong,
        sys::HW_E_ARGUMENT => Error::Argument,
        sys::HW_E_MEMORY => Error::Memory,
        sys::HW_E_TYPE => Error::Type,
        _ => ScanFault::of_status(status).map_or(Error::Other(status), Error::Scan),
    })
}

impl fmt::Display for Error {
    fn fmt(&self, f: &mut fmt::Formatter<'_>) -> fmt::Result {
        let mut text = [0; 64];
        let mut len = 0;
        // The buffers are of this call alone, and hold something.
        let status =
            unsafe { sys::hw_status_text(self.status(), text.as_mut_ptr(), text.len(), &mut len) };
        match status {
            sys::HW_OK => f.write_str(core::str::from_utf8(&text[..len]).map_err(|_| fmt::Error)?),
            _ => write!(f, "status {}", self.status()),
        }
    }
}

impl core::error::Error for Error {}
