//! The calls of the C library `hollywhist`, as its header declares them. What each asks of its caller, and answers,
//! stands in `hollywhist.h`; the crate `hollywhist` has safe types over them.
#![no_std]
#![allow(non_camel_case_types)]

use core::mem::size_of;

/// Done.
pub const HW_OK: u32 = 0;
/// The place is not within the message.
pub const HW_E_PLACE: u32 = 1;
/// Octets are missing.
pub const HW_E_SHORT: u32 = 2;
/// An octet, a length, a pointer or two keys are not allowed, or octets are left behind the data.
pub const HW_E_FORM: u32 = 3;
/// The caller's buffer is too short.
pub const HW_E_ROOM: u32 = 4;
/// The parameters that were read exceed the limit.
pub const HW_E_LIMIT: u32 = 5;
/// The result would exceed 65,535 octets.
pub const HW_E_TOO_LONG: u32 = 6;
/// An argument is out of its bounds.
pub const HW_E_ARGUMENT: u32 = 7;
/// Memory is wanting.
pub const HW_E_MEMORY: u32 = 8;
/// There is no further parameter, and no further item of a value.
pub const HW_END: u32 = 9;
/// The type's data has names, which the library doesn't read yet.
pub const HW_E_TYPE: u32 = 10;
/// A token was asked for, and none was left.
pub const HW_S_END_OF_ENTRY: u32 = 64;
/// An octet that no text may have at its place.
pub const HW_S_BAD_SYMBOL: u32 = 65;
/// A backslash with no escape behind it.
pub const HW_S_BAD_ESCAPE: u32 = 66;
/// The text ends within quotes.
pub const HW_S_OPEN_QUOTE: u32 = 67;
/// A closing bracket with no opening one, or the text ends within brackets.
pub const HW_S_BAD_BRACKET: u32 = 68;
/// The token is no number text in range, or a count isn't that of the octets behind it.
pub const HW_S_BAD_NUMBER: u32 = 69;
/// The token is no name text.
pub const HW_S_BAD_NAME: u32 = 70;
/// The token is no address text.
pub const HW_S_BAD_ADDRESS: u32 = 71;
/// The tokens joined are no base64 text.
pub const HW_S_BAD_BASE64: u32 = 72;
/// The tokens joined are no base16 text.
pub const HW_S_BAD_BASE16: u32 = 73;
/// A parameter's token has no octets.
pub const HW_S_EMPTY_PARAM: u32 = 74;
/// An octet that no key of a parameter may have.
pub const HW_S_BAD_KEY_CHAR: u32 = 75;
/// A text that names no key.
pub const HW_S_UNKNOWN_KEY: u32 = 76;
/// A parameter without the value that its key asks for.
pub const HW_S_MISSING_VALUE: u32 = 77;
/// A parameter with a value that its key doesn't take.
pub const HW_S_UNEXPECTED_VALUE: u32 = 78;
/// A backslash in a list where it may not stand.
pub const HW_S_BAD_LIST_ESCAPE: u32 = 79;
/// An item of a list without octets.
pub const HW_S_EMPTY_ITEM: u32 = 80;
/// An item of a list with more octets than it may have.
pub const HW_S_LONG_ITEM: u32 = 81;
/// A value that is no port.
pub const HW_S_BAD_PORT: u32 = 82;
/// The key `mandatory` in its own list.
pub const HW_S_KEY_ZERO_IN_MANDATORY: u32 = 83;
/// An item that stands twice in a list.
pub const HW_S_DUPLICATE_ITEM: u32 = 84;
/// A key that two parameters have.
pub const HW_S_DUPLICATE_KEY: u32 = 85;
/// A key that is mandatory and that no parameter has.
pub const HW_S_MANDATORY_MISSING: u32 = 86;
/// A value that is no UTF-8.
pub const HW_S_BAD_UTF8: u32 = 87;
/// A value of more than 65,535 octets.
pub const HW_S_LONG_VALUE: u32 = 88;
/// Record data of more than 65,535 octets.
pub const HW_S_LONG_RECORD: u32 = 89;
/// A gateway that isn't of the type that was given.
pub const HW_S_WRONG_GATEWAY: u32 = 90;
/// A type of gateways that is not known.
pub const HW_S_UNKNOWN_GATEWAY: u32 = 91;
/// A key that must be there is missing.
pub const HW_S_MISSING_KEY: u32 = 92;
/// A record type whose data has no text of its own.
pub const HW_S_UNKNOWN_TYPE: u32 = 93;
/// Something is left behind the entry, or a token behind the data.
pub const HW_S_TRAILING_TOKENS: u32 = 94;

/// The header of a message, and where its records begin.
#[repr(C)]
#[derive(Clone, Copy, Debug, Default, PartialEq, Eq)]
pub struct hw_message {
    pub id: u16,
    pub flags: u16,
    pub qdcount: u16,
    pub ancount: u16,
    pub nscount: u16,
    pub arcount: u16,
    pub records_start: usize,
}

/// A record in a message.
#[repr(C)]
#[derive(Clone, Copy, Debug, Default, PartialEq, Eq)]
pub struct hw_record {
    pub rtype: u16,
    pub rclass: u16,
    pub ttl: u32,
    pub owner_len: usize,
    pub data_start: usize,
    pub data_len: usize,
    pub next: usize,
}

/// What was read of the data of an SVCB or HTTPS record.
#[repr(C)]
#[derive(Clone, Copy, Debug, Default, PartialEq, Eq)]
pub struct svcb_record {
    pub priority: u16,
    pub target_len: u16,
    pub params_count: u32,
    pub params_start: usize,
}

/// A parameter: its value stands in the `len` octets from `start` on.
#[repr(C)]
#[derive(Clone, Copy, Debug, Default, PartialEq, Eq)]
pub struct svcb_param {
    pub key: u16,
    pub len: u16,
    pub start: usize,
}

/// A parameter that is to be added; `start` counts in the octets of all values.
pub type svcb_push = svcb_param;

/// An item in the value of a parameter: its octets are the `len` octets from `start` on.
#[repr(C)]
#[derive(Clone, Copy, Debug, Default, PartialEq, Eq)]
pub struct hw_item {
    pub start: usize,
    pub len: usize,
}

extern "C" {
    pub fn hw_version() -> u32;

    pub fn hw_status_text(
        status: u32,
        target: *mut u8,
        target_room: usize,
        written: *mut usize,
    ) -> u32;

    pub fn hw_message_begin(message: *const u8, message_len: usize, begun: *mut hw_message) -> u32;

    pub fn hw_message_next(
        message: *const u8,
        message_len: usize,
        pos: usize,
        owner: *mut u8,
        owner_room: usize,
        record: *mut hw_record,
    ) -> u32;

    pub fn hw_rr_text(
        rtype: u16,
        message: *const u8,
        message_len: usize,
        start: usize,
        len: usize,
        target: *mut u8,
        target_room: usize,
        written: *mut usize,
    ) -> u32;

    pub fn hw_rr_scan(
        rtype: u16,
        text: *const u8,
        text_len: usize,
        target: *mut u8,
        target_room: usize,
        written: *mut usize,
    ) -> u32;

    pub fn hw_rr_canonical_cmp(
        rtype: u16,
        first: *const u8,
        first_len: usize,
        second: *const u8,
        second_len: usize,
        order: *mut u32,
    ) -> u32;

    pub fn hw_svcb_read(
        message: *const u8,
        message_len: usize,
        start: usize,
        len: usize,
        target: *mut u8,
        target_room: usize,
        record: *mut svcb_record,
    ) -> u32;

    pub fn hw_svcb_next(
        message: *const u8,
        message_len: usize,
        end: usize,
        pos: usize,
        param: *mut svcb_param,
    ) -> u32;

    pub fn hw_svcb_rebuild(
        message: *const u8,
        message_len: usize,
        start: usize,
        len: usize,
        pushes: *const svcb_push,
        push_count: usize,
        octets: *const u8,
        octets_len: usize,
        limit: usize,
        target: *mut u8,
        target_room: usize,
        replies: *mut u8,
        replies_room: usize,
        written: *mut usize,
    ) -> u32;

    pub fn hw_param_port(value: *const u8, value_len: usize, port: *mut u16) -> u32;

    pub fn hw_param_number_next(
        value: *const u8,
        value_len: usize,
        pos: usize,
        number: *mut u16,
    ) -> u32;

    pub fn hw_param_address_next(
        value: *const u8,
        value_len: usize,
        len: usize,
        pos: usize,
        item: *mut hw_item,
    ) -> u32;

    pub fn hw_param_alpn_next(
        value: *const u8,
        value_len: usize,
        pos: usize,
        item: *mut hw_item,
    ) -> u32;

    pub fn hw_name_text(
        octets: *const u8,
        octets_len: usize,
        target: *mut u8,
        target_room: usize,
        written: *mut usize,
    ) -> u32;

    pub fn hw_name_scan(
        text: *const u8,
        text_len: usize,
        target: *mut u8,
        target_room: usize,
        written: *mut usize,
    ) -> u32;

    pub fn hw_svcb_choose(
        lines: *const u8,
        lines_len: usize,
        target: *mut u8,
        target_room: usize,
        written: *mut usize,
        outcome: *mut u32,
    ) -> u32;

    pub fn hw_cds_check(
        lines: *const u8,
        lines_len: usize,
        target: *mut u8,
        target_room: usize,
        written: *mut usize,
        outcome: *mut u32,
    ) -> u32;

    pub fn hw_zonemd_check(
        lines: *const u8,
        lines_len: usize,
        target: *mut u8,
        target_room: usize,
        written: *mut usize,
        outcome: *mut u32,
    ) -> u32;
}

// How each structure lies in memory, as the library has it.
const _: () = assert!(size_of::<hw_message>() == 24);
const _: () = assert!(size_of::<hw_record>() == 40);
const _: () = assert!(size_of::<svcb_record>() == 16);
const _: () = assert!(size_of::<svcb_param>() == 16);
const _: () = assert!(size_of::<hw_item>() == 16);
