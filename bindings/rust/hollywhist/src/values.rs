//! The values of parameters, item by item.

use crate::error::{checked, Error};
use alloc::vec::Vec;
use hollywhist_sys as sys;

/// The port that the value of a `port` parameter is (RFC 9460, section 7.2).
pub fn port(value: &[u8]) -> Result<u16, Error> {
    let mut port = 0;
    // A slice is good for its length, and what is written is of this call alone.
    checked(unsafe { sys::hw_param_port(value.as_ptr(), value.len(), &mut port) })?;
    Ok(port)
}

/// The keys of a `mandatory` parameter, or the groups of a `tls-supported-groups` parameter.
pub fn numbers(value: &[u8]) -> Result<Vec<u16>, Error> {
    let mut found = Vec::new();
    let mut pos = 0;
    loop {
        let mut number = 0;
        // As in `port`.
        let status =
            unsafe { sys::hw_param_number_next(value.as_ptr(), value.len(), pos, &mut number) };
        if status == sys::HW_END {
            return Ok(found);
        }
        checked(status)?;
        found.push(number);
        pos += 2;
    }
}

/// The protocols of an `alpn` parameter.
pub fn alpn(value: &[u8]) -> Result<Vec<&[u8]>, Error> {
    // As in `port`.
    items(value, |pos, item| unsafe {
        sys::hw_param_alpn_next(value.as_ptr(), value.len(), pos, item)
    })
}

/// The addresses of an `ipv4hint` (`N` is 4) or `ipv6hint` (16) parameter.
pub fn addresses<const N: usize>(value: &[u8]) -> Result<Vec<[u8; N]>, Error> {
    // As in `port`.
    let found = items(value, |pos, item| unsafe {
        sys::hw_param_address_next(value.as_ptr(), value.len(), N, pos, item)
    })?;
    Ok(found
        .into_iter()
        .filter_map(|octets| octets.try_into().ok())
        .collect())
}

/// The items that a call gives one after another.
fn items(
    value: &[u8],
    call: impl Fn(usize, &mut sys::hw_item) -> u32,
) -> Result<Vec<&[u8]>, Error> {
    let mut found = Vec::new();
    let mut pos = 0;
    loop {
        let mut item = sys::hw_item::default();
        let status = call(pos, &mut item);
        if status == sys::HW_END {
            return Ok(found);
        }
        checked(status)?;
        pos = item.start + item.len;
        found.push(&value[item.start..pos]);
    }
}
