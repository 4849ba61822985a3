//! What calls that write into a buffer share.

use crate::error::{checked, Error};
use alloc::vec;
use alloc::vec::Vec;
use hollywhist_sys as sys;

/// The room of a first call. Nearly all that is asked for fits, and the rest is told how much it needs.
const FIRST_ROOM: usize = 512;

/// What a call writes, called again with the room that it needs where that was too short.
pub(crate) fn written(
    mut call: impl FnMut(&mut [u8], &mut usize) -> u32,
) -> Result<Vec<u8>, Error> {
    let mut target = vec![0; FIRST_ROOM];
    loop {
        let mut len = 0;
        match call(&mut target, &mut len) {
            sys::HW_E_ROOM => target.resize(len, 0),
            status => {
                checked(status)?;
                target.truncate(len);
                return Ok(target);
            }
        }
    }
}
