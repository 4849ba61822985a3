//! The data of SVCB, HTTPS and other DNS records, read, written and compared by proved code.
//!
//! ```
//! use hollywhist::Https;
//!
//! let https: Https = "1 . alpn=h2,h3 port=8443".parse()?;
//! assert_eq!(https.priority(), 1);
//! for param in https.params() {
//!     println!("{} has {} octets", param.key, param.value.len());
//! }
//! assert_eq!(https.to_string(), "1 . alpn=h2,h3 port=8443");
//! # Ok::<(), hollywhist::Error>(())
//! ```
//!
//! The contracts of the library are proved up to its C symbols. This crate is plain Rust over them: it keeps what the
//! header asks of callers, which Rust's references meet by themselves.
#![no_std]
#![deny(missing_docs)]

extern crate alloc;

mod calls;
mod checks;
mod error;
mod message;
mod name;
mod record;
mod service;
pub mod values;

pub use checks::{check_cds, check_zonemd, choose, CheckError};
pub use error::{Error, ScanFault};
pub use message::{Header, Message, Record, Records};
pub use name::Name;
pub use record::{canonical_cmp, scan, scan_octets, text, RecordData};
pub use service::{Https, Param, Params, Push, Reply, ServiceData, Svcb};

/// The version of the library: 10,000 times its first number, 100 times the second, and the third.
pub fn version() -> u32 {
    // Nothing is asked of the caller.
    unsafe { hollywhist_sys::hw_version() }
}
