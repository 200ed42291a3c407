//! A datagram's listing.
use crate::{ffi, Config, Refusal};

/// Puts the listing of a datagram at the buffer's start: a `net` line, a `set` line for each message, a `field` line for each field.
/// A refused datagram has a listing too, its `bad` line. [`MOST_LISTING`](crate::MOST_LISTING) bytes are room for any.
///
/// ```
/// # let datagram = [
/// #     0xD1, 0x01, 0x67, 0x12, 0x01, 0x15, 0x00, 0x09, 0x05, 0x00, 0x02, 0x00, 0x05, 0x03, 0x00, 0x0A, 0x00, 0x00, 0x00, 0x3F,
/// # ];
/// let mut out = [0; 200];
/// let listing = uadp::list(&datagram, &uadp::Config::default(), &mut out)?;
/// assert_eq!(listing.lines().next(), Some("net\t20\tu16\t4711\t1"));
/// # Ok::<(), uadp::Refusal>(())
/// ```
///
/// # Errors
///
/// [`NoRoom`](crate::Reason::NoRoom).
///
/// # Panics
///
/// Never: a listing is ASCII.
pub fn list<'b>(datagram: &[u8], config: &Config, out: &'b mut [u8]) -> Result<&'b str, Refusal> {
    let text = ffi::list(datagram, config.as_bytes(), out).written(out)?;
    Ok(core::str::from_utf8(text).expect("a listing is ASCII"))
}

/// How many bytes [`list`] puts for a datagram.
pub fn list_length(datagram: &[u8], config: &Config) -> usize {
    ffi::list_length(datagram, config.as_bytes()).value() as usize
}
