use std::error;
use std::fmt;

/// An error indicating user-provided data is invalid.
///
/// When decoding a packet this error can occur if the packet is invalid or corrupted, or if it has
/// been truncated. What the original panics at is such an error too.
#[derive(Clone, Copy, Debug, Eq, PartialEq)]
pub struct InvalidData {
    number: u32,
    message: &'static str,
}

/// In the order of document 01's table, from 1. Where the original has the cause, the message is its own.
const MESSAGES: [&str; 21] = [
    "magic cookie is not the correct length",
    "stream is not supported",
    "output or scratch is too short",
    "packet is not long enough",
    "packet contains more channels than expected",
    "unused channel header bits must be zero",
    "channel sample shift must not be greater than 16",
    "channel contains more samples than expected",
    "channel bit depth cannot be greater than 32",
    "channel bit depth cannot be zero",
    "channel parameters are out of range",
    "invalid lpc mode",
    "zero block contains too many samples for channel",
    "packet cce and pce elements are unsupported",
    "all channels in a packet must contain the same number of samples",
    "sample shift cannot be greater than zero for uncompressed channels",
    "packet contains fewer channels than expected",
    "packet fill elements with short count 15 are unsupported",
    "packing settings are out of range",
    "passage is longer than a frame or not a multiple of the channels",
    "packet is longer than the bytes lent for it",
];

impl InvalidData {
    /// The cause's number in the table of docs/01-scope.md, 1 to 21.
    pub fn number(&self) -> u32 {
        self.number
    }

    /// The cause in words.
    pub fn message(&self) -> &'static str {
        self.message
    }

    /// What a number of the library says: 0 is no error.
    pub(crate) fn check(number: u32) -> Result<(), InvalidData> {
        match number.checked_sub(1) {
            None => Ok(()),
            Some(row) => {
                let message = MESSAGES.get(row as usize).copied();
                Err(InvalidData { number, message: message.unwrap_or("unknown cause") })
            }
        }
    }
}

impl error::Error for InvalidData {
    fn description(&self) -> &str {
        self.message
    }
}

impl fmt::Display for InvalidData {
    fn fmt(&self, f: &mut fmt::Formatter) -> fmt::Result {
        f.write_str(self.message)
    }
}
