//! Why a conversion ends early.
use std::fmt;
use std::io;

/// A device that failed, or the place of a record (the header is 1) or a byte and what is wrong there.
#[derive(Debug)]
pub enum Fault {
    Device(io::Error),
    Record(u64, &'static str),
    Byte(u64, &'static str),
}

impl From<io::Error> for Fault {
    fn from(error: io::Error) -> Fault {
        Fault::Device(error)
    }
}

impl fmt::Display for Fault {
    fn fmt(&self, to: &mut fmt::Formatter<'_>) -> fmt::Result {
        match self {
            Fault::Device(error) => write!(to, "{error}"),
            Fault::Record(number, reason) => write!(to, "record {number}: {reason}"),
            Fault::Byte(offset, reason) => write!(to, "byte {offset}: {reason}"),
        }
    }
}
