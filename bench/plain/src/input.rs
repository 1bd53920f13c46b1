//! Bytes that come from a device, a buffer at a time.
use crate::fault::Fault;
use crate::numbers::{unzigzag, varint};
use std::io::{ErrorKind, Read};

/// Bytes of the buffer.
const ROOM: usize = 1 << 16;

/// Bytes of the longest varint.
const LONGEST_VARINT: usize = 10;

pub struct Input<R> {
    device: R,
    buffer: Vec<u8>,
    at: usize,
    end: usize,
    taken_before: u64,
    has_ended: bool,
}

impl<R: Read> Input<R> {
    pub fn new(device: R) -> Input<R> {
        Input {
            device,
            buffer: vec![0; ROOM],
            at: 0,
            end: 0,
            taken_before: 0,
            has_ended: false,
        }
    }

    /// How many bytes were taken.
    pub fn offset(&self) -> u64 {
        self.taken_before + self.at as u64
    }

    /// Moves what is held to the front, and reads until as many bytes are held as a varint may have, or the device has ended.
    #[cold]
    fn fill(&mut self) -> Result<(), Fault> {
        self.buffer.copy_within(self.at..self.end, 0);
        self.taken_before += self.at as u64;
        self.end -= self.at;
        self.at = 0;
        while !self.has_ended && self.end < LONGEST_VARINT {
            match self.device.read(&mut self.buffer[self.end..]) {
                Ok(0) => self.has_ended = true,
                Ok(count) => self.end += count,
                Err(error) if error.kind() == ErrorKind::Interrupted => {}
                Err(error) => return Err(error.into()),
            }
        }
        Ok(())
    }

    /// The next byte; none where the device has ended.
    pub fn byte(&mut self) -> Result<Option<u8>, Fault> {
        if self.at == self.end && !self.has_ended {
            self.fill()?;
        }
        if self.at == self.end {
            return Ok(None);
        }
        self.at += 1;
        Ok(Some(self.buffer[self.at - 1]))
    }

    /// The next byte, which must be there.
    pub fn needed_byte(&mut self) -> Result<u8, Fault> {
        self.byte()?.ok_or(Fault::Byte(self.offset(), "truncated"))
    }

    #[inline]
    pub fn varint(&mut self) -> Result<u64, Fault> {
        if self.end - self.at < LONGEST_VARINT && !self.has_ended {
            self.fill()?;
        }
        match varint(&self.buffer[self.at..self.end]) {
            Ok((number, length)) => {
                self.at += length;
                Ok(number)
            }
            Err(reason) => Err(Fault::Byte(self.offset(), reason)),
        }
    }

    #[inline]
    pub fn signed_varint(&mut self) -> Result<i64, Fault> {
        Ok(unzigzag(self.varint()?))
    }
}
