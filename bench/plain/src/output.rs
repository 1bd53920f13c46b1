//! Bytes that go to a device, a buffer at a time.
use std::io::{self, Write};

/// How many bytes are held before they are sent.
const ROOM: usize = 1 << 16;

pub struct Output<W> {
    device: W,
    pub held: Vec<u8>,
}

impl<W: Write> Output<W> {
    pub fn new(device: W) -> Output<W> {
        Output {
            device,
            held: Vec::with_capacity(ROOM + ROOM / 4),
        }
    }

    /// Sends what is held, where it is enough for a write.
    pub fn send_some(&mut self) -> io::Result<()> {
        if self.held.len() >= ROOM {
            self.send()?;
        }
        Ok(())
    }

    pub fn send(&mut self) -> io::Result<()> {
        self.device.write_all(&self.held)?;
        self.held.clear();
        Ok(())
    }
}
