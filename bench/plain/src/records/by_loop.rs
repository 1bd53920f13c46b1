//! Records by a loop: fields may be quoted, a quote inside is doubled, lines end by LF or CRLF, empty lines are passed over.
use std::io::{self, BufRead, BufReader, Read};

#[derive(Clone, Copy, PartialEq)]
enum State {
    RecordStart,
    FieldStart,
    Plain,
    Quoted,
    BehindQuote,
    Whole,
}

impl State {
    /// How many of these bytes only join a field in this state.
    fn run_len(self, bytes: &[u8]) -> usize {
        let run = match self {
            State::Plain => bytes
                .iter()
                .position(|byte| matches!(byte, b',' | b'\n' | b'\r')),
            State::Quoted => bytes.iter().position(|&byte| byte == b'"'),
            _ => Some(0),
        };
        run.unwrap_or(bytes.len())
    }
}

/// The fields of a record, one after another, and where each ends.
#[derive(Default)]
struct Fields {
    text: Vec<u8>,
    ends: Vec<usize>,
}

impl Fields {
    fn end_field(&mut self) {
        self.ends.push(self.text.len());
    }

    /// The state behind a byte.
    fn take(&mut self, state: State, byte: u8) -> State {
        match (state, byte) {
            (State::RecordStart, b'\n' | b'\r') => State::RecordStart,
            (State::Quoted, _) => State::BehindQuote,
            (State::RecordStart | State::FieldStart, b'"') => State::Quoted,
            (_, b'\n' | b'\r') => {
                self.end_field();
                State::Whole
            }
            (_, b',') => {
                self.end_field();
                State::FieldStart
            }
            (State::BehindQuote, b'"') => {
                self.text.push(byte);
                State::Quoted
            }
            _ => {
                self.text.push(byte);
                State::Plain
            }
        }
    }

    /// The state behind these bytes or the end of the record, and how many were taken.
    fn take_all(&mut self, mut state: State, bytes: &[u8]) -> (State, usize) {
        let mut at = 0;
        while at < bytes.len() && state != State::Whole {
            let run = state.run_len(&bytes[at..]);
            self.text.extend_from_slice(&bytes[at..at + run]);
            at += run;
            if let Some(&byte) = bytes.get(at) {
                state = self.take(state, byte);
                at += 1;
            }
        }
        (state, at)
    }
}

pub struct Records<R> {
    device: BufReader<R>,
    fields: Fields,
}

impl<R: Read> Records<R> {
    /// What the records are read by.
    pub const READ_BY: &'static str = "a loop";

    pub fn new(device: R) -> Records<R> {
        Records {
            device: BufReader::with_capacity(1 << 16, device),
            fields: Fields::default(),
        }
    }

    /// Whether there was one more record, which is held now.
    pub fn advance(&mut self) -> io::Result<bool> {
        self.fields.text.clear();
        self.fields.ends.clear();
        let mut state = State::RecordStart;
        while state != State::Whole {
            let bytes = self.device.fill_buf()?;
            if bytes.is_empty() {
                if state != State::RecordStart {
                    self.fields.end_field();
                }
                return Ok(state != State::RecordStart);
            }
            let taken;
            (state, taken) = self.fields.take_all(state, bytes);
            self.device.consume(taken);
        }
        Ok(true)
    }

    /// How many fields the record has that is held.
    pub fn count(&self) -> usize {
        self.fields.ends.len()
    }

    /// A field of the record that is held, counted from 0.
    pub fn field(&self, place: usize) -> &[u8] {
        let begin = if place == 0 {
            0
        } else {
            self.fields.ends[place - 1]
        };
        &self.fields.text[begin..self.fields.ends[place]]
    }
}
