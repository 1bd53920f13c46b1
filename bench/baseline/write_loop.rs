//! What the writer is measured against: the lines of a canonical stream (see read_loop.rs), kept as lists of points and
//! spelled again as canonical blobs by one plain loop over each list. Plain Rust, std alone:
//!
//!     rustc -O write_loop.rs
//!     ./write_loop FILE TIMES > stream      spells all lines so many times; seconds on standard error
use std::io::{BufWriter, Write};
use std::time::Instant;

/// The number at this place, and the place behind it.
fn number(bytes: &[u8], mut at: usize) -> (u64, usize) {
    let (mut value, mut shift) = (0, 0);
    loop {
        let byte = bytes[at];
        at += 1;
        value |= u64::from(byte & 0x7F) << shift;
        if byte < 0x80 {
            return (value, at);
        }
        shift += 7;
    }
}

fn step(bytes: &[u8], at: usize) -> (i64, usize) {
    let (form, at) = number(bytes, at);
    ((form >> 1) as i64 ^ -((form & 1) as i64), at)
}

fn lines_of(bytes: &[u8]) -> Vec<Vec<(i64, i64)>> {
    let (mut lines, mut at) = (Vec::new(), 0);
    while at < bytes.len() {
        let (_, from) = number(bytes, at + 2);
        let (count, mut next) = number(bytes, from);
        let (mut x, mut y, mut line) = (0, 0, Vec::new());
        for _ in 0..count {
            let (dx, behind) = step(bytes, next);
            let (dy, behind) = step(bytes, behind);
            (x, y, next) = (x + dx, y + dy, behind);
            line.push((x, y));
        }
        lines.push(line);
        at = next;
    }
    lines
}

#[inline(always)]
fn put_number(bytes: &mut Vec<u8>, mut number: u64) {
    while number >= 0x80 {
        bytes.push(number as u8 | 0x80);
        number >>= 7;
    }
    bytes.push(number as u8);
}

#[inline(always)]
fn put_step(bytes: &mut Vec<u8>, step: i64) {
    put_number(bytes, (step << 1 ^ step >> 63) as u64);
}

/// A canonical blob: type byte with precision 5, metadata byte with a size, the size, the body.
fn put_line(head: &mut Vec<u8>, body: &mut Vec<u8>, line: &[(i64, i64)]) {
    body.clear();
    put_number(body, line.len() as u64);
    let (mut x, mut y) = (0, 0);
    for &(to_x, to_y) in line {
        put_step(body, to_x - x);
        put_step(body, to_y - y);
        (x, y) = (to_x, to_y);
    }
    head.clear();
    head.extend([0xA2, 0x02]);
    put_number(head, body.len() as u64);
}

fn main() {
    let words: Vec<String> = std::env::args().collect();
    let lines = lines_of(&std::fs::read(&words[1]).expect("a file"));
    let times: u64 = words[2].parse().expect("a number");
    let mut out = BufWriter::new(std::io::stdout().lock());
    let (mut head, mut body) = (Vec::new(), Vec::new());
    let begin = Instant::now();
    for _ in 0..times {
        for line in &lines {
            put_line(&mut head, &mut body, line);
            out.write_all(&head).expect("a write");
            out.write_all(&body).expect("a write");
        }
    }
    out.flush().expect("a flush");
    eprintln!("{:.6}", begin.elapsed().as_secs_f64());
}
