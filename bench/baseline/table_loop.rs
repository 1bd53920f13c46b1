//! What the reader of tables is measured against: tables made by a fixed generator, and one plain loop that decodes the
//! polylines of their records. Plain Rust, std alone:
//!
//!     rustc -O table_loop.rs
//!     ./table_loop make points|lines|multipolygons|collections BYTES FILE     a table of at least so many bytes
//!     ./table_loop decode FILE                                                points, a sum, and the best seconds
mod numbers;

use numbers::Numbers;
use std::fs;
use std::io::{BufWriter, Write};
use std::time::Instant;

/// Points of a line.
const LINE_POINTS: u64 = 1000;

/// Points of a ring.
const RING_POINTS: u64 = 20;

/// How deep collections stand in each other.
const NEST: u64 = 8;

/// How often the loop is timed.
const RUNS: usize = 5;

fn put_number(text: &mut Vec<u8>, step: i64) {
    let mut number = (step << 1 ^ step >> 63) as u64;
    while number >= 0x20 {
        text.push((number as u8 & 0x1F | 0x20) + 63);
        number >>= 5;
    }
    text.push(number as u8 + 63);
}

/// A point anywhere on the earth with 5 decimals, and behind it points that are at most 100 units from one to the next.
fn put_polyline(text: &mut Vec<u8>, numbers: &mut Numbers, count: u64) {
    put_number(text, numbers.up_to(9_000_000));
    put_number(text, numbers.up_to(18_000_000));
    for _ in 1..count {
        put_number(text, numbers.up_to(100));
        put_number(text, numbers.up_to(100));
    }
}

fn put_row(text: &mut Vec<u8>, numbers: &mut Numbers, fields: &str, count: u64) {
    text.extend_from_slice(fields.as_bytes());
    if count > 0 {
        put_polyline(text, numbers, count);
    }
    text.push(b'\n');
}

fn put_geometry(text: &mut Vec<u8>, numbers: &mut Numbers, kind: &str) {
    match kind {
        "points" => put_row(text, numbers, "0,point,,5,", 1),
        "lines" => put_row(text, numbers, "0,linestring,,5,", LINE_POINTS),
        "multipolygons" => {
            put_row(text, numbers, "0,multipolygon,,5,", 0);
            for _ in 0..5 {
                put_row(text, numbers, "1,polygon,,,", 0);
                put_row(text, numbers, "2,ring,,,", RING_POINTS);
                put_row(text, numbers, "2,ring,,,", RING_POINTS);
            }
        }
        "collections" => {
            for depth in 0..NEST {
                put_row(text, numbers, &format!("{depth},collection,,5,"), 0);
            }
            for _ in 0..10 {
                put_row(text, numbers, &format!("{NEST},linestring,,5,"), RING_POINTS);
            }
        }
        _ => panic!("points, lines, multipolygons or collections"),
    }
}

fn make(kind: &str, size: u64, path: &str) {
    let mut file = BufWriter::new(fs::File::create(path).expect("a file"));
    let (mut text, mut numbers) = (b"depth,kind,id,precision,polyline\n".to_vec(), Numbers(1));
    let mut written = 0;
    while written < size {
        put_geometry(&mut text, &mut numbers, kind);
        file.write_all(&text).expect("a write");
        written += text.len() as u64;
        text.clear();
    }
}

/// The number at this place of a text, and the place behind it.
#[inline(always)]
fn number(text: &[u8], mut at: usize) -> Option<(i64, usize)> {
    let (mut value, mut shift) = (0u64, 0);
    loop {
        let group = text.get(at)?.wrapping_sub(63);
        at += 1;
        if group > 63 || shift == 60 && group > 15 {
            return None;
        }
        value |= u64::from(group & 0x1F) << shift;
        if group < 0x20 {
            return Some(((value >> 1) as i64 ^ -((value & 1) as i64), at));
        }
        shift += 5;
    }
}

/// Appends the points of a polyline.
fn decode(text: &[u8], points: &mut Vec<(i64, i64)>) -> Option<()> {
    let (mut at, mut x, mut y) = (0, 0i64, 0i64);
    while at < text.len() {
        let (dy, behind) = number(text, at)?;
        let (dx, behind) = number(text, behind)?;
        (x, y, at) = (x.checked_add(dx)?, y.checked_add(dy)?, behind);
        points.push((x, y));
    }
    Some(())
}

/// The polylines of a table without quotes, one after another, and how long each is.
fn polylines(table: &[u8]) -> Vec<&[u8]> {
    let rows = table.split(|&byte| byte == b'\n').skip(1).filter(|row| !row.is_empty());
    rows.map(|row| row.splitn(5, |&byte| byte == b',').last().expect("five fields")).collect()
}

fn main() {
    let words: Vec<String> = std::env::args().skip(1).collect();
    let words: Vec<&str> = words.iter().map(String::as_str).collect();
    match words[..] {
        ["make", kind, size, path] => make(kind, size.parse().expect("a size"), path),
        ["decode", path] => {
            let table = fs::read(path).expect("a file");
            let texts = polylines(&table);
            let (mut best, mut count, mut sum, mut points) = (f64::MAX, 0, 0i64, Vec::new());
            for _ in 0..RUNS {
                let begin = Instant::now();
                (count, sum) = (0, 0);
                for text in &texts {
                    points.clear();
                    decode(text, &mut points).expect("a polyline");
                    count += points.len();
                    sum = points.iter().fold(sum, |sum, &(x, y)| sum.wrapping_add(x ^ y));
                }
                best = best.min(begin.elapsed().as_secs_f64());
            }
            println!("{count} {sum} {best:.6}");
        }
        _ => panic!("make KIND BYTES FILE, or decode FILE"),
    }
}
