//! What the reader is measured against: one plain loop over a slice of canonical TWKB blobs that decodes their varints, adds the
//! differences and checks the range and the sizes, and keeps nothing; the same loop, which keeps the rows and points of each blob in
//! two lists; and a fixed generator of blobs of points and lines. Plain Rust, std alone:
//!
//!     rustc -O read_loop.rs
//!     ./read_loop make lines|points BYTES FILE      writes blobs of at least so many bytes
//!     ./read_loop read FILE                         blobs, points, and the best seconds of the runs
//!     ./read_loop keep FILE                         the same, by the loop that keeps rows
mod numbers;

use numbers::Numbers;
use std::fs;
use std::io::{BufWriter, Write};
use std::time::Instant;

/// Points of a line.
const LINE_POINTS: u64 = 1000;

/// How often the loop is timed.
const RUNS: usize = 5;

const LEAST: i64 = -(1 << 62);
const GREATEST: i64 = (1 << 62) - 1;

fn put_number(bytes: &mut Vec<u8>, mut number: u64) {
    while number >= 0x80 {
        bytes.push(number as u8 | 0x80);
        number >>= 7;
    }
    bytes.push(number as u8);
}

fn put_step(bytes: &mut Vec<u8>, step: i64) {
    put_number(bytes, (step << 1 ^ step >> 63) as u64);
}

/// A point anywhere on the earth with 5 decimals, and behind it points that are at most 100 units from one to the next.
fn put_points(bytes: &mut Vec<u8>, numbers: &mut Numbers, count: u64) {
    put_step(bytes, numbers.up_to(18_000_000));
    put_step(bytes, numbers.up_to(9_000_000));
    for _ in 1..count {
        put_step(bytes, numbers.up_to(100));
        put_step(bytes, numbers.up_to(100));
    }
}

/// A canonical blob: type byte with precision 5, metadata byte with a size, the size, the body.
fn put_blob(blob: &mut Vec<u8>, body: &mut Vec<u8>, numbers: &mut Numbers, line: bool) {
    body.clear();
    if line {
        put_number(body, LINE_POINTS);
    }
    put_points(body, numbers, if line { LINE_POINTS } else { 1 });
    blob.clear();
    blob.extend([0xA0 | if line { 2 } else { 1 }, 0x02]);
    put_number(blob, body.len() as u64);
    blob.extend_from_slice(body);
}

fn make(line: bool, size: u64, path: &str) {
    let mut file = BufWriter::new(fs::File::create(path).expect("a file"));
    let (mut blob, mut body, mut numbers) = (Vec::new(), Vec::new(), Numbers(1));
    let mut written = 0;
    while written < size {
        put_blob(&mut blob, &mut body, &mut numbers, line);
        file.write_all(&blob).expect("a write");
        written += blob.len() as u64;
    }
}

/// The number at this place, and the place behind it.
#[inline(always)]
fn number(bytes: &[u8], mut at: usize) -> Option<(u64, usize)> {
    let mut value = 0u64;
    let mut shift = 0;
    loop {
        let byte = *bytes.get(at)?;
        at += 1;
        let group = u64::from(byte & 0x7F);
        if shift == 63 && byte > 1 {
            return None;
        }
        value |= group << shift;
        if byte < 0x80 {
            return Some((value, at));
        }
        shift += 7;
    }
}

/// The coordinate behind a step, in range, and the place behind the step.
#[inline(always)]
fn stepped(bytes: &[u8], at: usize, from: i64) -> Option<(i64, usize)> {
    let (form, at) = number(bytes, at)?;
    let step = (form >> 1) as i64 ^ -((form & 1) as i64);
    let to = from.checked_add(step)?;
    if LEAST <= to && to <= GREATEST { Some((to, at)) } else { None }
}

/// What is done with what the loop reads.
trait Keeps {
    /// Whether ids are looked at again where their members stand.
    const IDS: bool;
    /// A blob begins.
    fn begin(&mut self);
    /// A row of this depth, type, id and precision, whose points follow.
    fn row(&mut self, depth: u32, kind: u8, id: Option<i64>, precision: Option<i8>);
    /// A point of the last row.
    fn point(&mut self, x: i64, y: i64);
    /// How many points there were, and a sum of their coordinates, so that none is left out.
    fn found(&self) -> (u64, i64);
}

/// Keeps nothing.
#[derive(Default)]
struct Counted {
    points: u64,
    sum: i64,
}

impl Keeps for Counted {
    const IDS: bool = false;

    #[inline(always)]
    fn begin(&mut self) {}

    #[inline(always)]
    fn row(&mut self, _: u32, _: u8, _: Option<i64>, _: Option<i8>) {}

    #[inline(always)]
    fn point(&mut self, x: i64, y: i64) {
        self.points += 1;
        self.sum = self.sum.wrapping_add(x).wrapping_add(y);
    }

    fn found(&self) -> (u64, i64) {
        (self.points, self.sum)
    }
}

/// A row, and where its points are.
struct Row {
    depth: u32,
    kind: u8,
    id: Option<i64>,
    precision: Option<i8>,
    first: u32,
    points: u32,
}

/// Keeps the rows of a blob, in room that the blobs before it left.
#[derive(Default)]
struct Kept {
    rows: Vec<Row>,
    points: Vec<(i64, i64)>,
    all: u64,
    sum: i64,
}

impl Keeps for Kept {
    const IDS: bool = true;

    fn begin(&mut self) {
        self.all += self.points.len() as u64;
        for row in self.rows.iter().rev().take(1) {
            let from = i64::from(row.depth) + i64::from(row.kind) + i64::from(row.first) + i64::from(row.points);
            self.sum = self.sum.wrapping_add(from + row.id.unwrap_or(0) + i64::from(row.precision.unwrap_or(0)));
        }
        self.rows.clear();
        self.points.clear();
    }

    #[inline(always)]
    fn row(&mut self, depth: u32, kind: u8, id: Option<i64>, precision: Option<i8>) {
        let first = self.points.len() as u32;
        self.rows.push(Row { depth, kind, id, precision, first, points: 0 });
    }

    #[inline(always)]
    fn point(&mut self, x: i64, y: i64) {
        self.points.push((x, y));
        if let Some(row) = self.rows.last_mut() {
            row.points += 1;
        }
    }

    fn found(&self) -> (u64, i64) {
        (self.all + self.points.len() as u64, self.sum)
    }
}

/// Where a geometry's positions stand.
#[derive(Default)]
struct Position {
    x: i64,
    y: i64,
}

/// Which rows a list has, and how deep they stand.
#[derive(Clone, Copy)]
struct Place {
    depth: u32,
    kind: u8,
    id: Option<i64>,
    precision: Option<i8>,
}

impl Place {
    fn below(self, kind: u8, id: Option<i64>) -> Place {
        Place { depth: self.depth + 1, kind, id, precision: None }
    }
}

/// The kind of a ring, beside the types.
const RING: u8 = 8;

/// Reads so many points; the place behind them.
#[inline(always)]
fn points<K: Keeps>(bytes: &[u8], mut at: usize, count: u64, position: &mut Position, kept: &mut K) -> Option<usize> {
    for _ in 0..count {
        (position.x, at) = stepped(bytes, at, position.x)?;
        (position.y, at) = stepped(bytes, at, position.y)?;
        kept.point(position.x, position.y);
    }
    Some(at)
}

/// Reads a line, a ring or a polygon, by the kind of its row.
fn lists<K: Keeps>(bytes: &[u8], at: usize, place: Place, position: &mut Position, kept: &mut K) -> Option<usize> {
    kept.row(place.depth, place.kind, place.id, place.precision);
    let (count, mut at) = number(bytes, at)?;
    if place.kind != 3 {
        return points(bytes, at, count, position, kept);
    }
    for _ in 0..count {
        at = lists(bytes, at, place.below(RING, None), position, kept)?;
    }
    Some(at)
}

/// Reads what a count of members stands before: ids, and then the members.
fn members<K: Keeps>(bytes: &[u8], at: usize, place: Place, has_ids: bool, kept: &mut K) -> Option<usize> {
    kept.row(place.depth, place.kind, place.id, place.precision);
    let (count, mut at) = number(bytes, at)?;
    let mut id_at = at;
    if has_ids {
        for _ in 0..count {
            (_, at) = number(bytes, at)?;
        }
    }
    let mut position = Position::default();
    for _ in 0..count {
        let mut id = None;
        if K::IDS && has_ids {
            let (form, behind) = number(bytes, id_at)?;
            (id, id_at) = (Some((form >> 1) as i64 ^ -((form & 1) as i64)), behind);
        }
        let member = place.below(place.kind - 3, id);
        at = match place.kind {
            4 => {
                kept.row(member.depth, member.kind, member.id, None);
                points(bytes, at, 1, &mut position, kept)?
            }
            7 => geometry(bytes, at, member.depth, id, kept)?,
            _ => lists(bytes, at, member, &mut position, kept)?,
        };
    }
    Some(at)
}

/// Reads a geometry; the place behind it.
fn geometry<K: Keeps>(bytes: &[u8], at: usize, depth: u32, id: Option<i64>, kept: &mut K) -> Option<usize> {
    let form = bytes.get(at)? >> 4;
    let precision = Some((form >> 1) as i8 ^ -((form & 1) as i8));
    let place = Place { depth, kind: bytes.get(at)? & 0x0F, id, precision };
    let metadata = *bytes.get(at + 1)?;
    let (size, from) = number(bytes, at + 2)?;
    let mut next = from;
    if metadata & 0x01 != 0 {
        for _ in 0..4 {
            (_, next) = number(bytes, next)?;
        }
    }
    if metadata & 0x10 != 0 {
        kept.row(depth, place.kind, id, precision);
    } else {
        let mut position = Position::default();
        next = match place.kind {
            1 => {
                kept.row(depth, 1, id, precision);
                points(bytes, next, 1, &mut position, kept)?
            }
            2 | 3 => lists(bytes, next, place, &mut position, kept)?,
            4..=7 => members(bytes, next, place, metadata & 0x04 != 0, kept)?,
            _ => return None,
        };
    }
    if metadata & 0x02 == 0 || (next - from) as u64 != size { None } else { Some(next) }
}

/// How many blobs the bytes have, and what is found in them.
fn read<K: Keeps>(bytes: &[u8], mut kept: K) -> Option<(u64, u64, i64)> {
    let (mut at, mut blobs) = (0, 0);
    while at < bytes.len() {
        kept.begin();
        at = geometry(bytes, at, 0, None, &mut kept)?;
        blobs += 1;
    }
    let (points, sum) = kept.found();
    Some((blobs, points, sum))
}

/// Times the loop over the file's blobs.
fn time<K: Keeps + Default>(path: &str) {
    let bytes = fs::read(path).expect("a file");
    let mut best = f64::MAX;
    let mut found = None;
    for _ in 0..RUNS {
        let begin = Instant::now();
        found = read(&bytes, K::default());
        best = best.min(begin.elapsed().as_secs_f64());
    }
    let (blobs, points, sum) = found.expect("canonical blobs");
    println!("{blobs} {points} {sum} {best:.6}");
}

fn main() {
    let words: Vec<String> = std::env::args().skip(1).collect();
    let words: Vec<&str> = words.iter().map(String::as_str).collect();
    match words[..] {
        ["make", kind, size, path] => make(kind == "lines", size.parse().expect("a size"), path),
        ["read", path] => time::<Counted>(path),
        ["keep", path] => time::<Kept>(path),
        _ => panic!("make lines|points BYTES FILE, read FILE, or keep FILE"),
    }
}
