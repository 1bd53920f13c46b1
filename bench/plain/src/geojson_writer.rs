//! Geometries to lines of GeoJSON.
use crate::geometry::{Geometry, Kind, Point};
use crate::numbers::put_signed_decimal;
use crate::output::Output;
use std::io::{self, Write};

/// The decimals of 0 to 99, two digits each.
const PAIRS: &[u8; 200] = b"0001020304050607080910111213141516171819\
    2021222324252627282930313233343536373839\
    4041424344454647484950515253545556575859\
    6061626364656667686970717273747576777879\
    8081828384858687888990919293949596979899";

const TENS: [u64; 8] = [1, 10, 100, 1_000, 10_000, 100_000, 1_000_000, 10_000_000];

/// The longest decimal of a coordinate.
const LONGEST: usize = 32;

/// Appends the line of a geometry.
pub fn put_geojson<W: Write>(geometry: &Geometry, output: &mut Output<W>) -> io::Result<()> {
    put_object(geometry, 0, &mut output.held);
    output.held.push(b'\n');
    output.send_some()
}

fn type_of(kind: Kind) -> &'static str {
    match kind {
        Kind::Point => "Point",
        Kind::LineString => "LineString",
        Kind::Polygon => "Polygon",
        Kind::MultiPoint => "MultiPoint",
        Kind::MultiLineString => "MultiLineString",
        Kind::MultiPolygon => "MultiPolygon",
        Kind::Collection => "GeometryCollection",
        Kind::Ring => "",
    }
}

/// Appends the object of the geometry whose row is at a place, and returns the place after its last
/// row.
fn put_object(geometry: &Geometry, at: usize, text: &mut Vec<u8>) -> usize {
    let label = geometry.rows[at].label;
    let precision = label.precision.unwrap_or(0);
    text.extend_from_slice(b"{\"type\":\"");
    text.extend_from_slice(type_of(label.kind).as_bytes());
    text.extend_from_slice(b"\",");
    put_ids(geometry, at, text);
    let next = if label.kind == Kind::Collection {
        text.extend_from_slice(b"\"geometries\":");
        put_children(geometry, at, text, put_object)
    } else {
        text.extend_from_slice(b"\"coordinates\":");
        put_part(geometry, at, precision, text)
    };
    text.push(b'}');
    next
}

/// Appends the ids of the rows below a row, if they have any.
fn put_ids(geometry: &Geometry, at: usize, text: &mut Vec<u8>) {
    let depth = geometry.rows[at].label.depth;
    if geometry
        .rows
        .get(at + 1)
        .is_none_or(|row| row.label.depth <= depth || row.label.id.is_none())
    {
        return;
    }
    text.extend_from_slice(b"\"ids\":[");
    for row in &geometry.rows[at + 1..] {
        if row.label.depth <= depth {
            break;
        }
        if let (true, Some(id)) = (row.label.depth == depth + 1, row.label.id) {
            put_signed_decimal(text, id);
            text.push(b',');
        }
    }
    text.pop();
    text.extend_from_slice(b"],");
}

/// Appends what is below a row, in brackets.
fn put_children(
    geometry: &Geometry,
    at: usize,
    text: &mut Vec<u8>,
    put: impl Fn(&Geometry, usize, &mut Vec<u8>) -> usize,
) -> usize {
    let depth = geometry.rows[at].label.depth;
    let mut next = at + 1;
    text.push(b'[');
    while geometry
        .rows
        .get(next)
        .is_some_and(|row| row.label.depth > depth)
    {
        if next > at + 1 {
            text.push(b',');
        }
        next = put(geometry, next, text);
    }
    text.push(b']');
    next
}

/// Appends the coordinates of a row and of those below it.
fn put_part(geometry: &Geometry, at: usize, precision: i8, text: &mut Vec<u8>) -> usize {
    let row = &geometry.rows[at];
    let points = geometry.points_of(row);
    match (row.label.kind, points) {
        (Kind::Point, [point]) => put_position(*point, precision, text),
        (Kind::Point | Kind::LineString | Kind::Ring, _) => {
            put_positions(points, precision, text);
        }
        _ => {
            return put_children(geometry, at, text, |geometry, child, text| {
                put_part(geometry, child, precision, text)
            });
        }
    }
    at + 1
}

fn put_positions(points: &[Point], precision: i8, text: &mut Vec<u8>) {
    text.push(b'[');
    for (place, point) in points.iter().enumerate() {
        if place > 0 {
            text.push(b',');
        }
        put_position(*point, precision, text);
    }
    text.push(b']');
}

#[inline]
fn put_position(point: Point, precision: i8, text: &mut Vec<u8>) {
    text.push(b'[');
    put_coordinate(point.x, precision, text);
    text.push(b',');
    put_coordinate(point.y, precision, text);
    text.push(b']');
}

/// Appends a coordinate: its digits from the last to the first, gathered at the end of a buffer.
#[inline]
fn put_coordinate(units: i64, precision: i8, text: &mut Vec<u8>) {
    let mut buffer = [b'0'; LONGEST];
    let mut first = LONGEST;
    let mut size = units.unsigned_abs();
    if precision > 0 {
        let scale = TENS[precision as usize];
        let mut fraction = size % scale;
        size /= scale;
        let mut places = precision as usize;
        if fraction != 0 {
            while fraction.is_multiple_of(10) {
                fraction /= 10;
                places -= 1;
            }
            first = put_digits(fraction, &mut buffer, LONGEST).min(LONGEST - places) - 1;
            buffer[first] = b'.';
        }
    } else if size != 0 {
        first -= usize::from(precision.unsigned_abs());
    }
    first = put_digits(size, &mut buffer, first);
    if units < 0 {
        first -= 1;
        buffer[first] = b'-';
    }
    text.extend_from_slice(&buffer[first..]);
}

/// Writes the digits of a number before a place of a buffer, and returns where they begin. The rest
/// of the buffer stays.
#[inline]
fn put_digits(mut number: u64, buffer: &mut [u8; LONGEST], end: usize) -> usize {
    let mut first = end;
    while number >= 100 {
        let pair = 2 * (number % 100) as usize;
        number /= 100;
        first -= 2;
        buffer[first..first + 2].copy_from_slice(&PAIRS[pair..pair + 2]);
    }
    if number >= 10 {
        let pair = 2 * number as usize;
        first -= 2;
        buffer[first..first + 2].copy_from_slice(&PAIRS[pair..pair + 2]);
    } else {
        first -= 1;
        buffer[first] = b'0' + number as u8;
    }
    first
}
