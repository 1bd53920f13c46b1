//! The canonical blob of a geometry, with sizes and boxes.
use crate::geometry::{Geometry, Kind, Point, Row};
use crate::header::{HAS_BOX, HAS_IDS, HAS_SIZE, IS_EMPTY};
use crate::numbers::{put_varint, varint_len, zigzag};

/// The box round points; without points its least number is above its greatest.
#[derive(Clone, Copy)]
struct Bounds {
    least: Point,
    greatest: Point,
}

impl Bounds {
    const NONE: Bounds = Bounds {
        least: Point {
            x: i64::MAX,
            y: i64::MAX,
        },
        greatest: Point {
            x: i64::MIN,
            y: i64::MIN,
        },
    };

    fn has_points(&self) -> bool {
        self.least.x <= self.greatest.x
    }

    #[inline]
    fn take_in(&mut self, least: Point, greatest: Point) {
        self.least = Point {
            x: self.least.x.min(least.x),
            y: self.least.y.min(least.y),
        };
        self.greatest = Point {
            x: self.greatest.x.max(greatest.x),
            y: self.greatest.y.max(greatest.y),
        };
    }

    /// The numbers of a box in a blob.
    fn numbers(&self) -> [u64; 4] {
        let (least, greatest) = (self.least, self.greatest);
        [least.x, greatest.x - least.x, least.y, greatest.y - least.y].map(zigzag)
    }
}

/// What was written of a geometry: the row behind it, its box, and whether all members in it have its precision.
struct Written {
    behind: usize,
    bounds: Bounds,
    is_even: bool,
}

/// Appends the blob of a geometry.
pub fn put_blob(geometry: &Geometry, to: &mut Vec<u8>) {
    put_geometry(geometry, 0, to);
}

/// Appends the geometry whose row stands at this place: its body, and then its header, which is turned to the front.
fn put_geometry(geometry: &Geometry, place: usize, to: &mut Vec<u8>) -> Written {
    let (row, begin) = (&geometry.rows[place], to.len());
    let written = if row.label.kind == Kind::Collection {
        put_members(geometry, place, to)
    } else {
        put_parts(geometry, place, to)
    };
    let length = to.len() - begin;
    put_head(geometry, place, &written, length, to);
    let head = to.len() - begin - length;
    to[begin..].rotate_right(head);
    written
}

fn is_empty(row: &Row) -> bool {
    if row.label.kind.has_points() {
        row.first == row.last
    } else {
        row.children == 0
    }
}

fn has_ids(geometry: &Geometry, place: usize) -> bool {
    geometry.rows[place].children > 0 && geometry.rows[place + 1].label.id.is_some()
}

/// Appends type, metadata, size and box of a geometry with a body of this length.
fn put_head(geometry: &Geometry, place: usize, written: &Written, length: usize, to: &mut Vec<u8>) {
    let row = &geometry.rows[place];
    let precision = zigzag(row.label.precision.unwrap_or(0).into()) as u8;
    let mut metadata = HAS_SIZE;
    if has_ids(geometry, place) {
        metadata |= HAS_IDS;
    }
    if is_empty(row) {
        metadata |= IS_EMPTY;
    }
    to.push(row.label.kind.code() | precision << 4);
    if row.label.kind == Kind::Point || !written.is_even || !written.bounds.has_points() {
        to.push(metadata);
        return put_varint(to, length as u64);
    }
    to.push(metadata | HAS_BOX);
    let numbers = written.bounds.numbers();
    let box_len: usize = numbers.iter().map(|&number| varint_len(number)).sum();
    put_varint(to, (box_len + length) as u64);
    for number in numbers {
        put_varint(to, number);
    }
}

/// Appends how many children a row has, and their ids.
fn put_count(geometry: &Geometry, place: usize, to: &mut Vec<u8>) {
    let row = &geometry.rows[place];
    put_varint(to, row.children);
    if has_ids(geometry, place) {
        let below = geometry.rows[place + 1..]
            .iter()
            .take_while(|other| other.label.depth > row.label.depth);
        for child in below.filter(|other| other.label.depth == row.label.depth + 1) {
            put_varint(to, zigzag(child.label.id.unwrap_or(0)));
        }
    }
}

/// Appends the body of a collection.
fn put_members(geometry: &Geometry, place: usize, to: &mut Vec<u8>) -> Written {
    let row = &geometry.rows[place];
    let mut written = Written {
        behind: place + 1,
        bounds: Bounds::NONE,
        is_even: true,
    };
    if row.children == 0 {
        return written;
    }
    put_count(geometry, place, to);
    for _ in 0..row.children {
        let member = put_geometry(geometry, written.behind, to);
        written.is_even &=
            member.is_even && geometry.rows[written.behind].label.precision == row.label.precision;
        written
            .bounds
            .take_in(member.bounds.least, member.bounds.greatest);
        written.behind = member.behind;
    }
    written
}

/// Appends the body of a geometry that is no collection: its rows, one after another.
fn put_parts(geometry: &Geometry, place: usize, to: &mut Vec<u8>) -> Written {
    let root = &geometry.rows[place];
    let mut written = Written {
        behind: place + 1,
        bounds: Bounds::NONE,
        is_even: true,
    };
    if is_empty(root) {
        return written;
    }
    let mut before = put_part(geometry, place, Point::default(), &mut written.bounds, to);
    while geometry
        .rows
        .get(written.behind)
        .is_some_and(|row| row.label.depth > root.label.depth)
    {
        before = put_part(geometry, written.behind, before, &mut written.bounds, to);
        written.behind += 1;
    }
    written
}

/// Appends the count of one row, ids and points; `before` is the point before them, the answer the last of them.
fn put_part(
    geometry: &Geometry,
    place: usize,
    before: Point,
    bounds: &mut Bounds,
    to: &mut Vec<u8>,
) -> Point {
    let row = &geometry.rows[place];
    let points = geometry.points_of(row);
    match row.label.kind {
        Kind::Point => {}
        Kind::LineString | Kind::Ring => put_varint(to, points.len() as u64),
        _ => put_count(geometry, place, to),
    }
    put_points(points, before, bounds, to)
}

fn put_points(points: &[Point], mut before: Point, bounds: &mut Bounds, to: &mut Vec<u8>) -> Point {
    for &point in points {
        put_varint(to, zigzag(point.x - before.x));
        put_varint(to, zigzag(point.y - before.y));
        bounds.take_in(point, point);
        before = point;
    }
    before
}
