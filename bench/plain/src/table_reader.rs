//! Geometries from a table.
use crate::fault::Fault;
use crate::geometry::{Geometry, Kind, Label, Point, Row, MOST_NEST, MOST_POINTS, MOST_ROWS};
use crate::numbers::{decimal, polyline_number, signed_decimal};
use crate::records::Records;
use std::io::Read;

const HEADER: [&[u8]; 5] = [b"depth", b"kind", b"id", b"precision", b"polyline"];

pub struct TableReader<R> {
    records: Records<R>,
    /// The number of the record that is held; the header is 1.
    number: u64,
    /// The record that is held is the first row of the next geometry.
    is_waiting: bool,
    /// The places of the rows that may still have children, one for each depth.
    open: Vec<usize>,
}

/// Appends the points of a polyline.
fn decode(text: &[u8], points: &mut Vec<Point>) -> Result<(), &'static str> {
    let (mut at, mut point) = (0, Point::default());
    while at < text.len() {
        let (y, behind) = polyline_number(text, at)?;
        if behind == text.len() {
            return Err("latitude without longitude");
        }
        let (x, behind) = polyline_number(text, behind)?;
        point = point.moved(x, y).ok_or("coordinate out of range")?;
        points.push(point);
        at = behind;
    }
    Ok(())
}

/// The number in a field that may be empty.
fn optional(field: &[u8], reason: &'static str) -> Result<Option<i64>, &'static str> {
    if field.is_empty() {
        return Ok(None);
    }
    signed_decimal(field).map(Some).ok_or(reason)
}

impl<R: Read> TableReader<R> {
    /// Reads the header.
    pub fn new(device: R) -> Result<TableReader<R>, Fault> {
        let mut records = Records::new(device);
        let has_header = records.advance()? && records.count() == HEADER.len();
        if !has_header || (0..HEADER.len()).any(|place| records.field(place) != HEADER[place]) {
            return Err(Fault::Record(1, "bad header"));
        }
        Ok(TableReader {
            records,
            number: 1,
            is_waiting: false,
            open: Vec::new(),
        })
    }

    /// Whether there was one more geometry, which stands in `geometry` now.
    pub fn next(&mut self, geometry: &mut Geometry) -> Result<bool, Fault> {
        geometry.clear();
        self.open.clear();
        if !self.is_waiting && !self.advance()? {
            return Ok(false);
        }
        self.is_waiting = false;
        loop {
            let depth =
                decimal(self.records.field(0)).ok_or(Fault::Record(self.number, "bad depth"))?;
            if depth == 0 && !geometry.rows.is_empty() {
                self.is_waiting = true;
                return Ok(true);
            }
            self.add_row(depth as usize, geometry)
                .map_err(|reason| Fault::Record(self.number, reason))?;
            if !self.advance()? {
                return Ok(true);
            }
        }
    }

    fn advance(&mut self) -> Result<bool, Fault> {
        self.number += 1;
        let has_record = self.records.advance()?;
        if has_record && self.records.count() != HEADER.len() {
            return Err(Fault::Record(self.number, "not five fields"));
        }
        Ok(has_record)
    }

    /// Appends the row that is held.
    fn add_row(&mut self, depth: usize, geometry: &mut Geometry) -> Result<(), &'static str> {
        let kind = Kind::from_word(self.records.field(1)).ok_or("unknown kind")?;
        let id = optional(self.records.field(2), "bad id")?;
        let precision = optional(self.records.field(3), "bad precision")?;
        if precision.is_some_and(|precision| !(-8..=7).contains(&precision)) {
            return Err("bad precision");
        }
        self.check_place(depth, kind, id, geometry)?;
        if precision.is_some() != self.is_whole(geometry) {
            return Err(if precision.is_some() {
                "precision not allowed"
            } else {
                "precision missing"
            });
        }
        let polyline = self.records.field(4);
        let first = geometry.points.len();
        if !polyline.is_empty() {
            if !kind.has_points() {
                return Err("polyline not allowed");
            }
            decode(polyline, &mut geometry.points)?;
        }
        let last = geometry.points.len();
        if last as u64 > MOST_POINTS {
            return Err("too many points");
        }
        let is_member = self
            .open
            .last()
            .is_some_and(|&parent| geometry.rows[parent].label.kind == Kind::MultiPoint);
        if kind == Kind::Point && (last - first > 1 || is_member && last == first) {
            return Err("wrong number of points");
        }
        self.open.push(geometry.rows.len());
        let precision = precision.map(|precision| precision as i8);
        geometry.rows.push(Row {
            label: Label {
                depth,
                kind,
                id,
                precision,
            },
            children: 0,
            first,
            last,
        });
        Ok(())
    }

    /// Whether the next row is a geometry of its own: a root, or a member of a collection.
    fn is_whole(&self, geometry: &Geometry) -> bool {
        self.open
            .last()
            .is_none_or(|&parent| geometry.rows[parent].label.kind == Kind::Collection)
    }

    /// Closes the rows that this one ends, and counts it in its parent.
    fn check_place(
        &mut self,
        depth: usize,
        kind: Kind,
        id: Option<i64>,
        geometry: &mut Geometry,
    ) -> Result<(), &'static str> {
        if depth > self.open.len() || depth == 0 && kind == Kind::Ring {
            return Err("kind not allowed there");
        }
        self.open.truncate(depth);
        if geometry.rows.len() as u64 == MOST_ROWS {
            return Err("too many rows in one geometry");
        }
        let Some(&place) = self.open.last() else {
            return if id.is_some() {
                Err("id not allowed")
            } else {
                Ok(())
            };
        };
        let parent = geometry.rows[place];
        if !parent.label.kind.may_hold(kind) {
            return Err("kind not allowed there");
        }
        // Round a member of a collection stand collections alone.
        if parent.label.kind == Kind::Collection && depth > MOST_NEST {
            return Err("nested too deep");
        }
        if kind == Kind::Ring && id.is_some() {
            return Err("id not allowed");
        }
        if parent.children > 0 && geometry.rows[place + 1].label.id.is_some() != id.is_some() {
            return Err("id on some children only");
        }
        geometry.rows[place].children += 1;
        Ok(())
    }
}
