//! Geometries from a stream of blobs.
use crate::fault::Fault;
use crate::geometry::{Kind, Label, Point, MOST_NEST, MOST_POINTS, MOST_ROWS};
use crate::header::{HAS_BOX, HAS_IDS, HAS_SIZE, IS_EMPTY, IS_EXTENDED};
use crate::input::Input;
use crate::numbers::unzigzag;
use std::io::Read;

/// The bits of Z and M in the extended byte.
const DIMENSIONS: u8 = 3;

/// The header of a geometry.
#[derive(Clone, Copy)]
pub struct Header {
    pub level: usize,
    pub offset: u64,
    pub kind: Kind,
    pub precision: i8,
    pub metadata: u8,
}

/// What is told of a blob that is read.
pub trait Listener {
    /// A header was read; the answer names it when it ends.
    fn begin(&mut self, header: &Header) -> usize;
    /// The geometry that began so has these many bytes and points.
    fn end(&mut self, place: usize, length: u64, points: u64);
    /// A row, and how many points of its own follow.
    fn row(&mut self, label: &Label, points: u64);
    fn point(&mut self, point: Point);
}

pub struct BlobReader<R> {
    input: Input<R>,
    /// Ids of members that are still to come.
    ids: Vec<i64>,
    position: Point,
    rows: u64,
    points: u64,
}

impl<R: Read> BlobReader<R> {
    pub fn new(device: R) -> BlobReader<R> {
        BlobReader {
            input: Input::new(device),
            ids: Vec::new(),
            position: Point::default(),
            rows: 0,
            points: 0,
        }
    }

    /// Whether there was one more blob, of which the listener was told.
    pub fn next(&mut self, listener: &mut impl Listener) -> Result<bool, Fault> {
        self.rows = 1;
        self.points = 0;
        let Some(type_byte) = self.input.byte()? else {
            return Ok(false);
        };
        self.geometry(0, None, type_byte, listener)?;
        Ok(true)
    }

    /// A fault at the byte that was taken last.
    fn refused<T>(&self, reason: &'static str) -> Result<T, Fault> {
        Err(Fault::Byte(self.input.offset() - 1, reason))
    }

    /// Reads what stands behind the type byte of a geometry.
    fn geometry(
        &mut self,
        level: usize,
        id: Option<i64>,
        type_byte: u8,
        listener: &mut impl Listener,
    ) -> Result<(), Fault> {
        let (offset, points_before) = (self.input.offset() - 1, self.points);
        let Some(kind) = Kind::from_type(type_byte) else {
            return self.refused("unknown type");
        };
        let precision = unzigzag(u64::from(type_byte >> 4)) as i8;
        let metadata = self.input.needed_byte()?;
        if metadata & IS_EXTENDED != 0 && self.input.needed_byte()? & DIMENSIONS != 0 {
            return self.refused("extra dimensions");
        }
        let size = if metadata & HAS_SIZE != 0 {
            Some(self.input.varint()?)
        } else {
            None
        };
        let sized_from = self.input.offset();
        if metadata & HAS_BOX != 0 {
            for _ in 0..4 {
                self.input.varint()?;
            }
        }
        let header = Header {
            level,
            offset,
            kind,
            precision,
            metadata,
        };
        let place = listener.begin(&header);
        self.position = Point::default();
        if metadata & IS_EMPTY != 0 {
            listener.row(
                &Label {
                    depth: level,
                    kind,
                    id,
                    precision: Some(precision),
                },
                0,
            );
        } else {
            self.body(&header, id, listener)?;
        }
        let end = self.input.offset();
        if size.is_some_and(|size| size != end - sized_from) {
            return Err(Fault::Byte(end, "size mismatch"));
        }
        listener.end(place, end - offset, self.points - points_before);
        Ok(())
    }

    fn body(
        &mut self,
        header: &Header,
        id: Option<i64>,
        listener: &mut impl Listener,
    ) -> Result<(), Fault> {
        let label = Label {
            depth: header.level,
            kind: header.kind,
            id,
            precision: Some(header.precision),
        };
        match header.kind {
            Kind::Point | Kind::LineString | Kind::Polygon => self.part(&label, listener),
            _ => {
                listener.row(&label, 0);
                self.members(header, listener)
            }
        }
    }

    /// How many rows follow, which must be allowed.
    fn row_count(&mut self) -> Result<u64, Fault> {
        let count = self.input.varint()?;
        self.rows = self.rows.saturating_add(count);
        if self.rows > MOST_ROWS {
            return self.refused("too many nodes");
        }
        Ok(count)
    }

    /// Reads the members of a multi kind or a collection.
    fn members(&mut self, header: &Header, listener: &mut impl Listener) -> Result<(), Fault> {
        let count = self.row_count()?;
        if header.kind == Kind::Collection && count > 0 && header.level >= MOST_NEST {
            return self.refused("nested too deep");
        }
        let (has_ids, first_id) = (header.metadata & HAS_IDS != 0, self.ids.len());
        if has_ids {
            for _ in 0..count {
                let id = self.input.signed_varint()?;
                self.ids.push(id);
            }
        }
        for member in 0..count as usize {
            let id = if has_ids {
                Some(self.ids[first_id + member])
            } else {
                None
            };
            self.member(header.kind, header.level + 1, id, listener)?;
        }
        self.ids.truncate(first_id);
        Ok(())
    }

    fn member(
        &mut self,
        parent: Kind,
        depth: usize,
        id: Option<i64>,
        listener: &mut impl Listener,
    ) -> Result<(), Fault> {
        let kind = match parent {
            Kind::MultiPoint => Kind::Point,
            Kind::MultiLineString => Kind::LineString,
            Kind::MultiPolygon => Kind::Polygon,
            _ => {
                let type_byte = self.input.needed_byte()?;
                return self.geometry(depth, id, type_byte, listener);
            }
        };
        self.part(
            &Label {
                depth,
                kind,
                id,
                precision: None,
            },
            listener,
        )
    }

    /// Reads a point, a line or a polygon.
    fn part(&mut self, label: &Label, listener: &mut impl Listener) -> Result<(), Fault> {
        match label.kind {
            Kind::Point => self.list(label, 1, listener),
            Kind::LineString => {
                let count = self.input.varint()?;
                self.list(label, count, listener)
            }
            _ => {
                listener.row(label, 0);
                self.rings(label.depth + 1, listener)
            }
        }
    }

    fn rings(&mut self, depth: usize, listener: &mut impl Listener) -> Result<(), Fault> {
        for _ in 0..self.row_count()? {
            let count = self.input.varint()?;
            self.list(
                &Label {
                    depth,
                    kind: Kind::Ring,
                    id: None,
                    precision: None,
                },
                count,
                listener,
            )?;
        }
        Ok(())
    }

    /// Reads a row with points of its own.
    fn list(
        &mut self,
        label: &Label,
        count: u64,
        listener: &mut impl Listener,
    ) -> Result<(), Fault> {
        self.points = self.points.saturating_add(count);
        if self.points > MOST_POINTS {
            return self.refused("too many points");
        }
        listener.row(label, count);
        let mut position = self.position;
        for _ in 0..count {
            let x = self.input.signed_varint()?;
            let y = self.input.signed_varint()?;
            let Some(point) = position.moved(x, y) else {
                return self.refused("coordinate out of range");
            };
            listener.point(point);
            position = point;
        }
        self.position = position;
        Ok(())
    }
}
