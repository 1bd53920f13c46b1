//! One geometry: its rows in preorder and one list of points.

/// How many collections may stand round a geometry.
pub const MOST_NEST: usize = 16;

/// Rows of a geometry.
pub const MOST_ROWS: u64 = 1 << 20;

/// Points of a geometry.
pub const MOST_POINTS: u64 = 1 << 24;

/// Coordinates are from -`BEYOND` to `BEYOND - 1`.
const BEYOND: i64 = 1 << 62;

#[derive(Clone, Copy, PartialEq, Eq, Debug)]
pub enum Kind {
    Point,
    LineString,
    Polygon,
    MultiPoint,
    MultiLineString,
    MultiPolygon,
    Collection,
    Ring,
}

/// The kinds in the order of TWKB's types, the first of which is 1.
const KINDS: [Kind; 7] = [
    Kind::Point,
    Kind::LineString,
    Kind::Polygon,
    Kind::MultiPoint,
    Kind::MultiLineString,
    Kind::MultiPolygon,
    Kind::Collection,
];

impl Kind {
    pub fn from_word(word: &[u8]) -> Option<Kind> {
        Some(match word {
            b"point" => Kind::Point,
            b"linestring" => Kind::LineString,
            b"polygon" => Kind::Polygon,
            b"ring" => Kind::Ring,
            b"multipoint" => Kind::MultiPoint,
            b"multilinestring" => Kind::MultiLineString,
            b"multipolygon" => Kind::MultiPolygon,
            b"collection" => Kind::Collection,
            _ => return None,
        })
    }

    pub fn word(self) -> &'static str {
        match self {
            Kind::Point => "point",
            Kind::LineString => "linestring",
            Kind::Polygon => "polygon",
            Kind::Ring => "ring",
            Kind::MultiPoint => "multipoint",
            Kind::MultiLineString => "multilinestring",
            Kind::MultiPolygon => "multipolygon",
            Kind::Collection => "collection",
        }
    }

    /// The kind of a type byte.
    pub fn from_type(byte: u8) -> Option<Kind> {
        KINDS.get(usize::from(byte & 0x0F).wrapping_sub(1)).copied()
    }

    /// TWKB's type; 0 for a ring, which is no geometry of its own.
    pub fn code(self) -> u8 {
        match self {
            Kind::Point => 1,
            Kind::LineString => 2,
            Kind::Polygon => 3,
            Kind::MultiPoint => 4,
            Kind::MultiLineString => 5,
            Kind::MultiPolygon => 6,
            Kind::Collection => 7,
            Kind::Ring => 0,
        }
    }

    /// Whether a row of this kind has points of its own, and no children.
    pub fn has_points(self) -> bool {
        matches!(self, Kind::Point | Kind::LineString | Kind::Ring)
    }

    pub fn may_hold(self, child: Kind) -> bool {
        match self {
            Kind::Polygon => child == Kind::Ring,
            Kind::MultiPoint => child == Kind::Point,
            Kind::MultiLineString => child == Kind::LineString,
            Kind::MultiPolygon => child == Kind::Polygon,
            Kind::Collection => child != Kind::Ring,
            Kind::Point | Kind::LineString | Kind::Ring => false,
        }
    }
}

#[derive(Clone, Copy, PartialEq, Eq, Debug, Default)]
pub struct Point {
    pub x: i64,
    pub y: i64,
}

impl Point {
    /// The point that lies this far from here, where it is in range.
    pub fn moved(self, x: i64, y: i64) -> Option<Point> {
        let (x, y) = (self.x.checked_add(x)?, self.y.checked_add(y)?);
        let range = -BEYOND..BEYOND;
        (range.contains(&x) && range.contains(&y)).then_some(Point { x, y })
    }
}

/// The fields of a row but its polyline.
#[derive(Clone, Copy, Debug)]
pub struct Label {
    pub depth: usize,
    pub kind: Kind,
    pub id: Option<i64>,
    pub precision: Option<i8>,
}

/// A row; its own points are those from `first` to before `last`.
#[derive(Clone, Copy, Debug)]
pub struct Row {
    pub label: Label,
    pub children: u64,
    pub first: usize,
    pub last: usize,
}

#[derive(Default)]
pub struct Geometry {
    pub rows: Vec<Row>,
    pub points: Vec<Point>,
}

impl Geometry {
    pub fn clear(&mut self) {
        self.rows.clear();
        self.points.clear();
    }

    pub fn points_of(&self, row: &Row) -> &[Point] {
        &self.points[row.first..row.last]
    }
}
