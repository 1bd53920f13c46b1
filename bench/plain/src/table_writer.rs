//! Geometries to a table.
use crate::geometry::{Geometry, Point};
use crate::numbers::{put_decimal, put_polyline_number, put_signed_decimal};
use crate::output::Output;
use std::io::{self, Write};

/// Points between two looks at how much is held.
const POINTS_AT_ONCE: usize = 1024;

pub fn put_header<W: Write>(output: &mut Output<W>) {
    output
        .held
        .extend_from_slice(b"depth,kind,id,precision,polyline\n");
}

/// Appends the rows of a geometry.
pub fn put_rows<W: Write>(geometry: &Geometry, output: &mut Output<W>) -> io::Result<()> {
    for row in &geometry.rows {
        put_decimal(&mut output.held, row.label.depth as u64);
        output.held.push(b',');
        output
            .held
            .extend_from_slice(row.label.kind.word().as_bytes());
        output.held.push(b',');
        if let Some(id) = row.label.id {
            put_signed_decimal(&mut output.held, id);
        }
        output.held.push(b',');
        if let Some(precision) = row.label.precision {
            put_signed_decimal(&mut output.held, precision.into());
        }
        output.held.push(b',');
        put_polyline(geometry.points_of(row), output)?;
        output.held.push(b'\n');
    }
    output.send_some()
}

fn put_polyline<W: Write>(points: &[Point], output: &mut Output<W>) -> io::Result<()> {
    let mut before = Point::default();
    for some in points.chunks(POINTS_AT_ONCE) {
        for &point in some {
            put_polyline_number(&mut output.held, point.y - before.y);
            put_polyline_number(&mut output.held, point.x - before.x);
            before = point;
        }
        output.send_some()?;
    }
    Ok(())
}
