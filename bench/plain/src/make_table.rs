//! Makes the tables of the benchmark, by a fixed generator:
//!
//!     make_table CASE SIZE FILE
//!
//! A table has at least SIZE bytes; that of `long_line` has one line of SIZE points. Points have 5 decimals. The first point of a row
//! stands anywhere on the earth, each later one at most 100 units from the one before, in x and in y.
#![forbid(unsafe_code)]

use plain::numbers::{put_decimal, put_polyline_number};
use plain::output::Output;
use std::env;
use std::fs::File;
use std::io;
use std::process::ExitCode;

/// Where the generator begins.
const SEED: u64 = 1;

/// Points of a line.
const LINE_POINTS: u64 = 1000;

/// Polygons of a multipolygon, and points of its two rings.
const POLYGONS: u64 = 5;
const OUTER_POINTS: u64 = 40;
const INNER_POINTS: u64 = 8;

/// How deep collections stand in each other, and points of the line in each.
const NEST: u64 = 8;
const MEMBER_POINTS: u64 = 5;

/// Points of a multipoint.
const MEMBERS: u64 = 20;

/// Points between two writes.
const POINTS_AT_ONCE: u64 = 1024;

/// A fixed generator of numbers.
struct Numbers(u64);

impl Numbers {
    fn next(&mut self) -> u64 {
        self.0 = self
            .0
            .wrapping_mul(6364136223846793005)
            .wrapping_add(1442695040888963407);
        self.0 >> 33
    }

    /// From `-most` to `most`.
    fn up_to(&mut self, most: i64) -> i64 {
        (self.next() % (2 * most as u64 + 1)) as i64 - most
    }
}

struct Maker {
    numbers: Numbers,
    output: Output<File>,
    written: u64,
}

impl Maker {
    fn put_text(&mut self, text: &str) {
        self.output.held.extend_from_slice(text.as_bytes());
    }

    /// A polyline of one point or more.
    fn put_points(&mut self, count: u64) -> io::Result<()> {
        put_polyline_number(&mut self.output.held, self.numbers.up_to(9_000_000));
        put_polyline_number(&mut self.output.held, self.numbers.up_to(18_000_000));
        for place in 1..count {
            put_polyline_number(&mut self.output.held, self.numbers.up_to(100));
            put_polyline_number(&mut self.output.held, self.numbers.up_to(100));
            if place % POINTS_AT_ONCE == 0 {
                self.send_some()?;
            }
        }
        Ok(())
    }

    /// A row of this depth; `fields` are its kind, id and precision, with a comma round each.
    fn put_row(&mut self, depth: u64, fields: &str, count: u64) -> io::Result<()> {
        put_decimal(&mut self.output.held, depth);
        self.put_text(fields);
        if count > 0 {
            self.put_points(count)?;
        }
        self.put_text("\n");
        Ok(())
    }

    fn send_some(&mut self) -> io::Result<()> {
        let held = self.output.held.len();
        self.output.send_some()?;
        self.written += (held - self.output.held.len()) as u64;
        Ok(())
    }

    fn put_geometry(&mut self, case: &str, size: u64) -> io::Result<()> {
        match case {
            "points" => self.put_row(0, ",point,,5,", 1),
            "quoted_points" => self.put_quoted_point(),
            "lines" => self.put_row(0, ",linestring,,5,", LINE_POINTS),
            "multipolygons" => self.put_multipolygon(),
            "collections" => self.put_collections(),
            "multipoints" => self.put_multipoint(),
            _ => self.put_row(0, ",linestring,,5,", size),
        }
    }

    fn put_quoted_point(&mut self) -> io::Result<()> {
        self.put_text("\"0\",\"point\",\"\",\"5\",\"");
        self.put_points(1)?;
        self.put_text("\"\n");
        Ok(())
    }

    fn put_multipolygon(&mut self) -> io::Result<()> {
        self.put_row(0, ",multipolygon,,5,", 0)?;
        for _ in 0..POLYGONS {
            self.put_row(1, ",polygon,,,", 0)?;
            self.put_row(2, ",ring,,,", OUTER_POINTS)?;
            self.put_row(2, ",ring,,,", INNER_POINTS)?;
        }
        Ok(())
    }

    /// Collections in each other, in each a point and a line.
    fn put_collections(&mut self) -> io::Result<()> {
        for depth in 0..NEST {
            self.put_row(depth, ",collection,,5,", 0)?;
            self.put_row(depth + 1, ",point,,5,", 1)?;
            self.put_row(depth + 1, ",linestring,,5,", MEMBER_POINTS)?;
        }
        Ok(())
    }

    fn put_multipoint(&mut self) -> io::Result<()> {
        self.put_row(0, ",multipoint,,5,", 0)?;
        for _ in 0..MEMBERS {
            let id = self.numbers.next();
            self.put_row(1, &format!(",point,{id},,"), 1)?;
        }
        Ok(())
    }

    fn put_table(&mut self, case: &str, size: u64) -> io::Result<()> {
        self.put_text("depth,kind,id,precision,polyline\n");
        loop {
            self.put_geometry(case, size)?;
            if case == "long_line" || self.written + self.output.held.len() as u64 >= size {
                return self.output.send();
            }
            self.send_some()?;
        }
    }
}

const CASES: [&str; 7] = [
    "points",
    "quoted_points",
    "lines",
    "multipolygons",
    "collections",
    "multipoints",
    "long_line",
];

fn main() -> ExitCode {
    let words: Vec<String> = env::args().skip(1).collect();
    let [case, size, path] = &words[..] else {
        eprintln!("make_table CASE SIZE FILE");
        return ExitCode::from(2);
    };
    let (true, Ok(size)) = (CASES.contains(&case.as_str()), size.parse()) else {
        eprintln!("a case is one of {CASES:?}, a size a whole number");
        return ExitCode::from(2);
    };
    let made = File::create(path).and_then(|file| {
        let mut maker = Maker {
            numbers: Numbers(SEED),
            output: Output::new(file),
            written: 0,
        };
        maker.put_table(case, size)
    });
    match made {
        Ok(()) => ExitCode::SUCCESS,
        Err(error) => {
            eprintln!("make_table: {error}");
            ExitCode::FAILURE
        }
    }
}
