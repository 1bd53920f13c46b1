//! `plain pack`, `plain unpack`, `plain geojson` and `plain show`, from standard input to standard output.
//! `plain records` names what records of tables are read by.
#![forbid(unsafe_code)]

use plain::blob_reader::{BlobReader, Header, Listener};
use plain::blob_writer::put_blob;
use plain::fault::Fault;
use plain::geojson_writer::put_geojson;
use plain::geometry::{Geometry, Label, Point, Row};
use plain::numbers::{put_decimal, put_signed_decimal};
use plain::output::Output;
use plain::records::Records;
use plain::table_reader::TableReader;
use plain::table_writer::{put_header, put_rows};
use std::fs::File;
use std::io::{self, Read, Write};
use std::os::fd::AsFd;
use std::process::ExitCode;

/// A geometry that is filled from a blob.
#[derive(Default)]
struct Filling(Geometry);

impl Listener for Filling {
    fn begin(&mut self, _: &Header) -> usize {
        0
    }

    fn end(&mut self, _: usize, _: u64, _: u64) {}

    fn row(&mut self, label: &Label, points: u64) {
        let first = self.0.points.len();
        self.0.rows.push(Row {
            label: *label,
            children: 0,
            first,
            last: first + points as usize,
        });
    }

    #[inline]
    fn point(&mut self, point: Point) {
        self.0.points.push(point);
    }
}

struct Span {
    header: Header,
    length: u64,
    points: u64,
}

/// The geometries of a blob, each before those in it.
#[derive(Default)]
struct Spans(Vec<Span>);

impl Listener for Spans {
    fn begin(&mut self, header: &Header) -> usize {
        self.0.push(Span {
            header: *header,
            length: 0,
            points: 0,
        });
        self.0.len() - 1
    }

    fn end(&mut self, place: usize, length: u64, points: u64) {
        self.0[place].length = length;
        self.0[place].points = points;
    }

    fn row(&mut self, _: &Label, _: u64) {}

    #[inline]
    fn point(&mut self, _: Point) {}
}

fn put_line(span: &Span, to: &mut Vec<u8>) {
    const DIGITS: &[u8; 16] = b"0123456789ABCDEF";
    let header = &span.header;
    put_decimal(to, header.level as u64);
    to.push(b' ');
    put_decimal(to, header.offset);
    to.push(b' ');
    to.extend_from_slice(header.kind.word().as_bytes());
    to.push(b' ');
    put_signed_decimal(to, header.precision.into());
    let (high, low) = (header.metadata >> 4, header.metadata & 0x0F);
    to.extend_from_slice(&[
        b' ',
        DIGITS[usize::from(high)],
        DIGITS[usize::from(low)],
        b' ',
    ]);
    put_decimal(to, span.length);
    to.push(b' ');
    put_decimal(to, span.points);
    to.push(b'\n');
}

fn pack(input: impl Read, output: &mut Output<impl Write>) -> Result<(), Fault> {
    let mut reader = TableReader::new(input)?;
    let mut geometry = Geometry::default();
    while reader.next(&mut geometry)? {
        put_blob(&geometry, &mut output.held);
        output.send_some()?;
    }
    Ok(())
}

fn unpack(input: impl Read, output: &mut Output<impl Write>) -> Result<(), Fault> {
    let mut reader = BlobReader::new(input);
    let mut filling = Filling::default();
    put_header(output);
    while reader.next(&mut filling)? {
        put_rows(&filling.0, output)?;
        filling.0.clear();
    }
    Ok(())
}

fn geojson(input: impl Read, output: &mut Output<impl Write>) -> Result<(), Fault> {
    let mut reader = BlobReader::new(input);
    let mut filling = Filling::default();
    while reader.next(&mut filling)? {
        put_geojson(&filling.0, output)?;
        filling.0.clear();
    }
    Ok(())
}

fn show(input: impl Read, output: &mut Output<impl Write>) -> Result<(), Fault> {
    let mut reader = BlobReader::new(input);
    let mut spans = Spans::default();
    while reader.next(&mut spans)? {
        for span in &spans.0 {
            put_line(span, &mut output.held);
        }
        spans.0.clear();
        output.send_some()?;
    }
    Ok(())
}

fn run(word: &str) -> Result<(), Fault> {
    // Without the buffers of std: each program has its own.
    let input = File::from(io::stdin().as_fd().try_clone_to_owned()?);
    let mut output = Output::new(File::from(io::stdout().as_fd().try_clone_to_owned()?));
    let ended = match word {
        "pack" => pack(input, &mut output),
        "unpack" => unpack(input, &mut output),
        "geojson" => geojson(input, &mut output),
        "show" => show(input, &mut output),
        _ => {
            output
                .held
                .extend_from_slice(Records::<File>::READ_BY.as_bytes());
            output.held.push(b'\n');
            Ok(())
        }
    };
    output.send()?;
    ended
}

fn main() -> ExitCode {
    let word = std::env::args().nth(1).unwrap_or_default();
    if !["pack", "unpack", "geojson", "show", "records"].contains(&word.as_str()) {
        eprintln!("plain pack, plain unpack, plain geojson, plain show, or plain records");
        return ExitCode::from(2);
    }
    match run(&word) {
        Ok(()) => ExitCode::SUCCESS,
        Err(fault) => {
            eprintln!("plain: {fault}");
            ExitCode::FAILURE
        }
    }
}
