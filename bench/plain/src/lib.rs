//! Tables to TWKB blobs and back, as a careful programmer writes it by hand: buffers kept from one geometry to the next, no
//! unsafe code, nothing proved. What `polytwkb` is measured beside.
#![forbid(unsafe_code)]

pub mod blob_reader;
pub mod blob_writer;
pub mod fault;
pub mod geojson_writer;
pub mod geometry;
pub mod header;
pub mod input;
pub mod numbers;
pub mod output;
pub mod records;
pub mod table_reader;
pub mod table_writer;
