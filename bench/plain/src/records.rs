//! The records of a table: by the crate `csv` where the system has it, else by a loop of ours.
#[cfg(feature = "by-csv")]
pub use by_csv::Records;

#[cfg(not(feature = "by-csv"))]
pub use by_loop::Records;

#[cfg(feature = "by-csv")]
mod by_csv {
    use std::io::{self, Read};

    pub struct Records<R> {
        reader: csv::Reader<R>,
        record: csv::ByteRecord,
    }

    impl<R: Read> Records<R> {
        /// What the records are read by.
        pub const READ_BY: &'static str = "csv";

        pub fn new(device: R) -> Records<R> {
            let mut builder = csv::ReaderBuilder::new();
            let reader = builder
                .has_headers(false)
                .flexible(true)
                .buffer_capacity(1 << 16)
                .from_reader(device);
            Records {
                reader,
                record: csv::ByteRecord::new(),
            }
        }

        /// Whether there was one more record, which is held now.
        pub fn advance(&mut self) -> io::Result<bool> {
            self.reader
                .read_byte_record(&mut self.record)
                .map_err(io::Error::from)
        }

        /// How many fields the record has that is held.
        pub fn count(&self) -> usize {
            self.record.len()
        }

        /// A field of the record that is held, counted from 0.
        pub fn field(&self, place: usize) -> &[u8] {
            &self.record[place]
        }
    }
}

#[cfg(not(feature = "by-csv"))]
mod by_loop;
