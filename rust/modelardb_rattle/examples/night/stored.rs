//! A night as it is stored: the bytes of its stream, how many values they hold, and the table beside them.

use modelardb_rattle::{ErrorBound, MacaqueV, Opening, PlaceTable, Refusal, TabledWriter};
use std::ops::Range;

pub struct Stored {
    pub bytes: Vec<u8>,
    pub count: usize,
    pub table: PlaceTable,
}

pub fn store(values: &[f32], error_bound: ErrorBound) -> Result<Stored, Refusal> {
    let mut bytes = vec![0; MacaqueV::most_bytes(values.len(), Opening::First)?];
    let mut writer = TabledWriter::new(error_bound, Opening::First)?;
    writer.compress_values(values, &mut bytes)?;
    let (writer, table) = writer.into_parts();
    bytes.truncate(writer.bytes_used());
    Ok(Stored {
        bytes,
        count: writer.length(),
        table,
    })
}

impl Stored {
    pub fn range(&self, values: Range<usize>) -> Result<Vec<f32>, Refusal> {
        self.table
            .range(&self.bytes, self.count, Opening::First, values)
    }
}
