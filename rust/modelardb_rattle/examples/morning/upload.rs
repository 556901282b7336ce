//! The upload of a morning as it grows, and cut at a value.

use crate::stream::{Upload, written};
use modelardb_rattle::{ErrorBound, MacaqueV, Opening, Refusal};

/// The mean after each reading, as the writer that takes them one by one tells it: no byte is read for it.
pub fn means(values: &[f32], error_bound: ErrorBound) -> Result<Vec<f64>, Refusal> {
    let mut writer = MacaqueV::new(error_bound, Opening::First)?;
    let mut buffer = vec![0; MacaqueV::most_bytes(values.len(), Opening::First)?];
    let mut means = vec![];
    for &value in values {
        writer.compress_values(&[value], &mut buffer)?;
        means.extend(writer.mean());
    }
    Ok(means)
}

/// The whole stream, cut behind its first `k` values: all that is known to have arrived.
pub fn cut(values: &[f32], k: usize, error_bound: ErrorBound) -> Result<Upload, Refusal> {
    let (_, mut bytes) = written(values, error_bound)?;
    let (used, count) = (bytes.len(), values.len());
    let writer = MacaqueV::reopen(&mut bytes, used, count, k, Opening::First, error_bound)?;
    bytes.truncate(writer.bytes_used());
    Ok((writer, bytes))
}
