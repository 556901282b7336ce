//! An upload: a stream with its first value in full, written whole, or on behind what stands there.

use modelardb_rattle::{ErrorBound, MacaqueV, Opening, Refusal};

/// A writer and the bytes of its stream.
pub type Upload = (MacaqueV, Vec<u8>);

pub fn written(values: &[f32], error_bound: ErrorBound) -> Result<Upload, Refusal> {
    resumed(
        (MacaqueV::new(error_bound, Opening::First)?, vec![]),
        values,
    )
}

/// The values behind those that stand there, in a buffer with room for any so many.
pub fn resumed((mut writer, mut bytes): Upload, values: &[f32]) -> Result<Upload, Refusal> {
    let count = writer.length() + values.len();
    bytes.resize(MacaqueV::most_bytes(count, Opening::First)?, 0);
    writer.compress_values(values, &mut bytes)?;
    bytes.truncate(writer.bytes_used());
    Ok((writer, bytes))
}

/// Whether two uploads are the same, bytes and state, in words.
pub fn likeness(one: &Upload, other: &Upload) -> &'static str {
    if one == other {
        "the same"
    } else {
        "NOT the same"
    }
}
