//! The file of a stream that is written with its first value in full.

use modelardb_rattle::compare::Upload;
use modelardb_rattle::{ErrorBound, MacaqueV, Opening, Refusal};

pub fn written(values: &[f32], error_bound: ErrorBound) -> Result<Vec<u8>, Refusal> {
    let opening = Opening::First;
    let mut buffer = vec![0; MacaqueV::most_bytes(values.len(), opening)?];
    let mut writer = MacaqueV::new(error_bound, opening)?;
    writer.compress_values(values, &mut buffer)?;
    let upload = Upload {
        bytes: &buffer[..writer.bytes_used()],
        count: writer.length(),
        opening,
    };
    upload.to_file()
}
