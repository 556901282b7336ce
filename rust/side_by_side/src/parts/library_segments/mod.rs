//! Parameter bytes and segments as compiled from the proved crates, called through their C face, beside
//! the paper's program and, along the whole path, the Rust's text.

pub mod both;
mod causes;
mod damaged;
mod forms;
mod path;
mod safe;
mod source;
mod written;

pub use causes::causes;
pub use damaged::damaged;
pub use forms::parameter_bytes;
pub use path::paths;
pub use written::written;
