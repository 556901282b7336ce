//! The text's modules, and its minimum and maximum of a model.

include!(concat!(env!("OUT_DIR"), "/published.rs"));

/// How this build works out a model's minimum.
pub fn minimum(left: f32, right: f32) -> f32 {
    left.min(right)
}

/// How this build works out a model's maximum.
pub fn maximum(left: f32, right: f32) -> f32 {
    left.max(right)
}
