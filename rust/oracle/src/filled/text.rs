//! The text's modules, and its minimum and maximum of a model.

include!(concat!(env!("OUT_DIR"), "/filled.rs"));

/// How this build works out a model's minimum.
pub fn minimum(left: f32, right: f32) -> f32 {
    crate::stand_in::minimum(left, right)
}

/// How this build works out a model's maximum.
pub fn maximum(left: f32, right: f32) -> f32 {
    crate::stand_in::maximum(left, right)
}
