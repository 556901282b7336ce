//! What the comparison and the list of fixed answers share: the C face by document 01, and inputs.

pub mod face;
pub mod inputs;
