//! The text's own entry points on its own types, for timing: nothing is turned around on the way.
//! `published` and `filled` each load this file.

use super::text::models::macaque_v::{self, MacaqueV};
use crate::paper::models::ErrorBound;
use crate::rust::Direct;
use crate::stand_in::List;

pub const DIRECT: Direct = Direct { write, read, sum };

fn write(bound: ErrorBound, values: &[f32]) -> Vec<u8> {
    let mut writer = MacaqueV::new(bound);
    writer.compress_values(values);
    writer.model().0
}

fn read(bytes: &[u8], timestamps: &[i64], values: &mut Vec<f32>) {
    let mut list = List::of(std::mem::take(values));
    macaque_v::grid(bytes, timestamps, &mut list, None);
    *values = list.into_values();
}

fn sum(bytes: &[u8], count: usize) -> f32 {
    macaque_v::sum(count, bytes, None)
}
