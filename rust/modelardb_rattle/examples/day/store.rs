//! Cuts a run of readings into segments.

use modelardb_rattle::{ErrorBound, MacaqueV, ModelBuilder, Refusal, Segment, SelectedModel};

/// A model that costs more for each value than an f32 does is not worth a segment of its own.
const VALUE_BYTES: f32 = 4.0;

/// A segment, and where it comes from.
pub struct Stored {
    /// The first of its readings.
    pub from: usize,
    /// How many readings PMC-Mean would have stood for, and how many Swing.
    pub lengths: (usize, usize),
    /// The model that was chosen.
    pub chosen: SelectedModel,
    /// How many readings follow as residuals.
    pub residuals: usize,
    pub segment: Segment,
}

impl Stored {
    /// The reading behind its last one.
    pub fn end(&self) -> usize {
        self.from + self.chosen.length() + self.residuals
    }

    /// The bytes that it takes, with `m` bytes of metadata.
    pub fn bytes(&self, m: usize) -> usize {
        m + self.segment.values.len() + self.segment.residuals.len()
    }
}

/// One segment behind the other: the chosen model, then as residuals the readings at which no model
/// begins that is worth a segment.
pub fn store(
    times: &[i64],
    values: &[f32],
    error_bound: ErrorBound,
    m: usize,
) -> Result<Vec<Stored>, Refusal> {
    let mut stored: Vec<Stored> = vec![];
    let mut from = 0;
    while from < values.len() {
        let builder = fitted(&times[from..], &values[from..], error_bound)?;
        let chosen = builder.finish(m)?;
        let behind = from + chosen.length();
        let mut end = behind;
        while end < values.len() && end - behind < MacaqueV::MOST_RESIDUALS {
            let next = fitted(&times[end..], &values[end..], error_bound)?.finish(m)?;
            if next.bytes_per_value() <= VALUE_BYTES {
                break;
            }
            end += 1;
        }
        stored.push(Stored {
            from,
            lengths: (builder.pmc_mean_length(), builder.swing_length()),
            chosen,
            residuals: end - behind,
            segment: Segment::write(chosen, error_bound, &values[behind..end])?,
        });
        from = end;
    }
    Ok(stored)
}

/// Both models, fitted until both have failed or the readings end.
fn fitted(times: &[i64], values: &[f32], error_bound: ErrorBound) -> Result<ModelBuilder, Refusal> {
    let mut builder = ModelBuilder::new(error_bound)?;
    for (time, value) in times.iter().zip(values) {
        if !builder.try_to_update_models(*time, *value)? {
            break;
        }
    }
    Ok(builder)
}
