//! Segments: a model's values and, behind them, those that it does not stand for.

use crate::ffi::{
    self, MOST_RESIDUALS_BYTES, MOST_VALUES_BYTES, Pair, SEGMENT_WORDS, StoredSegment,
};
use crate::parameters::{decode_values_for_pmc_mean_bits, decode_values_for_swing_bits};
use crate::{ErrorBound, ModelBuilder, Refusal, SelectedModel};

/// A segment's model by its parameters.
#[derive(Clone, Copy, Debug, PartialEq)]
pub enum Model {
    /// The average.
    PMCMean(f32),
    /// The line's first and last value.
    Swing(f32, f32),
}

impl Model {
    /// Its number in a segment, and its parameters' bits.
    fn words(self) -> (u32, Pair) {
        match self {
            Model::PMCMean(value) => (
                ModelBuilder::PMC_MEAN_ID,
                (value.to_bits(), value.to_bits()),
            ),
            Model::Swing(first, last) => {
                (ModelBuilder::SWING_ID, (first.to_bits(), last.to_bits()))
            }
        }
    }
}

impl From<SelectedModel> for Model {
    fn from(chosen: SelectedModel) -> Self {
        match chosen.model_type_id() {
            ModelBuilder::PMC_MEAN_ID => Model::PMCMean(chosen.first_value()),
            _ => Model::Swing(chosen.first_value(), chosen.last_value()),
        }
    }
}

/// A segment as it is stored, without its timestamps. All fields may be filled from where they are
/// kept: the reading calls judge what they are given. Two are equal where all their bits are.
///
/// Six readings of a room, of which the chosen model stands for four:
///
/// ```
/// use modelardb_rattle::{ErrorBound, Model, Refusal, Segment, choose_model};
///
/// let times = [0, 5, 10, 15, 20, 25];
/// let readings = [20.0, 21.0, 22.0, 23.0, 19.5, 19.0];
/// let bound = ErrorBound::Absolute(0.5);
///
/// let chosen = choose_model(&times, &readings, bound, 12)?;
/// assert_eq!(chosen.length(), 4);
/// let segment = Segment::write(chosen, bound, &readings[chosen.length()..])?;
/// // The line runs from 20 to 23; 19 is the least value of all, 23 the greatest.
/// assert_eq!(segment.model(), Ok(Model::Swing(20.0, 23.0)));
/// assert_eq!((segment.min_value(), segment.max_value()), (19.0, 23.0));
/// // A flag and the first value; two residuals, and the byte that counts them.
/// assert_eq!((segment.values.len(), segment.residuals.last()), (5, Some(&2)));
///
/// // 19 is kept for 19.5 too: that is within half a degree, and a shorter code.
/// let mut out = [0.0; 6];
/// segment.grid(&times, &mut out)?;
/// assert_eq!(out, [20.0, 21.0, 22.0, 23.0, 19.0, 19.0]);
/// assert_eq!(segment.sum_over(&times), Ok(124.0));
/// assert_eq!(segment.sum_by_average(&times), Ok(124.0));
/// # Ok::<(), Refusal>(())
/// ```
///
/// Its residuals are a stream, which keeps them within the bound, lossless bit for bit. Its model's own
/// values are computed, and nothing is promised of what it draws for the values that it took. So, lossless:
///
/// ```
/// use modelardb_rattle::{ErrorBound, Refusal, Segment, choose_model};
///
/// let lossless = ErrorBound::Lossless;
/// let mut out = [0.0; 2];
/// // -0 counts as 0, and its average is +0.
/// let chosen = choose_model(&[0], &[-0.0], lossless, 12)?;
/// Segment::write(chosen, lossless, &[])?.grid(&[0], &mut out)?;
/// assert_eq!(out[0].to_bits(), 0x0000_0000);
/// // As a residual it comes back as it was.
/// Segment::write(chosen, lossless, &[-0.0])?.grid(&[0, 1], &mut out)?;
/// assert_eq!(out.map(f32::to_bits), [0x0000_0000, 0x8000_0000]);
///
/// // A line between two readings, a second apart, at times in microseconds: its last bit is another.
/// let times = [1_700_000_000_000_000, 1_700_000_001_000_000];
/// let chosen = choose_model(&times, &[10.0, 100.1], lossless, 12)?;
/// Segment::write(chosen, lossless, &[])?.grid(&times, &mut out)?;
/// assert_eq!(out, [10.0, 100.100006]);
/// # Ok::<(), Refusal>(())
/// ```
#[derive(Clone, Debug, PartialEq, Eq)]
pub struct Segment {
    /// [`ModelBuilder::PMC_MEAN_ID`] or [`ModelBuilder::SWING_ID`].
    pub model_type_id: u32,
    /// The bits of the least value, the model's and the residuals'.
    pub min_value_bits: u32,
    /// The bits of the greatest value.
    pub max_value_bits: u32,
    /// The parameter bytes: what the least and the greatest value do not say of the model.
    pub values: Vec<u8>,
    /// The residuals, as a stream that opens on the model's last value, and then a byte that counts
    /// them; nothing where there are none.
    pub residuals: Vec<u8>,
}

impl Segment {
    /// The segment of a model and of the values that follow its own, each kept within the bound.
    ///
    /// # Errors
    ///
    /// [`Refusal::BoundNotAllowed`]; [`Refusal::OverLimit`] for more than
    /// [`MOST_RESIDUALS`](crate::MacaqueV::MOST_RESIDUALS).
    ///
    /// ```
    /// use modelardb_rattle::{ErrorBound, Model, Refusal, Segment};
    ///
    /// let steady = Segment::write(Model::PMCMean(20.5), ErrorBound::Lossless, &[])?;
    /// assert_eq!((&steady.values[..], &steady.residuals[..]), (&[][..], &[][..]));
    ///
    /// let refused = Segment::write(Model::PMCMean(20.5), ErrorBound::Lossless, &[21.0; 256]);
    /// assert_eq!(refused, Err(Refusal::OverLimit));
    /// # Ok::<(), Refusal>(())
    /// ```
    pub fn write(
        model: impl Into<Model>,
        error_bound: ErrorBound,
        residuals: &[f32],
    ) -> Result<Self, Refusal> {
        Self::write_bits(model, error_bound, ffi::as_bits(residuals))
    }

    /// [`Segment::write`] with the residuals as their bits.
    ///
    /// # Errors
    ///
    /// Those of [`Segment::write`].
    ///
    /// ```
    /// use modelardb_rattle::{ErrorBound, Model, Refusal, Segment};
    ///
    /// // Lossless, a residual's payload comes back; a model's NaN is always 7FC00000.
    /// let model = Model::PMCMean(f32::from_bits(0x7FC1_2345));
    /// let segment = Segment::write_bits(model, ErrorBound::Lossless, &[0x7FC1_2345])?;
    /// let mut out = [0; 2];
    /// segment.grid_bits(&[0, 5], &mut out)?;
    /// assert_eq!(out, [0x7FC0_0000, 0x7FC1_2345]);
    /// # Ok::<(), Refusal>(())
    /// ```
    pub fn write_bits(
        model: impl Into<Model>,
        error_bound: ErrorBound,
        residuals: &[u32],
    ) -> Result<Self, Refusal> {
        let (model, bound) = (model.into().words(), error_bound.words());
        let (mut values, mut stream) = ([0; MOST_VALUES_BYTES], [0; MOST_RESIDUALS_BYTES]);
        let mut row = [0; SEGMENT_WORDS];
        let fault = ffi::segment_write(model, bound, residuals, &mut values, &mut stream, &mut row);
        Refusal::judge(fault)?;
        Ok(Self {
            model_type_id: model.0,
            min_value_bits: row[0] as u32,
            max_value_bits: row[1] as u32,
            values: values[..row[2] as usize].to_vec(),
            residuals: stream[..row[3] as usize].to_vec(),
        })
    }

    /// The least value.
    pub fn min_value(&self) -> f32 {
        f32::from_bits(self.min_value_bits)
    }

    /// The greatest value.
    pub fn max_value(&self) -> f32 {
        f32::from_bits(self.max_value_bits)
    }

    /// The model that the parameter bytes give.
    ///
    /// # Errors
    ///
    /// [`Refusal::OverLimit`] where the model's number is above 1; [`Refusal::FormNotAllowed`].
    pub fn model(&self) -> Result<Model, Refusal> {
        let (min, max) = (self.min_value_bits, self.max_value_bits);
        match self.model_type_id {
            ModelBuilder::PMC_MEAN_ID => {
                let value = decode_values_for_pmc_mean_bits(min, max, &self.values)?;
                Ok(Model::PMCMean(f32::from_bits(value)))
            }
            ModelBuilder::SWING_ID => {
                let (first, last) = decode_values_for_swing_bits(min, max, &self.values)?;
                Ok(Model::Swing(f32::from_bits(first), f32::from_bits(last)))
            }
            _ => Err(Refusal::OverLimit),
        }
    }

    /// Draws all values into the first places of `out`: the model's at its timestamps, the first ones,
    /// and then the residuals as they were kept. A refusal leaves `out` as it was.
    ///
    /// # Errors
    ///
    /// [`Refusal::OverLimit`] where the model's number is above 1, or for more than 65,536 timestamps;
    /// [`Refusal::CountsDisagree`] where the residuals leave no timestamp to the model;
    /// [`Refusal::OutputTooShort`]; [`Refusal::TimesNotAllowed`], also where a line has one timestamp only;
    /// [`Refusal::FormNotAllowed`]; [`Refusal::NoModel`] for a line with ends that differ while at least
    /// one is not finite; then what is wrong with the residuals and where, counted from the first of
    /// them: [`Refusal::EndsEarly`], [`Refusal::NoWindow`], [`Refusal::WindowNotAllowed`] or
    /// [`Refusal::Leftover`]. Residual bytes that were cut at their end have lost the byte that counts them:
    /// another byte is then taken for it, and where none is left the model is drawn at all timestamps.
    ///
    /// ```
    /// use modelardb_rattle::{ErrorBound, Model, Refusal, Segment};
    ///
    /// let segment = Segment::write(Model::Swing(20.0, 22.0), ErrorBound::Lossless, &[25.0])?;
    /// let mut out = [0.0; 4];
    /// segment.grid(&[0, 5, 20, 25], &mut out)?;
    /// assert_eq!(out, [20.0, 20.5, 22.0, 25.0]);
    ///
    /// // One timestamp is left for the line, and that is no line.
    /// assert_eq!(segment.grid(&[0, 5], &mut out), Err(Refusal::TimesNotAllowed));
    /// assert_eq!(segment.grid(&[0], &mut out), Err(Refusal::CountsDisagree));
    ///
    /// // The last byte of the residual's code is lost, and not the one that counts it.
    /// let mut cut = segment.clone();
    /// cut.residuals.remove(2);
    /// let refused = cut.grid(&[0, 5, 20, 25], &mut out);
    /// assert_eq!(refused, Err(Refusal::EndsEarly { value: 0, place: 0 }));
    /// # Ok::<(), Refusal>(())
    /// ```
    pub fn grid(&self, timestamps: &[i64], out: &mut [f32]) -> Result<(), Refusal> {
        self.grid_bits(timestamps, ffi::as_bits_mut(out))
    }

    /// [`Segment::grid`] with the values drawn as bits; of the model a NaN is drawn as 7FC00000.
    ///
    /// # Errors
    ///
    /// Those of [`Segment::grid`].
    pub fn grid_bits(&self, timestamps: &[i64], out: &mut [u32]) -> Result<(), Refusal> {
        Refusal::judge(ffi::segment_grid(self.into(), timestamps, out))
    }

    /// The sum of all values, a line's by the average of its ends: right where its timestamps are
    /// equally far apart.
    ///
    /// # Errors
    ///
    /// Those of [`Segment::grid`], but for [`Refusal::OutputTooShort`].
    ///
    /// ```
    /// use modelardb_rattle::{ErrorBound, Model, Refusal, Segment};
    ///
    /// let segment = Segment::write(Model::Swing(20.0, 22.0), ErrorBound::Lossless, &[25.0])?;
    /// let times = [0, 5, 20, 25];
    /// assert_eq!(segment.sum_by_average(&times), Ok(3.0 * 21.0 + 25.0));
    /// assert_eq!(segment.sum_over(&times), Ok(20.0 + 20.5 + 22.0 + 25.0));
    /// # Ok::<(), Refusal>(())
    /// ```
    pub fn sum_by_average(&self, timestamps: &[i64]) -> Result<f32, Refusal> {
        self.sum_by_average_bits(timestamps).map(f32::from_bits)
    }

    /// The bits of [`Segment::sum_by_average`]; a NaN is answered as 7FC00000.
    ///
    /// # Errors
    ///
    /// Those of [`Segment::sum_by_average`].
    pub fn sum_by_average_bits(&self, timestamps: &[i64]) -> Result<u32, Refusal> {
        let mut out = [0];
        let fault = ffi::segment_sum_by_average(self.into(), timestamps, &mut out);
        Refusal::judge(fault)?;
        Ok(out[0])
    }

    /// The sum of all values, a line's one by one at its timestamps.
    ///
    /// # Errors
    ///
    /// Those of [`Segment::sum_by_average`].
    pub fn sum_over(&self, timestamps: &[i64]) -> Result<f32, Refusal> {
        self.sum_over_bits(timestamps).map(f32::from_bits)
    }

    /// The bits of [`Segment::sum_over`]; a NaN is answered as 7FC00000.
    ///
    /// # Errors
    ///
    /// Those of [`Segment::sum_by_average`].
    pub fn sum_over_bits(&self, timestamps: &[i64]) -> Result<u32, Refusal> {
        let mut out = [0];
        let fault = ffi::segment_sum_over(self.into(), timestamps, &mut out);
        Refusal::judge(fault)?;
        Ok(out[0])
    }
}

/// The segment as it crosses the C face.
impl<'a> From<&'a Segment> for StoredSegment<'a> {
    fn from(segment: &'a Segment) -> Self {
        Self {
            model: segment.model_type_id,
            extremes: (segment.min_value_bits, segment.max_value_bits),
            values: &segment.values,
            residuals: &segment.residuals,
        }
    }
}
