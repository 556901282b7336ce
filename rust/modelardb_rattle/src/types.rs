//! The choice between PMC-Mean and Swing: [`ModelBuilder`] fits both to the same points, and
//! [`choose_model`] is the whole rule as one call.

use crate::ffi::{self, MODEL_BUILDER_WORDS, PMC_MEAN_WORDS, SELECTED_MODEL_WORDS};
use crate::shown::F32;
use crate::{ErrorBound, PMCMean, Refusal, Swing};
use std::fmt::{self, Debug, Formatter};

/// The two models, each fitted to the points from the first one on until it fails for the first time.
///
/// ```
/// use modelardb_rattle::{ErrorBound, ModelBuilder, Refusal};
///
/// // A room that warms up by a degree with each reading, and may be off by half a degree.
/// let mut builder = ModelBuilder::new(ErrorBound::Absolute(0.5))?;
/// assert!(builder.try_to_update_models(0, 20.0)?);
/// assert!(builder.try_to_update_models(5, 21.0)?);
/// assert!(builder.try_to_update_models(10, 22.0)?);
/// // The average of three is a degree from the first and the last: PMC-Mean stopped at two.
/// assert_eq!((builder.pmc_mean_length(), builder.swing_length()), (2, 3));
///
/// // With 12 bytes of metadata: 12 / 2 = 6 bytes a value against 13 / 3 = 4.33. In whole numbers,
/// // 13 × 2 = 26 is less than 12 × 3 = 36.
/// let chosen = builder.finish(12)?;
/// assert_eq!(chosen.model_type_id(), ModelBuilder::SWING_ID);
/// assert_eq!((chosen.first_value(), chosen.last_value()), (20.0, 22.0));
/// # Ok::<(), Refusal>(())
/// ```
#[derive(Clone, PartialEq, Eq)]
pub struct ModelBuilder {
    /// The state as it crosses the C face: see [`MODEL_BUILDER_WORDS`].
    row: [u64; MODEL_BUILDER_WORDS],
}

impl ModelBuilder {
    /// The number of PMC-Mean in a segment.
    pub const PMC_MEAN_ID: u32 = 0;

    /// The number of Swing in a segment.
    pub const SWING_ID: u32 = 1;

    /// The builder before any point.
    ///
    /// # Errors
    ///
    /// [`Refusal::BoundNotAllowed`].
    pub fn new(error_bound: ErrorBound) -> Result<Self, Refusal> {
        let mut row = [0; MODEL_BUILDER_WORDS];
        Refusal::judge(ffi::model_builder_new(error_bound.words(), &mut row))?;
        Ok(Self { row })
    }

    /// Tries one more point with each model that has not failed. Whether one of them stands for all
    /// points so far. A refusal leaves the builder as it was.
    ///
    /// # Errors
    ///
    /// [`Refusal::OverLimit`] where a model that has not failed stands for 65,536 points;
    /// [`Refusal::TimesNotAllowed`] for a timestamp outside -2^52 to 2^52 or, while Swing has not failed,
    /// not behind the last one.
    ///
    /// ```
    /// use modelardb_rattle::{ErrorBound, ModelBuilder, Refusal};
    ///
    /// // At the NaN both models fail, and a later value that would fit is not tried.
    /// let mut builder = ModelBuilder::new(ErrorBound::Lossless)?;
    /// assert!(builder.try_to_update_models(0, 1.0)?);
    /// assert!(!builder.try_to_update_models(1, f32::NAN)?);
    /// assert!(!builder.try_to_update_models(2, 1.0)?);
    /// assert_eq!(builder.finish(12)?.length(), 1);
    /// # Ok::<(), Refusal>(())
    /// ```
    pub fn try_to_update_models(&mut self, timestamp: i64, value: f32) -> Result<bool, Refusal> {
        self.try_to_update_models_bits(timestamp, value.to_bits())
    }

    /// [`ModelBuilder::try_to_update_models`] on the value's bits.
    ///
    /// # Errors
    ///
    /// Those of [`ModelBuilder::try_to_update_models`].
    pub fn try_to_update_models_bits(
        &mut self,
        timestamp: i64,
        value: u32,
    ) -> Result<bool, Refusal> {
        let fault = ffi::model_builder_try_to_update_models(&mut self.row, timestamp, value);
        Refusal::judge(fault)?;
        Ok(self.pmc_mean_could_fit_all() || self.swing_could_fit_all())
    }

    /// The model that needs fewer bytes for each value, where the metadata takes `metadata_size`, M.
    /// PMC-Mean wins a tie, and wherever Swing's line runs from a finite value to one that is not. The
    /// builder stays, and may take further points.
    ///
    /// The two are compared as whole numbers: Swing needs fewer where (M + 1) × the length of PMC-Mean is
    /// less than M × its own. The bytes that are told, [`SelectedModel::bytes_per_value`], are rounded, and
    /// may be equal where these are not.
    ///
    /// # Errors
    ///
    /// [`Refusal::OverLimit`] for a size of 0 or above 65,535; [`Refusal::NoModel`] while there is no point.
    pub fn finish(&self, metadata_size: usize) -> Result<SelectedModel, Refusal> {
        let mut row = [0; SELECTED_MODEL_WORDS];
        let fault = ffi::model_builder_finish(&self.row, metadata_size, &mut row);
        Refusal::judge(fault)?;
        Ok(SelectedModel { row })
    }

    /// How far a model may be from a value.
    pub fn error_bound(&self) -> ErrorBound {
        ErrorBound::in_row(&self.row)
    }

    /// How many values PMC-Mean stands for.
    pub fn pmc_mean_length(&self) -> usize {
        self.row[5] as usize
    }

    /// Whether PMC-Mean stands for all points so far.
    pub fn pmc_mean_could_fit_all(&self) -> bool {
        self.row[6] == 1
    }

    /// How many values Swing stands for.
    pub fn swing_length(&self) -> usize {
        self.row[PMC_MEAN_WORDS + 11] as usize
    }

    /// Whether Swing stands for all points so far.
    pub fn swing_could_fit_all(&self) -> bool {
        self.row[PMC_MEAN_WORDS + 12] == 1
    }
}

/// The state by its fields, each value beside its bits.
impl Debug for ModelBuilder {
    fn fmt(&self, f: &mut Formatter) -> fmt::Result {
        let (pmc_mean, swing) = self.row.split_at(PMC_MEAN_WORDS);
        f.debug_struct("ModelBuilder")
            .field("pmc_mean", &PMCMean::in_row(pmc_mean))
            .field("pmc_mean_could_fit_all", &self.pmc_mean_could_fit_all())
            .field("swing", &Swing::in_row(swing))
            .field("swing_could_fit_all", &self.swing_could_fit_all())
            .finish()
    }
}

/// The model that was chosen. Two are equal where all their bits are.
#[derive(Clone, Copy, PartialEq, Eq)]
pub struct SelectedModel {
    /// The model as it crosses the C face: see [`SELECTED_MODEL_WORDS`].
    row: [u64; SELECTED_MODEL_WORDS],
}

impl SelectedModel {
    /// [`ModelBuilder::PMC_MEAN_ID`] or [`ModelBuilder::SWING_ID`].
    pub fn model_type_id(&self) -> u32 {
        self.row[0] as u32
    }

    /// How many values, from the first one on, the model stands for.
    pub fn length(&self) -> usize {
        self.row[1] as usize
    }

    /// The first value of the line, or the average.
    pub fn first_value(&self) -> f32 {
        f32::from_bits(self.first_value_bits())
    }

    /// The bits of [`SelectedModel::first_value`]; a NaN is answered as 7FC00000.
    pub fn first_value_bits(&self) -> u32 {
        self.row[2] as u32
    }

    /// The last value of the line, or the average.
    pub fn last_value(&self) -> f32 {
        f32::from_bits(self.last_value_bits())
    }

    /// The bits of [`SelectedModel::last_value`]; a NaN is answered as 7FC00000.
    pub fn last_value_bits(&self) -> u32 {
        self.row[3] as u32
    }

    /// How many bytes each value costs, rounded to an f32. The choice does not go by this: see
    /// [`ModelBuilder::finish`].
    pub fn bytes_per_value(&self) -> f32 {
        f32::from_bits(self.row[4] as u32)
    }
}

/// The model by its fields, each value beside its bits.
impl Debug for SelectedModel {
    fn fmt(&self, f: &mut Formatter) -> fmt::Result {
        f.debug_struct("SelectedModel")
            .field("model_type_id", &self.model_type_id())
            .field("length", &self.length())
            .field("first_value", &F32(self.first_value_bits()))
            .field("last_value", &F32(self.last_value_bits()))
            .field("bytes_per_value", &self.bytes_per_value())
            .finish()
    }
}

/// Fits both models to the points from the first one on, each until it fails, and chooses the one that
/// needs fewer bytes for each value, as [`ModelBuilder::finish`] does. All timestamps are judged, those behind
/// the model's too. Whether it needs less than the 4 bytes of a plain value is for the caller to see: of noisy
/// values, lossless, it need not be.
///
/// The bound decides which values a model takes. What it draws for them is computed, and nothing is
/// promised of that, lossless neither: see [`ErrorBound`]. Values that must come back bit for bit belong
/// into a stream ([`MacaqueV`](crate::MacaqueV)).
///
/// # Errors
///
/// [`Refusal::BoundNotAllowed`]; [`Refusal::OverLimit`] for more than 65,536 values, or a metadata size of
/// 0 or above 65,535; [`Refusal::CountsDisagree`] where timestamps and values are not equally many;
/// [`Refusal::TimesNotAllowed`]; [`Refusal::NoModel`] for no values.
///
/// Three readings, and what is chosen and why:
///
/// ```
/// use modelardb_rattle::{ErrorBound, ModelBuilder, Refusal, choose_model};
///
/// let (times, half) = ([0, 5, 10], ErrorBound::Absolute(0.5));
/// // All three lie within half a degree of their average, 20.5. Both models stand for three: Swing's
/// // 13 / 3 bytes a value are more than PMC-Mean's 12 / 3.
/// let steady = choose_model(&times, &[20.5, 20.75, 20.25], half, 12)?;
/// assert_eq!(steady.model_type_id(), ModelBuilder::PMC_MEAN_ID);
/// assert_eq!((steady.length(), steady.first_value()), (3, 20.5));
/// assert_eq!(steady.bytes_per_value(), 4.0);
///
/// // A degree more each time. PMC-Mean stands for the first two only: 12 / 2 bytes a value, and
/// // Swing for three at 13 / 3.
/// let rising = choose_model(&times, &[20.0, 21.0, 22.0], half, 12)?;
/// assert_eq!(rising.model_type_id(), ModelBuilder::SWING_ID);
/// assert_eq!((rising.first_value(), rising.last_value()), (20.0, 22.0));
///
/// // With 2 bytes of metadata 3 × 2 = 2 × 3: a tie, which PMC-Mean wins.
/// let tied = choose_model(&times, &[20.0, 21.0, 22.0], half, 2)?;
/// assert_eq!((tied.model_type_id(), tied.length()), (ModelBuilder::PMC_MEAN_ID, 2));
///
/// assert_eq!(choose_model(&times, &[20.0], half, 12), Err(Refusal::CountsDisagree));
/// assert_eq!(choose_model(&[], &[], half, 12), Err(Refusal::NoModel));
/// # Ok::<(), Refusal>(())
/// ```
pub fn choose_model(
    timestamps: &[i64],
    values: &[f32],
    error_bound: ErrorBound,
    metadata_size: usize,
) -> Result<SelectedModel, Refusal> {
    choose_model_bits(timestamps, ffi::as_bits(values), error_bound, metadata_size)
}

/// [`choose_model`] on the values' bits.
///
/// # Errors
///
/// Those of [`choose_model`].
pub fn choose_model_bits(
    timestamps: &[i64],
    values: &[u32],
    error_bound: ErrorBound,
    metadata_size: usize,
) -> Result<SelectedModel, Refusal> {
    let (bound, mut row) = (error_bound.words(), [0; SELECTED_MODEL_WORDS]);
    let fault = ffi::choose_model(timestamps, values, bound, metadata_size, &mut row);
    Refusal::judge(fault)?;
    Ok(SelectedModel { row })
}
