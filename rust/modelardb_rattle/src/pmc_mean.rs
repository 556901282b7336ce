//! PMC-Mean: a model that stands for its values by their average. [`grid`] and [`sum`] draw a model's
//! value and add it up.

use crate::ffi::{self, PMC_MEAN_WORDS};
use crate::shown::{F32, F64};
use crate::{ErrorBound, Refusal};
use std::fmt::{self, Debug, Formatter};

/// The place of the word that says whether a step's value fitted.
const FITS: usize = PMC_MEAN_WORDS - 1;

/// The values fitted so far: the least, the greatest, their sum and their number.
///
/// A value fits while the least and the greatest are both within the bound of the average:
///
/// ```
/// use modelardb_rattle::{ErrorBound, PMCMean, Refusal};
///
/// let mut room = PMCMean::new(ErrorBound::Absolute(0.5))?;
/// assert!(room.fit_value(20.5)?);
/// assert!(room.fit_value(21.0)?);
/// assert_eq!(room.model(), Ok(20.75));
///
/// // With 22.0 the average is 21.17, and 20.5 is further than 0.5 from that: nothing changes.
/// let before = room.clone();
/// assert!(!room.fit_value(22.0)?);
/// assert_eq!(room, before);
/// assert_eq!(room.len(), 2);
/// // Twelve bytes of metadata for two values.
/// assert_eq!(room.bytes_per_value(12), Ok(6.0));
/// # Ok::<(), Refusal>(())
/// ```
#[derive(Clone, PartialEq, Eq)]
pub struct PMCMean {
    /// The state as it crosses the C face: see [`PMC_MEAN_WORDS`]. Its last word is 0 between calls, so
    /// that a failed fit leaves the state as it was.
    row: [u64; PMC_MEAN_WORDS],
}

impl PMCMean {
    /// The state before any value.
    ///
    /// # Errors
    ///
    /// [`Refusal::BoundNotAllowed`].
    pub fn new(error_bound: ErrorBound) -> Result<Self, Refusal> {
        let mut row = [0; PMC_MEAN_WORDS];
        Refusal::judge(ffi::pmc_mean_new(error_bound.words(), &mut row))?;
        Ok(Self { row })
    }

    /// The state that the first words of a builder's row stand for.
    pub(crate) fn in_row(words: &[u64]) -> Self {
        let mut row = [0; PMC_MEAN_WORDS];
        row[..FITS].copy_from_slice(&words[..FITS]);
        Self { row }
    }

    /// Whether the value fits; where it does, it is one of the model's values from now on. A value
    /// that does not fit changes nothing, and neither does a refusal.
    ///
    /// # Errors
    ///
    /// [`Refusal::OverLimit`] for a model of 65,536 values.
    pub fn fit_value(&mut self, value: f32) -> Result<bool, Refusal> {
        self.fit_value_bits(value.to_bits())
    }

    /// [`PMCMean::fit_value`] on the value's bits.
    ///
    /// # Errors
    ///
    /// Those of [`PMCMean::fit_value`].
    ///
    /// ```
    /// use modelardb_rattle::{ErrorBound, PMCMean, Refusal};
    ///
    /// // All NaNs are the same to a model.
    /// let mut model = PMCMean::new(ErrorBound::Lossless)?;
    /// assert!(model.fit_value_bits(0x7FC1_2345)?);
    /// assert!(model.fit_value_bits(0xFFFF_FFFF)?);
    /// assert_eq!(model.model_bits(), Ok(0x7FC0_0000));
    /// # Ok::<(), Refusal>(())
    /// ```
    pub fn fit_value_bits(&mut self, value: u32) -> Result<bool, Refusal> {
        Refusal::judge(ffi::pmc_mean_fit_value(&mut self.row, value))?;
        Ok(std::mem::take(&mut self.row[FITS]) == 1)
    }

    /// How many bytes each value costs where the metadata takes `metadata_size`: that size by the number
    /// of values.
    ///
    /// # Errors
    ///
    /// [`Refusal::OverLimit`] for a size of 0 or above 65,535; [`Refusal::NoModel`] while there is no value.
    pub fn bytes_per_value(&self, metadata_size: usize) -> Result<f32, Refusal> {
        let mut out = [0];
        let fault = ffi::pmc_mean_bytes_per_value(&self.row, metadata_size, &mut out);
        Refusal::judge(fault)?;
        Ok(f32::from_bits(out[0]))
    }

    /// The average that stands for all values.
    ///
    /// # Errors
    ///
    /// [`Refusal::NoModel`] while there is no value.
    ///
    /// ```
    /// use modelardb_rattle::{ErrorBound, PMCMean, Refusal};
    ///
    /// let fresh = PMCMean::new(ErrorBound::Lossless)?;
    /// assert_eq!(fresh.model(), Err(Refusal::NoModel));
    /// # Ok::<(), Refusal>(())
    /// ```
    pub fn model(&self) -> Result<f32, Refusal> {
        self.model_bits().map(f32::from_bits)
    }

    /// The bits of [`PMCMean::model`]; a NaN is answered as 7FC00000.
    ///
    /// # Errors
    ///
    /// Those of [`PMCMean::model`].
    pub fn model_bits(&self) -> Result<u32, Refusal> {
        let mut out = [0];
        Refusal::judge(ffi::pmc_mean_model(&self.row, &mut out))?;
        Ok(out[0])
    }

    /// How far the average may be from a value.
    pub fn error_bound(&self) -> ErrorBound {
        ErrorBound::in_row(&self.row)
    }

    /// The least value, NaN before any.
    pub fn min_value(&self) -> f32 {
        f32::from_bits(self.row[2] as u32)
    }

    /// The greatest value, NaN before any.
    pub fn max_value(&self) -> f32 {
        f32::from_bits(self.row[3] as u32)
    }

    /// The sum of the values, in f64.
    pub fn sum_of_values(&self) -> f64 {
        f64::from_bits(self.row[4])
    }

    /// How many values fitted.
    pub fn len(&self) -> usize {
        self.row[5] as usize
    }

    /// Whether there is no value yet.
    pub fn is_empty(&self) -> bool {
        self.len() == 0
    }
}

/// The state by its fields, each value beside its bits.
impl Debug for PMCMean {
    fn fmt(&self, f: &mut Formatter) -> fmt::Result {
        f.debug_struct("PMCMean")
            .field("error_bound", &self.error_bound())
            .field("min_value", &F32(self.row[2] as u32))
            .field("max_value", &F32(self.row[3] as u32))
            .field("sum_of_values", &F64(self.row[4]))
            .field("length", &self.len())
            .finish()
    }
}

/// The sum of `count` values that a model of this value stands for, in f32.
///
/// # Errors
///
/// [`Refusal::OverLimit`] for a count above 65,536.
///
/// ```
/// use modelardb_rattle::{Refusal, pmc_mean};
///
/// assert_eq!(pmc_mean::sum(3, 20.5), Ok(61.5));
/// assert_eq!(pmc_mean::sum(65_537, 20.5), Err(Refusal::OverLimit));
/// ```
pub fn sum(count: usize, value: f32) -> Result<f32, Refusal> {
    sum_bits(count, value.to_bits()).map(f32::from_bits)
}

/// [`sum`] on bits; a NaN is answered as 7FC00000.
///
/// # Errors
///
/// Those of [`sum`].
pub fn sum_bits(count: usize, value: u32) -> Result<u32, Refusal> {
    let mut out = [0];
    Refusal::judge(ffi::pmc_mean_sum(count, value, &mut out))?;
    Ok(out[0])
}

/// Draws the value into the first `count` places of `out`. A refusal leaves `out` as it was.
///
/// # Errors
///
/// [`Refusal::OverLimit`] for a count above 65,536; [`Refusal::OutputTooShort`].
///
/// ```
/// use modelardb_rattle::{Refusal, pmc_mean};
///
/// let mut out = [0.0; 3];
/// pmc_mean::grid(20.5, 2, &mut out)?;
/// assert_eq!(out, [20.5, 20.5, 0.0]);
/// assert_eq!(pmc_mean::grid(20.5, 4, &mut out), Err(Refusal::OutputTooShort));
/// # Ok::<(), Refusal>(())
/// ```
pub fn grid(value: f32, count: usize, out: &mut [f32]) -> Result<(), Refusal> {
    grid_bits(value.to_bits(), count, ffi::as_bits_mut(out))
}

/// [`grid`] on bits; a NaN is drawn as 7FC00000.
///
/// # Errors
///
/// Those of [`grid`].
pub fn grid_bits(value: u32, count: usize, out: &mut [u32]) -> Result<(), Refusal> {
    Refusal::judge(ffi::pmc_mean_grid(value, count, out))
}
