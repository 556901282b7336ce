//! How large a stream can get.

use super::{MacaqueV, Opening};
use crate::{Fault, Refusal, ffi};

impl MacaqueV {
    /// How many bits a fresh writer writes at most for so many values, whatever they are and whatever the bound, in one
    /// call or in several, also where it is cut and reopened in between, with another bound too. Where the stream goes
    /// on from a value, that is 44 for each and one more; with its first value in full, 32 for that one and, where
    /// others follow, 44 for each of those and one more. No values take none. For every count there are values that
    /// take just as many, lossless. Of the opening only the case counts. Ask for all values of a stream at once: what
    /// is asked for parts of it need not add up to enough.
    ///
    /// A stream that another program wrote may be larger. To write m more values behind any stream, as many bytes are
    /// enough as [`place`](MacaqueV::place) and `most_bits(m, Opening::On(0.0))` bits fill.
    ///
    /// # Errors
    ///
    /// [`Refusal::OverLimit`] for a count above 65,536.
    ///
    /// ```
    /// use modelardb_rattle::{ErrorBound, MacaqueV, Opening, Refusal};
    ///
    /// assert_eq!(MacaqueV::most_bits(0, Opening::First), Ok(0));
    /// assert_eq!(MacaqueV::most_bits(1, Opening::First), Ok(32));
    /// assert_eq!(MacaqueV::most_bits(421, Opening::First), Ok(32 + 44 * 420 + 1));
    /// assert_eq!(MacaqueV::most_bits(421, Opening::On(20.0)), Ok(44 * 421 + 1));
    /// assert_eq!(MacaqueV::most_bits(65_537, Opening::First), Err(Refusal::OverLimit));
    ///
    /// // Two values that differ in their highest and in their lowest bit take as many as two can.
    /// let mut writer = MacaqueV::new(ErrorBound::Lossless, Opening::First)?;
    /// writer.compress_values_bits(&[0x0000_0000, 0x8000_0001], &mut [0; 10])?;
    /// assert_eq!(MacaqueV::most_bits(2, Opening::First), Ok(writer.place()));
    /// # Ok::<(), Refusal>(())
    /// ```
    pub fn most_bits(count: usize, opening: Opening) -> Result<usize, Refusal> {
        asked(ffi::macaque_v_most_bits, count, opening)
    }

    /// How many bytes that is: [`MacaqueV::most_bits`], rounded up. In a buffer of that length a fresh writer is never
    /// refused so many values with [`Refusal::OutputTooShort`].
    ///
    /// # Errors
    ///
    /// Those of [`MacaqueV::most_bits`].
    ///
    /// ```
    /// use modelardb_rattle::{ErrorBound, MacaqueV, Opening, Refusal};
    ///
    /// // Before midnight: a night of 421 readings, whatever they will be.
    /// let mut buffer = vec![0; MacaqueV::most_bytes(421, Opening::First)?];
    /// assert_eq!(buffer.len(), 2315);
    ///
    /// let night: Vec<f32> = (0..421).map(|minute| (minute as f32).sin()).collect();
    /// let mut writer = MacaqueV::new(ErrorBound::Lossless, Opening::First)?;
    /// let mut in_parts = writer.clone();
    /// writer.compress_values(&night, &mut buffer)?;
    /// for hour in night.chunks(30) {
    ///     in_parts.compress_values(hour, &mut buffer)?;
    /// }
    /// assert_eq!(in_parts, writer);
    /// # Ok::<(), Refusal>(())
    /// ```
    pub fn most_bytes(count: usize, opening: Opening) -> Result<usize, Refusal> {
        asked(ffi::macaque_v_most_bytes, count, opening)
    }
}

/// What one of the two calls answers.
fn asked(
    call: extern "C" fn(usize, u32, &mut usize) -> Fault,
    count: usize,
    opening: Opening,
) -> Result<usize, Refusal> {
    let (mode, _) = opening.words();
    let mut most = 0;
    Refusal::judge(call(count, mode, &mut most))?;
    Ok(most)
}
