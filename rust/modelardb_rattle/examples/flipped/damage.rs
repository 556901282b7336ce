//! A stream, and what reading says of it once it is altered.

use modelardb_rattle::{ErrorBound, MacaqueV, Opening, Reader, Refusal, macaque_v};

/// The bytes of a stream, the bits of the values that it holds, and where their codes end.
pub struct Stream {
    pub bytes: Vec<u8>,
    kept: Vec<u32>,
    ends: Vec<usize>,
}

/// How many altered streams were read as what: the values that the stream holds, other values, or not at
/// all, by the number of the refusal, 5 to 8. Of those, how many were told at the value that was altered, up
/// to [`NEAR`] values behind it, and further behind.
#[derive(Debug, Default, PartialEq)]
pub struct Outcomes {
    pub same: usize,
    pub other: usize,
    pub refused: [usize; 4],
    pub told: [usize; 3],
}

pub const NEAR: usize = 10;

pub fn written(values: &[f32], error_bound: ErrorBound) -> Result<Stream, Refusal> {
    let mut bytes = vec![0; MacaqueV::most_bytes(values.len(), Opening::First)?];
    let mut writer = MacaqueV::new(error_bound, Opening::First)?;
    writer.compress_values(values, &mut bytes)?;
    bytes.truncate(writer.bytes_used());
    let kept = read(&bytes, values.len())?;
    let ends = ends(&bytes, values.len())?;
    Ok(Stream { bytes, kept, ends })
}

fn read(bytes: &[u8], count: usize) -> Result<Vec<u32>, Refusal> {
    let mut values = vec![0; count];
    macaque_v::grid_bits(bytes, count, Opening::First, &mut values)?;
    Ok(values)
}

/// Where the code of each value ends.
fn ends(bytes: &[u8], count: usize) -> Result<Vec<usize>, Refusal> {
    let mut reader = Reader::open(bytes, Opening::First);
    let mut end = || reader.next_value().map(|_| reader.place());
    (0..count).map(|_| end()).collect()
}

impl Stream {
    /// The value whose code has this bit; behind the last one, their number.
    fn value_at(&self, bit: usize) -> usize {
        self.ends.partition_point(|&end| end <= bit)
    }

    /// With each of its bits flipped in turn.
    pub fn flipped(&self) -> Outcomes {
        let mut outcomes = Outcomes::default();
        for bit in 0..8 * self.bytes.len() {
            let mut bytes = self.bytes.clone();
            bytes[bit / 8] ^= 0x80 >> (bit % 8);
            outcomes.count(self, &bytes, bit);
        }
        outcomes
    }

    /// With each of its bytes the first one that is cut off, and all behind it.
    pub fn cut(&self) -> Outcomes {
        let mut outcomes = Outcomes::default();
        for length in 0..self.bytes.len() {
            outcomes.count(self, &self.bytes[..length], 8 * length);
        }
        outcomes
    }
}

impl Outcomes {
    /// One more altered stream, by its first bit that is altered or missing.
    fn count(&mut self, stream: &Stream, bytes: &[u8], bit: usize) {
        match read(bytes, stream.kept.len()) {
            Ok(values) if values == stream.kept => self.same += 1,
            Ok(_) => self.other += 1,
            Err(refusal) => self.count_refusal(refusal, stream.value_at(bit)),
        }
    }

    fn count_refusal(&mut self, refusal: Refusal, altered: usize) {
        let fault = refusal.fault();
        self.refused[fault.number as usize - 5] += 1;
        let behind = (fault.value as usize).checked_sub(altered);
        let place = match behind.expect("values before the altered one read as they were") {
            0 => 0,
            1..=NEAR => 1,
            _ => 2,
        };
        self.told[place] += 1;
    }

    pub fn total(&self) -> usize {
        self.same + self.other + self.refused.iter().sum::<usize>()
    }
}
