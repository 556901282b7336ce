//! MacaqueV (macaque_v.rs): the coded stream, its writer, its reader, and reopening.

use super::bits::{cut, field, get, number, put};
use super::models::{ErrorBound, maximum_bits, minimum_bits, within};
use super::numbers::{NAN_32, bits_of_f32};
use super::{Answer, Fault, MOST_VALUES, Read, judge_count, refusal, refuse_if};

/// "With-first mode stores the first value's 32 bits raw. Without-first mode starts from an opening
/// value, any bits."
#[derive(Clone, Copy, Debug, PartialEq)]
pub enum Opening {
    WithFirst,
    On(u32),
}

impl Opening {
    /// "A fresh with-first state holds +0 as its last value."
    fn last_value(self) -> u32 {
        match self {
            Opening::WithFirst => 0,
            Opening::On(value) => value,
        }
    }
}

/// The leading and trailing zero bits that the last `11` code set.
#[derive(Clone, Copy, Debug, PartialEq)]
pub struct Window {
    pub leading: u8,
    pub trailing: u8,
}

impl Window {
    /// "The opening window is leading 255, trailing 0."
    pub const OPENING: Window = Window {
        leading: 255,
        trailing: 0,
    };

    /// "Its window is the opening one or, at length 1 or more only, has leading + trailing at most
    /// 31."
    pub(super) fn may_stand(self, length: usize) -> bool {
        self == Window::OPENING
            || (length >= 1 && u32::from(self.leading) + u32::from(self.trailing) <= 31)
    }

    fn meaningful(self) -> u32 {
        32 - u32::from(self.leading) - u32::from(self.trailing)
    }
}

/// The code of a value by the exclusive or with the last kept one, and the window after it.
fn code(window: Window, xor: u32) -> (Vec<bool>, Window) {
    let (leading, trailing) = (xor.leading_zeros(), xor.trailing_zeros());
    if xor == 0 {
        return (vec![true, false], window);
    }
    if leading >= u32::from(window.leading) && trailing >= u32::from(window.trailing) {
        let meaningful = field(xor >> window.trailing, window.meaningful());
        return ([vec![false], meaningful].concat(), window);
    }
    let new = Window {
        leading: leading as u8,
        trailing: trailing as u8,
    };
    let header = [
        vec![true, true],
        field(leading, 5),
        field(new.meaningful(), 6),
    ];
    let meaningful = field(xor >> trailing, new.meaningful());
    ([header.concat(), meaningful].concat(), new)
}

/// "Lossless keeps the input. Otherwise keep the last value if within; else clear the s lowest bits
/// with the greatest s from 0 to 23 that stays within."
pub fn kept(bound: ErrorBound, last: u32, input: u32) -> u32 {
    let is_within = |kept: u32| within(bound, f32::from_bits(input), f32::from_bits(kept));
    if bound == ErrorBound::Lossless {
        input
    } else if is_within(last) {
        last
    } else {
        let cleared = |s: u32| input >> s << s;
        let greatest = (0..=23).rev().find(|&s| is_within(cleared(s)));
        cleared(greatest.expect("clearing no bit is within"))
    }
}

/// Whether a place, a number of values and a window go together over so many bytes: "its place is
/// within the buffer; length is 0 exactly when place is 0, and at most 65,536; and its window ...".
fn may_be_used(place: usize, length: usize, window: Window, bytes: usize) -> bool {
    place.div_ceil(8) <= bytes
        && (length == 0) == (place == 0)
        && length <= MOST_VALUES
        && window.may_stand(length)
}

/// The writer's state.
#[derive(Clone, Copy, Debug, PartialEq)]
pub struct MacaqueV {
    pub error_bound: ErrorBound,
    /// Looked at only at length 0.
    pub with_first: bool,
    pub min_value: u32,
    pub max_value: u32,
    pub last_value: u32,
    pub window: Window,
    pub place: usize,
    pub length: usize,
    /// 02, W4: "the f32 sum, added from the left as 01 says". Its bits, so that zeros of either sign differ and
    /// NaNs do not.
    pub sum: u32,
}

impl MacaqueV {
    /// A fresh state: "Minimum and maximum start fresh". Refusals: 1.
    pub fn new(error_bound: ErrorBound, opening: Opening) -> Answer<Self> {
        error_bound.judge()?;
        Ok(Self {
            error_bound,
            with_first: opening == Opening::WithFirst,
            min_value: NAN_32,
            max_value: NAN_32,
            last_value: opening.last_value(),
            window: Window::OPENING,
            place: 0,
            length: 0,
            sum: 0,
        })
    }

    /// Whether the state may be used over a buffer of so many bytes.
    pub fn may_be_used(self, bytes: usize) -> bool {
        may_be_used(self.place, self.length, self.window, bytes)
    }

    /// Refuses a write of so many values on this state, over so many bytes: 1 2 3.
    pub(super) fn judge_write(self, values: usize, bytes: usize) -> Answer<()> {
        self.error_bound.judge()?;
        refuse_if(!self.may_be_used(bytes), refusal::STATE)?;
        refuse_if(self.length + values > MOST_VALUES, refusal::LIMIT)
    }

    /// Writes values behind the place; the state after them. Refusals: 1 2 3 4.
    pub fn compress_values(self, values: &[u32], buffer: &mut [u8]) -> Answer<Self> {
        self.judge_write(values.len(), buffer.len())?;
        let (mut after, mut bits) = (self, vec![]);
        for &value in values {
            let (code, next) = after.step(value);
            bits.extend(code);
            after = next;
        }
        refuse_if(after.place > 8 * buffer.len(), refusal::OUTPUT)?;
        for (place, &bit) in (self.place..).zip(&bits) {
            put(buffer, place, bit);
        }
        // "An accepted write of one value or more ... zeroes the rest of its last byte ... An empty
        // write changes nothing."
        if !values.is_empty() {
            cut(buffer, after.place);
        }
        Ok(after)
    }

    /// The bits that one value is written as, and the state after it.
    pub(super) fn step(self, input: u32) -> (Vec<bool>, Self) {
        if self.length == 0 && self.with_first {
            return (field(input, 32), self.with(input, self.window, 32));
        }
        let value = kept(self.error_bound, self.last_value, input);
        let (bits, window) = code(self.window, value ^ self.last_value);
        let after = self.with(value, window, bits.len());
        (bits, after)
    }

    /// The state with one more kept value: "Minimum and maximum ... take in each kept value from the
    /// left, the raw first one too." The sum goes on "from the first value in with-first mode", whatever it was
    /// before that one, and else by adding.
    fn with(self, value: u32, window: Window, bits: usize) -> Self {
        let number = f32::from_bits(value);
        let sum = match self.length {
            0 if self.with_first => number,
            _ => f32::from_bits(self.sum) + number,
        };
        Self {
            sum: bits_of_f32(sum),
            min_value: minimum_bits(self.min_value, value),
            max_value: maximum_bits(self.max_value, value),
            last_value: value,
            window,
            place: self.place + bits,
            length: self.length + 1,
            ..self
        }
    }

    /// "Reopening takes buffer, used length, count n and value number k. The whole stream is checked
    /// first. It zeroes the bits after the bit place of k in a byte that this cuts, and nothing
    /// else." Refusals: 1 3 12, then 5 to 8.
    pub fn reopen(
        buffer: &mut [u8],
        used: usize,
        count: usize,
        k: usize,
        opening: Opening,
        error_bound: ErrorBound,
    ) -> Read<Self> {
        let fresh = Self::new(error_bound, opening)?;
        judge_count(count)?;
        refuse_if(k > count || used > buffer.len(), refusal::COUNTS)?;
        let rows = read_all(&buffer[..used], count, opening)?;
        Ok(fresh.behind(&rows[..k], buffer))
    }

    /// The state behind values that were read: "It zeroes the bits after the bit place ... in a byte that this
    /// cuts, and nothing else."
    pub(super) fn behind(self, rows: &[Row], buffer: &mut [u8]) -> Self {
        let state = rows.iter().fold(self, |state, row| {
            state.with(row.value, row.window, row.bits)
        });
        cut(buffer, state.place);
        state
    }
}

/// The kinds of code.
#[derive(Clone, Copy, Debug, PartialEq)]
pub enum Kind {
    Raw,
    Same,
    New,
    Keep,
}

/// A value read: its code's kind and size, the value, and the window after it.
#[derive(Clone, Copy, Debug, PartialEq)]
pub struct Row {
    pub kind: Kind,
    pub bits: usize,
    pub value: u32,
    pub window: Window,
}

/// "A reader that keeps hold of the lent stream and its place", and of the number of values read.
#[derive(Clone, Copy, Debug, PartialEq)]
pub struct Reader<'a> {
    pub stream: &'a [u8],
    pub with_first: bool,
    pub last_value: u32,
    pub window: Window,
    pub place: usize,
    pub length: usize,
}

impl<'a> Reader<'a> {
    /// Refuses nothing.
    pub fn open(stream: &'a [u8], opening: Opening) -> Self {
        Self {
            stream,
            with_first: opening == Opening::WithFirst,
            last_value: opening.last_value(),
            window: Window::OPENING,
            place: 0,
            length: 0,
        }
    }

    /// "Its place, that number and its window keep the rule for a writer's state, else 2".
    pub fn may_be_used(&self) -> bool {
        may_be_used(self.place, self.length, self.window, self.stream.len())
    }

    /// Refused at the value being read: "a reader's next answers its own number of values read and its
    /// place".
    fn fault(&self, number: u32) -> Fault {
        Fault {
            number,
            value: self.length,
            place: self.place,
        }
    }

    /// The `count` bits that begin `from` bits after the place, or 5.
    fn take(&self, from: usize, count: u32) -> Read<u32> {
        let start = self.place + from;
        let places = start..start + count as usize;
        if places.end > 8 * self.stream.len() {
            return Err(self.fault(refusal::ENDS_EARLY));
        }
        let bits: Vec<bool> = places.map(|place| get(self.stream, place)).collect();
        Ok(number(&bits))
    }

    /// The next value, and the reader after it. Refusals: 2 3, then 5 to 7, the reader unchanged.
    pub fn next_value(&self) -> Read<(Row, Self)> {
        refuse_if(!self.may_be_used(), refusal::STATE)?;
        refuse_if(self.length == MOST_VALUES, refusal::LIMIT)?;
        self.read_on()
    }

    /// The value whose code begins at the place, and the reader after it. Refusals: 5 to 7.
    pub(super) fn read_on(&self) -> Read<(Row, Self)> {
        let row = self.row()?;
        let next = Self {
            last_value: row.value,
            window: row.window,
            place: self.place + row.bits,
            length: self.length + 1,
            ..*self
        };
        Ok((row, next))
    }

    /// The code at the place.
    fn row(&self) -> Read<Row> {
        if self.length == 0 && self.with_first {
            let value = self.take(0, 32)?;
            return Ok(self.as_row(Kind::Raw, 32, value, self.window));
        }
        if self.take(0, 1)? == 0 {
            return self.keep_row();
        }
        if self.take(1, 1)? == 0 {
            return Ok(self.as_row(Kind::Same, 2, self.last_value, self.window));
        }
        self.new_row()
    }

    /// "A `0` code with no window is 6 at once."
    fn keep_row(&self) -> Read<Row> {
        if self.window == Window::OPENING {
            return Err(self.fault(refusal::NO_WINDOW));
        }
        let meaningful = self.window.meaningful();
        let xor = self.take(1, meaningful)? << self.window.trailing;
        let bits = 1 + meaningful as usize;
        Ok(self.as_row(Kind::Keep, bits, self.last_value ^ xor, self.window))
    }

    /// "A `11` header needs 11 more bits (else 5), then 7 is judged, then the meaningful bits are
    /// needed (else 5)."
    fn new_row(&self) -> Read<Row> {
        let header = self.take(2, 11)?;
        let (leading, meaningful) = (header >> 6, header & 63);
        if meaningful == 0 || leading + meaningful > 32 {
            return Err(self.fault(refusal::WINDOW));
        }
        let window = Window {
            leading: leading as u8,
            trailing: (32 - leading - meaningful) as u8,
        };
        let xor = self.take(13, meaningful)? << window.trailing;
        let bits = 13 + meaningful as usize;
        Ok(self.as_row(Kind::New, bits, self.last_value ^ xor, window))
    }

    fn as_row(&self, kind: Kind, bits: usize, value: u32, window: Window) -> Row {
        Row {
            kind,
            bits,
            value,
            window,
        }
    }

    /// Judges what follows the place: "a set padding bit or a further byte". It answers "the number it has
    /// read", and the place "of the first set padding bit, or of the first extra byte's first bit if no
    /// padding bit is set". Refusals: 2 8.
    pub fn end(&self) -> Read<()> {
        refuse_if(!self.may_be_used(), refusal::STATE)?;
        let whole = self.place.next_multiple_of(8);
        let padding = (self.place..whole).find(|&place| get(self.stream, place));
        let further = (whole < 8 * self.stream.len()).then_some(whole);
        match padding.or(further) {
            None => Ok(()),
            Some(place) => Err(Fault {
                place,
                ..self.fault(refusal::LEFTOVER)
            }),
        }
    }
}

/// "Reading takes exactly the stream's bytes and a count; count 0 needs no bytes."
pub fn read_all(bytes: &[u8], count: usize, opening: Opening) -> Read<Vec<Row>> {
    let read = read_through(bytes, count, opening)?;
    Ok(read.into_iter().map(|(_, row)| row).collect())
}

/// The same, each value with the reader before it.
pub(super) fn read_through(
    bytes: &[u8],
    count: usize,
    opening: Opening,
) -> Read<Vec<(Reader<'_>, Row)>> {
    let (mut reader, mut read) = (Reader::open(bytes, opening), vec![]);
    for _ in 0..count {
        let (row, next) = reader.next_value()?;
        read.push((reader, row));
        reader = next;
    }
    reader.end()?;
    Ok(read)
}

/// The values of a stream. Refusals: 3 4, then 5 to 8.
pub fn grid(bytes: &[u8], count: usize, opening: Opening, out: &mut [u32]) -> Read<()> {
    judge_count(count)?;
    refuse_if(out.len() < count, refusal::OUTPUT)?;
    let rows = read_all(bytes, count, opening)?;
    for (place, row) in out.iter_mut().zip(rows) {
        *place = row.value;
    }
    Ok(())
}

/// "Sum adds in f32 from the left: from the first value in with-first mode, else from 0; count 0
/// gives 0." Refusals: 3, then 5 to 8.
pub fn sum(bytes: &[u8], count: usize, opening: Opening) -> Read<u32> {
    judge_count(count)?;
    let rows = read_all(bytes, count, opening)?;
    let values: Vec<f32> = rows.iter().map(|row| f32::from_bits(row.value)).collect();
    let (start, rest) = match (opening, values.split_first()) {
        (Opening::WithFirst, Some((&first, rest))) => (first, rest),
        _ => (0.0, &values[..]),
    };
    Ok(bits_of_f32(
        rest.iter().fold(start, |sum, value| sum + value),
    ))
}
