//! Whether and where a stream is refused, by its bits alone: worked out apart from the paper's program,
//! which is held against it.

use oracle::paper::Fault;
use oracle::paper::macaque_v::Opening;
use oracle::paper::refusal::{ENDS_EARLY, LEFTOVER, NO_WINDOW, WINDOW};

/// The refusal of `count` values in `bytes`, if they are refused.
pub fn refusal_of(bytes: &[u8], count: usize, opening: Opening) -> Option<Fault> {
    let bits: String = bytes.iter().map(|byte| format!("{byte:08b}")).collect();
    let (mut rest, mut window) = (&bits[..], None);
    for value in 0..count {
        let is_raw = value == 0 && opening == Opening::WithFirst;
        match rest_after(rest, is_raw, &mut window) {
            Ok(behind) => rest = behind,
            Err(number) => {
                let place = bits.len() - rest.len();
                return Some(Fault {
                    number,
                    value,
                    place,
                });
            }
        }
    }
    // Of the rest of a byte a set bit is left over, or else all behind it.
    let padding = rest.len() % 8;
    let leftover = rest[..padding].find('1');
    let leftover = leftover.or((rest.len() > padding).then_some(padding));
    leftover.map(|at| Fault {
        number: LEFTOVER,
        value: count,
        place: bits.len() - rest.len() + at,
    })
}

/// The bits behind one value, which is raw where `is_raw` says so. The window is how many bits a keep code
/// has.
fn rest_after<'a>(bits: &'a str, is_raw: bool, window: &mut Option<usize>) -> Result<&'a str, u32> {
    if is_raw {
        return without(bits, 32);
    }
    if let Some(body) = bits.strip_prefix('0') {
        return without(body, window.ok_or(NO_WINDOW)?);
    }
    if let Some(body) = bits.strip_prefix("10") {
        return Ok(body);
    }
    let header = without(bits, 2)?;
    let body = without(header, 11)?;
    let (leading, meaningful) = (number_in(&header[..5]), number_in(&header[5..11]));
    if meaningful == 0 || leading + meaningful > 32 {
        return Err(WINDOW);
    }
    *window = Some(meaningful);
    without(body, meaningful)
}

/// The bits behind the first `count`, which must be there.
fn without(bits: &str, count: usize) -> Result<&str, u32> {
    bits.get(count..).ok_or(ENDS_EARLY)
}

fn number_in(bits: &str) -> usize {
    usize::from_str_radix(bits, 2).expect("binary digits")
}
