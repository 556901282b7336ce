//! Document 01's marked cases a to l, its parameter bytes and its listing.

use oracle::paper::listing::list;
use oracle::paper::macaque_v::{MacaqueV, Opening, Reader, grid, sum};
use oracle::paper::models::ErrorBound;
use oracle::paper::types::{Extremes, pmc_mean_bytes, swing_bytes};
use oracle::paper::{Fault, Read};

const ONE: u32 = 0x3F80_0000;
const TWO: u32 = 0x4000_0000;
const NAN: u32 = 0x7FC0_0000;

/// A refusal at a value and a place.
fn at(number: u32, value: usize, place: usize) -> Fault {
    Fault {
        number,
        value,
        place,
    }
}

fn read(bytes: &[u8], count: usize, opening: Opening) -> Read<Vec<u32>> {
    let mut out = vec![0; count];
    grid(bytes, count, opening, &mut out).map(|()| out)
}

fn written(values: &[u32]) -> Vec<u8> {
    let mut buffer = [0xFF; 16];
    let writer = MacaqueV::new(ErrorBound::Lossless, Opening::WithFirst).unwrap();
    let writer = writer.compress_values(values, &mut buffer).unwrap();
    buffer[..writer.place.div_ceil(8)].to_vec()
}

#[test]
fn a_and_b_are_written_and_read() {
    let a = [0x3F, 0x80, 0x00, 0x00, 0xB0, 0x91, 0xFE];
    let b = [0x3F, 0x80, 0x00, 0x00, 0xB0, 0x91, 0xFE, 0xFF];
    assert_eq!(written(&[ONE, ONE, TWO]), a);
    assert_eq!(written(&[ONE, ONE, TWO, ONE]), b);
    let values = vec![ONE, ONE, TWO, ONE];
    assert_eq!(read(&a, 3, Opening::WithFirst).as_deref(), Ok(&values[..3]));
    assert_eq!(read(&b, 4, Opening::WithFirst), Ok(values));
}

#[test]
fn c_to_l_are_read() {
    type Case<'a> = (&'a [u8], usize, Read<Vec<u32>>);
    let cases: [Case; 10] = [
        (&[0x80], 1, Ok(vec![ONE])),
        (&[0xA0], 2, Ok(vec![ONE, ONE])),
        (&[0xFE, 0x0C], 1, Ok(vec![0x3F80_0001])),
        (&[0x00], 1, Err(at(6, 0, 0))),
        (&[0x80], 2, Err(at(6, 1, 2))),
        (&[0xFE, 0x10], 1, Err(at(7, 0, 0))),
        (&[0xC0, 0x00], 1, Err(at(7, 0, 0))),
        (&[0xC0], 1, Err(at(5, 0, 0))),
        (&[0xA0], 1, Err(at(8, 1, 2))),
        (&[0x80, 0x00], 1, Err(at(8, 1, 8))),
    ];
    for (letter, (bytes, count, answer)) in ('c'..).zip(cases) {
        assert_eq!(read(bytes, count, Opening::On(ONE)), answer, "{letter}");
        if let Err(fault) = answer {
            passed_on(bytes, count, fault);
        }
    }
}

/// The callers of reading answer the same refusal: sum, reopening at every k, and a reader.
fn passed_on(bytes: &[u8], count: usize, fault: Fault) {
    let opening = Opening::On(ONE);
    assert_eq!(sum(bytes, count, opening), Err(fault));
    for k in 0..=count {
        let (mut buffer, lossless) = (bytes.to_vec(), ErrorBound::Lossless);
        let reopened = MacaqueV::reopen(&mut buffer, bytes.len(), count, k, opening, lossless);
        assert_eq!((reopened, &buffer[..]), (Err(fault), bytes));
    }
    let mut reader = Reader::open(bytes, opening);
    while reader.length < fault.value {
        (_, reader) = reader.next_value().expect("a value before the refused one");
    }
    let refused = match fault.number {
        8 => reader.end(),
        _ => reader.next_value().map(|_| ()),
    };
    assert_eq!(refused, Err(fault));
}

#[test]
fn a_cut_or_changed_is_refused_where_it_breaks() {
    let a = [0x3F, 0x80, 0x00, 0x00, 0xB0, 0x91, 0xFE];
    let first = Opening::WithFirst;
    assert_eq!(read(&a[..3], 3, first), Err(at(5, 0, 0)));
    assert_eq!(read(&a[..4], 3, first), Err(at(5, 1, 32)));
    assert_eq!(read(&a[..5], 3, first), Err(at(5, 2, 34)));
    assert_eq!(read(&a[..6], 3, first), Err(at(5, 2, 34)));
    // The padding bit at 55 reads as a keep code that has no more bits.
    assert_eq!(read(&a, 4, first), Err(at(5, 3, 55)));
    // The header of two ones begins at 34: a set bit behind two values.
    assert_eq!(read(&a, 2, first), Err(at(8, 2, 34)));
    // A header of 1 leading zero and no meaningful bits.
    let no_bits = [0x3F, 0x80, 0x00, 0x00, 0xB0, 0x80, 0x00];
    assert_eq!(read(&no_bits, 3, first), Err(at(7, 2, 34)));
    let extra = [&a[..], &[0x00]].concat();
    assert_eq!(read(&extra, 3, first), Err(at(8, 3, 56)));
    let padding = [&a[..6], &[0xFF, 0x00]].concat();
    assert_eq!(read(&padding, 3, first), Err(at(8, 3, 55)));
}

fn extremes(min_value: f32, max_value: f32) -> Extremes {
    Extremes {
        min_value: min_value.to_bits(),
        max_value: max_value.to_bits(),
    }
}

#[test]
fn parameter_bytes() {
    let none = Extremes {
        min_value: NAN,
        max_value: NAN,
    };
    let five = 5f32.to_bits();
    let half_up = extremes(0.5, 1.5);
    assert_eq!(pmc_mean_bytes(five, extremes(4.0, 5.0)), [1]);
    assert_eq!(pmc_mean_bytes(five, extremes(4.0, 6.0)), [0, 0, 0xA0, 0x40]);
    assert_eq!(pmc_mean_bytes(NAN, extremes(4.0, 6.0)), [0, 0, 0xC0, 0x7F]);
    assert_eq!(swing_bytes(ONE, TWO, half_up), [0, 0, 0, 0x80, 0x3F]);
    assert_eq!(
        swing_bytes(TWO, ONE, extremes(1.0, 3.0)),
        [3, 0, 0, 0, 0x40]
    );
    let minus_zero = 0x8000_0000;
    assert_eq!(
        swing_bytes(minus_zero, 0, none),
        [0, 0, 0, 0x80, 0, 0, 0, 0]
    );
}

#[test]
fn the_listing_of_case_b() {
    let input = [4, 0, 0, 0, 0x3F, 0x80, 0, 0, 0xB0, 0x91, 0xFE, 0xFF];
    let text = "no kind lead bits value\n\
                0 raw - 32 3F800000\n\
                1 same - 2 3F800000\n\
                2 new 1 21 40000000\n\
                3 keep 1 9 3F800000\n\
                total 64\n";
    assert_eq!(list(&input), text);
    let case_a = [&[3], &input[1..11]].concat();
    assert!(list(&case_a).ends_with("total 55\n"));
}

#[test]
fn the_listing_at_its_limits() {
    assert_eq!(list(&[0; 4]), "no kind lead bits value\ntotal 0\n");
    assert_eq!(list(&[0; 3]), "refused 5 0 0\n");
    assert_eq!(list(&[0; 32_769]), "refused 3 0 0\n");
    assert_eq!(list(&[0; 32_768]), "refused 8 0 0\n");
    assert_eq!(list(&[1, 0, 1, 0]), "refused 3 0 0\n");
    assert_eq!(list(&[0, 0, 1, 0]), "refused 5 0 0\n");
}

#[test]
fn the_listing_says_where_a_stream_broke() {
    let input = [3, 0, 0, 0, 0x3F, 0x80, 0, 0, 0xB0, 0x91, 0xFE];
    assert_eq!(list(&input[..10]), "refused 5 2 34\n");
    let mut changed = input;
    changed[0] = 2;
    assert_eq!(list(&changed), "refused 8 2 34\n");
    // A repeat, and then a header of no meaningful bits.
    let header = [3, 0, 0, 0, 0x3F, 0x80, 0, 0, 0xB0, 0x80, 0x00];
    assert_eq!(list(&header), "refused 7 2 34\n");
    // The same behind three repeats.
    let behind_more = [9, 0, 0, 0, 0x3F, 0x80, 0, 0, 0xAB, 0x00, 0x00];
    assert_eq!(list(&behind_more), "refused 7 4 38\n");
}
