//! The most bits of a stream: a list for each count takes as many, and no list takes more, by a search through every
//! window that a code can meet.

use oracle::paper::MOST_VALUES;
use oracle::paper::macaque_v::{MacaqueV, Opening, Window};
use oracle::paper::models::ErrorBound::{self, Absolute, Lossless, Relative};
use oracle::paper::refusal::{LIMIT, OUTPUT};
use oracle::paper::size::{largest, most_bits, most_bytes};

const OPENINGS: [Opening; 5] = [
    Opening::WithFirst,
    Opening::On(0),
    Opening::On(0x3F80_0000),
    Opening::On(0x7FC1_2345),
    Opening::On(0xFFFF_FFFF),
];

/// The place behind the values, in so many bytes.
fn place(bound: ErrorBound, opening: Opening, values: &[u32], bytes: usize) -> Result<usize, u32> {
    let fresh = MacaqueV::new(bound, opening)?;
    let after = fresh.compress_values(values, &mut vec![0xFF; bytes])?;
    Ok(after.place)
}

#[test]
fn the_bound_is_as_the_request_says() {
    let (first, on) = (Opening::WithFirst, Opening::On(7));
    for (count, with_first, without) in [
        (0, 0, 0),
        (1, 32, 45),
        (2, 77, 89),
        (3, 121, 133),
        (MOST_VALUES, 2_883_573, 2_883_585),
    ] {
        assert_eq!(most_bits(count, first), Ok(with_first));
        assert_eq!(most_bits(count, on), Ok(without));
    }
    assert_eq!(
        [1, 2, 3].map(|n| most_bytes(n, on)),
        [Ok(6), Ok(12), Ok(17)]
    );
    assert_eq!(most_bytes(0, on), Ok(0));
    for count in [MOST_VALUES + 1, usize::MAX] {
        for opening in OPENINGS {
            assert_eq!(most_bits(count, opening), Err(LIMIT));
            assert_eq!(most_bytes(count, opening), Err(LIMIT));
        }
    }
}

#[test]
fn for_each_count_a_list_reaches_it() {
    for opening in OPENINGS {
        for count in (1..=300).chain([1_000, MOST_VALUES - 1, MOST_VALUES]) {
            let values = largest(count, opening);
            assert_eq!(values.len(), count);
            let bytes = most_bytes(count, opening).expect("within the limit");
            let taken = place(Lossless, opening, &values, bytes);
            assert_eq!(taken, most_bits(count, opening), "{count} {opening:?}");
            let short = place(Lossless, opening, &values, bytes - 1);
            assert_eq!(short, Err(OUTPUT), "{count} {opening:?}");
        }
    }
    assert_eq!(largest(0, Opening::WithFirst), []);
}

/// The opening window beside a repeat, and every other beside a difference that has just its bits.
fn windows() -> Vec<(Window, u32)> {
    let mut windows = vec![(Window::OPENING, 0)];
    for leading in 0..32u8 {
        for trailing in 0..32 - leading {
            let xor = 1 << (31 - leading) | 1 << trailing;
            windows.push((Window { leading, trailing }, xor));
        }
    }
    windows
}

/// How many bits the code of a difference takes in a window, and the window behind it.
fn coded(window: Window, xor: u32) -> (usize, Window) {
    let state = MacaqueV {
        window,
        place: 1,
        length: 1,
        ..MacaqueV::new(Lossless, Opening::On(0)).expect("an allowed bound")
    };
    let after = state.compress_values(&[xor], &mut [0; 8]).expect("room");
    (after.place - 1, after.window)
}

/// The size of a code hangs on the window and on the zeros at both ends of the difference alone. So the most bits of
/// n codes that leave each window, for each n in turn, are the most of all lists.
#[test]
fn no_list_takes_more() {
    let windows = windows();
    let at = |window: Window| {
        let own = windows.iter().position(|&(own, _)| own == window);
        own.expect("a window of the list")
    };
    // From each window the code of each difference: its bits, and where it leads.
    let from = |&(window, _): &(Window, u32)| -> Vec<(usize, usize)> {
        let step = |&(_, xor): &(Window, u32)| coded(window, xor);
        windows
            .iter()
            .map(step)
            .map(|(bits, to)| (bits, at(to)))
            .collect()
    };
    let steps: Vec<Vec<(usize, usize)>> = windows.iter().map(from).collect();
    let mut most = vec![None; windows.len()];
    most[at(Window::OPENING)] = Some(0);
    for count in 1..=40 {
        let mut next = vec![None; windows.len()];
        for (bits, steps) in most.iter().zip(&steps) {
            let Some(bits) = bits else { continue };
            for &(more, to) in steps {
                next[to] = next[to].max(Some(bits + more));
            }
        }
        most = next;
        let all = most.iter().flatten().max().expect("a window").to_owned();
        assert_eq!(Ok(all), most_bits(count, Opening::On(0)), "{count} codes");
        let with_first = most_bits(count + 1, Opening::WithFirst);
        assert_eq!(Ok(32 + all), with_first, "a value and {count} codes");
    }
}

/// Numbers from a seed (splitmix64).
struct Drawn(u64);

impl Drawn {
    fn word(&mut self) -> u64 {
        self.0 = self.0.wrapping_add(0x9E37_79B9_7F4A_7C15);
        let mut word = self.0;
        word = (word ^ (word >> 30)).wrapping_mul(0xBF58_476D_1CE4_E5B9);
        word = (word ^ (word >> 27)).wrapping_mul(0x94D0_49BB_1331_11EB);
        word ^ (word >> 31)
    }
}

#[test]
fn a_code_is_as_long_as_the_ends_of_its_difference_say() {
    let mut drawn = Drawn(1);
    let windows = windows();
    for _ in 0..200_000 {
        let (window, _) = windows[drawn.word() as usize % windows.len()];
        let (_, ends) = windows[1 + drawn.word() as usize % (windows.len() - 1)];
        let between = (drawn.word() as u32) & inner(ends);
        assert_eq!(coded(window, ends | between), coded(window, ends));
    }
}

/// The bits between the highest and the lowest of a difference.
fn inner(ends: u32) -> u32 {
    (u32::MAX >> ends.leading_zeros()) & (u32::MAX << ends.trailing_zeros())
}

#[test]
fn under_any_bound_no_list_that_is_drawn_takes_more() {
    let mut drawn = Drawn(2);
    for _ in 0..20_000 {
        let count = drawn.word() as usize % 24;
        let bits = |drawn: &mut Drawn| drawn.word() as u32 & drawn.word() as u32;
        let mut value = bits(&mut drawn);
        let values: Vec<u32> = (0..count)
            .map(|_| {
                value ^= bits(&mut drawn);
                value
            })
            .collect();
        let opening = OPENINGS[drawn.word() as usize % OPENINGS.len()];
        for bound in [
            Lossless,
            Absolute(0.5),
            Absolute(1e30),
            Relative(0.01),
            Relative(100.0),
        ] {
            let bytes = most_bytes(count, opening).expect("within the limit");
            let taken = place(bound, opening, &values, bytes).expect("room");
            assert!(taken <= most_bits(count, opening).expect("within the limit"));
        }
    }
}
