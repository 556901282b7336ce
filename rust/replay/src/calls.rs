//! The calls by their numbers, as the oracle answers them.

use crate::record::Record;
use modelardb_rattle::Fault;
use modelardb_rattle::ffi::StoredSegment;
use oracle::paper::models::ErrorBound;
use oracle::paper::{Answer, models, numbers};
use side_by_side::face::{self, choice, fit, reader, segments, table};

/// Their names, and the refusals that each can give: in the order of include/modelardb.h, but for those that came later
/// and stand at the end, so that no number ever changes.
pub const CALLS: [(&str, &[u64]); 46] = [
    ("modelardb_widen", &[]),
    ("modelardb_narrow", &[]),
    ("modelardb_is_value_within_error_bound", &[1, 4]),
    ("modelardb_maximum_allowed_deviation", &[1, 4]),
    ("modelardb_macaque_v_new", &[1, 3, 4]),
    ("modelardb_macaque_v_compress_values", &[1, 2, 3, 4]),
    ("modelardb_macaque_v_reopen", &[1, 3, 4, 5, 6, 7, 8, 12]),
    ("modelardb_macaque_v_grid", &[3, 4, 5, 6, 7, 8]),
    ("modelardb_macaque_v_sum", &[3, 4, 5, 6, 7, 8]),
    ("modelardb_pmc_mean_new", &[1, 4]),
    ("modelardb_pmc_mean_fit_value", &[1, 2, 3]),
    ("modelardb_pmc_mean_bytes_per_value", &[1, 2, 3, 4, 11]),
    ("modelardb_pmc_mean_model", &[1, 2, 4, 11]),
    ("modelardb_pmc_mean_sum", &[3, 4]),
    ("modelardb_pmc_mean_grid", &[3, 4]),
    ("modelardb_swing_new", &[1, 4]),
    ("modelardb_swing_fit_data_point", &[1, 2, 3, 10]),
    ("modelardb_swing_bytes_per_value", &[1, 2, 3, 4, 11]),
    ("modelardb_swing_model", &[1, 2, 4, 11]),
    ("modelardb_swing_sum_by_average", &[3, 4, 10, 11]),
    ("modelardb_swing_sum_over", &[3, 4, 10, 11]),
    ("modelardb_swing_grid", &[3, 4, 10, 11]),
    ("modelardb_model_builder_new", &[1, 4]),
    (
        "modelardb_model_builder_try_to_update_models",
        &[1, 2, 3, 10],
    ),
    ("modelardb_model_builder_finish", &[1, 2, 3, 4, 11]),
    ("modelardb_choose_model", &[1, 3, 4, 10, 11, 12]),
    ("modelardb_encode_values_for_pmc_mean", &[4]),
    ("modelardb_encode_values_for_swing", &[4]),
    ("modelardb_decode_values_for_pmc_mean", &[4, 9]),
    ("modelardb_decode_values_for_swing", &[4, 9]),
    ("modelardb_segment_write", &[1, 3, 4]),
    ("modelardb_segment_grid", &[3, 4, 5, 6, 7, 8, 9, 10, 11, 12]),
    (
        "modelardb_segment_sum_by_average",
        &[3, 4, 5, 6, 7, 8, 9, 10, 11, 12],
    ),
    (
        "modelardb_segment_sum_over",
        &[3, 4, 5, 6, 7, 8, 9, 10, 11, 12],
    ),
    ("modelardb_reader_open", &[3, 4]),
    ("modelardb_reader_next", &[2, 3, 4, 5, 6, 7]),
    ("modelardb_reader_end", &[2, 8]),
    ("modelardb_reader_last_value", &[3, 4, 5, 6, 7, 8]),
    ("modelardb_table_compress_values", &[1, 2, 3, 4, 12, 13]),
    ("modelardb_table_reopen", &[1, 3, 4, 5, 6, 7, 8, 12, 13]),
    ("modelardb_table_check", &[3, 5, 6, 7, 8, 12, 13]),
    ("modelardb_table_range", &[3, 4, 5, 6, 7, 12, 13]),
    ("modelardb_macaque_v_most_bits", &[3]),
    ("modelardb_macaque_v_most_bytes", &[3]),
    ("modelardb_macaque_v_rescue", &[1, 3, 4, 6, 7, 12]),
    ("modelardb_table_rescue", &[1, 3, 4, 6, 7, 12]),
];

/// What a call answers: number, value and place, or, of the two that are never refused, what they give.
pub type Told = [u64; 3];

/// What the call of a record answers, and the record with the memory as it is left.
pub fn answered(record: &Record) -> (Told, Record) {
    let mut left = record.clone();
    (answer(&mut left), left)
}

/// What the call of a record answers; its memory becomes what the call leaves.
fn answer(record: &mut Record) -> Told {
    match record.call {
        0 => [numbers::widen(record.x[0]), 0, 0],
        1 => [numbers::narrow(record.w[0]).into(), 0, 0],
        2..4 => told(of_bounds(record)),
        4..9 => told(of_streams(record)),
        9..15 => told(of_pmc_mean(record)),
        15..22 => told(of_swing(record)),
        22..26 => told(of_the_choice(record)),
        26..34 => told(of_segments(record)),
        34..38 => told(of_the_reader(record)),
        38..42 => told(of_the_table(record)),
        42..44 => told(of_sizes(record)),
        _ => told(of_rescue(record)),
    }
}

fn told(fault: Fault) -> Told {
    [fault.number.into(), fault.value.into(), fault.place as u64]
}

fn of_bounds(record: &mut Record) -> Fault {
    let Record {
        call, x, w, v, r, ..
    } = record;
    let bound = bound(x[0], x[1]);
    match call {
        2 => {
            let within = models::is_value_within_error_bound(bound, x[2], x[3]);
            in_row(within.map(u32::from), v)
        }
        _ => in_row(models::maximum_allowed_deviation(bound, w[0]), r),
    }
}

/// "A bound's kind above 2 [is refused] with 1", as any that is not allowed.
fn bound(kind: u32, bits: u32) -> ErrorBound {
    match kind {
        0 => ErrorBound::Lossless,
        1 => ErrorBound::Absolute(f32::from_bits(bits)),
        2 => ErrorBound::Relative(f32::from_bits(bits)),
        _ => ErrorBound::Absolute(f32::NAN),
    }
}

/// An answer of one word, which goes into the row.
fn in_row<T>(answer: Answer<T>, row: &mut [T]) -> Fault {
    match fit::in_room(answer, 1, row.len()) {
        Ok(word) => {
            row[0] = word;
            Fault::ACCEPTED
        }
        Err(refused) => face::fault(refused),
    }
}

fn of_streams(record: &mut Record) -> Fault {
    let Record {
        call,
        x,
        w,
        p,
        v,
        r,
        ..
    } = record;
    let size = |place: usize| w[place] as usize;
    match call {
        4 => face::new((x[0], x[1]), (x[2], x[3]), r),
        5 => face::compress_values(r, v, p),
        6 => {
            let (opening, bound) = ((x[0], x[1]), (x[2], x[3]));
            face::reopen(p, size(0), (size(1), size(2)), opening, bound, r)
        }
        7 => face::grid(p, size(0), (x[0], x[1]), v),
        _ => face::sum(p, size(0), (x[0], x[1]), v),
    }
}

fn of_pmc_mean(record: &mut Record) -> Fault {
    let Record {
        call,
        x,
        w,
        v,
        r,
        s,
        ..
    } = record;
    let size = || w[0] as usize;
    match call {
        9 => fit::pmc_mean_new((x[0], x[1]), r),
        10 => fit::pmc_mean_fit_value(r, x[0]),
        11 => fit::pmc_mean_bytes_per_value(s, size(), v),
        12 => fit::pmc_mean_model(s, v),
        13 => fit::pmc_mean_sum(size(), x[0], v),
        _ => fit::pmc_mean_grid(x[0], size(), v),
    }
}

fn of_swing(record: &mut Record) -> Fault {
    let Record {
        call,
        x,
        w,
        t,
        v,
        r,
        s,
        ..
    } = record;
    let ends = || ((w[0] as i64, w[1] as i64), (x[0], x[1]));
    match call {
        15 => fit::swing_new((x[0], x[1]), r),
        16 => fit::swing_fit_data_point(r, w[0] as i64, x[0]),
        17 => fit::swing_bytes_per_value(s, w[0] as usize, v),
        18 => fit::swing_model(s, v),
        19 => fit::swing_sum_by_average(ends(), w[2] as usize, v),
        20 => fit::swing_sum_over(ends(), t, v),
        _ => fit::swing_grid(ends(), t, v),
    }
}

fn of_the_choice(record: &mut Record) -> Fault {
    let Record {
        call,
        x,
        w,
        t,
        v,
        r,
        s,
        ..
    } = record;
    match call {
        22 => choice::new((x[0], x[1]), r),
        23 => choice::try_to_update_models(r, w[0] as i64, x[0]),
        24 => choice::finish(s, w[0] as usize, r),
        _ => choice::choose_model(t, v, (x[0], x[1]), w[0] as usize, r),
    }
}

fn of_segments(record: &mut Record) -> Fault {
    let Record {
        call,
        x,
        t,
        p,
        q,
        v,
        r,
        ..
    } = record;
    match call {
        26 => segments::encode_values_for_pmc_mean(x[0], (x[1], x[2]), p, r),
        27 => segments::encode_values_for_swing((x[0], x[1]), (x[2], x[3]), p, r),
        28 => segments::decode_values_for_pmc_mean((x[0], x[1]), p, v),
        29 => segments::decode_values_for_swing((x[0], x[1]), p, v),
        30 => segments::segment_write((x[0], (x[1], x[2])), (x[3], x[4]), v, p, q, r),
        _ => {
            let segment = StoredSegment {
                model: x[0],
                extremes: (x[1], x[2]),
                values: p,
                residuals: q,
            };
            match call {
                31 => segments::segment_grid(segment, t, v),
                32 => segments::segment_sum_by_average(segment, t, v),
                _ => segments::segment_sum_over(segment, t, v),
            }
        }
    }
}

fn of_the_reader(record: &mut Record) -> Fault {
    let Record {
        call,
        x,
        w,
        p,
        v,
        r,
        s,
        ..
    } = record;
    match call {
        34 => reader::open((x[0], x[1]), r),
        35 => reader::next(p, r, v),
        36 => reader::end(p, s),
        _ => reader::last_value(p, w[0] as usize, (x[0], x[1]), v),
    }
}

fn of_the_table(record: &mut Record) -> Fault {
    let Record {
        call,
        x,
        w,
        p,
        v,
        r,
        u,
        ..
    } = record;
    let size = |place: usize| w[place] as usize;
    on_a_table(u, |words, entries| match call {
        38 => table::compress_values(r, v, p, words, entries),
        39 => {
            let (opening, bound) = ((x[0], x[1]), (x[2], x[3]));
            let lent = (&*words, entries);
            table::reopen(p, size(0), (size(1), size(2)), opening, bound, r, lent)
        }
        40 => table::check(p, size(0), (x[0], x[1]), (words, *entries)),
        _ => {
            let values = size(1)..size(2);
            table::range(p, size(0), (x[0], x[1]), (words, *entries), values, v)
        }
    })
}

/// A call on a table. The first word of `u` is how many entries are in use.
fn on_a_table(u: &mut [u64], call: impl FnOnce(&mut [u64], &mut usize) -> Fault) -> Fault {
    let [used, words @ ..] = u else {
        unreachable!("a table has a number of entries");
    };
    let mut entries = *used as usize;
    let fault = call(words, &mut entries);
    *used = entries as u64;
    fault
}

/// The first word of `r` is the number that the call is lent.
fn of_sizes(record: &mut Record) -> Fault {
    let Record { call, x, w, r, .. } = record;
    let (count, mut most) = (w[0] as usize, r[0] as usize);
    let fault = match call {
        42 => face::most_bits(count, x[0], &mut most),
        _ => face::most_bytes(count, x[0], &mut most),
    };
    r[0] = most as u64;
    fault
}

fn of_rescue(record: &mut Record) -> Fault {
    let Record {
        call,
        x,
        w,
        p,
        r,
        u,
        ..
    } = record;
    let (used, limit) = (w[0] as usize, w[1] as usize);
    let (opening, bound) = ((x[0], x[1]), (x[2], x[3]));
    match call {
        44 => face::rescue(p, used, limit, opening, bound, r),
        _ => on_a_table(u, |words, entries| {
            table::rescue(p, used, limit, opening, bound, r, (words, entries))
        }),
    }
}
