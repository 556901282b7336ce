//! include/modelardb.h and the crate name the same numbers.

use modelardb_rattle::{Fault, MacaqueV, ModelBuilder, Opening, Refusal, ffi};
use std::collections::BTreeMap;
use std::mem::offset_of;

const HEADER: &str = include_str!("../../../include/modelardb.h");

const ACCEPTED: Fault = Fault::ACCEPTED;

/// The header's names that stand for a whole number.
fn named() -> BTreeMap<&'static str, usize> {
    let name = |line: &'static str| {
        let mut words = line.strip_prefix("#define MODELARDB_")?.split_whitespace();
        Some((words.next()?, words.next()?.parse().ok()?))
    };
    HEADER.lines().filter_map(name).collect()
}

#[test]
fn each_refusal_has_the_crates_number() {
    let named = named();
    for number in 1..=13 {
        let refusal = Refusal::from_fault(number.into()).expect("one of thirteen");
        let (shown, mut name) = (format!("{refusal:?}"), String::new());
        for letter in shown.chars().take_while(|letter| letter.is_alphabetic()) {
            if letter.is_uppercase() && !name.is_empty() {
                name.push('_');
            }
            name.extend(letter.to_uppercase());
        }
        assert_eq!(named.get(&name[..]), Some(&(number as usize)), "{name}");
    }
}

/// The struct's fields in their order, and where the machine's C puts them.
#[test]
fn a_fault_is_the_headers_struct() {
    let (_, rest) = HEADER
        .split_once("typedef struct modelardb_fault {")
        .expect("the struct");
    let (body, _) = rest.split_once("} modelardb_fault;").expect("its end");
    let field = |line: &'static str| Some(line.split_once(';')?.0.trim());
    let fields: Vec<&str> = body.lines().filter_map(field).collect();
    assert_eq!(
        fields,
        ["uint32_t number", "uint32_t value", "size_t place"]
    );
    assert_eq!(offset_of!(Fault, number), 0);
    assert_eq!(offset_of!(Fault, value), size_of::<u32>());
    assert_eq!(offset_of!(Fault, place), 2 * size_of::<u32>());
    assert_eq!(
        size_of::<Fault>(),
        2 * size_of::<u32>() + size_of::<usize>()
    );
}

/// Every call answers it but the two that are never refused.
#[test]
fn every_call_that_can_be_refused_answers_a_fault() {
    let calls = HEADER.lines().filter_map(|line| {
        let (answer, rest) = line.split_once(" modelardb_")?;
        let (name, _) = rest.split_once('(')?;
        (!answer.starts_with([' ', '/', '#'])).then_some((name, answer))
    });
    let calls: Vec<(&str, &str)> = calls.collect();
    assert_eq!(calls[..2], [("widen", "uint64_t"), ("narrow", "uint32_t")]);
    assert_eq!(calls.len(), 46);
    for (name, answer) in &calls[2..] {
        assert_eq!(*answer, "modelardb_fault", "{name}");
    }
}

#[test]
fn limits_lengths_and_models_are_the_crates() {
    let named = named();
    for (name, number) in [
        ("MOST_VALUES", MacaqueV::MOST_VALUES),
        ("MOST_RESIDUALS", MacaqueV::MOST_RESIDUALS),
        ("OPENING_LEADING", MacaqueV::OPENING_LEADING as usize),
        ("OPENING_TRAILING", MacaqueV::OPENING_TRAILING as usize),
        ("MOST_PARAMETER_BYTES", ffi::MOST_VALUES_BYTES),
        ("MOST_RESIDUAL_BYTES", ffi::MOST_RESIDUALS_BYTES),
        ("WRITER_WORDS", ffi::STATE_WORDS),
        ("PMC_MEAN_WORDS", ffi::PMC_MEAN_WORDS),
        ("SWING_WORDS", ffi::SWING_WORDS),
        ("BUILDER_WORDS", ffi::MODEL_BUILDER_WORDS),
        ("CHOSEN_WORDS", ffi::SELECTED_MODEL_WORDS),
        ("SEGMENT_WORDS", ffi::SEGMENT_WORDS),
        ("READER_WORDS", ffi::READER_WORDS),
        ("ENTRY_WORDS", ffi::ENTRY_WORDS),
        ("VALUES_PER_ENTRY", ffi::VALUES_PER_ENTRY),
        ("PMC_MEAN", ModelBuilder::PMC_MEAN_ID as usize),
        ("SWING", ModelBuilder::SWING_ID as usize),
    ] {
        assert_eq!(named.get(name), Some(&number), "{name}");
    }
}

/// The numbers of `((values) * (LONGEST_CODE - A) + B) / C`, as the header has them, against the calls.
#[test]
fn the_headers_room_is_that_of_the_calls() {
    let begin = "#define MODELARDB_ROOM(values) (((size_t)(values) * (MODELARDB_LONGEST_CODE - ";
    let rest = HEADER.lines().find_map(|line| line.strip_prefix(begin));
    let rest = rest.expect("the macro");
    assert_eq!(
        rest.replace(|sign: char| sign.is_ascii_digit(), ""),
        ") + ) / )"
    );
    let numbers = rest.split(|sign: char| !sign.is_ascii_digit());
    let numbers: Vec<usize> = numbers.filter_map(|word| word.parse().ok()).collect();
    let longest = named()["LONGEST_CODE"];
    let on = Opening::On(0.0);
    assert_eq!(MacaqueV::most_bits(1, on), Ok(longest), "one code alone");
    for count in 1..=MacaqueV::MOST_VALUES {
        let room = (count * (longest - numbers[0]) + numbers[1]) / numbers[2];
        assert_eq!(MacaqueV::most_bytes(count, on), Ok(room));
        let first = MacaqueV::most_bytes(count, Opening::First);
        assert!(first.is_ok_and(|bytes| bytes <= room), "{count} values");
    }
}

/// A row's words by the names behind a prefix, in the order of the names.
fn words(row: &[u64], prefix: &str, names: &[&str]) -> Vec<u64> {
    let named = named();
    let word = |name: &&str| row[named[&format!("{prefix}_{name}")[..]]];
    names.iter().map(word).collect()
}

#[test]
fn a_writers_words_stand_where_the_header_says() {
    let (half, bits) = (0.5f32.to_bits(), [1.0, 3.0, 2.0].map(f32::to_bits));
    let (mut row, mut buffer) = ([0; ffi::STATE_WORDS], [0; 17]);
    assert_eq!(ffi::macaque_v_new((1, half), (0, 0), &mut row), ACCEPTED);
    assert_eq!(
        ffi::macaque_v_compress_values(&mut row, &bits, &mut buffer),
        ACCEPTED
    );
    let names = [
        "KIND",
        "BOUND",
        "LEAST",
        "GREATEST",
        "LAST",
        "WITH_FIRST",
        "LENGTH",
        "SUM",
    ];
    let [one, three, two] = bits.map(u64::from);
    assert_eq!(
        words(&row, "WRITER", &names),
        [1, u64::from(half), one, three, two, 1, 3, 0x40C0_0000],
        "of 1, 3 and 2 the sum is 6"
    );
    let place = words(&row, "WRITER", &["PLACE"])[0] as usize;
    let used = place.div_ceil(8);
    assert_eq!(
        ffi::macaque_v_sum(&buffer[..used], 3, (0, 0), &mut [0]),
        ACCEPTED,
        "the bytes in use are (place + 7) / 8"
    );
    // A Lossless row's word 1 is not looked at, but it has 32 bits.
    assert_eq!(ffi::macaque_v_new((0, 7), (0, 0), &mut row), ACCEPTED);
    row[1] = 1 << 32;
    assert_eq!(
        ffi::macaque_v_compress_values(&mut row, &bits, &mut buffer),
        1.into()
    );
}

/// The entry before value 64 holds what the writer's row held there.
#[test]
fn an_entrys_words_stand_where_the_header_says() {
    let bits = [1.0, 3.0, 2.0, 2.5].map(f32::to_bits).repeat(20);
    let (mut row, mut buffer) = ([0; ffi::STATE_WORDS], [0; 400]);
    let (mut table, mut entries) = ([7; 2 * ffi::ENTRY_WORDS + 1], 0);
    assert_eq!(ffi::macaque_v_new((0, 0), (0, 0), &mut row), ACCEPTED);
    let mut before = row;
    assert_eq!(
        ffi::macaque_v_compress_values(&mut before, &bits[..64], &mut [0; 400]),
        ACCEPTED
    );
    assert_eq!(
        ffi::table_compress_values(&mut row, &bits, &mut buffer, &mut table, &mut entries),
        ACCEPTED
    );
    let names = ["PLACE", "LAST", "LEADING", "TRAILING"];
    let at = |entry: usize| words(&table[ffi::ENTRY_WORDS * entry..], "ENTRY", &names);
    assert_eq!(at(0), [0, 0, 255, 0]);
    assert_eq!(at(1), words(&before, "WRITER", &names));
    assert_eq!((entries, table[2 * ffi::ENTRY_WORDS]), (2, 7));
}

#[test]
fn a_fresh_model_alone_has_0_in_its_last_word_and_a_builders_1() {
    let mut builder = [9; ffi::MODEL_BUILDER_WORDS];
    assert_eq!(ffi::model_builder_new((0, 0), &mut builder), ACCEPTED);
    let names = ["PMC_MEAN_FITS", "SWING_FITS"];
    assert_eq!(words(&builder, "BUILDER", &names), [1, 1]);
    let (average, line) = builder.split_at_mut(ffi::PMC_MEAN_WORDS);
    assert_eq!(ffi::pmc_mean_new((0, 0), average), ACCEPTED);
    assert_eq!(ffi::swing_new((0, 0), line), ACCEPTED);
    assert_eq!(words(average, "PMC_MEAN", &["FITS", "LENGTH"]), [0, 0]);
    assert_eq!(words(line, "SWING", &["FITS", "LENGTH"]), [0, 0]);
    // Put together, both have failed: the step is accepted, and takes nothing.
    assert_eq!(
        ffi::model_builder_try_to_update_models(&mut builder, 0, 0),
        ACCEPTED
    );
    assert_eq!(words(&builder, "BUILDER", &names), [0, 0]);
    assert_eq!(words(&builder, "PMC_MEAN", &["LENGTH"]), [0]);
}

#[test]
fn a_failed_models_words_are_written_back_as_the_header_says() {
    let mut row = [0; ffi::MODEL_BUILDER_WORDS];
    assert_eq!(ffi::model_builder_new((0, 0), &mut row), ACCEPTED);
    (row[0], row[1], row[2], row[6]) = (7, 5, (3 << 32) + 1, 0);
    assert_eq!(
        ffi::model_builder_try_to_update_models(&mut row, 0, 0),
        ACCEPTED
    );
    let names = ["KIND", "BOUND", "LEAST", "LENGTH", "FITS"];
    assert_eq!(
        words(&row, "PMC_MEAN", &names),
        [1, 0x7FC0_0000, 1, 65_537, 0]
    );
    let swing = &row[named()["BUILDER_SWING"]..];
    assert_eq!(words(swing, "SWING", &["LENGTH", "FITS"]), [1, 1]);
}

#[test]
fn a_row_too_short_for_the_state_that_is_read_is_2_behind_1() {
    let no_bound = u64::from(f32::NAN.to_bits());
    for (mut row, number) in [
        (vec![], 2),
        (vec![7], 2),
        (vec![0, no_bound], 2),
        (vec![1, no_bound], 1),
        (vec![1, no_bound, 0, 0, 0], 1),
    ] {
        let asked = [
            ffi::macaque_v_compress_values(&mut row, &[0], &mut []),
            ffi::table_compress_values(&mut row, &[0], &mut [], &mut [], &mut 9),
            ffi::pmc_mean_fit_value(&mut row, 0),
            ffi::pmc_mean_bytes_per_value(&row, 0, &mut []),
            ffi::pmc_mean_model(&row, &mut []),
            ffi::swing_fit_data_point(&mut row, i64::MAX, 0),
            ffi::swing_bytes_per_value(&row, 0, &mut []),
            ffi::swing_model(&row, &mut []),
            ffi::model_builder_try_to_update_models(&mut row, i64::MAX, 0),
            ffi::model_builder_finish(&row, 0, &mut []),
        ];
        assert_eq!(asked, [Fault::from(number); 10], "{row:X?}");
    }
    // A builder's row may hold the words of the second bound too.
    let mut row = [0, 0, 0, 0, 0, 0, 0, 1, no_bound];
    let step = ffi::model_builder_try_to_update_models(&mut row, 0, 0);
    let choice = ffi::model_builder_finish(&row, 0, &mut []);
    assert_eq!([step, choice], [Fault::from(1); 2]);
}

#[test]
fn a_readers_row_too_short_is_2() {
    let mut row = [7; ffi::READER_WORDS - 1];
    let next = ffi::reader_next(&[], &mut row, &mut []);
    assert_eq!([next, ffi::reader_end(&[], &row)], [Fault::from(2); 2]);
}

#[test]
fn a_write_leaves_the_words_of_bound_and_mode() {
    let (mut row, mut buffer) = ([0; ffi::STATE_WORDS], [0xFF; 8]);
    assert_eq!(ffi::macaque_v_new((0, 0), (0, 0), &mut row), ACCEPTED);
    // Lossless does not look at the bits of its bound.
    row[1] = 7;
    let before = row;
    assert_eq!(
        ffi::macaque_v_compress_values(&mut row, &[], &mut buffer),
        ACCEPTED
    );
    assert_eq!((row, buffer), (before, [0xFF; 8]));
    assert_eq!(
        ffi::macaque_v_compress_values(&mut row, &[1], &mut buffer),
        ACCEPTED
    );
    let names = ["KIND", "BOUND", "WITH_FIRST", "PLACE", "LENGTH"];
    assert_eq!(words(&row, "WRITER", &names), [0, 7, 1, 32, 1]);
}

/// Each reading call on one broken stream: three values, of which the third does not end.
#[test]
fn every_reading_call_says_where_the_stream_broke() {
    let (bytes, ended) = ([0x3F, 0x80, 0x00, 0x00, 0xB0, 0x91], Fault::from(5));
    let told = Fault {
        value: 2,
        place: 34,
        ..ended
    };
    let (mut row, mut out) = ([7; ffi::STATE_WORDS], [7; 3]);
    assert_eq!(ffi::macaque_v_grid(&bytes, 3, (0, 0), &mut out), told);
    assert_eq!(ffi::macaque_v_sum(&bytes, 3, (0, 0), &mut out), told);
    let mut buffer = bytes;
    let reopened = ffi::macaque_v_reopen(&mut buffer, 6, (3, 1), (0, 0), (0, 0), &mut row);
    assert_eq!((reopened, buffer), (told, bytes));
    assert_eq!(ffi::reader_last_value(&bytes, 3, (0, 0), &mut out), told);
    let (table, mut entries) = ([0, 0, 255, 0], 1);
    let lent = (&table[..], &mut entries);
    let reopened = ffi::table_reopen(&mut buffer, 6, (3, 1), (0, 0), (0, 0), &mut row, lent);
    assert_eq!((reopened, buffer, entries), (told, bytes, 1));
    assert_eq!(ffi::table_check(&bytes, 3, (0, 0), (&table, 1)), told);
    let range = ffi::table_range(&bytes, 3, (0, 0), (&table, 1), 1..3, &mut out);
    assert_eq!(range, told);
    assert_eq!((row, out), ([7; ffi::STATE_WORDS], [7; 3]));

    let mut reader = [0; ffi::READER_WORDS];
    assert_eq!(ffi::reader_open((0, 0), &mut reader), ACCEPTED);
    for _ in 0..2 {
        let next = ffi::reader_next(&bytes, &mut reader, &mut out);
        assert_eq!(next, ACCEPTED);
    }
    assert_eq!(ffi::reader_next(&bytes, &mut reader, &mut out), told);
    let leftover = Fault { number: 8, ..told };
    assert_eq!(ffi::reader_end(&bytes, &reader), leftover);
}
