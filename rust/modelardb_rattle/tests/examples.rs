//! The examples on the shipped readings: the shipped stream is what the library writes, an upload that is cut at
//! any value or byte goes on as one run, a flipped bit is often read as other values, a cut is told at the first value that
//! is missing, an hour of a night is read without the rest, no night outgrows the room for it, a bad line is named, and
//! the README shows what they print.

#[path = "../examples/cut/show.rs"]
mod cut_upload;
#[path = "../examples/flipped/damage.rs"]
mod damage;
#[path = "../examples/day/show.rs"]
mod day;
#[path = "../examples/morning/show.rs"]
mod morning;
#[path = "../examples/night/show.rs"]
mod night;
#[path = "../examples/shared/readings.rs"]
mod readings;
#[path = "../examples/room/show.rs"]
mod room;
#[path = "../examples/shared/size.rs"]
mod size;
#[path = "../examples/day/store.rs"]
mod store;
#[path = "../examples/night/stored.rs"]
mod stored;
#[path = "../examples/shared/stream.rs"]
mod stream;
#[path = "../examples/morning/upload.rs"]
mod upload;
#[path = "../examples/upload/written.rs"]
mod upload_file;
#[path = "../examples/shared/words.rs"]
mod words;

use modelardb_rattle::{ErrorBound, Opening, Refusal};
use readings::Readings;
use stream::{resumed, written};
use upload::cut;

const STREAM: &[u8] = include_bytes!("../../../examples/morning.stream");

const README: &str = include_str!("../../../README.md");

/// The readings of a shipped file.
fn shipped(name: &str) -> Readings {
    let folder = concat!(env!("CARGO_MANIFEST_DIR"), "/../../examples/");
    readings::of_file(&format!("{folder}{name}")).expect("the shipped readings")
}

#[test]
fn the_shipped_stream_is_the_mornings() {
    let (writer, bytes) = written(&shipped("morning.txt").values, ErrorBound::Absolute(0.5))
        .expect("an allowed bound");
    let count = (writer.length() as u32).to_le_bytes();
    assert_eq!(STREAM, [&count[..], &bytes].concat());
}

#[test]
fn the_shipped_uploads_are_the_nights() {
    for (name, upload) in [
        (
            "night-box.txt",
            &include_bytes!("../../../examples/night-box.upload")[..],
        ),
        (
            "night-store.txt",
            include_bytes!("../../../examples/night-store.upload"),
        ),
    ] {
        let written = upload_file::written(&shipped(name).values, ErrorBound::Lossless);
        assert_eq!(written.expect("a short night"), upload, "{name}");
    }
}

#[test]
fn a_cut_at_any_value_leaves_no_trace() {
    let values = shipped("morning.txt").values;
    for bound in ["lossless", "0.5", "1%"] {
        let error_bound = readings::bound(bound).expect("a bound");
        let whole = written(&values, error_bound).expect("an allowed bound");
        for k in 0..=values.len() {
            let part = cut(&values, k, error_bound).expect("a stream of ours");
            assert_eq!(resumed(part, &values[k..]).expect("room"), whole, "at {k}");
        }
    }
}

/// Each number of bytes that may have arrived of the night, in words of the example.
#[test]
fn a_cut_at_any_byte_leaves_no_trace() {
    let night = shipped("night.txt");
    for (bound, sent) in [("lossless", 223), ("0.25", 133)] {
        let error_bound = readings::bound(bound).expect("a bound");
        let show = |arrived: &str| cut_upload::show(&night, error_bound, Some(arrived));
        for used in 0..=sent {
            let text = show(&used.to_string()).expect("so many were sent");
            let end = "bytes and state, the sum among it, are the same as of one run\n";
            assert!(text.ends_with(end), "{text}");
        }
        for word in [&(sent + 1).to_string(), "", "-1", "1.5"] {
            let why = format!("{word} bytes cannot have arrived: {sent} were sent");
            assert_eq!(show(word), Err(why));
        }
    }
}

#[test]
fn what_is_kept_of_a_cut_upload_is_told() {
    let night = shipped("night.txt");
    for (arrived, kept, again) in [
        (
            "0",
            "0 readings, in 0 bits",
            "421 readings from 18:00 to 08:00",
        ),
        (
            "4",
            "1 reading at 18:00, mean 20.44, in 32 bits",
            "420 readings from 18:02 to 08:00",
        ),
        (
            "223",
            "421 readings from 18:00 to 08:00, mean 20.16, in 1778 bits",
            "0 readings",
        ),
    ] {
        let text = cut_upload::show(&night, ErrorBound::Lossless, Some(arrived));
        let text = text.expect("so many were sent");
        let lines: Vec<&str> = text.lines().collect();
        assert!(lines[1].starts_with(&format!("kept: {kept}")), "{text}");
        assert_eq!(lines[2], format!("sent again: {again}"));
    }
}

#[test]
fn the_readme_shows_the_cut() {
    let night = shipped("night.txt");
    let text = cut_upload::show(&night, ErrorBound::Lossless, Some("111"));
    let text = text.expect("so many were sent");
    assert!(README.contains(&text), "README lacks:\n{text}");
}

/// The documents give these figures of the example `flipped` on the shipped day.
#[test]
fn flipped_bits_are_often_read_as_other_values() {
    let values = shipped("day.txt").values;
    for (bound, size, other, refused, told) in [
        ("lossless", 232, 1367, [83, 5, 383, 18], [144, 215, 130]),
        ("0.25", 120, 452, [166, 72, 268, 2], [302, 41, 165]),
    ] {
        let error_bound = readings::bound(bound).expect("a bound");
        let stream = damage::written(&values, error_bound).expect("an allowed bound");
        assert_eq!(stream.bytes.len(), size);
        let (flipped, cut) = (stream.flipped(), stream.cut());
        assert_eq!((flipped.total(), cut.total()), (8 * size, size));
        assert_eq!(
            (flipped.same, flipped.other, flipped.refused, flipped.told),
            (0, other, refused, told)
        );
        assert_eq!(
            (cut.refused, cut.told),
            ([size, 0, 0, 0], [size, 0, 0]),
            "a stream that is cut ends early, at the first value that is missing"
        );
    }
}

#[test]
fn a_bad_line_is_named_by_its_number() {
    for (text, why) in [
        (
            "# Room 1\n06:00 20\n06:05 warm\n",
            "room:3: \"warm\" is not a number",
        ),
        (
            "06:00 20\n\n06:60 20\n",
            "room:3: \"06:60\" is no time of the day, as 06:05",
        ),
        (
            "06:00 20\n6:5 20\n",
            "room:2: \"6:5\" is no time of the day, as 06:05",
        ),
        (
            "06:00 20\n06:00 21\n",
            "room:2: 06:00 is not later than the time before it",
        ),
        ("06:00\n", "room:1: \"06:00\" is not a time and a value"),
        (
            "22:00 20\n06:00 21\n05:00 21\n",
            "room:3: 05:00 is not later than the time before it",
        ),
        ("# Room 1\n", "room: no readings"),
    ] {
        assert_eq!(readings::of_text("room", text).err().as_deref(), Some(why));
    }
}

#[test]
fn a_size_that_is_none_is_told() {
    assert_eq!([size::size("1"), size::size("65535")], [Ok(1), Ok(65_535)]);
    for word in ["0", "65536", "-1", "12.5", "twelve", ""] {
        let why = "is no M, the bytes of metadata: a whole number from 1 to 65535";
        assert_eq!(size::size(word), Err(format!("{word:?} {why}")));
    }
}

#[test]
fn a_time_before_the_first_is_of_the_next_day() {
    let night = readings::of_text("room", "22:00 20\n23:59 21\n00:00 21\n06:00 19\n");
    assert_eq!(night.expect("a night").times, [1320, 1439, 1440, 1800]);
}

#[test]
fn the_readme_shows_the_morning() {
    let Readings { names, values, .. } = shipped("morning.txt");
    let text = morning::show(&names, &values, ErrorBound::Absolute(0.5)).expect("an upload");
    assert!(README.contains(&text), "README lacks:\n{text}");
}

/// Every hour of the night, and the first one of which there are no readings.
#[test]
fn an_hour_of_the_night_is_read_without_the_rest() {
    let readings = shipped("night.txt");
    let stored = stored::store(&readings.values, ErrorBound::Lossless).expect("room");
    let check = stored
        .table
        .check(&stored.bytes, stored.count, Opening::First);
    assert_eq!((stored.count, check), (421, Ok(())));
    for hour in (18..24).chain(0..9) {
        let text = night::show(&readings, &stored, &format!("{hour:02}:00")).expect("readings");
        assert_eq!(
            text.lines().count(),
            if hour == 8 { 4 } else { 6 },
            "{text}"
        );
    }
    let none = night::show(&readings, &stored, "09:00");
    assert_eq!(
        none.unwrap_err(),
        "no readings in the hour from 09:00 on: there are those from 18:00 to 08:00, and a time before the first is the next day's"
    );
}

#[test]
fn a_night_of_one_reading_is_told_so() {
    let readings = readings::of_text("room", "21:30 20\n").expect("a reading");
    let stored = stored::store(&readings.values, ErrorBound::Lossless).expect("room");
    let text = night::show(&readings, &stored, "21:30").expect("an hour");
    assert_eq!(
        text,
        "1 reading from 21:30 to 21:30, stored in 4 bytes and a table of 1 place\n\
         the hour from 21:30 on: readings 0 to 0, found by their times\n\
         21:30  20.00\n\
         1 value was decoded instead of 1: from reading 0 on, the last place before them\n"
    );
}

/// The documents give these figures: each bit of the night's stream flipped in turn, and checked against its table.
#[test]
fn the_check_sees_many_flipped_bits() {
    let values = shipped("night.txt").values;
    for (bound, broken, other, accepted) in [("lossless", 632, 1026, 126), ("0.25", 820, 218, 26)] {
        let error_bound = readings::bound(bound).expect("a bound");
        let mut night = stored::store(&values, error_bound).expect("room");
        let mut counts = [0; 3];
        for bit in 0..8 * night.bytes.len() {
            night.bytes[bit / 8] ^= 0x80 >> (bit % 8);
            let said = night.table.check(&night.bytes, night.count, Opening::First);
            counts[match said {
                Err(Refusal::TableDoesNotMatch) => 1,
                Err(_) => 0,
                Ok(()) => 2,
            }] += 1;
            night.bytes[bit / 8] ^= 0x80 >> (bit % 8);
        }
        assert_eq!(counts, [broken, other, accepted], "{bound}");
    }
}

#[test]
fn the_readme_shows_the_night() {
    let readings = shipped("night.txt");
    let stored = stored::store(&readings.values, ErrorBound::Lossless).expect("room");
    let text = night::show(&readings, &stored, "21:00").expect("an hour");
    assert!(README.contains(&text), "README lacks:\n{text}");
}

/// A line of a table of rooms, by its words.
fn line_of(text: &str, line: usize) -> Vec<&str> {
    let line = text.lines().nth(line).expect("a line");
    line.split("  ")
        .filter(|word| !word.is_empty())
        .map(str::trim)
        .collect()
}

#[test]
fn a_night_fits_in_the_room_for_it() {
    let text = room::usual().expect("no span is too long");
    assert!(text.lines().all(|line| line.len() <= 100), "{text}");
    assert_eq!(
        line_of(&text, 4),
        ["a night, 18:00 to 08:00", "5 minutes", "169", "929", "96"]
    );
    assert_eq!(
        line_of(&text, 9),
        ["a week", "10 seconds", "60481", "332645", "30272"]
    );
    // The shipped night has a reading every two minutes.
    let text = room::asked("120", "14").expect("a short night");
    assert_eq!(
        line_of(&text, 1),
        ["14 hours", "120 seconds", "421", "2315", "224"]
    );
    let night = stored::store(&shipped("night.txt").values, ErrorBound::Lossless).expect("room");
    assert_eq!((night.count, 8 * night.table.words().len()), (421, 224));
    assert!(night.bytes.len() <= 2315);
}

#[test]
fn a_room_is_told_up_to_the_most_readings() {
    let text = room::asked("1", "18").expect("64,801 readings");
    assert_eq!(line_of(&text, 1)[..3], ["18 hours", "1 second", "64801"]);
    let text = room::asked("4294967295", "1").expect("a reading");
    assert_eq!(line_of(&text, 1)[2..], ["1", "4", "32"]);
    assert_eq!(
        room::asked("1", "19").unwrap_err(),
        "68401 readings come in 19 hours, one every 1 second\n\
         a stream takes at most 65536 values: cut these into 2 streams or more, each with a writer, a count and a table of its own\n\
         a stream of 65536: 360447 bytes at most, and 32768 of a place table\n\
         a stream of 2865: 15757 bytes at most, and 1440 of a place table"
    );
    let text = room::asked("225", "8192").unwrap_err();
    assert!(
        text.ends_with("a stream of 1: 4 bytes at most, and 32 of a place table"),
        "{text}"
    );
    for word in ["0", "-1", "1.5", "", "4294967296"] {
        let why = format!("{word:?} is no number of seconds: a whole one from 1 to 4294967295");
        assert_eq!(room::asked(word, "14"), Err(why));
        let why = format!("{word:?} is no number of hours: a whole one from 1 to 4294967295");
        assert_eq!(room::asked("10", word), Err(why));
    }
}

#[test]
fn the_readme_shows_the_room() {
    let text = room::usual().expect("no span is too long");
    assert!(README.contains(&text), "README lacks:\n{text}");
}

#[test]
fn the_readme_shows_the_day() {
    let readings = shipped("day.txt");
    let (times, values) = (&readings.times, &readings.values);
    let stored = store::store(times, values, ErrorBound::Absolute(0.25), 26).expect("segments");
    let text = day::show(&readings, &stored, 26).expect("segments that read back");
    assert!(README.contains(&text), "README lacks:\n{text}");
}
