//! Going on from whatever arrived: streams cut at every byte, with a table and without, what a limit does, and what a
//! refusal leaves.

use modelardb_rattle::ffi::{self, ENTRY_WORDS, STATE_WORDS};
use modelardb_rattle::{ErrorBound, Fault, MacaqueV, Opening, PlaceTable, Refusal, TabledWriter};

const LOSSLESS: ErrorBound = ErrorBound::Lossless;
const ON_ONE: Opening = Opening::On(1.0);

/// What stands in a buffer behind the bytes that arrived.
const STALE: u8 = 0xA5;

/// An upload: its values, how it opens and within which bound, and what one run makes of it.
struct Upload {
    values: Vec<u32>,
    opening: Opening,
    bound: ErrorBound,
    /// The writer before any value, and behind each.
    writers: Vec<MacaqueV>,
    bytes: Vec<u8>,
    table: PlaceTable,
}

impl Upload {
    fn new(values: Vec<u32>, opening: Opening, bound: ErrorBound) -> Self {
        let most = MacaqueV::most_bytes(values.len(), opening).expect("within the limit");
        let mut bytes = vec![0; most];
        let mut writer = TabledWriter::new(bound, opening).expect("an allowed bound");
        let mut writers = vec![writer.writer().clone()];
        for &value in &values {
            let written = writer.compress_values_bits(&[value], &mut bytes);
            written.expect("room for every value");
            writers.push(writer.writer().clone());
        }
        let (writer, table) = writer.into_parts();
        bytes.truncate(writer.bytes_used());
        Self {
            values,
            opening,
            bound,
            writers,
            bytes,
            table,
        }
    }

    fn count(&self) -> usize {
        self.values.len()
    }

    /// The writer behind the values whose last bit is among so many bytes.
    fn arrived(&self, used: usize) -> &MacaqueV {
        let whole = |writer: &&MacaqueV| writer.place() <= 8 * used;
        let last = self.writers.iter().take_while(whole).last();
        last.expect("the one before any value")
    }

    /// A buffer as long as the whole stream, of which only the first bytes are its own.
    fn cut(&self, used: usize) -> Vec<u8> {
        let mut buffer = vec![STALE; self.bytes.len()];
        buffer[..used].copy_from_slice(&self.bytes[..used]);
        buffer
    }

    fn rescue(&self, buffer: &mut [u8], used: usize, limit: usize) -> Result<MacaqueV, Refusal> {
        MacaqueV::rescue(buffer, used, limit, self.opening, self.bound)
    }
}

/// So many values of all kinds: repeats, steps within a window and out of it, gaps with a payload and without.
fn values(count: usize) -> Vec<u32> {
    let kinds = [
        0x41A4_0000,
        0x41A4_0000,
        0x41A5_0000,
        0x41A6_0000,
        0xC000_0001,
        0x7FC0_0000,
        0xFFC1_2345,
        0x41A4_0000,
        0x41A4_0000,
    ];
    let value = |number: usize| kinds[number % 9] ^ (number as u32 / 20);
    (0..count).map(value).collect()
}

/// Short and long ones, in both modes and within every kind of bound.
fn uploads() -> Vec<Upload> {
    let mut uploads = vec![];
    for opening in [Opening::First, ON_ONE, Opening::on_bits(0xFFFF_FFFF)] {
        for bound in [
            LOSSLESS,
            ErrorBound::Absolute(0.3),
            ErrorBound::Relative(2.0),
        ] {
            for count in [0, 1, 2, 9, 64, 65, 140] {
                uploads.push(Upload::new(values(count), opening, bound));
            }
            uploads.push(Upload::new(vec![0x41A4_0000; 200], opening, bound));
        }
    }
    uploads
}

#[test]
fn a_cut_at_any_byte_leaves_no_trace() {
    for upload in uploads() {
        for used in 0..=upload.bytes.len() {
            let mut buffer = upload.cut(used);
            let rescued = upload.rescue(&mut buffer, used, upload.count());
            let mut writer = rescued.expect("a cut");
            assert_eq!(&writer, upload.arrived(used), "{used} bytes");
            let kept = writer.bytes_used();
            let dropped = upload.cut(used);
            assert_eq!(buffer[kept..], dropped[kept..], "{used} bytes");
            let rest = &upload.values[writer.length()..];
            let written = writer.compress_values_bits(rest, &mut buffer);
            assert_eq!((written, &buffer), (Ok(()), &upload.bytes), "{used} bytes");
            assert_eq!(Some(&writer), upload.writers.last());
        }
    }
}

#[test]
fn with_a_table_it_is_that_of_one_run() {
    for upload in uploads() {
        let Upload { opening, bound, .. } = upload;
        for used in 0..=upload.bytes.len() {
            let mut buffer = upload.cut(used);
            let rescued = TabledWriter::rescue(&mut buffer, used, upload.count(), opening, bound);
            let mut on = rescued.expect("a cut");
            let kept = on.writer().length();
            assert_eq!(on.writer(), upload.arrived(used), "{used} bytes");
            assert_eq!(on.table().entries(), PlaceTable::entries_for(kept));
            let bytes = &buffer[..on.writer().bytes_used()];
            assert_eq!(on.table().check(bytes, kept, opening), Ok(()));
            let written = on.compress_values_bits(&upload.values[kept..], &mut buffer);
            assert_eq!((written, &buffer), (Ok(()), &upload.bytes));
            assert_eq!(on.table(), &upload.table, "{used} bytes");
        }
    }
}

/// Where a value is missing, every limit from the number kept on answers the same, and a smaller one keeps as many.
#[test]
fn a_limit_counts_where_it_is_below_what_arrived() {
    for upload in uploads() {
        for used in 0..upload.bytes.len() {
            let arrived = upload.arrived(used);
            let most = MacaqueV::MOST_VALUES;
            for limit in [arrived.length(), upload.count(), upload.count() + 3, most] {
                let rescued = upload.rescue(&mut upload.cut(used), used, limit);
                assert_eq!(rescued.as_ref(), Ok(arrived), "{used} bytes up to {limit}");
            }
            for limit in [0, arrived.length() / 2] {
                let rescued = upload.rescue(&mut upload.cut(used), used, limit);
                assert_eq!(rescued.as_ref(), Ok(&upload.writers[limit]));
            }
        }
    }
}

#[test]
fn of_a_whole_stream_it_is_reopening() {
    for upload in uploads() {
        let (used, count) = (upload.bytes.len(), upload.count());
        let Upload { opening, bound, .. } = upload;
        for k in 0..=count {
            let (mut rescued, mut reopened) = (upload.bytes.clone(), upload.bytes.clone());
            let writer = upload.rescue(&mut rescued, used, k);
            let again = MacaqueV::reopen(&mut reopened, used, count, k, opening, bound);
            assert_eq!((writer, rescued), (again, reopened), "at {k}");
        }
    }
}

#[test]
fn a_larger_limit_may_read_padding() {
    let rescue = |bytes: &[u8], limit| {
        let mut buffer = bytes.to_vec();
        let rescued = MacaqueV::rescue(&mut buffer, bytes.len(), limit, ON_ONE, LOSSLESS);
        assert_eq!(buffer, bytes);
        rescued.map(|writer| (writer.length(), writer.place()))
    };
    let as_value = Upload::new(vec![0x3F80_0001], ON_ONE, LOSSLESS).bytes;
    assert_eq!(as_value, [0xFE, 0x0C]);
    assert_eq!(rescue(&as_value, 1), Ok((1, 14)));
    let as_damage = Upload::new(vec![0x3F80_0000], ON_ONE, LOSSLESS).bytes;
    assert_eq!(as_damage, [0x80]);
    assert_eq!(rescue(&as_damage, 1), Ok((1, 2)));
    for limit in [2, 3, MacaqueV::MOST_VALUES] {
        assert_eq!(rescue(&as_value, limit), Ok((2, 16)));
        let damage = Refusal::NoWindow { value: 1, place: 2 };
        assert_eq!(rescue(&as_damage, limit), Err(damage));
    }
}

/// Stale bits in the last byte are zeroed, and a further byte stays.
#[test]
fn what_remains_behind_the_values_is_no_refusal() {
    let mut buffer = [0xBF, 0xFF, 0xFF];
    let writer = MacaqueV::rescue(&mut buffer, 2, 1, ON_ONE, LOSSLESS);
    let (length, place) = writer
        .map(|writer| (writer.length(), writer.place()))
        .expect("a value");
    assert_eq!((length, place, buffer), (1, 2, [0x80, 0xFF, 0xFF]));
}

#[test]
fn a_refusal_leaves_the_buffer() {
    let bytes = [0xB0, 0x00, 0x00];
    let rescue = |used, limit, bound| {
        let (mut plain, mut tabled) = (bytes, bytes);
        let writer = MacaqueV::rescue(&mut plain, used, limit, ON_ONE, bound);
        let with_table = TabledWriter::rescue(&mut tabled, used, limit, ON_ONE, bound);
        assert_eq!((plain, tabled), (bytes, bytes));
        assert_eq!(
            writer.as_ref().err(),
            with_table.map(|_| ()).as_ref().err(),
            "the same with a table"
        );
        writer.map(|writer| writer.length())
    };
    let no_bound = ErrorBound::Absolute(0.0);
    assert_eq!(rescue(4, 65_537, no_bound), Err(Refusal::BoundNotAllowed));
    for limit in [65_537, usize::MAX] {
        assert_eq!(rescue(4, limit, LOSSLESS), Err(Refusal::OverLimit));
    }
    for used in [4, usize::MAX] {
        let refused = Err(Refusal::CountsDisagree);
        assert_eq!(rescue(used, 65_536, LOSSLESS), refused);
    }
    let damage = Refusal::WindowNotAllowed { value: 1, place: 2 };
    for limit in [2, 3, 65_536] {
        assert_eq!(rescue(3, limit, LOSSLESS), Err(damage));
    }
}

/// Lent to the C face: a row and a table with words behind those that they need, and a number of entries.
#[derive(Clone, Debug, PartialEq)]
struct Lent {
    buffer: Vec<u8>,
    row: Vec<u64>,
    table: Vec<u64>,
    entries: usize,
}

impl Lent {
    fn new(buffer: &[u8], row: usize, table: usize) -> Self {
        Self {
            buffer: buffer.to_vec(),
            row: vec![7; row],
            table: vec![8; table],
            entries: usize::MAX,
        }
    }

    fn rescue(&mut self, used: usize, limit: usize, mode: u32, kind: u32) -> Fault {
        let (row, table) = (&mut self.row[..], &mut self.table[..]);
        let lent = (table, &mut self.entries);
        let one = 1f32.to_bits();
        ffi::table_rescue(
            &mut self.buffer,
            used,
            limit,
            (mode, one),
            (kind, 0),
            row,
            lent,
        )
    }
}

#[test]
fn through_the_c_face_a_refusal_leaves_everything() {
    let bytes = [0xA0, 0x00];
    let damage = Fault {
        number: 6,
        value: 2,
        place: 4,
    };
    let words = 2 * ENTRY_WORDS;
    for (used, limit, mode, kind, row, table, fault) in [
        (3, 65_537, 2, 1, 0, 0, Fault::from(1)),
        (3, 65_537, 2, 3, 0, 0, Fault::from(1)),
        (3, 65, 2, 0, 0, 0, Fault::from(3)),
        (3, 65_537, 1, 0, 0, 0, Fault::from(3)),
        (3, 65, 1, 0, 0, 0, Fault::from(12)),
        (2, 65, 1, 0, STATE_WORDS - 1, words, Fault::from(4)),
        (2, 65, 1, 0, STATE_WORDS, words - 1, Fault::from(4)),
        (0, 65, 1, 0, STATE_WORDS, words - 1, Fault::from(4)),
        (2, 65, 1, 0, STATE_WORDS, words, damage),
    ] {
        let mut lent = Lent::new(&bytes, row, table);
        let before = lent.clone();
        let answer = lent.rescue(used, limit, mode, kind);
        assert_eq!((answer, lent), (fault, before));
    }
    // Without a table the row alone has to be long enough.
    let mut row = [7; STATE_WORDS - 1];
    let (on_one, lossless) = ((1, 1f32.to_bits()), (0, 0));
    let fault = ffi::macaque_v_rescue(&mut bytes.clone(), 2, 2, on_one, lossless, &mut row);
    assert_eq!((fault, row), (Fault::from(4), [7; STATE_WORDS - 1]));
}

/// Words behind those of the answer stay, and neither the table nor the number of entries is looked at.
#[test]
fn through_the_c_face_what_is_not_its_own_stays() {
    // 65 repeats of 1.0: two bits each, and six of padding.
    let repeats = Upload::new(vec![1f32.to_bits(); 65], ON_ONE, LOSSLESS);
    for (used, kept, entries) in [(0, 0, 0), (1, 4, 1), (16, 64, 1), (17, 65, 2)] {
        let mut lent = Lent::new(&repeats.bytes, STATE_WORDS + 2, 3 * ENTRY_WORDS + 1);
        assert_eq!(lent.rescue(used, 65, 1, 0), Fault::ACCEPTED);
        assert_eq!((lent.row[9], lent.entries), (kept, entries));
        assert_eq!(lent.row[STATE_WORDS..], [7; 2]);
        let (own, rest) = lent.table.split_at(ENTRY_WORDS * entries);
        assert_eq!(own, &repeats.table.words()[..own.len()]);
        assert!(rest.iter().all(|&word| word == 8));
        assert_eq!(lent.buffer, repeats.bytes, "{used} bytes cut no value");
    }
}
