//! The reader by document 01, behind rows of words.

use super::{judge_words, opening_in, told};
use modelardb_rattle::Fault;
use modelardb_rattle::ffi::{READER_WORDS, Words};
use oracle::paper::macaque_v::{Reader, Window, read_all};
use oracle::paper::refusal::{LIMIT, OUTPUT, STATE};
use oracle::paper::{Answer, MOST_VALUES, judge_count, refuse_if};

pub fn open(opening: Words, row: &mut [u64]) -> Fault {
    told(|| {
        let opening = opening_in(opening)?;
        refuse_if(row.len() < READER_WORDS, OUTPUT)?;
        put(row, &Reader::open(&[], opening));
        Ok(())
    })
}

/// 4 for the output has its place behind 2 and 3.
pub fn next(bytes: &[u8], row: &mut [u64], out: &mut [u32]) -> Fault {
    told(|| {
        let reader = reader_in(bytes, row)?;
        refuse_if(!reader.may_be_used(), STATE)?;
        refuse_if(reader.length == MOST_VALUES, LIMIT)?;
        refuse_if(out.is_empty(), OUTPUT)?;
        let (read, after) = reader.next_value()?;
        out[0] = read.value;
        put(row, &after);
        Ok(())
    })
}

pub fn end(bytes: &[u8], row: &[u64]) -> Fault {
    told(|| reader_in(bytes, row)?.end())
}

pub fn last_value(bytes: &[u8], count: usize, opening: Words, out: &mut [u32]) -> Fault {
    told(|| {
        let opening = opening_in(opening)?;
        judge_count(count)?;
        refuse_if(out.is_empty(), OUTPUT)?;
        let rows = read_all(bytes, count, opening)?;
        out[0] = rows.last().map_or(0, |row| row.value);
        Ok(())
    })
}

/// The reader that a row stands for: 2 where it is too short or a word is too large.
fn reader_in<'a>(stream: &'a [u8], row: &[u64]) -> Answer<Reader<'a>> {
    judge_words(row, READER_WORDS, &[])?;
    let zeros = |word: usize| u8::try_from(row[word]).map_err(|_| STATE);
    refuse_if(row[3] > 1, STATE)?;
    Ok(Reader {
        stream,
        with_first: row[3] == 1,
        last_value: u32::try_from(row[0]).map_err(|_| STATE)?,
        window: Window {
            leading: zeros(1)?,
            trailing: zeros(2)?,
        },
        place: row[4] as usize,
        length: row[5] as usize,
    })
}

/// The reader's words to the front of the row.
fn put(row: &mut [u64], reader: &Reader) {
    let words = [
        reader.last_value.into(),
        reader.window.leading.into(),
        reader.window.trailing.into(),
        reader.with_first.into(),
        reader.place as u64,
        reader.length as u64,
    ];
    row[..READER_WORDS].copy_from_slice(&words);
}
