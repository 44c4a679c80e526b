//! What the original answers to one request: document 01's table "Numbers a caller gets", with the numbers of document 02.

use crate::ends;
use std::panic::{catch_unwind, AssertUnwindSafe};

pub const MOST_BYTES: usize = 16_384;
pub const MOST_LINES: usize = 1_024;
pub const MOST_BRACKETS: usize = 64;
pub const MOST_ROOM: u32 = 32_768;
/// The bytes of a record, and the most that are lent for records: some more than those of as many lines as a text may have.
pub const RECORD: usize = 7;
pub const MOST_RECORDS: u32 = (RECORD * MOST_LINES) as u32 + 8;
/// The same of the second pair, whose records may have the second form.
pub const LARGE_BYTES: usize = 1_048_576;
pub const LARGE_LINES: usize = 100_000;
pub const WIDE_RECORD: usize = 11;
/// The lines that the first form of a record has numbers for, which is also its number for gone.
pub const OL_LINES: usize = 65_535;

/// The forms of a record.
pub const OL: u8 = 0;
pub const OM: u8 = 1;

/// The limits of a pair of entries: the most bytes and lines of a text, and the most that is lent for a result and for records.
pub struct Limits {
    pub bytes: usize,
    pub lines: usize,
    pub room: u32,
    pub records: u32,
}

pub const FIRST: Limits = Limits { bytes: MOST_BYTES, lines: MOST_LINES, room: MOST_ROOM, records: MOST_RECORDS };
pub const SECOND: Limits = Limits {
    bytes: LARGE_BYTES,
    lines: LARGE_LINES,
    room: 2 * LARGE_BYTES as u32,
    records: (WIDE_RECORD * LARGE_LINES) as u32 + 8,
};

/// What lent buffers are filled with.
pub const FILLED: u8 = 165;
/// The number of lent work buffers.
pub const WORK: u8 = 6;

/// The modes: the original as it is, and its copies in strict mode, in joined mode and in both.
pub const PLAIN: u8 = 0;
pub const STRICT: u8 = 1;
pub const JOINED: u8 = 2;
pub const BOTH: u8 = 3;
pub const MODES: [u8; 4] = [PLAIN, STRICT, JOINED, BOTH];

/// Not numbers of the table: the original would not end, the original panicked, and the copy that carries origins gave another text.
pub const SKIPPED: u8 = 255;
pub const PANICKED: u8 = 254;
pub const CARRIED_OTHER: u8 = 253;

pub struct Asked {
    pub pass: u8,
    pub mode: u8,
    pub form: u8,
    pub short: u8,
    pub room: u32,
    pub records: u32,
    pub text: Vec<u8>,
}

/// How requests are answered: by which pair of entries, whether a request names the form of the records, how many work buffers are lent, and whether
/// records are written.
pub struct Manner {
    pub limits: Limits,
    pub forms: bool,
    pub work: u8,
    pub records: bool,
}

impl Manner {
    pub const FIRST: Manner = Manner { limits: FIRST, forms: false, work: WORK, records: true };
}

/// What is told: the number, the place, the result, and the whole of the lent record buffer.
pub struct Answer {
    pub number: u8,
    pub place: u32,
    pub result: Vec<u8>,
    pub records: Vec<u8>,
}

/// A number and a place.
pub type Refused = (u8, usize);

/// The first line with more than 64 brackets.
pub fn crowded_line(text: &str) -> Option<usize> {
    text.lines().position(|l| l.bytes().filter(|b| *b == b'[').count() > MOST_BRACKETS)
}

/// The number for bytes that are not UTF-8, document 02's wish 2. That a text ends within a character is what Rust's library says of it.
fn flaw(rest: &[u8], cut: bool) -> u8 {
    match rest {
        _ if cut => 9,
        [0xC0 | 0xC1, ..] | [0xE0, 0x80..=0x9F, ..] | [0xF0, 0x80..=0x8F, ..] => 10,
        [0xED, 0xA0..=0xBF, ..] | [0xF4, 0x90..=0xBF, ..] => 11,
        _ => 4,
    }
}

/// The text, or the refusal for its bytes.
fn utf8(text: &[u8]) -> Result<&str, Refused> {
    std::str::from_utf8(text).map_err(|e| {
        let at = e.valid_up_to();
        (flaw(&text[at..], e.error_len().is_none()), at)
    })
}

/// The text, if no refusal but 7 and 8 holds.
fn accepted<'a>(asked: &'a Asked, manner: &Manner) -> Result<&'a str, Refused> {
    let limits = &manner.limits;
    if asked.pass > 6 {
        return Err((1, 0));
    }
    if !MODES.contains(&asked.mode) {
        return Err((12, 0));
    }
    if asked.text.len() > limits.bytes {
        return Err((2, limits.bytes));
    }
    if (1..=manner.work).contains(&asked.short) {
        return Err((3, 0));
    }
    let text = utf8(&asked.text)?;
    let lines = text.lines().count();
    if lines > limits.lines {
        return Err((5, limits.lines));
    }
    if asked.form == OL && lines > OL_LINES {
        return Err((13, OL_LINES));
    }
    crowded_line(text).map_or(Ok(text), |line| Err((6, line)))
}

/// What one copy of the original does with a text: all passes, and the pass that is named.
type Entries<T> = (fn(&str) -> T, fn(u8, &str) -> T);

fn run<T>((whole, one_pass): Entries<T>, pass: u8, text: &str) -> T {
    if pass == 0 { whole(text) } else { one_pass(pass, text) }
}

/// The copy for a mode.
fn entries(mode: u8) -> Entries<String> {
    match mode {
        PLAIN => (opt::optimize, opt::exports::one_pass),
        STRICT => (strict::optimize, strict::exports::one_pass),
        JOINED => (joined::optimize, joined::exports::one_pass),
        _ => (both::optimize, both::exports::one_pass),
    }
}

/// The copy for a mode that carries origins: it gives the fate and the output line of each line too.
fn carrying_entries(mode: u8) -> Entries<(String, Vec<(u8, Option<usize>)>)> {
    match mode {
        PLAIN => (opt_carrying::carried::whole, opt_carrying::carried::one_pass),
        STRICT => (strict_carrying::carried::whole, strict_carrying::carried::one_pass),
        JOINED => (joined_carrying::carried::whole, joined_carrying::carried::one_pass),
        _ => (both_carrying::carried::whole, both_carrying::carried::one_pass),
    }
}

/// What the work gives, where the original does not panic.
fn caught<T>(work: impl FnOnce() -> T) -> Result<T, Refused> {
    catch_unwind(AssertUnwindSafe(work)).map_err(|_| (PANICKED, 0))
}

/// The text and its result, if no refusal but 7 and 8 holds.
pub fn result<'a>(asked: &'a Asked, manner: &Manner) -> Result<(&'a str, String), Refused> {
    let text = accepted(asked, manner)?;
    if !ends::pass_ends(asked.pass, asked.mode, text) {
        return Err((SKIPPED, 0));
    }
    Ok((text, caught(|| run(entries(asked.mode), asked.pass, text))?))
}

/// The bytes of a record of a form.
fn record_size(form: u8) -> usize {
    if form == OL { RECORD } else { WIDE_RECORD }
}

/// Document 02's requests 1 and 8: the mark, the input line, the fate and the output line of each line, in a form.
fn records_of(form: u8, fates: Vec<(u8, Option<usize>)>) -> Vec<u8> {
    let mut out = Vec::new();
    for (line, (fate, output)) in fates.into_iter().enumerate() {
        if form == OL {
            out.extend(b"OL");
            out.extend((line as u16).to_le_bytes());
            out.push(fate);
            out.extend(output.map_or(65_535, |n| n as u16).to_le_bytes());
        } else {
            out.extend(b"OM");
            out.extend((line as u32).to_le_bytes());
            out.push(fate);
            out.extend(output.map_or(4_294_967_295, |n| n as u32).to_le_bytes());
        }
    }
    out
}

/// The result, with the records at the front of their buffer; or the refusal, the buffer as it was.
fn written(asked: &Asked, manner: &Manner, records: &mut [u8]) -> Result<String, Refused> {
    let (text, result) = result(asked, manner)?;
    if result.len() > asked.room.min(manner.limits.room) as usize {
        return Err((7, result.len()));
    }
    let need = record_size(asked.form) * text.lines().count();
    if records.len() < need {
        return Err((8, need));
    }
    if manner.records {
        let (carried, fates) = caught(|| run(carrying_entries(asked.mode), asked.pass, text))?;
        if carried != result {
            return Err((CARRIED_OTHER, 0));
        }
        records[..need].copy_from_slice(&records_of(asked.form, fates));
    }
    Ok(result)
}

pub fn answer(asked: &Asked, manner: &Manner) -> Answer {
    let mut records = vec![FILLED; asked.records.min(manner.limits.records) as usize];
    let (number, place, result) = match written(asked, manner, &mut records) {
        Ok(result) => (0, 0, result.into_bytes()),
        Err((number, place)) => (number, place as u32, Vec::new()),
    };
    Answer { number, place, result, records }
}
