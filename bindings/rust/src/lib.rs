//! A safe wrapper of the library that `include/optlines.h` declares; that file says what each
//! function does.
//!
//! [`optimize`] and [`run_pass`] bring their own buffers. [`optimize_in`] and [`run_pass_in`] work
//! in lent ones and allocate nothing. [`large`] has the same for larger texts. Any number of threads
//! may call at once; each needs [`STACK`] bytes of stack.
//!
//! ```
//! use optlines::{optimize, Fate, Mode};
//! let tidy = optimize(Mode::Plain, b"r3 = greet;\nr4 = 1;\nr3 = r3(r4);\nuse(r3);\n")?;
//! assert_eq!(tidy.text, b"use(greet(1));\n");
//! assert_eq!(tidy.records[0].fate, Fate::Inside); // the value of line 0 stands in line 0
//! assert_eq!(tidy.records[0].output, Some(0));
//! # Ok::<(), optlines::Refusal>(())
//! ```

#![deny(unsafe_op_in_unsafe_fn, missing_docs)]

pub mod large;
#[cfg(feature = "records")]
pub mod records;

use std::fmt;

/// The stated size of each of the work buffers `a` to `e`.
pub const BYTES: usize = 32_769;
/// The stated size of the work buffer `u`, in numbers.
pub const BLOCKS: usize = 16_384;
/// The most bytes of a text.
pub const TEXT: usize = 16_384;
/// The most lines of a text.
pub const LINES: usize = 1_024;
/// The most bytes `[` of a line.
pub const BRACKETS: usize = 64;
/// The bytes of a record.
pub const RECORD: usize = 7;
/// The bytes of a record buffer that is long enough for every text.
pub const RECORDS: usize = RECORD * LINES;
/// Bytes of stack that are enough for a call, as far as it was measured.
pub const STACK: usize = 139_264;

/// How passes 1, 2 and 3 judge a value, and how passes 4 and 6 read the lines around a statement.
#[derive(Clone, Copy, Debug, Default, PartialEq, Eq)]
#[non_exhaustive]
pub enum Mode {
    /// As the original: `"a" + f() + "b"` counts as one string.
    #[default]
    Plain = 0,
    /// A value in quotes is a string only where its opening quote is closed by its last character;
    /// what stands in quotes is no comment.
    Strict = 1,
    /// A template in backticks and a block comment may run over lines: the braces in them open and
    /// close no block.
    Joined = 2,
    /// Both.
    StrictJoined = 3,
}

/// What became of a line of the text.
#[derive(Clone, Copy, Debug, PartialEq, Eq)]
pub enum Fate {
    /// It is kept with equal bytes.
    Equal = 0,
    /// It is kept with other bytes.
    Changed = 1,
    /// Its value was taken into another line.
    Inside = 2,
    /// It is gone.
    Gone = 3,
}

/// Where a line of the text went. Lines count from 0.
#[derive(Clone, Copy, Debug, PartialEq, Eq)]
pub struct Record {
    /// The line of the text.
    pub line: usize,
    /// What became of it.
    pub fate: Fate,
    /// The line of the result that it stands as, or that finally holds its value; none where it is
    /// gone.
    pub output: Option<usize>,
}

impl Record {
    /// The record with these bytes, as the library writes them, each line in so many of them.
    fn of(width: usize, bytes: &[u8]) -> Record {
        let number = |from: usize| {
            let low_first = bytes[from..from + width].iter().rev();
            low_first.fold(0, |n, byte| n << 8 | usize::from(*byte))
        };
        let (line, fate, output) = (number(2), bytes[2 + width], number(3 + width));
        let (fate, output) = match fate {
            0 => (Fate::Equal, Some(output)),
            1 => (Fate::Changed, Some(output)),
            2 => (Fate::Inside, Some(output)),
            _ => (Fate::Gone, None),
        };
        Record { line, fate, output }
    }
}

/// What a call gives.
#[derive(Clone, Debug, PartialEq, Eq)]
#[non_exhaustive]
pub struct Tidy {
    /// The result.
    pub text: Vec<u8>,
    /// Where each line of the text went, in order.
    pub records: Vec<Record>,
    /// The same records as bytes: a record file of the form `OL`, or of the one that was asked for.
    pub origins: Vec<u8>,
}

/// Why there is no result.
#[derive(Clone, Copy, Debug, PartialEq, Eq)]
#[non_exhaustive]
pub enum Refusal {
    /// The pass is not 1 to 6.
    BadPass,
    /// The text is longer than [`TEXT`] bytes.
    TooLong,
    /// A work buffer is shorter than its stated size.
    ShortWork,
    /// The text is not UTF-8, and none of [`Refusal::Cut`], [`Refusal::Overlong`] and
    /// [`Refusal::Outside`] says why: the first byte of the first bad sequence, from 0.
    NotUtf8(usize),
    /// The text has more than [`LINES`] lines.
    TooManyLines,
    /// A call of the second pair: the text is longer than [`large::TEXT`] bytes.
    TooLongLarge,
    /// A call of the second pair: the text has more than [`large::LINES`] lines.
    TooManyLinesLarge,
    /// The text has more than [`large::OL_LINES`] lines, and its records were asked for in the form
    /// `OL`.
    WideLines,
    /// A line has more than [`BRACKETS`] bytes `[`: the first such line, from 0.
    Crowded(usize),
    /// The result buffer is shorter than the result: the length needed.
    ShortResult(usize),
    /// The record buffer is shorter than [`RECORD`] bytes for each line of the text: the length
    /// needed.
    ShortRecords(usize),
    /// The text ends within a character, so it was cut: the first byte of that character, from 0.
    Cut(usize),
    /// The text has an overlong form: its first byte, from 0.
    Overlong(usize),
    /// The text has a surrogate or a value above U+10FFFF: its first byte, from 0.
    Outside(usize),
    /// The library does not know the mode: it is an earlier one.
    BadMode,
    /// A number that this wrapper does not know: the library is a later one.
    Other {
        /// What the library answered.
        number: u8,
        /// The place that it stored.
        place: usize,
    },
}

impl Refusal {
    /// The refusal with a number of `include/optlines.h` and the place beside it; 0 is none.
    fn of(number: u8, place: usize) -> Option<Refusal> {
        Some(match number {
            0 => return None,
            1 => Refusal::BadPass,
            2 if place == large::TEXT => Refusal::TooLongLarge,
            2 => Refusal::TooLong,
            3 => Refusal::ShortWork,
            4 => Refusal::NotUtf8(place),
            5 if place == large::LINES => Refusal::TooManyLinesLarge,
            5 => Refusal::TooManyLines,
            6 => Refusal::Crowded(place),
            7 => Refusal::ShortResult(place),
            8 => Refusal::ShortRecords(place),
            9 => Refusal::Cut(place),
            10 => Refusal::Overlong(place),
            11 => Refusal::Outside(place),
            12 => Refusal::BadMode,
            13 => Refusal::WideLines,
            _ => Refusal::Other { number, place },
        })
    }

    /// Its number in `include/optlines.h`.
    pub fn number(self) -> u8 {
        match self {
            Refusal::BadPass => 1,
            Refusal::TooLong | Refusal::TooLongLarge => 2,
            Refusal::ShortWork => 3,
            Refusal::NotUtf8(_) => 4,
            Refusal::TooManyLines | Refusal::TooManyLinesLarge => 5,
            Refusal::Crowded(_) => 6,
            Refusal::ShortResult(_) => 7,
            Refusal::ShortRecords(_) => 8,
            Refusal::Cut(_) => 9,
            Refusal::Overlong(_) => 10,
            Refusal::Outside(_) => 11,
            Refusal::BadMode => 12,
            Refusal::WideLines => 13,
            Refusal::Other { number, .. } => number,
        }
    }

    /// The place that the library stores beside that number.
    pub fn place(self) -> usize {
        match self {
            Refusal::BadPass | Refusal::ShortWork | Refusal::BadMode => 0,
            Refusal::TooLong => TEXT,
            Refusal::TooManyLines => LINES,
            Refusal::TooLongLarge => large::TEXT,
            Refusal::TooManyLinesLarge => large::LINES,
            Refusal::WideLines => large::OL_LINES,
            Refusal::NotUtf8(place)
            | Refusal::Crowded(place)
            | Refusal::ShortResult(place)
            | Refusal::ShortRecords(place)
            | Refusal::Cut(place)
            | Refusal::Overlong(place)
            | Refusal::Outside(place)
            | Refusal::Other { place, .. } => place,
        }
    }
}

impl fmt::Display for Refusal {
    fn fmt(&self, f: &mut fmt::Formatter) -> fmt::Result {
        match self {
            Refusal::BadPass => write!(f, "there is no such pass: they are 1 to 6"),
            Refusal::TooLong => write!(f, "the text is longer than {TEXT} bytes"),
            Refusal::TooLongLarge => write!(f, "the text is longer than {} bytes", large::TEXT),
            Refusal::ShortWork => write!(f, "a work buffer is shorter than its stated size"),
            Refusal::NotUtf8(at) => {
                write!(f, "the text is not UTF-8: see byte {at}, counted from 0")
            }
            Refusal::TooManyLines => write!(f, "the text has more than {LINES} lines"),
            Refusal::TooManyLinesLarge => {
                write!(f, "the text has more than {} lines", large::LINES)
            }
            Refusal::WideLines => {
                let most = large::OL_LINES;
                write!(f, "the form OL has numbers for {most} lines: ask for OM")
            }
            Refusal::Crowded(line) => {
                write!(
                    f,
                    "line {} has more than {BRACKETS} bytes '['",
                    line.saturating_add(1)
                )
            }
            Refusal::ShortResult(need) => write!(f, "the result needs {need} bytes of room"),
            Refusal::ShortRecords(need) => write!(f, "the records need {need} bytes of room"),
            Refusal::Cut(at) => {
                write!(
                    f,
                    "the text was cut: it ends within the character at byte {at}, counted from 0"
                )
            }
            Refusal::Overlong(at) => {
                write!(
                    f,
                    "the text has an overlong form: see byte {at}, counted from 0"
                )
            }
            Refusal::Outside(at) => {
                write!(
                    f,
                    "the text has a surrogate or a value above U+10FFFF: see byte {at}, counted from 0"
                )
            }
            Refusal::BadMode => write!(f, "there is no such mode: they are 0 to 3"),
            Refusal::Other { number, place } => {
                write!(
                    f,
                    "refused with number {number} and place {place}, unknown to this wrapper"
                )
            }
        }
    }
}

impl std::error::Error for Refusal {}

/// Lent work buffers. What stands in them before a call does not matter.
pub struct Work<'a> {
    /// At least [`BYTES`] bytes, as `b` to `e`.
    pub a: &'a mut [u8],
    /// See `a`.
    pub b: &'a mut [u8],
    /// See `a`.
    pub c: &'a mut [u8],
    /// See `a`.
    pub d: &'a mut [u8],
    /// See `a`.
    pub e: &'a mut [u8],
    /// At least [`BLOCKS`] numbers.
    pub u: &'a mut [u32],
}

/// The declarations of include/optlines.h.
mod raw {
    macro_rules! declared {
        ($($name:ident($($first:ident: usize),*);)*) => {
            extern "C" {
                $(pub fn $name(
                    $($first: usize,)*
                    text: *const u8, text_length: usize,
                    a: *mut u8, a_length: usize,
                    b: *mut u8, b_length: usize,
                    c: *mut u8, c_length: usize,
                    d: *mut u8, d_length: usize,
                    e: *mut u8, e_length: usize,
                    u: *mut u32, u_length: usize,
                    out: *mut u8, out_length: usize,
                    orig: *mut u8, orig_length: usize,
                    length: *mut usize, place: *mut usize,
                ) -> u8;)*
            }
        };
    }

    declared! {
        optlines_optimize(mode: usize);
        optlines_run_pass(pass: usize, mode: usize);
    }
}

/// Calls one of the two. The slices are alive and apart from one another, which is all that the
/// library asks.
macro_rules! call {
    ($name:ident($($first:expr),*), $text:ident, $work:ident, $out:ident, $orig:ident) => {{
        let (mut length, mut place) = (0, 0);
        let number = unsafe {
            raw::$name(
                $($first,)*
                $text.as_ptr(), $text.len(),
                $work.a.as_mut_ptr(), $work.a.len(),
                $work.b.as_mut_ptr(), $work.b.len(),
                $work.c.as_mut_ptr(), $work.c.len(),
                $work.d.as_mut_ptr(), $work.d.len(),
                $work.e.as_mut_ptr(), $work.e.len(),
                $work.u.as_mut_ptr(), $work.u.len(),
                $out.as_mut_ptr(), $out.len(),
                $orig.as_mut_ptr(), $orig.len(),
                &mut length, &mut place,
            )
        };
        match Refusal::of(number, place) {
            None => Ok(length),
            Some(refusal) => Err(refusal),
        }
    }};
}

/// How many lines a text has.
fn line_count(text: &[u8]) -> usize {
    let ends = text.iter().filter(|b| **b == b'\n').count();
    let rest = text.last().is_some_and(|b| *b != b'\n');
    ends + usize::from(rest)
}

/// What the bytes of records say, each line in so many of them.
fn read_records(width: usize, origins: &[u8]) -> impl Iterator<Item = Record> + '_ {
    let whole = origins.chunks_exact(3 + 2 * width);
    whole.map(move |bytes| Record::of(width, bytes))
}

/// How many bytes the records of a text take: [`RECORD`] for each line.
pub fn record_bytes(text: &[u8]) -> usize {
    RECORD * line_count(text)
}

/// What the bytes of records say, as a call wrote them.
pub fn records_in(origins: &[u8]) -> impl Iterator<Item = Record> + '_ {
    read_records(2, origins)
}

/// Runs all passes in lent buffers: how many bytes of `out` are the result. The first
/// [`record_bytes`] of `orig` are its records.
pub fn optimize_in(
    mode: Mode,
    text: &[u8],
    work: &mut Work,
    out: &mut [u8],
    orig: &mut [u8],
) -> Result<usize, Refusal> {
    call!(optlines_optimize(mode as usize), text, work, out, orig)
}

/// Runs one pass, 1 to 6, in lent buffers: how many bytes of `out` are the result. The first
/// [`record_bytes`] of `orig` are its records.
pub fn run_pass_in(
    pass: usize,
    mode: Mode,
    text: &[u8],
    work: &mut Work,
    out: &mut [u8],
    orig: &mut [u8],
) -> Result<usize, Refusal> {
    call!(
        optlines_run_pass(pass, mode as usize),
        text,
        work,
        out,
        orig
    )
}

/// Lends fresh buffers to `run`. No result is longer than twice its text, and no text has more than
/// [`LINES`] lines, so none is refused for want of room.
fn with_room(
    text: &[u8],
    run: impl FnOnce(&mut Work, &mut [u8], &mut [u8]) -> Result<usize, Refusal>,
) -> Result<Tidy, Refusal> {
    let [mut a, mut b, mut c, mut d, mut e] = [(); 5].map(|()| vec![0; BYTES]);
    let mut u = vec![0; BLOCKS];
    let mut out = vec![0; 2 * text.len().min(TEXT)];
    let mut origins = vec![0; record_bytes(text).min(RECORDS)];
    let mut work = Work {
        a: &mut a,
        b: &mut b,
        c: &mut c,
        d: &mut d,
        e: &mut e,
        u: &mut u,
    };
    let length = run(&mut work, &mut out, &mut origins)?;
    out.truncate(length);
    Ok(Tidy {
        text: out,
        records: records_in(&origins).collect(),
        origins,
    })
}

/// Runs all passes: the tidy text, and where each line went.
pub fn optimize(mode: Mode, text: &[u8]) -> Result<Tidy, Refusal> {
    with_room(text, |work, out, orig| {
        optimize_in(mode, text, work, out, orig)
    })
}

/// Runs one pass, 1 to 6: the text that it gives, and where each line went.
pub fn run_pass(pass: usize, mode: Mode, text: &[u8]) -> Result<Tidy, Refusal> {
    with_room(text, |work, out, orig| {
        run_pass_in(pass, mode, text, work, out, orig)
    })
}

#[cfg(test)]
mod tests {
    use super::{raw, record_bytes, records_in, with_room, Fate, Record, Refusal};

    /// Every number and place comes back as it was answered, a number of a later library too.
    #[test]
    fn numbers_and_places() {
        let answers = [
            (1, 0),
            (2, 16_384),
            (3, 0),
            (4, 9),
            (5, 1_024),
            (6, 3),
            (7, 40),
            (2, 1_048_576),
            (5, 100_000),
            (12, 0),
            (13, 65_535),
        ];
        let later = (8..=255).filter(|n| !matches!(n, 12 | 13)).map(|n| (n, 5));
        for (number, place) in answers.into_iter().chain(later) {
            let refusal = Refusal::of(number, place).expect("a refusal");
            assert_eq!((refusal.number(), refusal.place()), (number, place));
            let known = matches!(number, 1..=13);
            assert_eq!(!known, refusal == Refusal::Other { number, place });
        }
        assert_eq!(Refusal::of(0, 0), None);
    }

    /// Lines are counted as the library counts them, and records are read low byte first.
    #[test]
    fn records() {
        let texts: [(&[u8], usize); 6] = [
            (b"", 0),
            (b"\n", 7),
            (b"a", 7),
            (b"a\n", 7),
            (b"a\r\nb\r", 14),
            (b"a\n\n", 14),
        ];
        for (text, bytes) in texts {
            assert_eq!(record_bytes(text), bytes, "{text:?}");
        }
        let said = |line, fate, output| Record { line, fate, output };
        let file = b"OL\x01\x02\x00\x03\x01OL\x02\x02\x01\x04\x01OL\x03\x02\x02\x00\x00OL\x04\x02\x03\xff\xff";
        let wanted = [
            said(513, Fate::Equal, Some(259)),
            said(514, Fate::Changed, Some(260)),
            said(515, Fate::Inside, Some(0)),
            said(516, Fate::Gone, None),
        ];
        assert_eq!(records_in(file).collect::<Vec<_>>(), wanted);
    }

    /// Numbers that no [`super::Mode`] has: 12 comes just after 1.
    #[test]
    fn modes_that_are_not_there() {
        let bad: &[u8] = b"\xFF";
        for mode in [4, 5, usize::MAX] {
            let whole = with_room(bad, |work, out, orig| {
                call!(optlines_optimize(mode), bad, work, out, orig)
            });
            assert_eq!(whole, Err(Refusal::BadMode));
            for (pass, refusal) in [(6, Refusal::BadMode), (7, Refusal::BadPass)] {
                let one = with_room(bad, |work, out, orig| {
                    call!(optlines_run_pass(pass, mode), bad, work, out, orig)
                });
                assert_eq!(one, Err(refusal));
            }
        }
        assert_eq!(
            Refusal::BadMode.to_string(),
            "there is no such mode: they are 0 to 3"
        );
    }
}
