//! A safe wrapper of the library that `include/optpo.h` declares; that file says what each function
//! does.
//!
//! [`write`] and [`read`] bring their own buffers. [`write_in`] and [`read_in`] work in lent ones
//! and allocate nothing. Any number of threads may call at once.
//!
//! ```
//! let file = optpo::write(b"f.txt", b"say(\"hello\");\n")?;
//! assert!(file.ends_with(b"#: f.txt:1\nmsgid \"hello\"\nmsgstr \"\"\n"));
//! assert_eq!(optpo::read(&file)?, [(b"hello".to_vec(), b"".to_vec())]);
//! # Ok::<(), optpo::Refusal>(())
//! ```

#![deny(unsafe_op_in_unsafe_fn, missing_docs)]

use std::fmt;

/// Why there is no result.
#[derive(Clone, Copy, Debug, PartialEq, Eq)]
#[non_exhaustive]
pub enum Refusal {
    /// The name is empty, is not UTF-8 or holds white space: the first such byte, from 0.
    BadName(usize),
    /// The listing is not UTF-8: the first byte of the first bad sequence, from 0.
    NotUtf8(usize),
    /// A literal has an escape other than `\n`, `\t`, `\"`, `\'` and `\\`: its backslash, from 0.
    OtherEscape(usize),
    /// A literal is not closed on its line: its quote, from 0.
    Open(usize),
    /// The output is too short: the length needed.
    Short(usize),
    /// A line of the file is missing, or is not of the form: that line, from 0.
    BadLine(usize),
    /// A number that this wrapper does not know: the library is a later one.
    Other {
        /// What the library answered.
        number: u8,
        /// The place that it stored.
        place: usize,
    },
}

impl Refusal {
    /// The refusal with a number of `include/optpo.h` and the place beside it; 0 is none.
    fn of(number: u8, place: usize) -> Option<Refusal> {
        Some(match number {
            0 => return None,
            1 => Refusal::BadName(place),
            2 => Refusal::NotUtf8(place),
            3 => Refusal::OtherEscape(place),
            4 => Refusal::Open(place),
            5 => Refusal::Short(place),
            6 => Refusal::BadLine(place),
            _ => Refusal::Other { number, place },
        })
    }

    /// Its number in `include/optpo.h`.
    pub fn number(self) -> u8 {
        match self {
            Refusal::BadName(_) => 1,
            Refusal::NotUtf8(_) => 2,
            Refusal::OtherEscape(_) => 3,
            Refusal::Open(_) => 4,
            Refusal::Short(_) => 5,
            Refusal::BadLine(_) => 6,
            Refusal::Other { number, .. } => number,
        }
    }

    /// The place that the library stores beside that number.
    pub fn place(self) -> usize {
        match self {
            Refusal::BadName(place)
            | Refusal::NotUtf8(place)
            | Refusal::OtherEscape(place)
            | Refusal::Open(place)
            | Refusal::Short(place)
            | Refusal::BadLine(place)
            | Refusal::Other { place, .. } => place,
        }
    }
}

impl fmt::Display for Refusal {
    fn fmt(&self, f: &mut fmt::Formatter) -> fmt::Result {
        let at = self.place();
        match self {
            Refusal::BadName(_) => write!(
                f,
                "the name is empty, is not UTF-8 or holds white space: see byte {at}, from 0"
            ),
            Refusal::NotUtf8(_) => write!(f, "the listing is not UTF-8: see byte {at}, from 0"),
            Refusal::OtherEscape(_) => {
                write!(f, "a literal has another escape: see byte {at}, from 0")
            }
            Refusal::Open(_) => write!(
                f,
                "a literal is not closed on its line: see byte {at}, from 0"
            ),
            Refusal::Short(_) => write!(f, "the output needs {at} bytes of room"),
            Refusal::BadLine(_) => write!(
                f,
                "line {} is missing, or is not of the form",
                at.saturating_add(1)
            ),
            Refusal::Other { number, .. } => write!(
                f,
                "refused with number {number} and place {at}, unknown to this wrapper"
            ),
        }
    }
}

impl std::error::Error for Refusal {}

/// The declarations of include/optpo.h.
mod raw {
    extern "C" {
        pub fn optpo_write(
            name: *const u8,
            name_length: usize,
            text: *const u8,
            text_length: usize,
            index: *mut usize,
            index_length: usize,
            out: *mut u8,
            out_length: usize,
            length: *mut usize,
            place: *mut usize,
        ) -> u8;
        pub fn optpo_read(
            file: *const u8,
            file_length: usize,
            index: *mut usize,
            index_length: usize,
            out: *mut u8,
            out_length: usize,
            length: *mut usize,
            place: *mut usize,
        ) -> u8;
    }
}

/// Writes the literals of a listing as a PO file in lent room, and returns its length. The index, of
/// any length, changes no answer: with two numbers for each distinct literal the time grows with
/// the text.
pub fn write_in(
    name: &[u8],
    listing: &[u8],
    index: &mut [usize],
    out: &mut [u8],
) -> Result<usize, Refusal> {
    let (mut length, mut place) = (0, 0);
    // SAFETY: each pointer has as many elements as its length says, and what is lent to be written
    // is lent to nobody else, for these are references.
    let number = unsafe {
        raw::optpo_write(
            name.as_ptr(),
            name.len(),
            listing.as_ptr(),
            listing.len(),
            index.as_mut_ptr(),
            index.len(),
            out.as_mut_ptr(),
            out.len(),
            &mut length,
            &mut place,
        )
    };
    Refusal::of(number, place).map_or(Ok(length), Err)
}

/// Reads a PO file of this form in lent room, and returns the length of what it gives: each literal
/// and its translation, each behind its length in 8 bytes, low byte first. For the index see
/// [`write_in`].
pub fn read_in(file: &[u8], index: &mut [usize], out: &mut [u8]) -> Result<usize, Refusal> {
    let (mut length, mut place) = (0, 0);
    // SAFETY: as in `write_in`.
    let number = unsafe {
        raw::optpo_read(
            file.as_ptr(),
            file.len(),
            index.as_mut_ptr(),
            index.len(),
            out.as_mut_ptr(),
            out.len(),
            &mut length,
            &mut place,
        )
    };
    Refusal::of(number, place).map_or(Ok(length), Err)
}

/// Writes the literals of a listing as a PO file with this name in its references.
pub fn write(name: &[u8], listing: &[u8]) -> Result<Vec<u8>, Refusal> {
    let mut index = vec![0; listing.len() / 2];
    let needed = match write_in(name, listing, &mut index, &mut []) {
        Err(Refusal::Short(needed)) => needed,
        Err(other) => return Err(other),
        Ok(length) => length,
    };
    let mut out = vec![0; needed];
    write_in(name, listing, &mut index, &mut out)?;
    Ok(out)
}

/// A text behind its length, and what follows it.
fn unpack(given: &[u8]) -> (Vec<u8>, &[u8]) {
    let (size, rest) = given.split_at(8);
    let size = size
        .iter()
        .rev()
        .fold(0, |n, byte| n << 8 | usize::from(*byte));
    let (text, rest) = rest.split_at(size);
    (text.to_vec(), rest)
}

/// Reads a PO file of this form: each literal and its translation, in the order of the file.
pub fn read(file: &[u8]) -> Result<Vec<(Vec<u8>, Vec<u8>)>, Refusal> {
    // a line gives no more bytes than it has
    let (mut index, mut out) = (vec![0; file.len() / 4], vec![0; file.len()]);
    let length = read_in(file, &mut index, &mut out)?;
    let mut given = &out[..length];
    let mut pairs = Vec::new();
    while !given.is_empty() {
        let (literal, rest) = unpack(given);
        let (translation, rest) = unpack(rest);
        pairs.push((literal, translation));
        given = rest;
    }
    Ok(pairs)
}
