//! Origin records: a safe wrapper of the library that `include/optrecords.h` declares; that file
//! says what each function does. Every function takes a file of either form, told by its second
//! byte.

use std::fmt;

/// What a record says of a raw line.
#[derive(Clone, Copy, Debug, PartialEq, Eq)]
pub enum Fate {
    /// It is kept with equal bytes, as this line.
    Equal(usize),
    /// It is kept with other bytes, as this line.
    Changed(usize),
    /// Its value was taken into this line.
    Inside(usize),
    /// It is gone.
    Gone,
}

/// Why there is no result. Records count from 0.
#[derive(Clone, Copy, Debug, PartialEq, Eq)]
#[non_exhaustive]
pub enum Refusal {
    /// The file ends within this record.
    Cut(usize),
    /// This record has another mark.
    WrongMark(usize),
    /// The input line of this record is not its own number.
    OutOfOrder(usize),
    /// The fate of this record is unknown.
    UnknownFate(usize),
    /// Just one of fate and output line of this record says that the line is gone.
    Disagree(usize),
    /// This record does not fit into the form `OL`.
    Unfit(usize),
    /// The output is too short: the bytes needed.
    Short(usize),
    /// The room for lines is too short: the lines needed.
    NoRoom(usize),
    /// A number that this wrapper does not know: the library is a later one.
    Other {
        /// What the library answered.
        number: u8,
        /// The place that it stored.
        place: usize,
    },
}

impl Refusal {
    /// The refusal with a number of `include/optrecords.h` and the place beside it; `six` is what 6
    /// stands for; 0 is none.
    fn of(number: u8, place: usize, six: fn(usize) -> Refusal) -> Option<Refusal> {
        Some(match number {
            0 => return None,
            1 => Refusal::Cut(place),
            2 => Refusal::WrongMark(place),
            3 => Refusal::OutOfOrder(place),
            4 => Refusal::UnknownFate(place),
            5 => Refusal::Disagree(place),
            6 => six(place),
            7 => Refusal::Short(place),
            _ => Refusal::Other { number, place },
        })
    }

    /// Its number in `include/optrecords.h`.
    pub fn number(self) -> u8 {
        match self {
            Refusal::Cut(_) => 1,
            Refusal::WrongMark(_) => 2,
            Refusal::OutOfOrder(_) => 3,
            Refusal::UnknownFate(_) => 4,
            Refusal::Disagree(_) => 5,
            Refusal::Unfit(_) | Refusal::NoRoom(_) => 6,
            Refusal::Short(_) => 7,
            Refusal::Other { number, .. } => number,
        }
    }

    /// The place that the library stores beside that number.
    pub fn place(self) -> usize {
        match self {
            Refusal::Cut(place)
            | Refusal::WrongMark(place)
            | Refusal::OutOfOrder(place)
            | Refusal::UnknownFate(place)
            | Refusal::Disagree(place)
            | Refusal::Unfit(place)
            | Refusal::Short(place)
            | Refusal::NoRoom(place)
            | Refusal::Other { place, .. } => place,
        }
    }
}

impl fmt::Display for Refusal {
    fn fmt(&self, f: &mut fmt::Formatter) -> fmt::Result {
        match self {
            Refusal::Cut(i) => write!(f, "the file ends within record {i}, counted from 0"),
            Refusal::WrongMark(i) => write!(f, "record {i}, counted from 0, has another mark"),
            Refusal::OutOfOrder(i) => write!(f, "record {i}, counted from 0, is out of order"),
            Refusal::UnknownFate(i) => write!(f, "record {i}, counted from 0, has an unknown fate"),
            Refusal::Disagree(i) => {
                write!(
                    f,
                    "fate and output line of record {i}, counted from 0, disagree"
                )
            }
            Refusal::Unfit(i) => {
                write!(
                    f,
                    "record {i}, counted from 0, does not fit into the form OL"
                )
            }
            Refusal::Short(need) => write!(f, "the result needs {need} bytes of room"),
            Refusal::NoRoom(need) => write!(f, "the answer needs room for {need} lines"),
            Refusal::Other { number, place } => {
                write!(
                    f,
                    "refused with number {number} and place {place}, unknown to this wrapper"
                )
            }
        }
    }
}

impl std::error::Error for Refusal {}

/// The declarations of include/optrecords.h.
mod raw {
    #[link(name = "recordcapi", kind = "static")]
    extern "C" {
        pub fn optrecords_check(
            file: *const u8,
            file_length: usize,
            count: *mut usize,
            place: *mut usize,
        ) -> u8;
        pub fn optrecords_record(
            file: *const u8,
            file_length: usize,
            i: usize,
            line: *mut usize,
        ) -> u8;
        pub fn optrecords_lines(
            file: *const u8,
            file_length: usize,
            n: usize,
            room: *mut usize,
            room_length: usize,
            count: *mut usize,
            place: *mut usize,
        ) -> u8;
        pub fn optrecords_to_ol(
            file: *const u8,
            file_length: usize,
            out: *mut u8,
            out_length: usize,
            count: *mut usize,
            place: *mut usize,
        ) -> u8;
        pub fn optrecords_to_om(
            file: *const u8,
            file_length: usize,
            out: *mut u8,
            out_length: usize,
            count: *mut usize,
            place: *mut usize,
        ) -> u8;
    }
}

/// Calls a function that stores a count and a place. What is lent is alive and apart, which is all
/// that the library asks.
macro_rules! call {
    ($name:ident, $six:expr, $($lent:expr),*) => {{
        let (mut count, mut place) = (0, 0);
        let number = unsafe { raw::$name($($lent,)* &mut count, &mut place) };
        match Refusal::of(number, place, $six) {
            None => Ok(count),
            Some(refusal) => Err(refusal),
        }
    }};
}

/// Checks a file: how many records it has.
pub fn check(file: &[u8]) -> Result<usize, Refusal> {
    call!(optrecords_check, Refusal::Unfit, file.as_ptr(), file.len())
}

/// What record `i` says, of a file that [`check`] takes.
pub fn record(file: &[u8], i: usize) -> Fate {
    let mut line = 0;
    match unsafe { raw::optrecords_record(file.as_ptr(), file.len(), i, &mut line) } {
        0 => Fate::Equal(line),
        1 => Fate::Changed(line),
        2 => Fate::Inside(line),
        _ => Fate::Gone,
    }
}

/// What each record says.
pub fn read(file: &[u8]) -> Result<Vec<Fate>, Refusal> {
    Ok((0..check(file)?).map(|i| record(file, i)).collect())
}

/// Writes the raw lines behind output line `n`, ascending: how many. Both count from 0.
pub fn lines_in(file: &[u8], n: usize, room: &mut [usize]) -> Result<usize, Refusal> {
    call!(
        optrecords_lines,
        Refusal::NoRoom,
        file.as_ptr(),
        file.len(),
        n,
        room.as_mut_ptr(),
        room.len()
    )
}

/// The raw lines behind output line `n`, ascending. Both count from 0.
pub fn lines(file: &[u8], n: usize) -> Result<Vec<usize>, Refusal> {
    let mut room = vec![0; check(file)?];
    let count = lines_in(file, n, &mut room)?;
    room.truncate(count);
    Ok(room)
}

/// Writes the same records in the form `OL`: how many bytes.
pub fn to_ol_in(file: &[u8], out: &mut [u8]) -> Result<usize, Refusal> {
    call!(
        optrecords_to_ol,
        Refusal::Unfit,
        file.as_ptr(),
        file.len(),
        out.as_mut_ptr(),
        out.len()
    )
}

/// Writes the same records in the form `OM`: how many bytes.
pub fn to_om_in(file: &[u8], out: &mut [u8]) -> Result<usize, Refusal> {
    call!(
        optrecords_to_om,
        Refusal::Unfit,
        file.as_ptr(),
        file.len(),
        out.as_mut_ptr(),
        out.len()
    )
}

/// Lends an output that is long enough for either form.
fn with_room(
    file: &[u8],
    turn: fn(&[u8], &mut [u8]) -> Result<usize, Refusal>,
) -> Result<Vec<u8>, Refusal> {
    let mut out = vec![0; 2 * file.len()];
    let count = turn(file, &mut out)?;
    out.truncate(count);
    Ok(out)
}

/// The same records in the form `OL`.
pub fn to_ol(file: &[u8]) -> Result<Vec<u8>, Refusal> {
    with_room(file, to_ol_in)
}

/// The same records in the form `OM`.
pub fn to_om(file: &[u8]) -> Result<Vec<u8>, Refusal> {
    with_room(file, to_om_in)
}

#[cfg(test)]
mod tests {
    use super::*;

    const OLD: &[u8] = b"OL\0\0\0\0\0OL\x01\0\x02\x01\0OL\x02\0\x01\x01\0OL\x03\0\x03\xff\xff";
    const NEW: &[u8] = b"OM\0\0\0\0\0\0\0\0\0OM\x01\0\0\0\x02\x01\0\0\0\
        OM\x02\0\0\0\x01\x01\0\0\0OM\x03\0\0\0\x03\xff\xff\xff\xff";

    #[test]
    fn reads_either_form() {
        let said = [
            Fate::Equal(0),
            Fate::Inside(1),
            Fate::Changed(1),
            Fate::Gone,
        ];
        for file in [OLD, NEW] {
            assert_eq!(read(file).as_deref(), Ok(&said[..]));
            assert_eq!(record(file, 4), Fate::Gone);
            assert_eq!(lines(file, 1), Ok(vec![1, 2]));
            assert_eq!(lines(file, 7), Ok(vec![]));
            assert_eq!(lines(file, usize::MAX), Ok(vec![]));
        }
        assert_eq!(read(b"").as_deref(), Ok(&[][..]));
    }

    #[test]
    fn there_and_back() {
        assert_eq!(to_om(OLD).as_deref(), Ok(NEW));
        assert_eq!(to_ol(NEW).as_deref(), Ok(OLD));
        assert_eq!(to_ol(OLD).as_deref(), Ok(OLD));
        assert_eq!(to_om(b"").as_deref(), Ok(&b""[..]));
    }

    /// Every refusal, with its number, its place, and memory as it was.
    #[test]
    fn refusals() {
        let changed = |at: usize, byte: u8| {
            let mut file = OLD.to_vec();
            file[at] = byte;
            file
        };
        assert_eq!(check(&OLD[..27]), Err(Refusal::Cut(3)));
        assert_eq!(check(&changed(8, b'M')), Err(Refusal::WrongMark(1)));
        assert_eq!(check(&changed(9, 2)), Err(Refusal::OutOfOrder(1)));
        assert_eq!(check(&changed(11, 4)), Err(Refusal::UnknownFate(1)));
        assert_eq!(check(&changed(27, 0)), Err(Refusal::Disagree(3)));
        let mut large = NEW.to_vec();
        large[18..22].copy_from_slice(&65_535_u32.to_le_bytes());
        assert_eq!(to_ol(&large), Err(Refusal::Unfit(1)));
        let mut out = [7; 43];
        assert_eq!(to_om_in(OLD, &mut out), Err(Refusal::Short(44)));
        assert_eq!(out, [7; 43]);
        let mut room = [7; 1];
        assert_eq!(lines_in(OLD, 1, &mut room), Err(Refusal::NoRoom(2)));
        assert_eq!(room, [7]);
    }

    #[test]
    fn numbers_and_places() {
        for number in 1..=255 {
            for six in [Refusal::Unfit, Refusal::NoRoom] {
                let refusal = Refusal::of(number, 5, six).expect("a refusal");
                assert_eq!((refusal.number(), refusal.place()), (number, 5));
                assert!(!refusal.to_string().is_empty());
            }
        }
        assert_eq!(Refusal::of(0, 0, Refusal::Unfit), None);
    }
}
