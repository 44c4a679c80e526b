//! The second pair of calls, for larger texts: up to [`TEXT`] bytes and [`LINES`] lines, with
//! records in the [`Form`] that the caller asks for. To a text that the first pair takes it gives the
//! same result; there the first pair is faster.
//!
//! [`optimize`] and [`run_pass`] bring their own buffers, some 28 MB. [`optimize_in`] and
//! [`run_pass_in`] work in lent ones and allocate nothing; [`Buffers`] has all work buffers in it, to
//! be lent again and again.
//!
//! ```
//! use optlines::large::{optimize, Form};
//! use optlines::Mode;
//! let script = b"r0 = a;\nuse(r0);\n".repeat(40_000);
//! let tidy = optimize(Mode::Plain, Form::Om, &script)?;
//! assert_eq!(tidy.text, b"use(a);\n".repeat(40_000));
//! assert_eq!(tidy.records[79_998].output, Some(39_999));
//! # Ok::<(), optlines::Refusal>(())
//! ```

use crate::{line_count, read_records, Mode, Record, Refusal, Tidy};

/// The most bytes of a text.
pub const TEXT: usize = 1_048_576;
/// The most lines of a text.
pub const LINES: usize = 100_000;
/// The most lines of a text where its records are asked for in the form [`Form::Ol`].
pub const OL_LINES: usize = 65_535;
/// The stated size of each of the work buffers `a` to `e`.
pub const BYTES: usize = 2_097_153;
/// The stated size of the work buffer `u`, in numbers.
pub const BLOCKS: usize = 1_048_576;
/// The stated size of each of `v`, `w` and `x`, in numbers.
pub const NOTES: usize = 200_000;
/// The stated size of `own`, in numbers.
pub const OWNERS: usize = 131_071;
/// The stated size of each of `f`, `g`, `r` and `t`, in elements.
pub const PLACES: usize = 262_143;
/// The bytes of a record of the form [`Form::Om`].
pub const RECORD: usize = Form::Om.record_size();
/// The bytes of a record buffer that is long enough for every text, in either form.
pub const RECORDS: usize = RECORD * LINES;

/// A form of records.
#[derive(Clone, Copy, Debug, PartialEq, Eq)]
pub enum Form {
    /// The form of the first pair: 2 bytes for each line, for texts of up to [`OL_LINES`] lines.
    Ol = 0,
    /// 4 bytes for each line.
    Om = 1,
}

impl Form {
    /// The bytes that a line's number takes.
    const fn width(self) -> usize {
        match self {
            Form::Ol => 2,
            Form::Om => 4,
        }
    }

    /// The bytes of a record.
    pub const fn record_size(self) -> usize {
        3 + 2 * self.width()
    }
}

/// Lent work buffers. What stands in them before a call does not matter.
pub struct Work<'a> {
    /// At least [`BYTES`] bytes, as `b` to `e`.
    pub a: &'a mut [u8],
    /// See `a`.
    pub b: &'a mut [u8],
    /// See `a`.
    pub c: &'a mut [u8],
    /// See `a`.
    pub d: &'a mut [u8],
    /// See `a`.
    pub e: &'a mut [u8],
    /// At least [`PLACES`] bytes, as `g`.
    pub f: &'a mut [u8],
    /// See `f`.
    pub g: &'a mut [u8],
    /// At least [`LINES`] bytes.
    pub h: &'a mut [u8],
    /// At least [`BLOCKS`] numbers.
    pub u: &'a mut [u32],
    /// At least [`NOTES`] numbers, as `w` and `x`.
    pub v: &'a mut [u32],
    /// See `v`.
    pub w: &'a mut [u32],
    /// See `v`.
    pub x: &'a mut [u32],
    /// At least [`LINES`] numbers, as `q` and `table`.
    pub p: &'a mut [usize],
    /// See `p`.
    pub q: &'a mut [usize],
    /// At least [`PLACES`] numbers, as `t`.
    pub r: &'a mut [usize],
    /// See `r`.
    pub t: &'a mut [usize],
    /// At least [`OWNERS`] numbers.
    pub own: &'a mut [usize],
    /// See `p`.
    pub table: &'a mut [usize],
}

/// All work buffers, of the stated sizes, some 25 MB: to be lent to any number of calls.
pub struct Buffers {
    bytes: [Vec<u8>; 5],
    flags: [Vec<u8>; 2],
    line_flags: Vec<u8>,
    blocks: Vec<u32>,
    notes: [Vec<u32>; 3],
    lines: [Vec<usize>; 3],
    places: [Vec<usize>; 2],
    owners: Vec<usize>,
}

impl Buffers {
    /// Fresh ones.
    pub fn new() -> Buffers {
        Buffers {
            bytes: [(); 5].map(|()| vec![0; BYTES]),
            flags: [(); 2].map(|()| vec![0; PLACES]),
            line_flags: vec![0; LINES],
            blocks: vec![0; BLOCKS],
            notes: [(); 3].map(|()| vec![0; NOTES]),
            lines: [(); 3].map(|()| vec![0; LINES]),
            places: [(); 2].map(|()| vec![0; PLACES]),
            owners: vec![0; OWNERS],
        }
    }

    /// Lends them.
    pub fn work(&mut self) -> Work<'_> {
        let [a, b, c, d, e] = &mut self.bytes;
        let [f, g] = &mut self.flags;
        let [v, w, x] = &mut self.notes;
        let [p, q, table] = &mut self.lines;
        let [r, t] = &mut self.places;
        Work {
            a,
            b,
            c,
            d,
            e,
            f,
            g,
            h: &mut self.line_flags,
            u: &mut self.blocks,
            v,
            w,
            x,
            p,
            q,
            r,
            t,
            own: &mut self.owners,
            table,
        }
    }
}

impl Default for Buffers {
    fn default() -> Buffers {
        Buffers::new()
    }
}

/// The declarations of include/optlines.h.
mod raw {
    macro_rules! declared {
        ($($name:ident($($first:ident),*);)*) => {
            extern "C" {
                $(pub fn $name(
                    $($first: usize,)*
                    text: *const u8, text_length: usize,
                    a: *mut u8, a_length: usize,
                    b: *mut u8, b_length: usize,
                    c: *mut u8, c_length: usize,
                    d: *mut u8, d_length: usize,
                    e: *mut u8, e_length: usize,
                    f: *mut u8, f_length: usize,
                    g: *mut u8, g_length: usize,
                    h: *mut u8, h_length: usize,
                    u: *mut u32, u_length: usize,
                    v: *mut u32, v_length: usize,
                    w: *mut u32, w_length: usize,
                    x: *mut u32, x_length: usize,
                    p: *mut usize, p_length: usize,
                    q: *mut usize, q_length: usize,
                    r: *mut usize, r_length: usize,
                    t: *mut usize, t_length: usize,
                    own: *mut usize, own_length: usize,
                    table: *mut usize, table_length: usize,
                    out: *mut u8, out_length: usize,
                    orig: *mut u8, orig_length: usize,
                    length: *mut usize, place: *mut usize,
                ) -> u8;)*
            }
        };
    }

    declared! {
        optlines_optimize_large(mode, form);
        optlines_run_pass_large(pass, mode, form);
    }
}

/// Calls one of the two. The slices are alive and apart from one another, which is all that the
/// library asks.
macro_rules! call {
    ($name:ident($($first:expr),*), $text:ident, $work:ident, $out:ident, $orig:ident) => {{
        let (mut length, mut place) = (0, 0);
        let number = unsafe {
            raw::$name(
                $($first,)*
                $text.as_ptr(), $text.len(),
                $work.a.as_mut_ptr(), $work.a.len(),
                $work.b.as_mut_ptr(), $work.b.len(),
                $work.c.as_mut_ptr(), $work.c.len(),
                $work.d.as_mut_ptr(), $work.d.len(),
                $work.e.as_mut_ptr(), $work.e.len(),
                $work.f.as_mut_ptr(), $work.f.len(),
                $work.g.as_mut_ptr(), $work.g.len(),
                $work.h.as_mut_ptr(), $work.h.len(),
                $work.u.as_mut_ptr(), $work.u.len(),
                $work.v.as_mut_ptr(), $work.v.len(),
                $work.w.as_mut_ptr(), $work.w.len(),
                $work.x.as_mut_ptr(), $work.x.len(),
                $work.p.as_mut_ptr(), $work.p.len(),
                $work.q.as_mut_ptr(), $work.q.len(),
                $work.r.as_mut_ptr(), $work.r.len(),
                $work.t.as_mut_ptr(), $work.t.len(),
                $work.own.as_mut_ptr(), $work.own.len(),
                $work.table.as_mut_ptr(), $work.table.len(),
                $out.as_mut_ptr(), $out.len(),
                $orig.as_mut_ptr(), $orig.len(),
                &mut length, &mut place,
            )
        };
        match Refusal::of(number, place) {
            None => Ok(length),
            Some(refusal) => Err(refusal),
        }
    }};
}

/// How many bytes the records of a text take in a form.
pub fn record_bytes(form: Form, text: &[u8]) -> usize {
    form.record_size() * line_count(text)
}

/// What the bytes of records of a form say, as a call wrote them.
pub fn records_in(form: Form, origins: &[u8]) -> impl Iterator<Item = Record> + '_ {
    read_records(form.width(), origins)
}

/// Runs all passes in lent buffers: how many bytes of `out` are the result. The first
/// [`record_bytes`] of `orig` are its records.
pub fn optimize_in(
    mode: Mode,
    form: Form,
    text: &[u8],
    work: &mut Work,
    out: &mut [u8],
    orig: &mut [u8],
) -> Result<usize, Refusal> {
    call!(
        optlines_optimize_large(mode as usize, form as usize),
        text,
        work,
        out,
        orig
    )
}

/// Runs one pass, 1 to 6, in lent buffers: how many bytes of `out` are the result. The first
/// [`record_bytes`] of `orig` are its records.
pub fn run_pass_in(
    pass: usize,
    mode: Mode,
    form: Form,
    text: &[u8],
    work: &mut Work,
    out: &mut [u8],
    orig: &mut [u8],
) -> Result<usize, Refusal> {
    call!(
        optlines_run_pass_large(pass, mode as usize, form as usize),
        text,
        work,
        out,
        orig
    )
}

/// Lends fresh buffers to `run`. No result is longer than twice its text, and no text has more than
/// [`LINES`] lines, so none is refused for want of room.
fn with_room(
    form: Form,
    text: &[u8],
    run: impl FnOnce(&mut Work, &mut [u8], &mut [u8]) -> Result<usize, Refusal>,
) -> Result<Tidy, Refusal> {
    let mut buffers = Buffers::new();
    let mut out = vec![0; 2 * text.len().min(TEXT)];
    let mut origins = vec![0; record_bytes(form, text).min(RECORDS)];
    let length = run(&mut buffers.work(), &mut out, &mut origins)?;
    out.truncate(length);
    Ok(Tidy {
        text: out,
        records: records_in(form, &origins).collect(),
        origins,
    })
}

/// Runs all passes: the tidy text, and where each line went.
pub fn optimize(mode: Mode, form: Form, text: &[u8]) -> Result<Tidy, Refusal> {
    with_room(form, text, |work, out, orig| {
        optimize_in(mode, form, text, work, out, orig)
    })
}

/// Runs one pass, 1 to 6: the text that it gives, and where each line went.
pub fn run_pass(pass: usize, mode: Mode, form: Form, text: &[u8]) -> Result<Tidy, Refusal> {
    with_room(form, text, |work, out, orig| {
        run_pass_in(pass, mode, form, text, work, out, orig)
    })
}

#[cfg(test)]
mod tests {
    use super::{raw, record_bytes, records_in, with_room, Form};
    use crate::{Fate, Record, Refusal};

    /// Lines are counted as the library counts them, and records are read low byte first.
    #[test]
    fn records() {
        for (text, lines) in [(&b""[..], 0), (b"\n", 1), (b"a", 1), (b"a\r\nb\r", 2)] {
            assert_eq!(record_bytes(Form::Ol, text), 7 * lines);
            assert_eq!(record_bytes(Form::Om, text), 11 * lines);
        }
        let said = |line, fate, output| Record { line, fate, output };
        let file = b"OM\x01\x02\x01\x00\x01\x03\x04\x01\x00OM\x02\x02\x01\x00\x03\xff\xff\xff\xff";
        let wanted = [
            said(66_049, Fate::Changed, Some(66_563)),
            said(66_050, Fate::Gone, None),
        ];
        assert_eq!(records_in(Form::Om, file).collect::<Vec<_>>(), wanted);
    }

    /// Numbers that no [`crate::Mode`] has, and forms that no [`Form`] has: they are OM.
    #[test]
    fn numbers_that_are_not_there() {
        let bad: &[u8] = b"\xFF";
        let whole = with_room(Form::Ol, bad, |work, out, orig| {
            call!(optlines_optimize_large(4, 0), bad, work, out, orig)
        });
        assert_eq!(whole, Err(Refusal::BadMode));
        for form in [2, usize::MAX] {
            let text: &[u8] = b"a\n";
            let tidy = with_room(Form::Om, text, |work, out, orig| {
                call!(optlines_run_pass_large(5, 0, form), text, work, out, orig)
            });
            assert_eq!(tidy.map(|t| t.origins.len()), Ok(11));
        }
    }
}
