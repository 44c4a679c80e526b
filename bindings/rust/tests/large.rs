//! Calls the second pair through the wrapper: each limit and each buffer's size from both sides, in
//! both forms of records, each pass and mode, every refusal that is its own, and the lent bytes
//! after each call.

mod common;

use common::{bytes_of, kept, said, FILLED, ORIGINS, SAMPLE, SPARE, TIDY};
use optlines::large::{
    optimize, optimize_in, record_bytes, records_in, run_pass, run_pass_in, Buffers, Form, Work,
};
use optlines::large::{BLOCKS, BYTES, LINES, NOTES, OL_LINES, OWNERS, PLACES, RECORDS, TEXT};
use optlines::{Mode, Record, Refusal, BRACKETS, STACK};
use std::thread;

const SAMPLE_LINES: usize = 6;
const TIDY_LINES: usize = 4;

const ROOM: usize = 2 * TEXT;
const FORMS: [Form; 2] = [Form::Ol, Form::Om];
const MODES: [Mode; 4] = [Mode::Plain, Mode::Strict, Mode::Joined, Mode::StrictJoined];

/// One call: which pass, 0 for all, mode, form and text, which work buffer, from 1, is lent one
/// element short, and how much of the result buffer and of the record buffer is lent.
#[derive(Clone, Copy)]
struct Call<'a> {
    pass: usize,
    mode: Mode,
    form: Form,
    text: &'a [u8],
    short: usize,
    spare: usize,
    room: usize,
    records: usize,
}

impl Call<'_> {
    /// All passes, with buffers that are long enough.
    fn of(form: Form, text: &[u8]) -> Call<'_> {
        Call {
            pass: 0,
            mode: Mode::Plain,
            form,
            text,
            short: 0,
            spare: SPARE,
            room: ROOM,
            records: RECORDS,
        }
    }
}

/// Whether all elements of a slice are one.
fn are<T: PartialEq + Copy>(s: &[T], each: T) -> bool {
    s.is_empty() || s[0] == each && s[1..] == s[..s.len() - 1]
}

/// A work buffer with some room behind what is stated, filled.
struct Lent<T> {
    which: usize,
    stated: usize,
    elements: Vec<T>,
    filled: T,
}

impl<T: PartialEq + Copy + Default> Lent<T> {
    fn new(which: usize, stated: usize, filled: T) -> Lent<T> {
        Lent {
            which,
            stated,
            elements: vec![filled; stated + SPARE],
            filled,
        }
    }

    fn lend(&mut self, call: &Call) -> &mut [T] {
        let size = if call.short == self.which {
            self.stated - 1
        } else {
            self.stated + call.spare
        };
        &mut self.elements[..size]
    }

    /// Whether it is as include/optlines.h says; then it is filled again.
    fn was_left(&mut self, ran: bool) -> bool {
        let zeros = if ran { self.stated } else { 0 };
        let (stated, rest) = self.elements.split_at(zeros);
        let right = are(stated, T::default()) && are(rest, self.filled);
        self.elements.fill(self.filled);
        right
    }
}

/// All that is lent.
struct Room {
    bytes: [Lent<u8>; 8],
    words: [Lent<u32>; 4],
    sizes: [Lent<usize>; 6],
    out: Vec<u8>,
    orig: Vec<u8>,
}

impl Room {
    fn new() -> Room {
        let bytes = [
            (1, BYTES),
            (2, BYTES),
            (3, BYTES),
            (4, BYTES),
            (5, BYTES),
            (6, PLACES),
            (7, PLACES),
            (8, LINES),
        ];
        let words = [(9, BLOCKS), (10, NOTES), (11, NOTES), (12, NOTES)];
        let sizes = [
            (13, LINES),
            (14, LINES),
            (15, PLACES),
            (16, PLACES),
            (17, OWNERS),
            (18, LINES),
        ];
        Room {
            bytes: bytes.map(|(i, n)| Lent::new(i, n, FILLED)),
            words: words.map(|(i, n)| Lent::new(i, n, 0xA5A5_A5A5)),
            sizes: sizes.map(|(i, n)| Lent::new(i, n, 0xA5A5_A5A5_A5A5_A5A5)),
            out: vec![FILLED; ROOM + SPARE],
            orig: vec![FILLED; RECORDS + SPARE],
        }
    }

    /// Makes a call.
    fn ask(&mut self, call: &Call) -> Result<usize, Refusal> {
        let [a, b, c, d, e, f, g, h] = self.bytes.each_mut().map(|lent| lent.lend(call));
        let [u, v, w, x] = self.words.each_mut().map(|lent| lent.lend(call));
        let [p, q, r, t, own, table] = self.sizes.each_mut().map(|lent| lent.lend(call));
        #[rustfmt::skip]
        let mut work = Work { a, b, c, d, e, f, g, h, u, v, w, x, p, q, r, t, own, table };
        let (out, orig) = (&mut self.out[..call.room], &mut self.orig[..call.records]);
        let Call {
            pass,
            mode,
            form,
            text,
            ..
        } = *call;
        if pass == 0 {
            optimize_in(mode, form, text, &mut work, out, orig)
        } else {
            run_pass_in(pass, mode, form, text, &mut work, out, orig)
        }
    }

    /// What a call answers, its result and its records; every lent byte is as said.
    fn expect(&mut self, call: Call, want: Result<(&[u8], &[Record]), Refusal>) {
        let got = self.ask(&call);
        let told = got.map_or(0, |_| record_bytes(call.form, call.text));
        let length = got.unwrap_or(0);
        let records: Vec<Record> = records_in(call.form, &self.orig[..told]).collect();
        let same = got.map(|n| (&self.out[..n], &records[..])) == want;
        assert!(same, "another answer, result or records: {got:?}");
        assert!(self.orig[..told] == bytes_of(call.form, &records));
        assert!(are(&self.out[length..], FILLED), "the result buffer");
        assert!(are(&self.orig[told..], FILLED), "the record buffer");
        self.out[..length].fill(FILLED);
        self.orig[..told].fill(FILLED);
        let ran = matches!(
            got,
            Ok(_) | Err(Refusal::ShortResult(_) | Refusal::ShortRecords(_))
        );
        let left = |which: usize, right: bool| assert!(right, "work buffer {which} after {got:?}");
        self.bytes
            .iter_mut()
            .for_each(|l| left(l.which, l.was_left(ran)));
        self.words
            .iter_mut()
            .for_each(|l| left(l.which, l.was_left(ran)));
        self.sizes
            .iter_mut()
            .for_each(|l| left(l.which, l.was_left(ran)));
    }

    fn refused(&mut self, call: Call, refusal: Refusal) {
        self.expect(call, Err(refusal));
    }
}

#[test]
fn each_pass_mode_and_form() {
    let listings: [(&[u8], &[u8], &str); 7] = [
        (SAMPLE, TIDY, ORIGINS),
        (
            b"let t1;\nt1 = 5;\nuse(t2);\n",
            b"let t1;\nuse(t2);\n",
            "00 3- 01",
        ),
        (
            b"r0 = a;\nr1 = r0;\nuse(r1);\n",
            b"r0 = a;\nuse(r0);\n",
            "00 21 11",
        ),
        (
            b"phi1 = 2;\nphi2 = a;\nuse(phi2);\n",
            b"phi2 = a;\nuse(phi2);\n",
            "3- 00 01",
        ),
        (
            b"r3 = greet;\nr3 = r3(1);\nuse(r3);\n",
            b"use(greet(1));\n",
            "20 20 10",
        ),
        (
            b"let r007, r1, r2;\nuse(r7, r1);\n",
            b"let r7, r1;\nuse(r7, r1);\n",
            "10 01",
        ),
        (
            b"var x;\n  let r0;\n}\n  r0 = 1;\n",
            b"var x;\n}\n  let r0 = 1;\n",
            "00 3- 01 12",
        ),
    ];
    let mut room = Room::new();
    for form in FORMS {
        for (pass, (text, result, records)) in listings.into_iter().enumerate() {
            let records = said(records, 0, 0);
            for mode in MODES {
                let call = Call {
                    pass,
                    mode,
                    ..Call::of(form, text)
                };
                room.expect(call, Ok((result, &records)));
            }
            let own = match pass {
                0 => optimize(Mode::Plain, form, text),
                _ => run_pass(pass, Mode::Plain, form, text),
            };
            let tidy = own.expect("a result");
            assert_eq!((&tidy.text[..], &tidy.records), (result, &records));
            assert_eq!(tidy.origins, bytes_of(form, &records));
        }
    }
}

#[test]
fn bytes_of_a_text() {
    let mut room = Room::new();
    let text = b"x".repeat(TEXT + 1);
    for form in FORMS {
        for pass in [0, 1, 2, 3, 4, 5, 6] {
            let most = Call {
                pass,
                ..Call::of(form, &text[..TEXT])
            };
            room.expect(most, Ok((&text[..TEXT], &kept(1))));
            let more = Call {
                pass,
                ..Call::of(form, &text)
            };
            room.refused(more, Refusal::TooLongLarge);
        }
        assert_eq!(
            optimize(Mode::Plain, form, &text),
            Err(Refusal::TooLongLarge)
        );
    }
}

#[test]
fn lines_of_a_text() {
    let mut room = Room::new();
    let text = b"\n".repeat(LINES + 1);
    for pass in [0, 1, 2, 3, 4, 5, 6] {
        for (form, lines, refusal) in [
            (Form::Ol, OL_LINES, None),
            (Form::Om, OL_LINES, None),
            (Form::Ol, OL_LINES + 1, Some(Refusal::WideLines)),
            (Form::Om, OL_LINES + 1, None),
            (Form::Ol, LINES, Some(Refusal::WideLines)),
            (Form::Om, LINES, None),
            (Form::Ol, LINES + 1, Some(Refusal::TooManyLinesLarge)),
            (Form::Om, LINES + 1, Some(Refusal::TooManyLinesLarge)),
        ] {
            let call = Call {
                pass,
                ..Call::of(form, &text[..lines])
            };
            let Some(refusal) = refusal else {
                room.expect(call, Ok((&text[..lines - 1], &kept(lines))));
                continue;
            };
            room.refused(call, refusal);
            room.refused(
                Call {
                    room: 0,
                    records: 0,
                    ..call
                },
                refusal,
            );
        }
    }
    let tidy = optimize(Mode::Plain, Form::Om, &text[..LINES]).expect("a result");
    assert!(tidy.records == kept(LINES) && tidy.origins.len() == RECORDS);
}

#[test]
fn sizes() {
    let mut room = Room::new();
    let records = said(ORIGINS, 0, 0);
    for form in FORMS {
        let need = record_bytes(form, SAMPLE);
        let exact = Call {
            spare: 0,
            room: TIDY.len(),
            records: need,
            ..Call::of(form, SAMPLE)
        };
        room.expect(exact, Ok((TIDY, &records)));
        let less = Call {
            room: TIDY.len() - 1,
            records: 0,
            ..exact
        };
        room.refused(less, Refusal::ShortResult(TIDY.len()));
        for pass in [0, 1, 2, 3, 4, 5, 6] {
            let less = Call {
                pass,
                room: ROOM,
                records: need - 1,
                ..exact
            };
            room.refused(less, Refusal::ShortRecords(need));
        }
        for short in 1..=18 {
            for pass in [0, 6] {
                room.refused(
                    Call {
                        pass,
                        short,
                        ..exact
                    },
                    Refusal::ShortWork,
                );
            }
        }
    }
    let text = b"\n".repeat(LINES);
    for (form, lines) in [(Form::Ol, OL_LINES), (Form::Om, LINES)] {
        let need = record_bytes(form, &text[..lines]);
        let exact = Call {
            records: need,
            ..Call::of(form, &text[..lines])
        };
        room.expect(exact, Ok((&text[..lines - 1], &kept(lines))));
        room.refused(
            Call {
                records: need - 1,
                ..exact
            },
            Refusal::ShortRecords(need),
        );
    }
}

/// The sample over and over: each is tidied as the first, with both line numbers shifted.
#[test]
fn long_texts() {
    let mut room = Room::new();
    for (form, times) in [
        (Form::Om, TEXT / SAMPLE.len()),
        (Form::Ol, OL_LINES / SAMPLE_LINES),
    ] {
        let (text, tidy) = (SAMPLE.repeat(times), TIDY.repeat(times));
        let each = |i| said(ORIGINS, i * SAMPLE_LINES, i * TIDY_LINES);
        let records: Vec<Record> = (0..times).flat_map(each).collect();
        for mode in MODES {
            room.expect(
                Call {
                    mode,
                    ..Call::of(form, &text)
                },
                Ok((&tidy, &records)),
            );
        }
        let less = Call {
            room: tidy.len() - 1,
            ..Call::of(form, &text)
        };
        room.refused(less, Refusal::ShortResult(tidy.len()));
    }
}

/// Refusals in their order: of each text one check more is met.
#[test]
fn order() {
    let mut room = Room::new();
    let bad = b"\xFF".repeat(TEXT + 1);
    let nothing = Call {
        short: 1,
        room: 0,
        records: 0,
        ..Call::of(Form::Ol, &bad)
    };
    for pass in [7, usize::MAX] {
        room.refused(Call { pass, ..nothing }, Refusal::BadPass);
    }
    for pass in [0, 6] {
        room.refused(Call { pass, ..nothing }, Refusal::TooLongLarge);
        let short = Call {
            pass,
            text: &bad[..TEXT],
            ..nothing
        };
        room.refused(short, Refusal::ShortWork);
    }
    let crowd = [
        b"\n".repeat(LINES + 1),
        b"[".repeat(BRACKETS + 1),
        b"\xFF".to_vec(),
    ]
    .concat();
    let (end, wide) = (crowd.len() - 1, LINES - OL_LINES);
    for form in FORMS {
        let none = Call {
            short: 0,
            ..nothing
        };
        let mut refused = |text, refusal| room.refused(Call { form, text, ..none }, refusal);
        refused(&crowd, Refusal::NotUtf8(end));
        refused(&crowd[..end], Refusal::TooManyLinesLarge);
        let beyond = match form {
            Form::Ol => Refusal::WideLines,
            Form::Om => Refusal::Crowded(OL_LINES + 1),
        };
        refused(&crowd[wide..end], beyond);
        refused(&crowd[wide + 2..end], Refusal::Crowded(OL_LINES - 1));
    }
    assert_eq!(
        run_pass(0, Mode::Plain, Form::Ol, SAMPLE),
        Err(Refusal::BadPass)
    );
}

#[test]
fn words() {
    for (refusal, words) in [
        (
            Refusal::TooLongLarge,
            "the text is longer than 1048576 bytes",
        ),
        (
            Refusal::TooManyLinesLarge,
            "the text has more than 100000 lines",
        ),
        (
            Refusal::WideLines,
            "the form OL has numbers for 65535 lines: ask for OM",
        ),
    ] {
        assert_eq!(refusal.to_string(), words);
    }
}

/// What a thread needs above a call, to begin and to end.
const OWN: usize = 65_536;

/// Buffers that are lent again and again, in threads with the stated stack.
#[test]
fn threads_with_buffers_of_their_own() {
    let text = SAMPLE.repeat(1_000);
    let repeat = move |form: Form| {
        let (mut buffers, mut out) = (Buffers::default(), vec![0; 2 * text.len()]);
        let mut orig = vec![0; record_bytes(form, &text)];
        for mode in MODES {
            let mut work = buffers.work();
            let length = optimize_in(mode, form, &text, &mut work, &mut out, &mut orig)?;
            assert!(out[..length] == TIDY.repeat(1_000));
        }
        Ok::<_, Refusal>(())
    };
    let begun = FORMS.map(|form| {
        let (repeat, builder) = (repeat.clone(), thread::Builder::new());
        let begun = builder.stack_size(STACK + OWN).spawn(move || repeat(form));
        begun.expect("a thread")
    });
    for each in begun {
        assert_eq!(each.join().expect("an answer"), Ok(()));
    }
}
