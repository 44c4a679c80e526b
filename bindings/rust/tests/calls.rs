//! Calls the library through the wrapper: the sample, each pass, each mode, the records, every
//! refusal, its words, and the lent bytes after each call.

mod common;

use common::{kept, FILLED, ORIGINS, SAMPLE, SPARE, TIDY};
use optlines::large::Form;
use optlines::{optimize, optimize_in, record_bytes, records_in, run_pass, run_pass_in};
use optlines::{Mode, Record, Refusal, Tidy, Work};
use optlines::{BLOCKS, BRACKETS, BYTES, LINES, RECORDS, STACK, TEXT};
use std::error::Error;
use std::thread;

const FILLED_BLOCK: u32 = 0xA5A5_A5A5;

/// The records that are said in short, from line 0 on.
fn said(records: &str) -> Vec<Record> {
    common::said(records, 0, 0)
}

/// The records as bytes.
fn bytes_of(records: &[Record]) -> Vec<u8> {
    common::bytes_of(Form::Ol, records)
}

/// Checks what a call with buffers of its own gives.
fn gives(got: Result<Tidy, Refusal>, text: &[u8], records: Vec<Record>) {
    let tidy = got.expect("a result");
    assert_eq!(tidy.text, text);
    assert_eq!(tidy.origins, bytes_of(&records));
    assert_eq!(tidy.records, records);
}

/// One call: which pass, 0 for all, the text, which work buffer, from 1, is lent one element short,
/// and how much of the result buffer and of the record buffer is lent.
#[derive(Clone, Copy)]
struct Call<'a> {
    pass: usize,
    text: &'a [u8],
    short: usize,
    room: usize,
    records: usize,
}

impl Call<'_> {
    /// A call with buffers that are long enough.
    fn of(pass: usize, text: &[u8]) -> Call<'_> {
        Call {
            pass,
            text,
            short: 0,
            room: 2 * TEXT,
            records: RECORDS,
        }
    }
}

/// Buffers with some room behind what is stated, filled.
struct Room {
    bytes: [Vec<u8>; 5],
    blocks: Vec<u32>,
    out: Vec<u8>,
    orig: Vec<u8>,
}

impl Room {
    fn new() -> Room {
        Room {
            bytes: [(); 5].map(|()| vec![FILLED; BYTES + SPARE]),
            blocks: vec![FILLED_BLOCK; BLOCKS + SPARE],
            out: vec![FILLED; 2 * TEXT],
            orig: vec![FILLED; RECORDS + SPARE],
        }
    }

    /// Makes a call.
    fn ask(&mut self, mode: Mode, call: Call) -> Result<usize, Refusal> {
        let lent = |which, stated| {
            if which == call.short {
                stated - 1
            } else {
                stated + SPARE
            }
        };
        let [a, b, c, d, e] = &mut self.bytes;
        let mut work = Work {
            a: &mut a[..lent(1, BYTES)],
            b: &mut b[..lent(2, BYTES)],
            c: &mut c[..lent(3, BYTES)],
            d: &mut d[..lent(4, BYTES)],
            e: &mut e[..lent(5, BYTES)],
            u: &mut self.blocks[..lent(6, BLOCKS)],
        };
        let (out, orig) = (&mut self.out[..call.room], &mut self.orig[..call.records]);
        if call.pass == 0 {
            optimize_in(mode, call.text, &mut work, out, orig)
        } else {
            run_pass_in(call.pass, mode, call.text, &mut work, out, orig)
        }
    }

    /// Every lent byte is as include/optlines.h says; so many bytes are records.
    fn is_as_said(&self, answer: Result<usize, Refusal>, records: usize) -> bool {
        let ran = matches!(
            answer,
            Ok(_) | Err(Refusal::ShortResult(_) | Refusal::ShortRecords(_))
        );
        let (zeros, zero_blocks) = if ran { (BYTES, BLOCKS) } else { (0, 0) };
        let are = |s: &[u8], byte: u8| s.iter().all(|b| *b == byte);
        let after = |s: &[u8], n: usize| are(&s[..n], 0) && are(&s[n..], FILLED);
        self.bytes.iter().all(|s| after(s, zeros))
            && self.blocks[..zero_blocks].iter().all(|b| *b == 0)
            && self.blocks[zero_blocks..]
                .iter()
                .all(|b| *b == FILLED_BLOCK)
            && are(&self.out[answer.unwrap_or(0)..], FILLED)
            && are(&self.orig[records..], FILLED)
    }
}

/// One call in each mode in fresh lent buffers: what it answers, its result, its records, and that
/// memory is as said.
fn expect(call: Call, want: Result<(&[u8], &[Record]), Refusal>) {
    for mode in [Mode::Plain, Mode::Strict, Mode::Joined, Mode::StrictJoined] {
        expect_in(mode, call, want);
    }
}

/// The same in one mode.
fn expect_in(mode: Mode, call: Call, want: Result<(&[u8], &[Record]), Refusal>) {
    let mut buffers = Room::new();
    let got = buffers.ask(mode, call);
    let told = got.map_or(0, |_| record_bytes(call.text));
    let records: Vec<Record> = records_in(&buffers.orig[..told]).collect();
    assert_eq!(got.map(|n| (&buffers.out[..n], &records[..])), want);
    assert_eq!(buffers.orig[..told], bytes_of(&records));
    assert!(
        buffers.is_as_said(got, told),
        "a lent byte is not as said after {got:?}"
    );
}

fn refused(call: Call, refusal: Refusal) {
    expect(call, Err(refusal));
}

#[test]
fn the_sample() {
    let records = said(ORIGINS);
    gives(optimize(Mode::Plain, SAMPLE), TIDY, records.clone());
    let call = Call {
        room: TIDY.len(),
        ..Call::of(0, SAMPLE)
    };
    expect(call, Ok((TIDY, &records)));
    gives(optimize(Mode::Plain, b""), b"", vec![]);
}

#[test]
fn one_pass() {
    let listings: [(&[u8], &[u8], &str); 6] = [
        (
            b"let t1;\nt1 = 5;\nuse(t2);\n",
            b"let t1;\nuse(t2);\n",
            "00 3- 01",
        ),
        (
            b"r0 = a;\nr1 = r0;\nr2 = r1;\nuse(r2);\n",
            b"r0 = a;\nr1 = r0;\nuse(r1);\n",
            "00 01 22 12",
        ),
        (
            b"phi1 = 2;\nphi2 = a;\nuse(phi2);\n",
            b"phi2 = a;\nuse(phi2);\n",
            "3- 00 01",
        ),
        (
            b"r3 = greet;\nr4 = 1;\nr3 = r3(r4);\nuse(r3);\n",
            b"use(greet(1));\n",
            "20 20 20 10",
        ),
        (
            b"let r007, r1, r2;\nuse(r7, r1);\n",
            b"let r7, r1;\nuse(r7, r1);\n",
            "10 01",
        ),
        (
            b"var x;\n  let r0;\n}\n  r0 = 1;\n",
            b"var x;\n}\n  let r0 = 1;\n",
            "00 3- 01 12",
        ),
    ];
    for (pass, (text, result, records)) in (1..).zip(listings) {
        let records = said(records);
        gives(run_pass(pass, Mode::Plain, text), result, records.clone());
        expect(Call::of(pass, text), Ok((result, &records)));
    }
}

/// A sum of strings with a call in it is no string in strict mode; a string with `//` in it is one.
#[test]
fn modes() {
    let (sum, string) = (
        &b"r0 = \"a\" + f() + \"b\";\n"[..],
        &b"r1 = \"http://x\";\n"[..],
    );
    let text = [sum, string].concat();
    for (mode, left, records) in [
        (Mode::Plain, string, said("3- 00")),
        (Mode::Strict, sum, said("00 3-")),
        (Mode::Joined, string, said("3- 00")),
        (Mode::StrictJoined, sum, said("00 3-")),
    ] {
        gives(optimize(mode, &text), left, records.clone());
        gives(run_pass(2, mode, &text), left, records.clone());
        expect_in(mode, Call::of(0, &text), Ok((left, &records)));
        expect_in(mode, Call::of(2, &text), Ok((left, &records)));
    }
    assert_eq!(Mode::default(), Mode::Plain);
}

/// Lines that are removed, that go with the line that took them in, and that end in CR.
#[test]
fn records() {
    let listings: [(&[u8], &[u8], &str); 5] = [
        (
            b"__runtime.DeclareGlobals(1);\nuse(a);\n",
            b"use(a);\n",
            "3- 00",
        ),
        (b"r0 = x;\nphi1 = r0;\n", b"\n", "3- 3-"),
        (b"r0 = x;\nphi1 = f(r0);\n", b"f(x);\n", "20 10"),
        (b"a\r\nb\r", b"a\nb\r", "00 01"),
        (b"a\n\n", b"a\n", "00 01"),
    ];
    for (text, result, records) in listings {
        gives(optimize(Mode::Plain, text), result, said(records));
    }
}

/// Refusal 8: one byte short, just enough, and 7 before it.
#[test]
fn short_records() {
    let records = said(ORIGINS);
    for pass in 0..=6 {
        for lent in [0, 41] {
            let call = Call {
                records: lent,
                ..Call::of(pass, SAMPLE)
            };
            refused(call, Refusal::ShortRecords(42));
        }
    }
    let exact = Call {
        room: TIDY.len(),
        records: 42,
        ..Call::of(0, SAMPLE)
    };
    expect(exact, Ok((TIDY, &records)));
    let both = Call {
        room: TIDY.len() - 1,
        records: 41,
        ..exact
    };
    refused(both, Refusal::ShortResult(TIDY.len()));
    let nothing = Call {
        room: 0,
        records: 0,
        ..Call::of(0, b"")
    };
    expect(nothing, Ok((b"", &[])));
    let unended = Call {
        records: 13,
        ..Call::of(0, b"a\nb")
    };
    refused(unended, Refusal::ShortRecords(14));
    let removed = Call {
        records: 13,
        ..Call::of(0, b"__runtime.DeclareGlobals(1);\nuse(a);\n")
    };
    refused(removed, Refusal::ShortRecords(14));
    assert_eq!(
        Refusal::ShortRecords(42).to_string(),
        "the records need 42 bytes of room"
    );
}

/// Below a template over lines a statement begins in joined mode alone; the sum of strings above it
/// stays in strict mode alone.
#[test]
fn templates_over_lines() {
    let sum = &b"r1 = \"a\" + f() + \"b\";\n"[..];
    let raw = &b"  let r0;\nx = `{\n}`;\n  r0 = f();\n  use(r0);\n"[..];
    let called = &b"  let r0;\nx = `{\n}`;\n  use(f());\n"[..];
    let bound = &b"x = `{\n}`;\n  let r0 = f();\n  use(r0);\n"[..];
    let tidy = &b"x = `{\n}`;\n  use(f());\n"[..];
    for mode in [Mode::Plain, Mode::Strict] {
        expect_in(mode, Call::of(4, raw), Ok((raw, &kept(5))));
        expect_in(mode, Call::of(6, raw), Ok((raw, &kept(5))));
    }
    for mode in [Mode::Joined, Mode::StrictJoined] {
        let (calls, binds) = (said("00 01 02 23 13"), said("3- 00 01 12 03"));
        expect_in(mode, Call::of(4, raw), Ok((called, &calls)));
        expect_in(mode, Call::of(6, raw), Ok((bound, &binds)));
    }
    let text = [sum, raw].concat();
    for (mode, above, below, records) in [
        (Mode::Plain, &b""[..], raw, said("3- 00 01 02 03 04")),
        (Mode::Strict, sum, raw, kept(6)),
        (Mode::Joined, &b""[..], tidy, said("3- 3- 00 01 22 12")),
        (Mode::StrictJoined, sum, tidy, said("00 3- 01 02 23 13")),
    ] {
        gives(optimize(mode, &text), &[above, below].concat(), records);
    }
}

fn lines(n: usize) -> Vec<u8> {
    b"\n".repeat(n)
}

/// A second line of so many brackets.
fn brackets(n: usize) -> Vec<u8> {
    [b"a\n".to_vec(), b"[".repeat(n)].concat()
}

/// A call that is refused whatever room it has for a result and for records: none, or enough.
fn refused_anyway(pass: usize, text: &[u8], short: usize, refusal: Refusal) {
    for (room, records) in [(0, 0), (2 * TEXT, RECORDS)] {
        let call = Call {
            pass,
            text,
            short,
            room,
            records,
        };
        refused(call, refusal);
    }
}

#[test]
fn refusals() {
    let long = b"x".repeat(TEXT + 1);
    for pass in [7, usize::MAX] {
        refused_anyway(pass, &long, 1, Refusal::BadPass);
    }
    assert_eq!(run_pass(0, Mode::Plain, SAMPLE), Err(Refusal::BadPass));
    refused_anyway(0, &long, 1, Refusal::TooLong);
    for short in 1..=6 {
        refused_anyway(0, b"\xFF", short, Refusal::ShortWork);
    }
    refused_anyway(0, b"ab\xE2\x82\n", 0, Refusal::NotUtf8(2));
    refused_anyway(0, b"ab\xE2\x82", 0, Refusal::Cut(2));
    refused_anyway(6, b"ab\xC0\x80", 0, Refusal::Overlong(2));
    refused_anyway(6, b"ab\xED\xA0\x80", 0, Refusal::Outside(2));
    refused_anyway(0, &lines(LINES + 1), 0, Refusal::TooManyLines);
    refused_anyway(0, &brackets(BRACKETS + 1), 0, Refusal::Crowded(1));
    let short = Call {
        room: TIDY.len() - 1,
        ..Call::of(0, SAMPLE)
    };
    refused(short, Refusal::ShortResult(TIDY.len()));
}

#[test]
fn limits() {
    let long = b"x".repeat(TEXT);
    gives(optimize(Mode::Plain, &long), &long, kept(1));
    let many = lines(LINES);
    gives(optimize(Mode::Plain, &many), &many[1..], kept(LINES));
    let call = Call {
        records: RECORDS - 1,
        ..Call::of(0, &many)
    };
    refused(call, Refusal::ShortRecords(RECORDS));
    let crowd = brackets(BRACKETS);
    gives(optimize(Mode::Plain, &crowd), &crowd, kept(2));
}

#[test]
fn words() {
    let said = |text: &[u8]| {
        let why: Box<dyn Error> = optimize(Mode::Plain, text).unwrap_err().into();
        why.to_string()
    };
    assert_eq!(
        said(&b"x".repeat(TEXT + 1)),
        "the text is longer than 16384 bytes"
    );
    assert_eq!(
        said(b"ab\xFF"),
        "the text is not UTF-8: see byte 2, counted from 0"
    );
    assert_eq!(
        said(b"ab\xE2\x82"),
        "the text was cut: it ends within the character at byte 2, counted from 0"
    );
    assert_eq!(
        said(b"ab\xC0\x80"),
        "the text has an overlong form: see byte 2, counted from 0"
    );
    assert_eq!(
        said(b"ab\xED\xA0\x80"),
        "the text has a surrogate or a value above U+10FFFF: see byte 2, counted from 0"
    );
    assert_eq!(said(&lines(LINES + 1)), "the text has more than 1024 lines");
    assert_eq!(
        said(&brackets(BRACKETS + 1)),
        "line 2 has more than 64 bytes '['"
    );
    let other = Refusal::Other {
        number: 9,
        place: 5,
    };
    assert_eq!(
        other.to_string(),
        "refused with number 9 and place 5, unknown to this wrapper"
    );
}

/// What a thread needs above a call, to begin and to end.
const OWN: usize = 65_536;

#[test]
fn threads_with_the_stated_stack() {
    let nested = |v: &str| format!("{}{v}{}", "[".repeat(BRACKETS), "]".repeat(BRACKETS));
    let text = format!("r1 = {};\nphi1 = {};\nuse(2);\n", nested("1"), nested("r1"));
    let begin = |text: String| {
        let builder = thread::Builder::new().stack_size(STACK + OWN);
        let begun = builder.spawn(move || optimize(Mode::Strict, text.as_bytes()));
        begun.expect("a thread")
    };
    let begun: Vec<_> = (0..4).map(|_| begin(text.clone())).collect();
    for each in begun {
        let answer = each.join().expect("an answer");
        gives(answer, b"use(2);\n", said("3- 3- 00"));
    }
}
