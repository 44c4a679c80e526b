//! From a line of the tidy text back to the raw lines behind it, with the feature `records`: the
//! module `optlines::records` reads what a call wrote.
#![cfg(feature = "records")]

use optlines::large::{self, Form};
use optlines::{optimize, records, run_pass, Fate, Mode, Record, Tidy};

const SAMPLE: &[u8] = include_bytes!("../../../docs/sample/chapel.txt");
const ORIGINS: &[u8] = include_bytes!("../../../docs/sample/chapel.ol");

/// What the module reads in a record, as a call tells it.
fn as_told(line: usize, said: records::Fate) -> Record {
    let (fate, output) = match said {
        records::Fate::Equal(n) => (Fate::Equal, Some(n)),
        records::Fate::Changed(n) => (Fate::Changed, Some(n)),
        records::Fate::Inside(n) => (Fate::Inside, Some(n)),
        records::Fate::Gone => (Fate::Gone, None),
    };
    Record { line, fate, output }
}

/// The module takes the records, and reads the same.
fn agrees(tidy: &Tidy) {
    let read = records::read(&tidy.origins).expect("a record file");
    let told: Vec<Record> = (0..).zip(read).map(|(i, said)| as_told(i, said)).collect();
    assert_eq!(told, tidy.records);
    for n in 0..=tidy.records.len() {
        let behind = tidy.records.iter().filter(|r| r.output == Some(n));
        let lines: Vec<usize> = behind.map(|r| r.line).collect();
        assert_eq!(records::lines(&tidy.origins, n), Ok(lines), "line {n}");
    }
}

#[test]
fn a_call_and_what_it_took_in() {
    let text = b"r3 = greet;\nr4 = 1;\nr3 = r3(r4);\nuse(r3);\nend();\n";
    let tidy = optimize(Mode::Plain, text).expect("a result");
    assert_eq!(tidy.text, b"use(greet(1));\nend();\n");
    assert_eq!(records::lines(&tidy.origins, 0), Ok(vec![0, 1, 2, 3]));
    assert_eq!(records::lines(&tidy.origins, 1), Ok(vec![4]));
    assert_eq!(records::lines(&tidy.origins, 65_535), Ok(vec![]));
}

#[test]
fn the_sample_by_each_entry() {
    let tidy = optimize(Mode::Plain, SAMPLE).expect("a result");
    assert_eq!(tidy.origins, ORIGINS);
    for mode in [Mode::Plain, Mode::Strict, Mode::Joined, Mode::StrictJoined] {
        agrees(&optimize(mode, SAMPLE).expect("a result"));
        for pass in 1..=6 {
            agrees(&run_pass(pass, mode, SAMPLE).expect("a result"));
        }
    }
    agrees(&optimize(Mode::Plain, b"").expect("a result"));
}

/// The second pair writes what the first one does, and in the form OM what the module turns it into.
#[test]
fn the_sample_in_either_form() {
    for mode in [Mode::Plain, Mode::Strict, Mode::Joined, Mode::StrictJoined] {
        let first = optimize(mode, SAMPLE).expect("a result");
        let ol = large::optimize(mode, Form::Ol, SAMPLE).expect("a result");
        let om = large::optimize(mode, Form::Om, SAMPLE).expect("a result");
        agrees(&om);
        assert_eq!(ol, first);
        assert_eq!(records::to_om(&first.origins), Ok(om.origins));
        assert_eq!((om.text, om.records), (first.text, first.records));
    }
}
