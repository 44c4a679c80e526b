//! What the tests of both pairs of calls share: a sample with its result, and records that are said
//! in short.

use optlines::large::Form;
use optlines::{Fate, Record};

pub const SAMPLE: &[u8] =
    b"function f(a) {\n  let r0, r1, r2;\n  r0 = a;\n  r1 = g(r0);\n  return r1;\n}\n";
pub const TIDY: &[u8] = b"function f(a) {\n  let r1 = g(a);\n  return r1;\n}\n";
pub const ORIGINS: &str = "00 3- 21 11 02 03";

/// Elements of a lent buffer behind its stated size, and what it is filled with.
pub const SPARE: usize = 8;
pub const FILLED: u8 = 0xA5;

/// The records that are said by the fate of each line and its line of the result, a digit or `-`
/// for none, as in `00 3- 11`, from a line of the text and one of the result on.
pub fn said(records: &str, line: usize, output: usize) -> Vec<Record> {
    let fates = [Fate::Equal, Fate::Changed, Fate::Inside, Fate::Gone];
    let digit = |c: u8| char::from(c).to_digit(10).map(|d| d as usize);
    let each = records.split_whitespace().map(str::as_bytes).enumerate();
    each.map(|(i, word)| Record {
        line: line + i,
        fate: fates[digit(word[0]).expect("a fate")],
        output: digit(word[1]).map(|n| output + n),
    })
    .collect()
}

/// Each line is kept, with equal bytes.
pub fn kept(lines: usize) -> Vec<Record> {
    let record = |line| Record {
        line,
        fate: Fate::Equal,
        output: Some(line),
    };
    (0..lines).map(record).collect()
}

/// The records as bytes of a form.
pub fn bytes_of(form: Form, records: &[Record]) -> Vec<u8> {
    let (mark, width) = match form {
        Form::Ol => (b"OL", 2),
        Form::Om => (b"OM", 4),
    };
    let mut bytes = Vec::new();
    for record in records {
        let low_first = |n: usize| n.to_le_bytes().into_iter().take(width);
        bytes.extend(mark);
        bytes.extend(low_first(record.line));
        bytes.push(record.fate as u8);
        bytes.extend(low_first(record.output.unwrap_or(usize::MAX)));
    }
    bytes
}
