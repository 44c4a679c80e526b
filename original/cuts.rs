//! Made texts cut in two where document 01's law of cuts applies: the upper part is empty or ends in LF, the tail's first line is a
//! header, and the tail closes no brace that it did not open. In joined mode nothing is open below the upper part, and the braces are
//! those that this mode's cleaning leaves.

use crate::judge::{self, BOTH, JOINED, MOST_BYTES, MOST_LINES};
use crate::random::Random;
use crate::texts::Texts;
use opt::exports::{regions, strip_lexical};

/// Whether a line opens a region.
fn is_header(line: &str) -> bool {
    regions(&[line.to_string()]) == [1]
}

/// The lines as a mode cleans them.
fn cleaned(mode: u8, lines: &[&str]) -> Vec<String> {
    match mode {
        JOINED | BOTH => joined::joined_lines(lines),
        _ => lines.iter().map(|line| strip_lexical(line)).collect(),
    }
}

/// Whether the lines leave nothing open: a brace below them is read as one.
fn ends_shut(mode: u8, upper: &str) -> bool {
    let below: Vec<&str> = upper.lines().chain(["{"]).collect();
    cleaned(mode, &below).last().is_some_and(|brace| brace == "{")
}

/// Whether the braces that the cleaning leaves, read in order, close none that they did not open.
fn closes_its_own(mode: u8, tail: &str) -> bool {
    let mut open = 0;
    for line in cleaned(mode, &tail.lines().collect::<Vec<_>>()) {
        for c in line.chars() {
            match c {
                '{' => open += 1,
                '}' if open == 0 => return false,
                '}' => open -= 1,
                _ => {}
            }
        }
    }
    true
}

/// The places at which a text may be cut.
fn places(mode: u8, text: &str) -> Vec<usize> {
    let starts = std::iter::once(0).chain(text.match_indices('\n').map(|(at, _)| at + 1));
    let may = |at: &usize| {
        let (upper, tail) = text.split_at(*at);
        tail.lines().next().is_some_and(is_header) && ends_shut(mode, upper) && closes_its_own(mode, tail)
    };
    starts.filter(may).collect()
}

/// Whether no limit refuses a text.
fn within_limits(text: &str) -> bool {
    text.len() <= MOST_BYTES && text.lines().count() <= MOST_LINES && judge::crowded_line(text).is_none()
}

/// A listing, or two with a header between them.
fn made(texts: &Texts, r: &mut Random, pass: u8) -> String {
    let mut one = |r: &mut Random| match r.below(16) {
        0 => texts.long_listing(r),
        1 => texts.special(r),
        2 | 3 => texts.open(r),
        _ => texts.listing(r, pass),
    };
    let mut text = one(r);
    if r.chance(80) {
        let close = r.pick(&["", "\n", "\n}\n", "\nr1 = a;\n", "\nr2 = f(a);\n"]);
        text.extend(close.bytes());
        text.extend(texts.grammar.text(r, "header").bytes());
        text.push(b'\n');
        text.extend(one(r));
    }
    String::from_utf8_lossy(&text).into_owned()
}

/// A text that may be cut in a mode, and where.
pub fn cut_text(texts: &Texts, r: &mut Random, pass: u8, mode: u8) -> (String, usize) {
    loop {
        let text = made(texts, r, pass);
        let places = places(mode, &text);
        if within_limits(&text) && !places.is_empty() {
            let at = places[r.below(places.len())];
            return (text, at);
        }
    }
}
