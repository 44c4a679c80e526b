//! Makes requests to check prunings, and answers them by a model of its own: it holds all readings against the
//! pruned lines, one table for each request, and of short ones it lists every outcome. See README.md.

mod ends;
mod grammar;
mod judge;
mod lists;
mod numbers;
mod random;
mod readings;
mod rules;
mod suppliers;
mod texts;
mod wire;

use judge::{MOST_BRACKETS, MOST_BYTES, MOST_LINES};
use random::Random;
use readings::Raw;
use suppliers::{Asked, Suppliers};
use wire::Wire;

/// The number of lent work buffers.
const WORK: u8 = 4;

/// The number and the place of the first check that refuses a text, of 2, 4, 5 and 6.
fn checked(text: &[u8], short: bool) -> Result<&str, (u8, usize)> {
    if text.len() > MOST_BYTES {
        return Err((2, MOST_BYTES));
    }
    if short {
        return Err((3, 0));
    }
    let text = std::str::from_utf8(text).map_err(|e| (4, e.valid_up_to()))?;
    if text.lines().count() > MOST_LINES {
        return Err((5, MOST_LINES));
    }
    let crowded = |l: &str| l.bytes().filter(|b| *b == b'[').count() > MOST_BRACKETS;
    text.lines().position(crowded).map_or(Ok(text), |line| Err((6, line)))
}

/// `read` is the raw text of the request before, as it was read.
fn answer(asked: &Asked, read: &mut Raw) -> (u8, usize) {
    let raw = match checked(&asked.raw, (1..=WORK).contains(&asked.short)) {
        Ok(text) => text,
        Err(refused) => return refused,
    };
    if !read.is(raw) {
        *read = Raw::of(raw);
    }
    match checked(&asked.pruned, false) {
        Ok(text) => read.verdict(text),
        Err((number, place)) => (20 + number, place),
    }
}

fn write(wire: &mut Wire, asked: &Asked) -> Option<()> {
    wire.put(&[asked.short])?;
    wire.put_text(&asked.raw)?;
    wire.put_text(&asked.pruned)
}

fn serve(wire: &mut Wire) -> Option<()> {
    let most = MOST_BYTES as u64 + 1;
    let mut read = Raw::of("");
    loop {
        wire.ready()?;
        let asked = Asked { short: wire.one()?, raw: wire.text(most)?, pruned: wire.text(most)? };
        let (number, place) = answer(&asked, &mut read);
        wire.put(&[number, 1])?;
        wire.put(&(place as u32).to_le_bytes())?;
    }
}

/// Every raw list and every pruned list of up to so many lines.
fn all(wire: &mut Wire, raw_lines: u64, pruned_lines: u64) -> Option<()> {
    let of = |alphabet: &[&str], most: u64| -> Vec<Vec<u8>> {
        let count = (0..=most as u32).map(|n| (alphabet.len() as u64).pow(n)).sum();
        (0..count).map(|index| texts::counted(alphabet, index).into_bytes()).collect()
    };
    let (raws, others) = (of(suppliers::RAW, raw_lines), of(suppliers::PRUNED, pruned_lines));
    raws.iter().try_for_each(|raw| {
        others.iter().try_for_each(|pruned| write(wire, &Asked { short: 0, raw: raw.clone(), pruned: pruned.clone() }))
    })
}

fn made(wire: &mut Wire, seed: u64, count: u64) -> Option<()> {
    let suppliers = Suppliers::new();
    (0..count).try_for_each(|index| write(wire, &suppliers.request(&mut Random::new(seed, index))))
}

fn number(word: Option<&String>) -> u64 {
    let usage = "prunings SEED COUNT | prunings all RAW-LINES PRUNED-LINES | prunings answers";
    word.and_then(|w| w.parse().ok()).unwrap_or_else(|| wire::usage(usage))
}

fn main() {
    let words: Vec<String> = std::env::args().skip(1).collect();
    let mut wire = Wire::new();
    // None where the reader or the writer has gone away: nothing is left to do then
    let _ = match words.first().map(String::as_str) {
        Some("answers") => serve(&mut wire),
        Some("all") => all(&mut wire, number(words.get(1)), number(words.get(2))),
        _ => made(&mut wire, number(words.first()), number(words.get(1))),
    };
}
