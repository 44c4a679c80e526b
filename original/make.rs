//! Makes requests, the same for the same seed on every machine. See README.md.

mod asking;
mod cuts;
mod ends;
mod grammar;
mod judge;
mod numbers;
mod random;
mod rules;
mod texts;
mod wire;

use judge::{Asked, Manner, MODES, MOST_LINES, MOST_RECORDS, MOST_ROOM, OL, OM, PLAIN, RECORD, SECOND, WORK};
use random::Random;
use texts::{Alphabet, Texts};
use wire::Wire;

enum Kind {
    Listing,
    LongListing,
    Special,
    Quotes,
    Open,
    Soup,
    Damaged,
    Short,
    Bytes,
    Lines,
    Brackets,
    Sequence,
    Room,
    Work,
    Spoiled,
}

/// How many of each hundred requests are of which kind.
const MIX: &[(u64, Kind)] = &[
    (22, Kind::Listing),
    (2, Kind::LongListing),
    (5, Kind::Special),
    (8, Kind::Quotes),
    (9, Kind::Open),
    (10, Kind::Soup),
    (12, Kind::Damaged),
    (14, Kind::Short),
    (1, Kind::Bytes),
    (1, Kind::Lines),
    (2, Kind::Brackets),
    (4, Kind::Sequence),
    (6, Kind::Room),
    (2, Kind::Work),
    (2, Kind::Spoiled),
];

/// The kind of the request of that index, and how many of its kind came before.
fn kind_of(index: u64) -> (&'static Kind, u64) {
    // 37 has no divisor in common with 100: each hundred has every slot once
    let mut slot = index * 37 % 100;
    for (share, kind) in MIX {
        if slot < *share {
            return (kind, index / 100 * share + slot);
        }
        slot -= share;
    }
    unreachable!("the shares come to 100")
}

/// Bytes lent for records beyond those that a text needs, where a request shall not be refused.
const SPARE: u32 = 3;

/// Short texts go on where the seed before leaves off, where that one had some 100,000 requests.
const SHORT_OF_A_SEED: u64 = 14_000;

struct Maker {
    texts: Texts,
    seed: u64,
}

impl Maker {
    fn text(&self, kind: &Kind, before: u64, pass: u8, r: &mut Random) -> Vec<u8> {
        let t = &self.texts;
        match kind {
            Kind::LongListing => t.long_listing(r),
            Kind::Special => t.special(r),
            Kind::Quotes => texts::quoted(r).into_bytes(),
            Kind::Open => t.open(r),
            Kind::Soup => texts::soup(r, 40).into_bytes(),
            Kind::Damaged => {
                let whole = t.listing(r, pass);
                texts::damaged(r, whole)
            }
            Kind::Short => texts::short(self.seed.wrapping_mul(SHORT_OF_A_SEED).wrapping_add(before)).into_bytes(),
            Kind::Bytes => t.at_most_bytes(r),
            Kind::Lines => t.at_most_lines(r),
            Kind::Brackets => t.at_most_brackets(r),
            Kind::Sequence => {
                let whole = t.listing(r, pass);
                texts::with_sequence(r, whole)
            }
            _ => t.listing(r, pass),
        }
    }

    fn request(&self, index: u64) -> Asked {
        let r = &mut Random::new(self.seed, index);
        let (kind, before) = kind_of(index);
        let pass = match kind {
            Kind::Quotes => r.below(4) as u8, // no other pass judges values
            Kind::Open => open_pass(r),
            _ => r.below(10).saturating_sub(3) as u8,
        };
        let mode = MODES[r.below(MODES.len())];
        let mut asked = in_room(pass, mode, self.text(kind, before, pass, r));
        match kind {
            Kind::Room => asked.room = near_room(r, &asked),
            Kind::Work => asked.short = r.between(1, WORK as usize + 1) as u8,
            Kind::Spoiled => self.spoil(r, &mut asked),
            _ => {}
        }
        asked.records = near_records(r, records_for(&asked.text), if matches!(kind, Kind::Room) { 6 } else { 40 });
        asked
    }

    /// Several reasons to refuse at once, to see which comes first.
    fn spoil(&self, r: &mut Random, asked: &mut Asked) {
        for _ in 0..r.between(1, 3) {
            match r.below(8) {
                0 => asked.pass = *r.pick(&[&7, &8, &255]),
                1 => asked.text = self.texts.at_most_bytes(r),
                2 => asked.short = r.below(256) as u8,
                3 => asked.text = texts::with_sequence(r, std::mem::take(&mut asked.text)),
                4 => asked.text.extend_from_slice(&self.texts.at_most_lines(r)),
                5 => asked.text.extend_from_slice(&self.texts.at_most_brackets(r)),
                6 => asked.mode = *r.pick(&[&4, &5, &128, &255]),
                _ => asked.room = *r.pick(&[&0, &1, &32_769, &u32::MAX]),
            }
        }
    }
}

/// Most often one of the passes that clean lines, or the whole.
fn open_pass(r: &mut Random) -> u8 {
    *r.pick(&[&0, &0, &4, &4, &4, &6, &6, &6, &1, &2, &3, &5])
}

/// A result buffer of exactly the length, a little more or less, or none.
fn near_room(r: &mut Random, asked: &Asked) -> u32 {
    let length = judge::result(asked, &Manner::FIRST).map_or(0, |(_, result)| result.len() as u32);
    match r.below(5) {
        0 => length,
        1 => length.saturating_sub(1),
        2 => length + 1,
        3 => r.below(length as usize + 1) as u32,
        _ => 0,
    }
}

/// How long the records of a text are, if it has no more lines than it may have.
fn records_for(text: &[u8]) -> u32 {
    let ends = text.iter().filter(|b| **b == b'\n').count();
    let lines = ends + text.last().is_some_and(|b| *b != b'\n') as usize;
    (RECORD * lines.min(MOST_LINES)) as u32
}

/// Of so many record buffers one is a byte short, one shorter, one empty, one exact, one as long as it may be or longer; the others have some more.
fn near_records(r: &mut Random, need: u32, of: usize) -> u32 {
    match r.below(of) {
        0 => need.saturating_sub(1),
        1 => r.below(need as usize + 1) as u32,
        2 => 0,
        3 => need,
        4 => *r.pick(&[&MOST_RECORDS, &(MOST_RECORDS + 1), &u32::MAX]),
        _ => need + r.below(16) as u32,
    }
}

/// A request in which nothing is too short.
fn in_room(pass: u8, mode: u8, text: Vec<u8>) -> Asked {
    Asked { pass, mode, form: OL, short: 0, room: MOST_ROOM, records: records_for(&text) + SPARE, text }
}

/// A request; one for the second pair names the form of its records too.
fn write_to(wire: &mut Wire, asked: &Asked, forms: bool) -> Option<()> {
    wire.put(&[asked.pass, asked.mode])?;
    if forms {
        wire.put(&[asked.form])?;
    }
    wire.put(&[asked.short])?;
    wire.put(&asked.room.to_le_bytes())?;
    wire.put(&asked.records.to_le_bytes())?;
    wire.put_text(&asked.text)
}

fn write(wire: &mut Wire, asked: &Asked) -> Option<()> {
    write_to(wire, asked, false)
}

fn requests(wire: &mut Wire, seed: u64, count: u64) -> Option<()> {
    let maker = Maker { texts: Texts::new(), seed };
    (0..count).try_for_each(|index| write(wire, &maker.request(index)))
}

/// Each text of up to that many tokens of an alphabet, for each of the passes, in each mode.
fn all_texts(wire: &mut Wire, alphabet: &Alphabet, tokens: u64, passes: &[u8]) -> Option<()> {
    let count = (0..=tokens as u32).map(|n| (alphabet.tokens.len() as u64).pow(n)).sum();
    (0..count).try_for_each(|index| {
        let text = alphabet.text(index).into_bytes();
        let mut asked = passes.iter().flat_map(|&pass| MODES.map(|mode| (pass, mode)));
        asked.try_for_each(|(pass, mode)| write(wire, &in_room(pass, mode, text.clone())))
    })
}

/// Requests for texts with templates and comments over lines.
fn open_texts(wire: &mut Wire, seed: u64, count: u64) -> Option<()> {
    let texts = Texts::new();
    (0..count).try_for_each(|index| {
        let r = &mut Random::new(seed, index);
        let (pass, mode) = (open_pass(r), MODES[r.below(MODES.len())]);
        write(wire, &in_room(pass, mode, texts.open(r)))
    })
}

/// Requests for the whole of texts about the rules of UTF-8.
fn flaws(wire: &mut Wire, mut texts: impl Iterator<Item = Vec<u8>>) -> Option<()> {
    texts.try_for_each(|text| write(wire, &in_room(0, PLAIN, text)))
}

/// For each cut three requests, of a pass to which the law of cuts applies: for the whole text, for the upper part and for the tail.
fn cut_texts(wire: &mut Wire, seed: u64, count: u64) -> Option<()> {
    let texts = Texts::new();
    (0..count).try_for_each(|index| {
        let r = &mut Random::new(seed, index);
        let (pass, mode) = (r.between(4, 6) as u8, MODES[r.below(MODES.len())]);
        let (text, at) = cuts::cut_text(&texts, r, pass, mode);
        for part in [&text[..], &text[..at], &text[at..]] {
            write(wire, &in_room(pass, mode, part.into()))?;
        }
        Some(())
    })
}

/// Requests for the second pair, in which nothing is too short: long texts, and some at the limits.
fn large_texts(wire: &mut Wire, seed: u64, count: u64) -> Option<()> {
    let texts = Texts::new();
    (0..count).try_for_each(|index| {
        let r = &mut Random::new(seed, index);
        let (pass, mode) = (r.below(10).saturating_sub(3) as u8, MODES[r.below(MODES.len())]);
        let text = texts.large(r, pass, mode);
        let form = if r.chance(50) { OL } else { OM };
        write_to(wire, &Asked { pass, mode, form, short: 0, room: SECOND.room, records: SECOND.records, text }, true)
    })
}

fn number(word: Option<&String>) -> u64 {
    let usage = "make SEED COUNT | make leaves SEED COUNT [FUNCTION..] | make all ALPHABET TOKENS [PASS..] | make open SEED COUNT | make flaws SEED COUNT | make flaws all BYTES | make cuts SEED COUNT | make large SEED COUNT";
    word.and_then(|w| w.parse().ok()).unwrap_or_else(|| wire::usage(usage))
}

/// The numbers from the third word on.
fn numbers(words: &[String]) -> Vec<u8> {
    words.iter().skip(3).map(|w| number(Some(w)) as u8).collect()
}

fn main() {
    let words: Vec<String> = std::env::args().skip(1).collect();
    let mut wire = Wire::new();
    // None where the reader has gone away: nothing is left to do then
    let _ = match words.first().map(String::as_str) {
        Some("leaves") => asking::requests(&mut wire, number(words.get(1)), number(words.get(2)), &numbers(&words)),
        Some("flaws") if words.get(1).is_some_and(|w| w == "all") => {
            flaws(&mut wire, (0..texts::edge_count(number(words.get(2)) as u32)).map(texts::edge_text))
        }
        Some("flaws") => {
            let (seed, count) = (number(words.get(1)), number(words.get(2)));
            flaws(&mut wire, (0..count).map(|index| texts::flawed(&mut Random::new(seed, index))))
        }
        Some("open") => open_texts(&mut wire, number(words.get(1)), number(words.get(2))),
        Some("cuts") => cut_texts(&mut wire, number(words.get(1)), number(words.get(2))),
        Some("large") => large_texts(&mut wire, number(words.get(1)), number(words.get(2))),
        Some("all") => {
            let passes = if words.len() > 3 { numbers(&words) } else { (0..=6).collect() };
            let named = words.get(1).and_then(|name| Alphabet::of(name));
            let alphabet = named.unwrap_or_else(|| wire::usage("alphabets: characters, words, lines, quotes, open"));
            all_texts(&mut wire, alphabet, number(words.get(2)), &passes)
        }
        _ => requests(&mut wire, number(words.first()), number(words.get(1))),
    };
}
