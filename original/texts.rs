//! The kinds of made texts: listings, soup, damage, short texts, and texts at the limits.

use crate::grammar::Grammar;
use crate::judge::{LARGE_BYTES, LARGE_LINES, MOST_BRACKETS, MOST_BYTES, MOST_LINES, OL_LINES, PLAIN, STRICT};
use crate::numbers;
use crate::random::Random;
use crate::rules::{CHARACTERS, JUDGED, LINES, LITERALS, LITERAL_LINES, LITERAL_VALUES, OPEN, OPEN_FRAMES, OPEN_LINES, OPEN_PIECES};
use crate::rules::{PLACED, QUOTES, TOKENS, WORDS};

/// Each class of bytes that RFC 3629 forbids, with what is allowed next to it.
const SEQUENCES: &[&[u8]] = &[
    b"\x80", b"\xbf", b"\xc0\x80", b"\xc1\xbf", b"\xc2", b"\xc2\x41", b"\xc2\xc2\x80", b"\xdf", b"\xc2\x80\x80", b"\xe0\x80\x80",
    b"\xe0\x9f\xbf", b"\xe0\xa0", b"\xe0\xa0\x41", b"\xe0", b"\xe1\x80", b"\xe1\x41\x80", b"\xed\xa0\x80", b"\xed\xbf\xbf",
    b"\xed\x9f", b"\xee\x80", b"\xef\xbf", b"\xef\xbf\xc0", b"\xf0\x80\x80\x80", b"\xf0\x8f\xbf\xbf", b"\xf0\x90\x80",
    b"\xf0\x90", b"\xf0", b"\xf0\x90\x41\x80", b"\xf0\x90\x80\x41", b"\xf1\x80\x80", b"\xf3\xbf\xbf\xc0", b"\xf4\x90\x80\x80",
    b"\xf4\xbf\xbf\xbf", b"\xf4\x8f\xbf", b"\xf4", b"\xf5\x80\x80\x80", b"\xf7\xbf\xbf\xbf", b"\xf8\x88\x80\x80\x80", b"\xfb",
    b"\xfc\x84\x80\x80\x80\x80", b"\xfe", b"\xff", b"\xe3\x80\n", b"\xe3\n", b"\xc3\r\n", b"\xf0\x9f\x98\n", b"\x00", b"\x7f",
    b"\xc2\x80", b"\xdf\xbf", b"\xe0\xa0\x80", b"\xec\xbf\xbf", b"\xed\x9f\xbf", b"\xee\x80\x80", b"\xef\xbf\xbf",
    b"\xf0\x90\x80\x80", b"\xf3\xbf\xbf\xbf", b"\xf4\x8f\xbf\xbf", b"\xe3\x80\x80", b"\xc2\xa0", b"\xc2\x85", b"\xe2\x80\xa8",
    b"\xe2\x80\x8b", b"\xef\xbb\xbf",
];

/// The bytes at which a rule of UTF-8 begins or ends, and some beside them.
const EDGES: &[u8] = b"\x00\n\x41\x7f\x80\x8f\x90\x9f\xa0\xbf\xc0\xc1\xc2\xdf\xe0\xe1\xec\xed\xee\xef\xf0\xf1\xf3\xf4\xf5\xff";

/// Characters of two, three and four bytes, the first and the last of each form.
const WIDE: &[&str] = &["\u{80}", "\u{7ff}", "\u{800}", "\u{d7ff}", "\u{e000}", "\u{ffff}", "\u{10000}", "\u{10ffff}"];

/// The fragments that the whole and each pass have most to do with.
const FOR_PASS: [&[&str]; 7] = [
    &["frag"],
    &["frag", "tempfrag"],
    &["frag", "forward", "dead", "scratch"],
    &["frag", "phifrag", "slashfrag"],
    &["frag", "callfrag", "headfrag", "slashfrag"],
    &["frag", "decls"],
    &["frag", "bind", "slashfrag"],
];

pub struct Texts {
    pub grammar: Grammar,
}

fn place(random: &mut Random, text: &[u8]) -> usize {
    // the two ends are met more often than chance would have it
    match random.below(8) {
        0 => 0,
        1 => text.len(),
        _ => random.below(text.len() + 1),
    }
}

fn put(text: &mut Vec<u8>, at: usize, bytes: &[u8]) {
    text.splice(at..at, bytes.iter().copied());
}

/// Short lines, as many as the first form of records has numbers for, as a large text may have, or one more or less.
fn many_lines(random: &mut Random) -> Vec<u8> {
    let line = random.pick(&["", "a;", "}", "r1 = 2;"]);
    let most = if random.chance(50) { OL_LINES } else { LARGE_LINES };
    let count = random.between(most - 1, most + 1);
    let mut text = (line.to_string() + "\n").repeat(count);
    if random.chance(30) {
        text.pop();
    }
    text.into_bytes()
}

/// Some UTF-8 sequence, most often a bad one, put anywhere.
pub fn with_sequence(random: &mut Random, mut text: Vec<u8>) -> Vec<u8> {
    let at = place(random, &text);
    put(&mut text, at, random.pick(SEQUENCES));
    text
}

/// How many texts of up to that many edge bytes there are.
pub fn edge_count(bytes: u32) -> u64 {
    (0..=bytes).map(|n| (EDGES.len() as u64).pow(n)).sum()
}

/// The text of edge bytes of that number: the shortest first, none left out.
pub fn edge_text(number: u64) -> Vec<u8> {
    let (mut rest, base) = (number, EDGES.len() as u64);
    let mut out = Vec::new();
    while rest > 0 {
        rest -= 1;
        out.push(EDGES[(rest % base) as usize]);
        rest /= base;
    }
    out
}

/// A text of wide and narrow characters that is cut, damaged, both or neither.
pub fn flawed(random: &mut Random) -> Vec<u8> {
    let some = |r: &mut Random| if r.below(2) == 0 { r.pick(WIDE) } else { r.pick(TOKENS) };
    let mut text: Vec<u8> = (0..random.between(1, 12)).flat_map(|_| some(random).bytes()).collect();
    let how = random.below(8);
    if how < 5 {
        text.truncate(random.below(text.len() + 1));
    }
    if how > 3 && how < 7 {
        text = with_sequence(random, text);
    }
    if how == 6 {
        let at = place(random, &text);
        put(&mut text, at, &[EDGES[random.below(EDGES.len())]]);
    }
    text
}

pub fn soup(random: &mut Random, tokens: usize) -> String {
    (0..random.between(1, tokens)).map(|_| random.pick(TOKENS)).collect()
}

/// A small alphabet, by its name: its texts are put into a listing in the place of each `#`.
pub struct Alphabet {
    name: &'static str,
    pub tokens: &'static [&'static str],
    listing: &'static str,
}

const ALPHABETS: [Alphabet; 5] = [
    Alphabet { name: "characters", tokens: CHARACTERS, listing: "#" },
    Alphabet { name: "words", tokens: WORDS, listing: "#" },
    Alphabet { name: "lines", tokens: LINES, listing: "#" },
    Alphabet { name: "quotes", tokens: QUOTES, listing: JUDGED },
    Alphabet { name: "open", tokens: OPEN, listing: PLACED },
];

impl Alphabet {
    pub fn of(name: &str) -> Option<&'static Alphabet> {
        ALPHABETS.iter().find(|a| a.name == name)
    }

    /// The text of that number: the shortest first, none left out.
    pub fn text(&self, number: u64) -> String {
        self.listing.replace('#', &counted(self.tokens, number))
    }
}

/// The text of that number over the alphabets in turn.
pub fn short(number: u64) -> String {
    let count = ALPHABETS.len() as u64;
    ALPHABETS[(number % count) as usize].text(number / count)
}

/// A shape with a text of its own in the place of each mark.
fn filled(random: &mut Random, shape: &str, mark: char, text: fn(&mut Random) -> String) -> String {
    let mut pieces = shape.split(mark);
    let first = pieces.next().unwrap_or("").to_string();
    pieces.fold(first, |out, piece| out + &text(random) + piece)
}

fn literals(random: &mut Random) -> String {
    (0..random.below(9)).map(|_| random.pick(LITERALS)).collect()
}

/// A value of quotes, escapes, comment marks, brackets and calls.
pub fn quoted_value(random: &mut Random) -> String {
    let shape = random.pick(LITERAL_VALUES);
    filled(random, shape, '#', literals)
}

/// A listing of such values.
pub fn quoted(random: &mut Random) -> String {
    let line = |r: &mut Random| {
        let shape = r.pick(LITERAL_LINES);
        filled(r, shape, '@', quoted_value) + "\n"
    };
    (0..random.between(1, 4)).map(|_| line(random)).collect()
}

fn open_pieces(random: &mut Random) -> String {
    (0..random.below(6)).map(|_| random.pick(OPEN_PIECES)).collect()
}

/// Some lines of which one may leave a template or a comment open to the next.
fn open_lines(random: &mut Random) -> String {
    let line = |r: &mut Random| {
        let shape = r.pick(OPEN_LINES);
        filled(r, shape, '#', open_pieces) + "\n"
    };
    (0..random.below(5)).map(|_| line(random)).collect()
}

/// The text of that number over an alphabet: the shortest first, none left out.
pub fn counted(alphabet: &[&str], number: u64) -> String {
    let (mut rest, base) = (number, alphabet.len() as u64);
    let mut out = String::new();
    while rest > 0 {
        rest -= 1;
        out.insert_str(0, alphabet[(rest % base) as usize]);
        rest /= base;
    }
    out
}

fn swap_lines(random: &mut Random, text: &[u8]) -> Vec<u8> {
    let mut lines: Vec<&[u8]> = text.split(|b| *b == b'\n').collect();
    let (i, j) = (random.below(lines.len()), random.below(lines.len()));
    match random.below(3) {
        0 => lines.swap(i, j),
        1 => drop(lines.remove(i)),
        _ => lines.insert(j, lines[i]),
    }
    lines.join(&b'\n')
}

/// One change of one byte, token or line.
fn damage_once(random: &mut Random, mut text: Vec<u8>) -> Vec<u8> {
    const BYTES: &[u8] = b" =;,()[]{}.\"'/\\*-+r01\nt\xe3\x85";
    let at = random.below(text.len());
    match random.below(7) {
        _ if text.is_empty() => {}
        0 => text[at] = BYTES[random.below(BYTES.len())],
        1 => drop(text.remove(at)),
        2 => text.insert(at, text[at]),
        3 => put(&mut text, at, random.pick(TOKENS).as_bytes()),
        4 => text.truncate(at),
        5 => text.swap(at, at / 2),
        _ => return swap_lines(random, &text),
    }
    text
}

pub fn damaged(random: &mut Random, mut text: Vec<u8>) -> Vec<u8> {
    for _ in 0..random.between(1, 3) {
        text = damage_once(random, text);
    }
    text
}

/// `count` numbered copies of a piece, `#` being the number.
fn numbered(count: usize, piece: &str, between: &str) -> String {
    let all: Vec<String> = (0..count).map(|i| piece.replace('#', &i.to_string())).collect();
    all.join(between)
}

/// Two lines of which the first is dropped before the walk comes to it, and counts as a step.
const PAIR: &str = "r9# = b;\nr# = g(r9#);\n";

/// Calls that absorb about as many lines as a walk may go up: 64 steps.
fn long_walk(random: &mut Random) -> String {
    let count = random.pick(&[&5, &30, &31, &32, &33, &40, &62, &63, &64, &65, &66, &70]);
    let call = format!("use({});\n", numbered(*count, "r#", ", "));
    let stores = random.pick(&["r# = a#;\n", "r# = f(#);\n", PAIR, PAIR, "r# = -#;\n"]);
    let after = random.pick(&["", "", "use(r1);\n", "r1 = 2;\nuse(r1);\n"]);
    format!("{}{call}{after}", numbered(*count, stores, ""))
}

/// Calls one in another, each step taking the call above it.
fn long_chain(random: &mut Random) -> String {
    let count = random.between(3, 70);
    let step = |i: usize| format!("r{} = f(r{i});\n", i + 1);
    let steps: String = (0..count).map(step).collect();
    let above = random.pick(&["", "r900 = z;\n"]);
    format!("{above}r0 = a;\n{steps}use(r900, r{count});\n")
}

/// Registers of one function that a call takes on the next line, and what becomes of some of them far below.
fn far_reads(random: &mut Random) -> String {
    let again = random.pick(&["", "keep(r#);\n", "r# = z;\nuse(r#);\n", "r# = f(r#);\n", "}\nfunction g() {\nuse(r#);\n"]);
    let steps = ["r# = a#;\nuse(r#);\n", "r# = f(a#);\nuse(r#, b);\n", "r# = a#;\nr9# = r#.x;\nuse(r9#);\n", "r# = a;\nr# = r#.x(b);\nuse(r#);\n"];
    let mut text = String::from("function main(a) {\n");
    for number in 0..random.between(12, 150) {
        text += &random.pick(&steps).replace('#', &number.to_string());
        if random.chance(25) {
            text += &again.replace('#', &random.below(number + 1).to_string());
        }
    }
    text
}

/// Brackets one in another, on one line or on two that a forward brings together.
fn deep(random: &mut Random) -> String {
    let depth = match random.below(3) {
        0 => random.between(1, 12),
        1 => random.between(1, MOST_BRACKETS),
        _ => random.between(MOST_BRACKETS - 2, MOST_BRACKETS),
    };
    let inner = random.pick(&["", "1", "a", "f()", "r1", "\"a\"", ",", "1,", "1, 2", "(", "é", "\u{3000}", "1] , [1"]);
    let value = format!("{}{inner}{}", "[".repeat(depth), "]".repeat(depth - random.below(20) / 19));
    let shapes = [
        "r0 = #;\nuse(r0);\n", "r0 = #;\nphi1 = [r0];\n", "r0 = #;\nphi1 = r0;\n", "let t0;\nt0 = #;\n", "phi0 = #;\n",
        "r0 = #;\nr1 = r0;\nuse(r1);\n", "r0 = #;\nphi1 = #;\n", "phi1 = \"#\";\n", "r1 = [1, #, /* c */ 2];\n", "x = r2; // #\n",
    ];
    let nested = format!("{}r0{}", "[".repeat(depth), "]".repeat(depth));
    match random.below(shapes.len() + 1) {
        0 => format!("r0 = {value};\nphi1 = {nested};\n"),
        n => shapes[n - 1].replace('#', &value),
    }
}

/// One declaration of many names: the text that grows most.
fn long_declaration(random: &mut Random) -> String {
    let most = *random.pick(&[&50, &500, &2500, &5400]);
    let count = random.between(1, most);
    let names = numbered(count, random.pick(&["r#", "r1", "r1", "phi#", "phi1", "t#"]), random.pick(&[",", ",", ", ", " ,"]));
    let used = random.pick(&["use(r1);\n", "r1 = 2;\nr2 = 3;\n", "use(r1); \"#\"\n", "phi1 = 1;\n", ""]);
    format!("  let {names};\n{}", used.replace('#', &names[..names.len() / 2]))
}

impl Texts {
    pub fn new() -> Texts {
        Texts { grammar: Grammar::new() }
    }

    /// A listing for one pass, or for all. Most are small: there a difference shows at once.
    pub fn listing(&self, random: &mut Random, pass: u8) -> Vec<u8> {
        let count = random.between(1, 6);
        let text = self.grammar.fragments(random, FOR_PASS[pass as usize], count, 400);
        self.weathered(random, text)
    }

    pub fn long_listing(&self, random: &mut Random) -> Vec<u8> {
        let most = random.between(1_000, 9_000);
        let text = match random.below(6) {
            0 => long_declaration(random),
            _ => self.grammar.listing(random, 900, most),
        };
        self.weathered(random, text)
    }

    /// Walks, chains, far reads and brackets, with something around them.
    pub fn special(&self, random: &mut Random) -> Vec<u8> {
        let middle = match random.below(6) {
            0 | 1 => long_walk(random),
            2 => long_chain(random),
            3 => far_reads(random),
            _ => deep(random),
        };
        let above = self.grammar.listing(random, 1, 100);
        let text = match random.below(4) {
            0 => above + &middle,
            1 => middle + &above,
            _ => middle,
        };
        self.weathered(random, text)
    }

    /// A listing in which templates and comments run over lines, or a listing of another kind with such lines put into it.
    pub fn open(&self, random: &mut Random) -> Vec<u8> {
        let text = if random.chance(75) {
            let frame = random.pick(OPEN_FRAMES);
            filled(random, frame, '@', open_lines)
        } else {
            let rules = random.pick(&[&FOR_PASS[0], &FOR_PASS[4], &FOR_PASS[6]]);
            let whole = self.grammar.fragments(random, rules, 4, 300);
            whole.split_inclusive('\n').map(|l| if random.chance(30) { l.to_string() + &open_lines(random) } else { l.to_string() }).collect()
        };
        self.weathered(random, text)
    }

    /// A part of a large text: a listing of some kind that ends its last line, in a function of its own or not.
    fn part(&self, random: &mut Random, pass: u8) -> Vec<u8> {
        let mut text = match random.below(20) {
            0 => self.long_listing(random),
            1 => self.special(random),
            2 | 3 => self.open(random),
            4 => soup(random, 40).into_bytes(),
            5 => quoted(random).into_bytes(),
            _ => self.listing(random, pass),
        };
        if text.last().is_some_and(|b| *b != b'\n') {
            text.push(b'\n');
        }
        if random.chance(60) {
            put(&mut text, 0, format!("function f{}(a) {{\n", random.below(1_000)).as_bytes());
            text.extend_from_slice(b"}\n");
        }
        text
    }

    /// A text of 16 KiB and more, made of many parts, or one of many short lines about as many as may be. The original's copies in joined mode clean all lines above
    /// each statement anew, so their texts are shorter.
    pub fn large(&self, random: &mut Random, pass: u8, mode: u8) -> Vec<u8> {
        if random.chance(4) {
            return many_lines(random);
        }
        let plain = mode == PLAIN || mode == STRICT;
        let most = match random.below(20) {
            0 if plain => LARGE_BYTES + 1,
            1 | 2 | 3 if plain => 1 << 18,
            _ => 1 << 16,
        };
        let size = random.between(1 << 14, most);
        // the original does not end on some texts beyond ASCII, and one part is enough for that
        let ascii = random.chance(80);
        let mut text = Vec::new();
        while text.len() < size {
            let part = self.part(random, pass);
            if !ascii || part.is_ascii() {
                text.extend_from_slice(&part);
            }
        }
        if text.len() > LARGE_BYTES && random.chance(80) {
            text.truncate(LARGE_BYTES);
        }
        text
    }

    /// Other numbers, other line ends, other white space.
    fn weathered(&self, random: &mut Random, mut text: String) -> Vec<u8> {
        if random.chance(12) {
            text = numbers::lifted(random, &text);
        }
        if random.chance(12) {
            text = self.odd_spaces(random, &text);
        }
        text = match random.below(12) {
            0 => text.replace('\n', "\r\n"),
            1 => self.mixed_ends(random, &text),
            2 => text + "\n",
            3 => text + "\r",
            4 | 5 => text.trim_end_matches('\n').to_string(),
            _ => text,
        };
        text.into_bytes()
    }

    fn odd_spaces(&self, random: &mut Random, text: &str) -> String {
        let mut out = String::new();
        for c in text.chars() {
            match c == ' ' && random.chance(20) {
                true => out.push_str(&self.grammar.text(random, "oddws")),
                false => out.push(c),
            }
        }
        out
    }

    fn mixed_ends(&self, random: &mut Random, text: &str) -> String {
        let ended = |l: &str| [l, random.pick(&["\n", "\n", "\r\n", "\r\r\n", "\r", "\n\n"])].concat();
        text.lines().map(ended).collect()
    }

    /// A text about as long as a text may be.
    pub fn at_most_bytes(&self, random: &mut Random) -> Vec<u8> {
        let length = MOST_BYTES - 1 + random.below(4);
        let mut text = match random.below(3) {
            0 => long_declaration(random).into_bytes(),
            1 => self.grammar.listing(random, 3_000, 3_000).into_bytes(),
            _ => self.grammar.listing(random, 3_000, length).into_bytes(),
        };
        let filler = random.pick(&["a", " ", "// c\n", "r1 = 1;\n", "é", "\u{3000}"]).as_bytes();
        while text.len() < length {
            text.extend_from_slice(filler);
        }
        text.truncate(length);
        text
    }

    /// A text of about as many lines as it may have.
    pub fn at_most_lines(&self, random: &mut Random) -> Vec<u8> {
        let count = MOST_LINES - 1 + random.below(3);
        let mut lines: Vec<String> = self.grammar.listing(random, 9, 900).lines().map(str::to_string).collect();
        let filler = random.pick(&["", "r1 = 2;", "use(r1);", "\r", "__runtime.DeclareGlobals(1);", "t0=1;", "}"]);
        lines.resize(count, filler.to_string());
        let end = random.pick(&["\n", "\n", "", "\r", "\n ", "\n\n"]);
        (lines.join(random.pick(&["\n", "\n", "\r\n"])) + end).into_bytes()
    }

    /// A line with about as many brackets as it may have, anywhere.
    pub fn at_most_brackets(&self, random: &mut Random) -> Vec<u8> {
        let count = MOST_BRACKETS - 1 + random.below(3);
        let mut lines: Vec<String> = self.grammar.listing(random, 4, 200).lines().map(str::to_string).collect();
        for _ in 0..random.between(1, 2) {
            let at = random.below(lines.len() + 1);
            let piece = random.pick(&["[", "[]", "[ ", "[1,"]).repeat(count);
            let shape = random.pick(&["#", "r0 = #;", "use(\"#\");", "// #", "phi1 = #;", "é#"]);
            lines.insert(at, shape.replace('#', &piece));
        }
        lines.join("\n").into_bytes()
    }
}
