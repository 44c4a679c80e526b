//! Makes requests for single functions of the original, so that each answer occurs often.

use crate::random::Random;
use crate::texts::{self, Texts};
use crate::wire::Wire;

/// What the first argument of each function is drawn from: rules of the grammar, or names below.
const DRAWN: &[(u8, &[&str])] = &[
    (1, &["SPACED"]),
    (2, &["SPACED"]),
    (3, &["SPACED"]),
    (4, &["BYTES"]),
    (5, &["LISTING"]),
    (6, &["LISTING"]),
    (7, &["LISTING", "MANY"]),
    (8, &["LISTING", "BRACKETS"]),
    (9, &["reg", "oddreg", "anyname", "CHANGED"]),
    (10, &["phi", "oddphi", "anyname", "CHANGED"]),
    (11, &["temp", "oddtemp", "anyname", "CHANGED"]),
    (12, &["line", "store", "decl", "store", "decl"]),
    (13, &["line", "store", "plain", "expr"]),
    (14, &["line", "store", "plain", "expr", "op"]),
    (15, &["line", "store", "plain", "expr", "op", "call"]),
    (16, &["line", "phifrag", "expr", "SOUP"]),
    (17, &["line", "phifrag", "expr", "SOUP"]),
    (18, &["anyname", "name", "CHANGED", "member"]),
    (19, &["line", "SOUP", "odd"]),
    (20, &["VALUE", "comment", "expr", "line"]),
    (21, &["VALUE", "val", "array", "str", "num", "expr"]),
    (22, &["LEXICAL", "line", "expr", "slashfrag"]),
    (23, &["phival", "op", "val", "LEXICAL", "expr"]),
    (24, &["LEXICAL", "expr", "op", "odd"]),
    (25, &["LISTING"]),
    (26, &["LISTING", "block"]),
    (27, &["LISTING", "block"]),
    (28, &["LISTING", "block"]),
    (29, &["LISTING", "block", "callfrag", "barefrag"]),
    (30, &["line", "opener", "bare", "head"]),
    (31, &["expr", "VALUE", "val", "member", "call", "op"]),
    (32, &["member", "name", "expr", "VALUE"]),
    (33, &["expr", "VALUE", "op", "call", "val", "unary"]),
    (34, &["expr", "val", "member", "call"]),
    (35, &["LISTING", "scratch", "scratch"]),
    (36, &["VALUE", "val", "array", "str", "num", "expr"]),
    (37, &["LITERAL", "LITERAL", "VALUE", "val", "array", "str", "num", "expr"]),
    (38, &["LISTING", "LISTING", "scratch", "QUOTED"]),
    (39, &["LISTING", "LISTING", "scratch", "QUOTED"]),
    (41, &["LISTING"]),
    (42, &["LISTING", "scratch"]),
    (43, &["LISTING"]),
    (44, &["LISTING", "callfrag"]),
    (45, &["LISTING"]),
    (46, &["LISTING"]),
];

struct Request {
    number: u64,
    a: Vec<u8>,
    b: Vec<u8>,
}

/// Several texts of the rules, end to end.
fn run_of(t: &Texts, r: &mut Random, rules: &[&str]) -> Vec<u8> {
    (0..r.between(1, 5)).flat_map(|_| drawn(t, r, rules)).collect()
}

/// A text drawn from one of these.
fn drawn(t: &Texts, r: &mut Random, from: &[&str]) -> Vec<u8> {
    match r.pick(from) {
        "SPACED" => run_of(t, r, &["ws", "oddws", "oddws", "odd", "name", "ws"]),
        "BYTES" => (0..r.below(4)).fold(t.listing(r, 0), |text, _| texts::with_sequence(r, text)),
        "LISTING" => t.listing(r, 0),
        "MANY" => t.at_most_lines(r),
        "BRACKETS" => t.at_most_brackets(r),
        "SOUP" => texts::soup(r, 12).into_bytes(),
        "LITERAL" => texts::quoted_value(r).into_bytes(),
        "QUOTED" => texts::quoted(r).into_bytes(),
        "VALUE" => run_of(t, r, &["val", "expr", "comment", "ws", "str", "array"]),
        "LEXICAL" => run_of(t, r, &["str", "tpl", "pattern", "comment", "op", "ws", "odd", "name", "before", "before"]),
        "CHANGED" => {
            let name = drawn(t, r, &["anyname"]);
            texts::damaged(r, name)
        }
        rule => t.grammar.text(r, rule).into_bytes(),
    }
}

/// The runs of name bytes in a text.
fn names(text: &[u8]) -> Vec<String> {
    let text = String::from_utf8_lossy(text);
    let runs = text.split(|c: char| !c.is_ascii_alphanumeric() && c != '_' && c != '$');
    runs.filter(|w| !w.is_empty()).map(str::to_string).collect()
}

fn one_name(r: &mut Random, text: &[u8]) -> Option<String> {
    let all = names(text);
    (!all.is_empty()).then(|| all[r.below(all.len())].clone())
}

/// The number of a register, most often of one that occurs.
fn register(r: &mut Random, text: &[u8]) -> u64 {
    let all: Vec<u64> = names(text).iter().filter_map(|w| w.strip_prefix('r')?.parse().ok()).collect();
    match r.below(10) {
        0 => r.below(12) as u64,
        _ if all.is_empty() => r.below(3) as u64,
        _ => all[r.below(all.len())],
    }
}

fn name_to_find(t: &Texts, r: &mut Random, text: &[u8]) -> Vec<u8> {
    let found = if r.chance(75) { one_name(r, text) } else { None };
    found.map_or_else(|| drawn(t, r, &["anyname", "name", "phi", "odd"]), String::into_bytes)
}

/// Lines of which some assign what the value names.
fn assigning(t: &Texts, r: &mut Random, value: &[u8]) -> Vec<u8> {
    let mut out = String::new();
    for _ in 0..r.below(4) {
        let name = one_name(r, value).unwrap_or("x".to_string());
        let line = t.grammar.text(r, "store");
        let shapes = ["r0 = # = 1;", "r1 = #++;", "r2 = ++#;", "# = 1;", "r3 = #=1;", "r4 = a;"];
        let shape = r.pick(&shapes).replace('#', &name);
        out.push_str(if r.chance(50) { &line } else { &shape });
        out.push('\n');
    }
    out.into_bytes()
}

fn number(function: u8, r: &mut Random, a: &[u8]) -> u64 {
    match function {
        13..=15 => register(r, a),
        29 => {
            let lines = a.iter().filter(|b| **b == b'\n').count();
            r.below(lines + 2) as u64
        }
        38 | 39 => r.below(4) as u64,
        _ => r.below(2) as u64,
    }
}

fn second(function: u8, t: &Texts, r: &mut Random, a: &[u8]) -> Vec<u8> {
    match function {
        14 => drawn(t, r, &["val", "num", "VALUE", "num"]),
        16 | 17 => name_to_find(t, r, a),
        34 => assigning(t, r, a),
        _ => Vec::new(),
    }
}

fn request(t: &Texts, r: &mut Random, function: u8) -> Request {
    let rules = DRAWN.iter().find(|(f, _)| *f == function).map_or(&["line"][..], |(_, rules)| rules);
    let mut a = drawn(t, r, rules);
    if r.chance(15) {
        a = texts::damaged(r, a);
        // only function 4 has an answer to bytes that are no text
        if function != 4 && r.chance(95) {
            a = String::from_utf8_lossy(&a).into_owned().into_bytes();
        }
    } else if r.chance(6) {
        a = texts::soup(r, 15).into_bytes();
    }
    Request { number: number(function, r, &a), b: second(function, t, r, &a), a }
}

pub fn requests(wire: &mut Wire, seed: u64, count: u64, functions: &[u8]) -> Option<()> {
    let t = Texts::new();
    let all: Vec<u8> = DRAWN.iter().map(|(function, _)| *function).collect();
    let functions = if functions.is_empty() { &all } else { functions };
    for index in 0..count {
        let function = functions[(index % functions.len() as u64) as usize];
        let made = request(&t, &mut Random::new(seed, index), function);
        wire.put(&[function])?;
        wire.put(&made.number.to_le_bytes())?;
        wire.put_text(&made.a)?;
        wire.put_text(&made.b)?;
    }
    Some(())
}
