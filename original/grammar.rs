//! Makes texts by the rules of rules.rs.

use crate::random::Random;
use crate::rules::{CHOSEN, RULES};

enum Piece {
    Text(&'static str),
    Rule(usize),
    Chosen(usize),
}

pub struct Grammar {
    rules: Vec<Vec<Vec<Piece>>>,
    choosers: Vec<usize>,
}

fn rule(name: &str) -> usize {
    RULES.iter().position(|(n, _)| *n == name).unwrap_or_else(|| panic!("no rule {name}"))
}

/// The piece that `#` announces, and what follows it.
fn announced(after: &'static str) -> (Piece, &'static str) {
    if let Some(at) = CHOSEN.iter().position(|(c, _)| after.starts_with(*c)) {
        return (Piece::Chosen(at), &after[1..]);
    }
    let end = after.find(|c: char| !c.is_ascii_lowercase()).unwrap_or(after.len());
    (Piece::Rule(rule(&after[..end])), &after[end..])
}

fn pieces(mut text: &'static str) -> Vec<Piece> {
    let mut out = Vec::new();
    while let Some((before, after)) = text.split_once('#') {
        out.push(Piece::Text(before));
        let (piece, rest) = announced(after);
        out.push(piece);
        text = rest;
    }
    out.push(Piece::Text(text));
    out
}

/// A text being made: beyond this depth or length each rule takes its first alternative.
struct Making<'a> {
    grammar: &'a Grammar,
    random: &'a mut Random,
    chosen: Vec<String>,
    out: String,
    most: usize,
}

const DEEP: usize = 9;

impl Making<'_> {
    fn add(&mut self, rule: usize, depth: usize) {
        let grammar = self.grammar;
        let all = &grammar.rules[rule];
        let over = depth > DEEP || self.out.len() > self.most;
        let at = if over { 0 } else { self.random.below(all.len()) };
        for piece in &all[at] {
            match piece {
                Piece::Text(text) => self.out.push_str(text),
                Piece::Rule(inner) => self.add(*inner, depth + 1),
                Piece::Chosen(which) => self.out.push_str(&self.chosen[*which]),
            }
        }
    }
}

impl Grammar {
    pub fn new() -> Grammar {
        let rules = RULES.iter().map(|(_, all)| all.iter().map(|a| pieces(a)).collect()).collect();
        Grammar { rules, choosers: CHOSEN.iter().map(|(_, name)| rule(name)).collect() }
    }

    fn make(&self, random: &mut Random, rule: usize, chosen: Vec<String>, most: usize) -> String {
        let mut making = Making { grammar: self, random, chosen, out: String::new(), most };
        making.add(rule, 0);
        making.out
    }

    /// One text by the rule of that name.
    pub fn text(&self, random: &mut Random, name: &str) -> String {
        let chosen = self.choosers.iter().map(|by| self.make(random, *by, Vec::new(), 100)).collect();
        self.make(random, rule(name), chosen, 300)
    }

    /// Fragments by one or other of these rules, each ended by LF, until `most` bytes or `count` fragments.
    pub fn fragments(&self, random: &mut Random, rules: &[&str], count: usize, most: usize) -> String {
        let mut out = String::new();
        for _ in 0..count {
            let rule = random.pick(rules);
            out.push_str(&self.text(random, rule));
            out.push('\n');
            if out.len() > most {
                break;
            }
        }
        out
    }

    pub fn listing(&self, random: &mut Random, count: usize, most: usize) -> String {
        self.fragments(random, &["frag"], count, most)
    }
}
