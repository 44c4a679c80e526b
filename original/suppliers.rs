//! Raw listings with prunings of them: the original's, a supplier's by chance, damaged ones, and texts at the limits.

use crate::lists::Lists;
use crate::random::Random;
use crate::texts::{self, Texts};
use opt::exports::{self, Parsed};
use std::collections::HashSet;

pub struct Asked {
    /// Which lent work buffer is one byte short, from 1; else none.
    pub short: u8,
    pub raw: Vec<u8>,
    pub pruned: Vec<u8>,
}

/// The lines of all short cases: raw ones, and pruned ones.
pub const RAW: &[&str] = &["let r1;\n", "let r1, r2;\n", "  let r1;\n", "  let r2,r1,r1;\n", "  use(r1);\n", "r2 = r1;\n", "var x;\n", "\n"];
pub const PRUNED: &[&str] = &[
    "let r1;\n", "let r1, r2;\n", "let r2;\n", "  let r1;\n", "  let r2,r1,r1;\n", "  let r2, r1;\n", "  let r1, r1;\n", "  let r2, r1, r1;\n", "  let r2;\n",
    "  use(r1);\n", "r2 = r1;\n", "var x;\n", "\n",
];

/// Few lines, so that a pruned one stands against many raw ones.
const ALIKE: &[&str] = &["let r1;", "let r1;", "  let r1;", "  let r1;", "  let r1, r1;", "  let r2, r1;", "  use(r1);", "var x;", "let r5;", "f();"];

pub struct Suppliers {
    lists: Lists,
    texts: Texts,
}

fn joined(random: &mut Random, lines: &[String]) -> Vec<u8> {
    exports::join(lines, random.chance(85)).into_bytes()
}

/// A declaration with names left out by chance, most often ones that its region does not use.
fn thinned(random: &mut Random, line: &str, used: &HashSet<usize>, careless: bool) -> Option<String> {
    let Parsed::Decl(regs) = exports::parse(line) else { return Some(line.to_string()) };
    if random.chance(20) {
        return Some(line.to_string());
    }
    let left: Vec<String> = regs
        .iter()
        .filter(|r| (used.contains(r) && !(careless && random.chance(10))) || random.chance(40))
        .map(|r| format!("r{r}"))
        .collect();
    let indent = &line[..line.len() - line.trim_start().len()];
    (!left.is_empty()).then(|| format!("{indent}let {};", left.join(", ")))
}

/// A pruning by chance: a careless one leaves out names that are used.
fn supplied(random: &mut Random, lines: &[String], careless: bool) -> Vec<String> {
    let regions = exports::regions(lines);
    let uses = |region: usize| -> HashSet<usize> {
        let here = || lines.iter().zip(&regions).filter(|(_, r)| **r == region).map(|(l, _)| l);
        let stored = here().filter_map(|l| if let Parsed::Store(reg, _) = exports::parse(l) { Some(reg) } else { None });
        here().flat_map(|l| exports::reads_in(l).into_keys()).chain(stored).collect()
    };
    lines.iter().zip(&regions).filter_map(|(line, region)| thinned(random, line, &uses(*region), careless)).collect()
}

fn original(lines: &[String]) -> Vec<String> {
    let mut out = lines.to_vec();
    exports::pass_lines(5, &mut out);
    out
}

impl Suppliers {
    pub fn new() -> Suppliers {
        Suppliers { lists: Lists::new(), texts: Texts::new() }
    }

    fn lines(&self, random: &mut Random) -> Vec<String> {
        if random.chance(35) {
            return (0..random.between(1, 14)).map(|_| random.pick(ALIKE).to_string()).collect();
        }
        self.lists.list(random)
    }

    pub fn request(&self, random: &mut Random) -> Asked {
        let lines = self.lines(random);
        let raw = joined(random, &lines);
        // what the original is given are the lines of the text
        let lines: Vec<String> = std::str::from_utf8(&raw).unwrap().lines().map(str::to_string).collect();
        let kind = random.below(20);
        let pruned = match kind {
            0..=4 => original(&lines),
            5..=9 => supplied(random, &lines, false),
            10..=12 => supplied(random, &lines, true),
            _ => {
                let careless = random.chance(20);
                supplied(random, &lines, careless)
            }
        };
        let ended = raw.ends_with(b"\n");
        let mut asked = Asked { short: 0, raw, pruned: exports::join(&pruned, ended).into_bytes() };
        match kind {
            13..=16 => asked.pruned = texts::damaged(random, asked.pruned),
            17 => asked.raw = texts::damaged(random, asked.raw),
            18 => self.spoil(random, &mut asked),
            _ => {}
        }
        asked
    }

    /// Texts at the limits and past them, short work buffers, and several of these at once.
    fn spoil(&self, random: &mut Random, asked: &mut Asked) {
        for _ in 0..random.between(1, 3) {
            if random.chance(20) {
                asked.short = random.below(7) as u8;
                continue;
            }
            let text = if random.chance(50) { &mut asked.raw } else { &mut asked.pruned };
            match random.below(4) {
                0 => *text = self.texts.at_most_bytes(random),
                1 => *text = texts::with_sequence(random, std::mem::take(text)),
                2 => *text = self.texts.at_most_lines(random),
                _ => text.extend_from_slice(&self.texts.at_most_brackets(random)),
            }
        }
        if random.chance(40) {
            asked.pruned = asked.raw.clone();
        }
    }
}
