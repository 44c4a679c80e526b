//! All readings of pruned lines: which raw lines they can be had from. The original parses, finds regions and reads.

use opt::exports::{self, Parsed};
use std::collections::HashSet;

/// Up to so many outcomes are listed one by one.
const FEW: usize = 40;
const MANY_NAMES: usize = 8;

/// What a raw line may become.
struct Line {
    text: String,
    /// The indent of a declaration, and its names as they are printed, each with whether it has to stay.
    declared: Option<(String, Vec<(String, bool)>)>,
}

/// The registers that some line of each region reads or stores.
fn used(lines: &[String], regions: &[usize]) -> HashSet<(usize, usize)> {
    let mut out = HashSet::new();
    for (line, region) in lines.iter().zip(regions) {
        out.extend(exports::reads_in(line).keys().map(|reg| (*region, *reg)));
        if let Parsed::Store(reg, _) = exports::parse(line) {
            out.insert((*region, reg));
        }
    }
    out
}

fn read(lines: &[String]) -> Vec<Line> {
    let regions = exports::regions(lines);
    let used = used(lines, &regions);
    let line = |(text, region): (&String, &usize)| {
        let declared = match exports::parse(text) {
            Parsed::Decl(regs) => {
                let indent = text[..text.len() - text.trim_start().len()].to_string();
                Some((indent, regs.iter().map(|r| (format!("r{r}"), used.contains(&(*region, *r)))).collect()))
            }
            _ => None,
        };
        Line { text: text.clone(), declared }
    };
    lines.iter().zip(&regions).map(line).collect()
}

impl Line {
    fn may_go(&self) -> bool {
        self.declared.as_ref().is_some_and(|(_, names)| names.iter().all(|(_, stays)| !stays))
    }

    fn may_be(&self, line: &str) -> bool {
        let reprinted = self.declared.as_ref().and_then(|(indent, names)| {
            let left = line.strip_prefix(indent.as_str())?.strip_prefix("let ")?.strip_suffix(';')?;
            Some(leaves(names, &left.split(", ").collect::<Vec<_>>()))
        });
        line == self.text || reprinted == Some(true)
    }

    /// Every outcome: no line, or one. None where there are many.
    fn outcomes(&self) -> Option<HashSet<Option<String>>> {
        let Some((indent, names)) = &self.declared else { return Some(HashSet::from([Some(self.text.clone())])) };
        if names.len() > MANY_NAMES {
            return None;
        }
        let mut lists: Vec<Vec<&str>> = vec![Vec::new()];
        for (name, stays) in names {
            let with = lists.iter().map(|l| [l.as_slice(), &[name.as_str()]].concat());
            lists = if *stays { with.collect() } else { with.chain(lists.iter().cloned()).collect() };
        }
        let line = |l: &Vec<&str>| (!l.is_empty()).then(|| format!("{indent}let {};", l.join(", ")));
        Some(lists.iter().map(line).chain([Some(self.text.clone())]).collect())
    }
}

/// Whether the names that are left can be had by leaving names out: a table over both lists.
fn leaves(names: &[(String, bool)], left: &[&str]) -> bool {
    let mut had = vec![false; left.len() + 1];
    had[0] = true;
    for (name, stays) in names {
        let mut next = vec![false; left.len() + 1];
        for taken in 0..=left.len() {
            next[taken] |= had[taken] && !stays;
            if taken < left.len() && left[taken] == name {
                next[taken + 1] |= had[taken];
            }
        }
        had = next;
    }
    had[left.len()]
}

/// Whether some reading takes all pruned lines and all raw lines are done, and how many of the first pruned lines
/// some reading takes: for each number of raw lines, which numbers of pruned lines they can make.
fn by_table(raw: &[Line], pruned: &[String]) -> (bool, usize) {
    let mut made = vec![false; pruned.len() + 1];
    made[0] = true;
    let mut furthest = 0;
    for line in raw {
        let mut next = vec![false; pruned.len() + 1];
        let may_go = line.may_go();
        for taken in (0..=pruned.len()).filter(|t| made[*t]) {
            next[taken] |= may_go;
            if taken < pruned.len() && line.may_be(&pruned[taken]) {
                next[taken + 1] = true;
                furthest = furthest.max(taken + 1);
            }
        }
        made = next;
    }
    (made[pruned.len()], furthest)
}

/// Every outcome of raw lines, and all that the lines so far can make.
struct Listed {
    all: HashSet<Vec<String>>,
    fronts: HashSet<Vec<String>>,
}

impl Listed {
    /// None where there are many.
    fn of(raw: &[Line]) -> Option<Listed> {
        let mut all: HashSet<Vec<String>> = HashSet::from([Vec::new()]);
        let mut fronts = all.clone();
        for line in raw {
            let outcomes = line.outcomes()?;
            if all.len() * outcomes.len() > FEW {
                return None;
            }
            all = all.iter().flat_map(|l| outcomes.iter().map(move |o| l.iter().cloned().chain(o.clone()).collect())).collect();
            fronts.extend(all.iter().cloned());
        }
        Some(Listed { all, fronts })
    }

    fn verdict(&self, pruned: &[String]) -> (bool, usize) {
        let far = (0..=pruned.len()).rev().find(|n| self.fronts.contains(&pruned[..*n]));
        (self.all.contains(pruned), far.unwrap_or(0))
    }
}

fn lines_of(text: &str) -> Vec<String> {
    text.lines().map(str::to_string).collect()
}

/// A raw text as it was read; the next request may be about the same.
pub struct Raw {
    text: String,
    lines: Vec<Line>,
    listed: Option<Listed>,
}

impl Raw {
    pub fn of(text: &str) -> Raw {
        let lines = read(&lines_of(text));
        let listed = Listed::of(&lines);
        Raw { text: text.to_string(), lines, listed }
    }

    pub fn is(&self, text: &str) -> bool {
        self.text == text
    }

    /// The number and the place of what is answered for two texts within the limits.
    pub fn verdict(&self, pruned: &str) -> (u8, usize) {
        let pruned = lines_of(pruned);
        let (fits, far) = by_table(&self.lines, &pruned);
        if let Some(listed) = &self.listed {
            assert_eq!((fits, far), listed.verdict(&pruned), "the two models differ: {:?} {:?}", self.text, pruned);
        }
        if fits { (0, 0) } else { (7, far) }
    }
}
