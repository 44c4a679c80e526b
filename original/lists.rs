//! Lists of lines that are mostly declarations and uses of a few registers, so that they meet.

use crate::grammar::Grammar;
use crate::random::Random;

/// `#` is a register: the same few, in several spellings, and some that are none.
const LINES: &[&str] = &[
    "let #;", "let #;", "let #, #;", "let #,#,#;", "  let #;", "  let #;", "  let #, #;", "  let #, #, #;", "  let #,#;", "\tlet  #;", "\u{3000}let #, #;",
    "\u{a0} let #;", "\u{200b}let #;", "let #, #;  ", "  let # ,\u{3000}#; ", "let #,;", "let phi1;", "let phi1, #;", "  let x;", "let x;", "var x;",
    "function f(#) {", "class A {", "const a = #;", "}", "", " ", "  use(#);", "  use(#);", "use(#, #);", "  # = 1;", "  # = #;", "# = f(#);", "  x = \"#\";",
    "  use($#, #_);", "\u{85}use(#)", "let # = 1;",
];
const REGISTERS: &[&str] = &[
    "r0", "r1", "r2", "r0", "r1", "r2", "r0", "r1", "r3", "r01", "r002", "r12", "r1023", "r1024", "r01024", "r18446744073709551615", "r18446744073709551616", "r",
];

/// The most lines of a list that is made line by line.
const MOST: usize = 12;

pub struct Lists {
    grammar: Grammar,
}

fn line(random: &mut Random) -> String {
    let mut out = String::new();
    for piece in random.pick(LINES).split_inclusive('#') {
        match piece.strip_suffix('#') {
            Some(before) => out.extend([before, random.pick(REGISTERS)]),
            None => out.push_str(piece),
        }
    }
    out
}

impl Lists {
    pub fn new() -> Lists {
        Lists { grammar: Grammar::new() }
    }

    fn lines(&self, random: &mut Random) -> Vec<String> {
        if random.chance(25) {
            let count = random.between(1, 5);
            let text = self.grammar.fragments(random, &["decls", "decls", "frag", "header"], count, 300);
            return text.split('\n').map(str::to_string).collect();
        }
        (0..random.below(MOST + 1)).map(|_| line(random)).collect()
    }

    /// A list; some of its lines end in CRs, some lists in blank lines.
    pub fn list(&self, random: &mut Random) -> Vec<String> {
        let mut lines = self.lines(random);
        if random.chance(30) {
            for each in &mut lines {
                let count = random.below(9).saturating_sub(5);
                each.push_str(&"\r".repeat(count));
            }
        }
        if random.chance(20) {
            lines.extend(vec![String::new(); random.between(1, 3)]);
        }
        lines
    }
}
