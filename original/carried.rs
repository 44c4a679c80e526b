
// Appended to a copy of the original that carry.sed has patched, from document 02's request 1: "every line must carry its origin
// through all six passes".

/// A line, the input line that stands there, and the input lines whose values it holds. Only `carried_lines` makes one from text alone.
#[derive(Clone)]
struct Carried {
    text: String,
    stands: usize,
    held: Vec<usize>,
}

impl Carried {
    /// The same line with another text.
    fn printed(&self, text: String) -> Carried {
        Carried { text, ..self.clone() }
    }

    /// The same line with another text, in which the value of `other` is, and with it all that `other` holds.
    fn taking(&self, other: &Carried, text: String) -> Carried {
        let mut line = self.printed(text);
        line.held.push(other.stands);
        line.held.extend(&other.held);
        line
    }
}

impl std::ops::Deref for Carried {
    type Target = String;
    fn deref(&self) -> &String {
        &self.text
    }
}

impl std::borrow::Borrow<str> for Carried {
    fn borrow(&self) -> &str {
        &self.text
    }
}

impl std::fmt::Display for Carried {
    fn fmt(&self, to: &mut std::fmt::Formatter) -> std::fmt::Result {
        to.write_str(&self.text)
    }
}

fn carried_lines(text: &str) -> Vec<Carried> {
    let line = |(stands, l): (usize, &str)| Carried { text: l.to_string(), stands, held: Vec::new() };
    text.lines().enumerate().map(line).collect()
}

thread_local! {
    static KEPT: std::cell::RefCell<Vec<Carried>> = Default::default();
}

/// What `optimize` calls in the copy, with its lines before they are joined.
fn keep_carried(lines: &[Carried]) {
    KEPT.with(|kept| *kept.borrow_mut() = lines.to_vec());
}

pub mod carried {
    use super::{carried_lines, Carried, KEPT};

    /// The fates of document 02.
    const EQUAL: u8 = 0;
    const OTHER: u8 = 1;
    const TAKEN: u8 = 2;
    const GONE: u8 = 3;
    /// The fate of a line and its output line, which a gone line has not.
    pub type Fate = (u8, Option<usize>);

    /// A result, and the fate and the output line of each line of the text.
    pub type Traced = (String, Vec<Fate>);

    fn fates(text: &str, lines: &[Carried]) -> Vec<Fate> {
        let raw: Vec<&str> = text.lines().collect();
        let mut all = vec![(GONE, None); raw.len()];
        let mut say = |input: usize, fate: u8, output: usize| {
            assert_eq!(all[input].0, GONE, "a line has come into two");
            all[input] = (fate, Some(output));
        };
        for (output, line) in lines.iter().enumerate() {
            say(line.stands, if line.text == raw[line.stands] { EQUAL } else { OTHER }, output);
            line.held.iter().for_each(|input| say(*input, TAKEN, output));
        }
        all
    }

    /// All passes, as `optimize` runs them.
    pub fn whole(text: &str) -> Traced {
        let result = super::optimize(text);
        KEPT.with(|kept| (result, fates(text, &kept.borrow())))
    }

    /// One pass, 1 to 6, split and joined as `optimize` does.
    pub fn one_pass(pass: u8, text: &str) -> Traced {
        let run = match pass {
            1 => super::prune_dead_temps,
            2 => super::optimize_once,
            3 => super::prune_dead_phis,
            4 => super::rebuild_calls,
            5 => super::prune_decls,
            _ => super::bind_declarators,
        };
        let mut lines = carried_lines(text);
        run(&mut lines);
        let mut result = lines.join("\n");
        if text.ends_with('\n') && !result.ends_with('\n') {
            result.push('\n');
        }
        (result, fates(text, &lines))
    }
}
