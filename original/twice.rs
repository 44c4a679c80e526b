//! Runs the original's prune_decls twice over made lists and over their texts. See README.md.

mod grammar;
mod lists;
mod random;
mod rules;
mod wire;

use lists::Lists;
use opt::exports;
use random::Random;

const PRUNE_DECLS: u8 = 5;
/// From so many lists on, each kind has to be met.
const MANY: u64 = 1_000;

fn pruned(lines: &[String]) -> Vec<String> {
    let mut out = lines.to_vec();
    exports::pass_lines(PRUNE_DECLS, &mut out);
    out
}

fn lines_of(text: &str) -> Vec<String> {
    text.lines().map(str::to_string).collect()
}

/// What is left of lines that are joined and split again, told from the lines alone.
fn left(lines: &[String], ended: bool) -> Vec<String> {
    if lines.iter().map(String::len).sum::<usize>() == 0 && lines.len() < 2 {
        return vec![String::new(); ended as usize];
    }
    let followed = if ended { lines.len() } else { lines.len() - 1 };
    let mut out = lines.to_vec();
    for each in &mut out[..followed] {
        if each.ends_with('\r') {
            each.pop();
        }
    }
    if lines[lines.len() - 1].is_empty() {
        out.pop();
    }
    out
}

/// The kinds of lists that have to be met.
const KINDS: [&str; 5] = ["lost a header", "lost a CR", "lost a blank last line", "had no line left", "had one blank line left"];

#[derive(Default)]
struct Counted {
    kinds: [u64; KINDS.len()],
    differ: u64,
}

impl Counted {
    fn differs(&mut self, what: &str, lines: &[String]) {
        self.differ += 1;
        if self.differ <= 5 {
            println!("--- {what}: {lines:?}");
        }
    }

    /// A second run over the lines gives the same lines.
    fn lines(&mut self, lines: &[String]) {
        let once = pruned(lines);
        if pruned(&once) != once {
            self.differs("pruned twice, the lines", lines);
        }
        let regions = |l: &[String]| exports::regions(l).last().copied();
        self.kinds[0] += (regions(&once) < regions(lines)) as u64;
    }

    /// A second run over the text changes no line; splitting loses what `left` says.
    fn text(&mut self, lines: &[String], ended: bool) {
        let text = exports::join(lines, ended);
        let once = pruned(&lines_of(&text));
        let again = lines_of(&exports::one_pass(PRUNE_DECLS, &text));
        if again != left(&once, text.ends_with('\n')) {
            self.differs("joined and split again, the lines", lines);
        }
        if pruned(&again) != again {
            self.differs("pruned twice, the text of the lines", lines);
        }
        let crs = |l: &[String]| l.iter().filter(|l| l.ends_with('\r')).map(String::len).sum::<usize>();
        self.kinds[1] += (again.len() == once.len() && crs(&again) < crs(&once)) as u64;
        self.kinds[2] += (again.len() < once.len()) as u64;
        self.kinds[3] += once.is_empty() as u64;
        self.kinds[4] += (once.len() == 1 && once[0].is_empty()) as u64;
    }
}

fn number(word: Option<String>) -> u64 {
    word.and_then(|w| w.parse().ok()).unwrap_or_else(|| wire::usage("twice SEED COUNT"))
}

fn main() {
    let mut words = std::env::args().skip(1);
    let (seed, count) = (number(words.next()), number(words.next()));
    let (lists, mut counted) = (Lists::new(), Counted::default());
    for index in 0..count {
        let random = &mut Random::new(seed, index);
        let list = lists.list(random);
        counted.lines(&list);
        counted.text(&list, random.chance(50));
    }
    for (kind, met) in KINDS.iter().zip(counted.kinds) {
        println!("{met} {kind}");
        if met == 0 && count >= MANY {
            eprintln!("twice: no list {kind}");
            std::process::exit(2);
        }
    }
    println!("pruned {count} lists and their texts twice, {} differ", counted.differ);
    std::process::exit((counted.differ > 0) as i32);
}
