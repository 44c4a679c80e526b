
/// Appended to a build-time copy of the original: lets other crates call its private functions.
pub mod exports {
    use super::Line;
    use std::cell::RefCell;
    use std::collections::{HashMap, HashSet};

    /// Each name becomes a public function that only hands on its arguments.
    macro_rules! hand_on {
        ($($name:ident($($arg:ident: $kind:ty),*) -> $answer:ty;)*) => {
            $(pub fn $name($($arg: $kind),*) -> $answer { super::$name($($arg),*) })*
        };
    }

    hand_on! {
        reg_name(s: &str) -> Option<usize>;
        phi_name(s: &str) -> Option<usize>;
        is_temp_name(s: &str) -> bool;
        strip_comments(s: &str) -> String;
        pure_expr(s: &str) -> bool;
        replace_reg(line: &str, reg: usize, by: &str) -> Option<String>;
        is_ident_byte(b: u8) -> bool;
        is_simple_ident(s: &str) -> bool;
        mentions_ident(text: &str, name: &str) -> bool;
        count_ident(text: &str, name: &str) -> usize;
        strip_lexical(s: &str) -> String;
        phi_rhs_pure(s: &str) -> bool;
        ident_words(s: &str) -> Vec<String>;
        regions(lines: &[String]) -> Vec<usize>;
        block_ids(lines: &[String]) -> Vec<usize>;
        block_paths(lines: &[String]) -> Vec<Vec<u32>>;
        inside_loop(lines: &[String]) -> Vec<bool>;
        starts_statement(lines: &[String], j: usize) -> bool;
        is_control_header(t: &str) -> bool;
        paren_if_needed(rhs: &str, after_new: bool) -> String;
        is_plain_ref(s: &str) -> bool;
        is_primary_expr(s: &str) -> bool;
        breaks_dependency(rhs: &str, inlined: &[usize], lines: &[String]) -> bool;
    }

    /// A parsed line in a form that other crates can take apart.
    pub enum Parsed {
        Decl(Vec<usize>),
        Store(usize, String),
        Other,
    }

    pub fn parse(line: &str) -> Parsed {
        match super::parse(line) {
            Line::Decl(regs) => Parsed::Decl(regs),
            Line::Store { reg, rhs } => Parsed::Store(reg, rhs),
            Line::Other(_) => Parsed::Other,
        }
    }

    pub fn reads_in(line: &str) -> HashMap<usize, usize> {
        super::reads_in(&super::parse(line))
    }

    /// 0 Stable, 1 Ident, 2 Effectful.
    pub fn purity(rhs: &str) -> u8 {
        super::purity(rhs) as u8
    }

    /// after_new and as_target.
    pub fn occurrence_context(line: &str, reg: usize) -> Option<(bool, bool)> {
        super::occurrence_context(line, reg).map(|c| (c.after_new, c.as_target))
    }

    pub fn call_scratch_lines(lines: &[String]) -> Vec<bool> {
        let parsed: Vec<Line> = lines.iter().map(|l| super::parse(l)).collect();
        let found = super::call_scratch_lines(&parsed, lines, &super::regions(lines));
        (0..lines.len()).map(|i| found.contains(&i)).collect()
    }

    thread_local! {
        static DROPPED: RefCell<HashSet<usize>> = RefCell::new(HashSet::new());
    }

    /// What `optimize_once` calls in the copy, with its own list of lines to drop.
    pub(super) fn keep_drops(dropped: &HashSet<usize>) {
        DROPPED.with(|kept| kept.borrow_mut().clone_from(dropped));
    }

    /// For each line whether `optimize_once` drops it.
    pub fn drops(lines: &[String]) -> Vec<bool> {
        super::optimize_once(&mut lines.to_vec());
        DROPPED.with(|kept| (0..lines.len()).map(|i| kept.borrow().contains(&i)).collect())
    }

    /// The last step of `optimize`, which has no name there.
    pub fn join(lines: &[String], keep_ending: bool) -> String {
        let mut out = lines.join("\n");
        if keep_ending && !out.ends_with('\n') {
            out.push('\n');
        }
        out
    }

    /// One pass, 1 to 6, over lines.
    pub fn pass_lines(pass: u8, lines: &mut Vec<String>) {
        let run = match pass {
            1 => super::prune_dead_temps,
            2 => super::optimize_once,
            3 => super::prune_dead_phis,
            4 => super::rebuild_calls,
            5 => super::prune_decls,
            _ => super::bind_declarators,
        };
        run(lines);
    }

    /// The same, split and joined as `optimize` does.
    pub fn one_pass(pass: u8, text: &str) -> String {
        let mut lines: Vec<String> = text.lines().map(str::to_string).collect();
        pass_lines(pass, &mut lines);
        join(&lines, text.ends_with('\n'))
    }
}
