//! Answers single functions of the original, until the input ends. See README.md.

mod ends;
mod judge;
mod wire;

use judge::{BOTH, JOINED, PLAIN, STRICT};
use opt::exports::{self, Parsed};
use wire::Wire;

/// One request: the arguments of a function.
struct Asked<'a> {
    number: usize,
    a: &'a str,
    b: &'a str,
}

type Bytes = Option<Vec<u8>>;

fn flag(b: bool) -> Bytes {
    Some(vec![b as u8])
}

fn eight(n: usize) -> Vec<u8> {
    (n as u64).to_le_bytes().to_vec()
}

fn fours(numbers: impl IntoIterator<Item = usize>) -> Bytes {
    Some(numbers.into_iter().flat_map(|n| (n as u32).to_le_bytes()).collect())
}

fn flags(bits: impl IntoIterator<Item = bool>) -> Bytes {
    Some(bits.into_iter().map(|b| b as u8).collect())
}

/// Byte 0, or byte 1 and what there is.
fn maybe(there: Option<Vec<u8>>) -> Bytes {
    Some(there.map_or(vec![0], |rest| [vec![1], rest].concat()))
}

fn ended(lines: impl IntoIterator<Item = impl AsRef<str>>) -> Bytes {
    Some(lines.into_iter().flat_map(|l| [l.as_ref(), "\n"].concat().into_bytes()).collect())
}

/// Cut at each LF, so that a line may end in CR.
fn list(text: &str) -> Vec<String> {
    let mut lines: Vec<String> = text.split('\n').map(str::to_string).collect();
    if lines.last().is_some_and(String::is_empty) {
        lines.pop();
    }
    lines
}

fn trim(q: &Asked) -> Bytes {
    let from = q.a.len() - q.a.trim_start().len();
    fours([from, from + q.a.trim().len()])
}

fn utf8(bytes: &[u8]) -> Vec<u8> {
    match std::str::from_utf8(bytes) {
        Ok(_) => vec![0],
        Err(e) => [vec![1], (e.valid_up_to() as u32).to_le_bytes().to_vec()].concat(),
    }
}

fn parse(q: &Asked) -> Bytes {
    Some(match exports::parse(q.a) {
        Parsed::Decl(regs) => [vec![0], regs.into_iter().flat_map(eight).collect()].concat(),
        Parsed::Store(reg, rhs) => [vec![1], eight(reg), rhs.into_bytes()].concat(),
        Parsed::Other => vec![2],
    })
}

fn context(q: &Asked) -> Bytes {
    maybe(exports::occurrence_context(q.a, q.number).map(|(n, t)| vec![n as u8, t as u8]))
}

/// The index of the first line with the same path stands for the path.
fn paths(q: &Asked) -> Bytes {
    let paths = exports::block_paths(&list(q.a));
    fours(paths.iter().map(|p| paths.iter().position(|o| o == p).unwrap()))
}

fn starts(q: &Asked) -> Bytes {
    let lines = list(q.a);
    (q.number <= lines.len()).then(|| vec![exports::starts_statement(&lines, q.number) as u8])
}

fn breaks(q: &Asked) -> Bytes {
    let lines = list(q.b);
    let all: Vec<usize> = (0..lines.len()).collect();
    flag(exports::breaks_dependency(q.a, &all, &lines))
}

fn pass(pass: u8, q: &Asked) -> Bytes {
    if !ends::pass_ends(pass, PLAIN, q.a) {
        return None;
    }
    let mut lines = list(q.a);
    exports::pass_lines(pass, &mut lines);
    ended(lines)
}

/// The lines that the original drops, in the mode that the number is.
fn drops(q: &Asked) -> Bytes {
    let mode = q.number as u8;
    if q.number > BOTH as usize || !ends::pass_ends(2, mode, q.a) {
        return None;
    }
    let drops = match mode {
        PLAIN => exports::drops,
        STRICT => strict::exports::drops,
        JOINED => joined::exports::drops,
        _ => both::exports::drops,
    };
    flags(drops(&list(q.a)))
}

/// The functions 1 to 39 and 41 to 46, 4 apart: it alone takes bytes that are no text.
fn ask(function: u8, q: &Asked) -> Bytes {
    match function {
        1 => trim(q),
        2 => fours([q.a.len() - q.a.trim_start().len()]),
        3 => fours([q.a.trim_end().len()]),
        5 => ended(q.a.lines()),
        6 => Some(exports::join(&list(q.a), q.number != 0).into_bytes()),
        7 => Some(eight(q.a.lines().count())),
        8 => maybe(judge::crowded_line(q.a).map(eight)),
        9 => maybe(exports::reg_name(q.a).map(eight)),
        10 => maybe(exports::phi_name(q.a).map(eight)),
        11 => flag(exports::is_temp_name(q.a)),
        12 => parse(q),
        13 => Some(eight(exports::reads_in(q.a).get(&q.number).copied().unwrap_or(0))),
        14 => maybe(exports::replace_reg(q.a, q.number, q.b).map(String::into_bytes)),
        15 => context(q),
        16 => (!q.b.is_empty()).then(|| eight(exports::count_ident(q.a, q.b))),
        17 => (!q.b.is_empty()).then(|| vec![exports::mentions_ident(q.a, q.b) as u8]),
        18 => flag(exports::is_simple_ident(q.a)),
        _ => ask_further(function, q),
    }
}

fn ask_further(function: u8, q: &Asked) -> Bytes {
    match function {
        19 => flags(q.a.bytes().map(exports::is_ident_byte)),
        20 => Some(exports::strip_comments(q.a).chars().map(|c| c as u8).collect()),
        21 => ends::value_ends(PLAIN, q.a).then(|| vec![exports::purity(q.a)]),
        22 => Some(exports::strip_lexical(q.a).into_bytes()),
        23 => flag(exports::phi_rhs_pure(q.a)),
        24 => ended(exports::ident_words(q.a)),
        25 => fours(exports::regions(&list(q.a))),
        26 => fours(exports::block_ids(&list(q.a))),
        27 => paths(q),
        28 => flags(exports::inside_loop(&list(q.a))),
        29 => starts(q),
        30 => flag(exports::is_control_header(q.a)),
        31 => Some(exports::paren_if_needed(q.a, q.number != 0).into_bytes()),
        32 => flag(exports::is_plain_ref(q.a)),
        33 => flag(exports::is_primary_expr(q.a)),
        34 => breaks(q),
        35 => flags(exports::call_scratch_lines(&list(q.a))),
        36 => ends::value_ends(PLAIN, q.a).then(|| vec![exports::pure_expr(q.a) as u8]),
        37 => ends::value_ends(STRICT, q.a).then(|| vec![strict::exports::purity(q.a)]),
        38 | 39 => drops(q),
        41..=46 => pass(function - 40, q),
        _ => None,
    }
}

fn answer(function: u8, number: u64, a: &[u8], b: &[u8]) -> Bytes {
    if function == 4 {
        return Some(utf8(a));
    }
    let a = std::str::from_utf8(a).ok()?;
    let b = std::str::from_utf8(b).ok()?;
    ask(function, &Asked { number: number as usize, a, b })
}

fn serve(wire: &mut Wire) -> Option<()> {
    loop {
        wire.ready()?;
        let (function, number) = (wire.one()?, wire.eight()?);
        let (a, b) = (wire.text(u64::MAX)?, wire.text(u64::MAX)?);
        match answer(function, number, &a, &b) {
            Some(bytes) => wire.put_text(&bytes)?,
            None => wire.put(&u32::MAX.to_le_bytes())?,
        }
    }
}

fn main() {
    serve(&mut Wire::new());
}
