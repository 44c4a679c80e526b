//! Says beforehand where the original would not end: `purity` copies each byte as a character, so
//! text beyond ASCII doubles at each nested bracket.

use crate::judge::{BOTH, STRICT};
use opt::exports::strip_comments;

/// Copied characters that are still done in well under a second.
const MOST: u64 = 1 << 24;

fn beyond_ascii(text: &str) -> u64 {
    text.bytes().filter(|b| *b >= 128).count() as u64
}

/// `count` doubled `times` times, or the largest number.
fn doubled(count: u64, times: u64) -> u64 {
    if count == 0 || times < 40 { count << times.min(40) } else { u64::MAX }
}

/// How far brackets rise above any earlier place: each nested call of `purity` is one step higher.
fn rise(text: &str) -> u64 {
    let (mut now, mut low, mut most) = (0i64, 0i64, 0i64);
    for b in text.bytes() {
        match b {
            b'[' | b'(' | b'{' => now += 1,
            b']' | b')' | b'}' => now -= 1,
            _ => {}
        }
        low = low.min(now);
        most = most.max(now - low);
    }
    most as u64
}

fn brackets(line: &str) -> u64 {
    line.bytes().filter(|b| *b == b'[').count() as u64
}

/// In strict mode, where quotes decide which brackets are cut with a comment, all of them count.
fn cost(mode: u8, value: &str) -> u64 {
    // nearly all values: nothing doubles, or nothing is nested
    if value.is_ascii() || !value.contains('[') {
        return 0;
    }
    let nested = if mode == STRICT || mode == BOTH { brackets(value) } else { rise(&strip_comments(value)) };
    doubled(beyond_ascii(value), 1 + nested)
}

/// Whether `purity` of this value ends soon.
pub fn value_ends(mode: u8, value: &str) -> bool {
    cost(mode, value) <= MOST
}

/// The whole entry can put the value of a store into the line below before a phi is judged, and so
/// join the brackets of two lines; what a comment hides can come to light there, so all count.
fn joined_cost(text: &str) -> u64 {
    let stores = || text.lines().filter(|l| l.trim_start().starts_with('r') && l.contains('='));
    let Some(deepest) = stores().map(brackets).max() else { return 0 };
    let widest = stores().map(beyond_ascii).max().unwrap_or(0);
    let phis = text.lines().filter(|l| l.trim_start().starts_with("phi"));
    phis.map(|l| doubled(beyond_ascii(l) + widest, 1 + brackets(l) + deepest)).fold(0, u64::saturating_add)
}

/// Whether the given pass (0: all of them) ends soon on this text.
pub fn pass_ends(pass: u8, mode: u8, text: &str) -> bool {
    if pass > 3 || text.is_ascii() {
        return true;
    }
    let values = text.lines().filter_map(|l| l.split_once('=')).map(|(_, v)| cost(mode, v));
    let joined = if pass == 0 { joined_cost(text) } else { 0 };
    values.fold(joined, u64::saturating_add) <= MOST
}
