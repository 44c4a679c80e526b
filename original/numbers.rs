//! Other numbers for the registers, phis and temps of a text: high ones, ones that meet in a table, ones with leading zeros.

use crate::random::Random;

/// What becomes of the numbers of a text, each of its numbers by the same rule.
enum Lift {
    Add(u64),
    Times(u64),
    Spread,
}

fn lift(random: &mut Random) -> Lift {
    match random.below(8) {
        0 => Lift::Add(2_000),
        1 => Lift::Add(1_018 + random.below(8) as u64),
        2 => Lift::Add(2_040 + random.below(10) as u64),
        3 => Lift::Add(1 << 63),
        4 => Lift::Times(1_024),
        5 => Lift::Times(random.pick(&[&256, &512, &2_048, &1_048_576]).to_owned()),
        _ => Lift::Spread,
    }
}

impl Lift {
    fn of(&self, number: u64) -> u64 {
        match self {
            Lift::Add(more) => number.wrapping_add(*more),
            Lift::Times(times) => number.wrapping_mul(*times),
            Lift::Spread => number.wrapping_mul(0x9e37_79b9_7f4a_7c15) >> 1,
        }
    }
}

/// The word of a name and its number, where it is a register, a phi or a temp.
fn numbered(name: &str) -> Option<(&str, u64)> {
    let digits = name.trim_start_matches(|c: char| c.is_ascii_lowercase());
    let word = &name[..name.len() - digits.len()];
    let named = matches!(word, "r" | "phi" | "t") && !digits.is_empty() && digits.bytes().all(|b| b.is_ascii_digit());
    named.then(|| digits.parse().ok()).flatten().map(|number| (word, number))
}

fn is_name(c: char) -> bool {
    c.is_ascii_alphanumeric() || c == '_' || c == '$'
}

/// The text with other numbers; leading zeros before some of them, where that is drawn.
pub fn lifted(random: &mut Random, text: &str) -> String {
    let (lift, zeros) = (lift(random), random.chance(20));
    let mut out = String::new();
    let mut rest = text;
    while !rest.is_empty() {
        let gap = rest.find(is_name).unwrap_or(rest.len());
        let end = rest[gap..].find(|c| !is_name(c)).map_or(rest.len(), |n| gap + n);
        out.push_str(&rest[..gap]);
        match numbered(&rest[gap..end]) {
            Some((word, number)) => {
                let more = if zeros { random.below(3) } else { 0 };
                out.push_str(&format!("{word}{}{}", "0".repeat(more), lift.of(number)));
            }
            None => out.push_str(&rest[gap..end]),
        }
        rest = &rest[end..];
    }
    out
}
