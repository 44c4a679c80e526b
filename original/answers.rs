//! Reads requests and writes what the original answers, until the input ends. See README.md.

mod ends;
mod judge;
mod wire;

use judge::{Answer, Asked, Manner, OL, OM, SECOND};
use wire::Wire;

fn read(wire: &mut Wire, manner: &Manner) -> Option<Asked> {
    Some(Asked {
        pass: wire.one()?,
        mode: wire.one()?,
        form: if manner.forms { wire.one()?.min(OM) } else { OL },
        short: wire.one()?,
        room: wire.four()?,
        records: wire.four()?,
        text: wire.text(manner.limits.bytes as u64 + 1)?,
    })
}

fn write(wire: &mut Wire, answer: &Answer) -> Option<()> {
    wire.put(&[answer.number, 1])?;
    wire.put(&(answer.result.len() as u32).to_le_bytes())?;
    wire.put(&answer.place.to_le_bytes())?;
    wire.put(&answer.result)?;
    wire.put_text(&answer.records)
}

fn serve(wire: &mut Wire, manner: &Manner) -> Option<()> {
    loop {
        wire.ready()?;
        let asked = read(wire, manner)?;
        write(wire, &judge::answer(&asked, manner))?;
    }
}

fn manner(words: &[String]) -> Option<Manner> {
    match words {
        [] => Some(Manner::FIRST),
        [first, rest @ ..] if first == "--large" => Some(Manner { limits: SECOND, forms: true, ..manner(rest)? }),
        [first, rest @ ..] if first == "--texts" => Some(Manner { records: false, ..manner(rest)? }),
        [first, number, rest @ ..] if first == "--work" => Some(Manner { work: number.parse().ok()?, ..manner(rest)? }),
        _ => None,
    }
}

fn main() {
    let words: Vec<String> = std::env::args().skip(1).collect();
    let manner = manner(&words).unwrap_or_else(|| wire::usage("answers [--large] [--work N] [--texts], N at most 255"));
    // a panic of the original is answered, not printed
    std::panic::set_hook(Box::new(|_| {}));
    serve(&mut Wire::new(), &manner);
}
