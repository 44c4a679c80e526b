
// Strict mode, from document 02's request 4 alone. `build` puts these functions into a copy of the original in the place of
// its `strip_comments`, and lets `purity` ask `closed_by_last` where it asked for a string's last character.

/// The place behind the literal that opens at `from`, escapes counted; none where it is not closed.
fn literal_end(bytes: &[u8], from: usize) -> Option<usize> {
    let mut at = from + 1;
    while at < bytes.len() {
        match bytes[at] {
            b'\\' => at += 2,
            b if b == bytes[from] => return Some(at + 1),
            _ => at += 1,
        }
    }
    None
}

/// "its opening quote is closed, escapes counted, by its last character"
fn closed_by_last(value: &[u8]) -> bool {
    literal_end(value, 0) == Some(value.len())
}

/// "comments are cut only outside quotes, backticks too". What is cut, and what stands for it, is as in the original.
fn strip_comments(s: &str) -> String {
    let bytes = s.as_bytes();
    let mut out = String::with_capacity(s.len());
    let mut at = 0;
    while at < bytes.len() {
        let end = match (bytes[at], bytes.get(at + 1)) {
            (b'"' | b'\'' | b'`', _) => literal_end(bytes, at).unwrap_or(bytes.len()),
            (b'/', Some(b'/')) => break,
            (b'/', Some(b'*')) => {
                let Some(inside) = s[at + 2..].find("*/") else { break };
                out.push(' ');
                at += 2 + inside + 2;
                continue;
            }
            _ => at + 1,
        };
        out.extend(bytes[at..end].iter().map(|b| *b as char));
        at = end;
    }
    out
}
