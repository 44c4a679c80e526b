// Joined mode, from document 02's request 10 alone. `build` appends this to a copy of the original in which `block_ids` and
// `starts_statement` take their cleaned lines from `joined_lines`; what else calls `strip_lexical` calls it as before.

/// What the next character stands in.
#[derive(Clone, Copy)]
enum Within {
    Code,
    /// Behind `//`.
    LineComment,
    /// Behind the `/` of `/*`.
    CommentMark,
    Comment { star: bool },
    Literal { quote: char, escaped: bool },
    Pattern { class: bool, escaped: bool },
}

/// "hands on what it leaves open itself": a block comment or a backtick. All else ends with its line, as it does in the original.
fn handed_on(within: Within) -> Within {
    match within {
        Within::CommentMark | Within::Comment { .. } => Within::Comment { star: false },
        Within::Literal { quote: '`', .. } => Within::Literal { quote: '`', escaped: false },
        _ => Within::Code,
    }
}

/// Whether a `/` begins a pattern behind what the line has been cleaned to so far: the original's rule.
fn pattern_begins(out: &str) -> bool {
    out.trim_end().chars().last().map_or(true, |c| "=(,:[!&|?{};+-*%^~<>".contains(c))
}

/// A character of code. "A literal's `S` stands only where it opened", and a pattern's too.
fn read_code(c: char, next: Option<char>, out: &mut String) -> Within {
    let (put, within) = match (c, next) {
        ('/', Some('/')) => return Within::LineComment,
        ('/', Some('*')) => return Within::CommentMark,
        ('"' | '\'' | '`', _) => ('S', Within::Literal { quote: c, escaped: false }),
        ('/', _) if pattern_begins(out) => ('S', Within::Pattern { class: false, escaped: false }),
        _ => (c, Within::Code),
    };
    out.push(put);
    within
}

fn read_pattern(class: bool, c: char) -> Within {
    match c {
        '\\' => Within::Pattern { class, escaped: true },
        '[' => Within::Pattern { class: true, escaped: false },
        ']' => Within::Pattern { class: false, escaped: false },
        '/' if !class => Within::Code,
        _ => Within::Pattern { class, escaped: false },
    }
}

fn read(within: Within, c: char, next: Option<char>, out: &mut String) -> Within {
    match within {
        Within::Code => read_code(c, next, out),
        Within::LineComment => Within::LineComment,
        Within::CommentMark => Within::Comment { star: false },
        Within::Comment { star: true } if c == '/' => Within::Code,
        Within::Comment { .. } => Within::Comment { star: c == '*' },
        Within::Literal { quote, escaped: true } => Within::Literal { quote, escaped: false },
        Within::Literal { quote, .. } if c == quote => Within::Code,
        Within::Literal { quote, .. } => Within::Literal { quote, escaped: c == '\\' },
        Within::Pattern { class, escaped: true } => Within::Pattern { class, escaped: false },
        Within::Pattern { class, .. } => read_pattern(class, c),
    }
}

/// The lines, each cleaned below what the line above leaves open. Lines that carry origins are read as their texts.
pub fn joined_lines(lines: &[impl std::borrow::Borrow<str>]) -> Vec<String> {
    let mut within = Within::Code;
    let mut clean = |line: &str| {
        let mut out = String::new();
        let mut rest = line.chars().peekable();
        while let Some(c) = rest.next() {
            within = read(within, c, rest.peek().copied(), &mut out);
        }
        within = handed_on(within);
        out
    };
    lines.iter().map(|line| clean(line.borrow())).collect()
}
