//! Every answer of both functions, what they leave in lent room, and a file with translations.

use optpo::{read, read_in, write, write_in, Refusal};

const HEAD: &str = "msgid \"\"\nmsgstr \"\"\n\"Content-Type: text/plain; charset=UTF-8\\n\"\n";
const LISTING: &[u8] = b"say(\"hello\"); // \"no\"\nx('it\\'s', \"hello\", \"\");\n";

fn file(first: &str, second: &str) -> Vec<u8> {
    format!(
        "{HEAD}\n#: f:1\nmsgid \"hello\"\nmsgstr \"{first}\"\n\n#: f:2\nmsgid \"it's\"\nmsgstr \"{second}\"\n"
    )
    .into_bytes()
}

fn pair(literal: &str, translation: &str) -> (Vec<u8>, Vec<u8>) {
    (literal.into(), translation.into())
}

#[test]
fn writes_and_reads_back() {
    assert_eq!(write(b"f", LISTING), Ok(file("", "")));
    assert_eq!(write(b"f", b""), Ok(HEAD.into()));
    let read_back = read(&file("", ""));
    assert_eq!(read_back, Ok(vec![pair("hello", ""), pair("it's", "")]));
    let filled = read(&file("gr\u{fc}ezi", "a\\tb\\n\\\"\\\\"));
    let expected = vec![pair("hello", "gr\u{fc}ezi"), pair("it's", "a\tb\n\"\\")];
    assert_eq!(filled, Ok(expected));
}

#[test]
fn refuses() {
    for (name, listing, refusal) in [
        (&b""[..], LISTING, Refusal::BadName(0)),
        (b"a b", LISTING, Refusal::BadName(1)),
        (b"f", b"ab\xFF", Refusal::NotUtf8(2)),
        (b"f", b"x = \"a\\q\";", Refusal::OtherEscape(6)),
        (b"f", b"x = 'a\n", Refusal::Open(4)),
    ] {
        let (mut index, mut out) = ([7; 5], [0xA5; 99]);
        let answer = write_in(name, listing, &mut index, &mut out);
        assert_eq!(answer, Err(refusal));
        assert_eq!((index, out), ([7; 5], [0xA5; 99]));
        assert_eq!(write(name, listing), Err(refusal));
    }
    assert_eq!(read(b""), Err(Refusal::BadLine(0)));
    assert_eq!(read(&file("\t", "")), Err(Refusal::BadLine(6)));
    assert_eq!(
        Refusal::BadLine(6).to_string(),
        "line 7 is missing, or is not of the form"
    );
    assert_eq!(
        (Refusal::Open(4).number(), Refusal::Open(4).place()),
        (4, 4)
    );
}

#[test]
fn lent_room() {
    let whole = file("", "");
    for slots in [0, 1, 2, 3, 64] {
        let (mut index, mut out) = (vec![7; slots], vec![0xA5; whole.len() + 2]);
        let short = write_in(b"f", LISTING, &mut index, &mut out[..whole.len() - 1]);
        assert_eq!(short, Err(Refusal::Short(whole.len())));
        assert!(out.iter().all(|byte| *byte == 0xA5) && index.iter().all(|n| *n == 0));
        assert_eq!(
            write_in(b"f", LISTING, &mut index, &mut out),
            Ok(whole.len())
        );
        assert_eq!(&out[..whole.len()], &whole[..]);
        assert_eq!(&out[whole.len()..], [0xA5; 2]);
        index.fill(7);
        let read_short = read_in(&whole, &mut index, &mut []);
        assert_eq!(read_short, Err(Refusal::Short(4 * 8 + 9)));
        assert!(index.iter().all(|n| *n == 0));
    }
}
