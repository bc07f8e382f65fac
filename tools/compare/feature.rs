//! What a text shows about the lexer: forms of tokens, neighbours, ends, readings of psql commands, faults.

use std::collections::BTreeSet;
use std::sync::LazyLock;
use texts::{ENDING, LINES, PIPED, near_misses};

pub type Features = BTreeSet<String>;

/// Words that the lexer knows, and near misses of them. `\;` and `\:` are no commands.
pub static KNOWN: LazyLock<BTreeSet<String>> = LazyLock::new(|| {
    let words = ENDING.iter().chain(PIPED).chain(LINES);
    words
        .flat_map(|word| near_misses(word))
        .filter(|word| !word.starts_with([';', ':']))
        .collect()
});

/// A token line of a listing, with the bytes that the token covers.
struct Line<'a> {
    kind: &'a str,
    fields: Vec<&'a str>,
    bytes: &'a [u8],
    after: &'a [u8],
}

/// All that a text and its listing show.
pub fn features(text: &[u8], listing: &str) -> Features {
    let mut shown = Features::new();
    let mut before = "start".to_string();
    for line in listing.lines() {
        let mut words = line.split(' ');
        match words.next() {
            Some("token") => {
                let token = token_line(text, words.collect());
                let form = form(&token);
                shown.insert(format!("{before}, {}", token.kind));
                if token.kind == "PsqlCommand" {
                    show_command(&token, &mut shown);
                }
                before = token.kind.to_string();
                shown.insert(form);
            }
            Some("end") => {
                let cause = words.nth(2).unwrap();
                shown.insert(format!("cause {cause}"));
                shown.insert(format!("cause {cause} after {before}"));
            }
            Some("refused") => show_fault(text, words.nth(1).unwrap(), &mut shown),
            _ if line == "total 0 0 0" => drop(shown.insert("no token".to_string())),
            _ => {}
        }
    }
    shown
}

fn token_line<'a>(text: &'a [u8], words: Vec<&'a str>) -> Line<'a> {
    let place: usize = words[0].parse().unwrap();
    let end = place + words[1].parse::<usize>().unwrap();
    Line {
        kind: words[2],
        fields: words[3..].to_vec(),
        bytes: &text[place..end],
        after: &text[end..],
    }
}

/// The kind and its fields; of an offset only what it tells: whether there is junk, digits, an empty exponent.
fn form(token: &Line) -> String {
    let Line {
        kind,
        fields,
        bytes,
        ..
    } = token;
    let junk = |start: &str| {
        if start.parse() == Ok(bytes.len()) {
            "clean"
        } else {
            "junk"
        }
    };
    match (*kind, fields.as_slice()) {
        ("Int", [base, empty, start]) => format!("Int {base} {empty} {}", junk(start)),
        ("Numeric", ["-", start]) => format!("Numeric - {}", junk(start)),
        ("Numeric", [_, start]) => format!("Numeric e {}", junk(start)),
        ("PositionalParam", ["1"]) => format!("PositionalParam $ {}", junk("1")),
        ("PositionalParam", [start]) => format!("PositionalParam $9 {}", junk(start)),
        ("Semi" | "Colon", []) if bytes.len() == 2 => format!("{kind} 2"),
        ("PsqlCommand", _) if *bytes == b"\\\\" => "PsqlCommand \\\\".to_string(),
        (_, fields) => [&[*kind], fields].concat().join(" "),
    }
}

fn is_blank(byte: &u8) -> bool {
    matches!(byte, b' ' | b'\t' | 11 | 12)
}

/// How a psql command was read: its word, what it took, and what it stopped before.
fn show_command(token: &Line, shown: &mut Features) {
    let letters = &token.bytes[1..];
    let length = letters
        .iter()
        .position(|byte| is_blank(byte) || matches!(byte, b'\n' | b'\r' | b'\\'));
    let (word, rest) = letters.split_at(length.unwrap_or(letters.len()));
    let word = String::from_utf8_lossy(word);
    let blanks = rest.iter().take_while(|byte| is_blank(byte)).count();
    let rest = &rest[blanks..];
    if KNOWN.contains(&*word) {
        shown.insert(format!("word {word}"));
    }
    if token.fields == ["1"] {
        shown.insert(format!("\\{word} ends a query"));
    }
    let stop = match token.after.first() {
        None => "the end",
        Some(b'\n') => "byte 10",
        Some(b'\r') => "byte 13",
        Some(_) => "a backslash",
    };
    shown.insert(format!("command before {stop}"));
    if LINES.contains(&&*word) && rest.contains(&b'\\') {
        shown.insert(format!("\\{word} takes the line"));
    }
    if PIPED.contains(&&*word) {
        show_pipe(&word, rest, shown);
    }
    let signs: String = "'\"`(|)\\"
        .chars()
        .filter(|&sign| rest.contains(&(sign as u8)))
        .collect();
    shown.insert(format!("{signs} before {stop}"));
}

/// A backslash after the pipe shows that the whole line was taken.
fn show_pipe(word: &str, rest: &[u8], shown: &mut Features) {
    let piped = rest
        .iter()
        .skip_while(|&&byte| byte != b'|')
        .any(|&byte| byte == b'\\');
    match rest.first() {
        Some(b'|') if piped => drop(shown.insert(format!("\\{word} takes a pipe"))),
        Some(b'(') => {
            let told = if piped {
                "takes a pipe after options"
            } else {
                "takes options"
            };
            shown.insert(format!("\\{word} {told}"));
            show_quotes(rest, shown);
        }
        Some(_) => drop(shown.insert(format!("\\{word} takes a plain argument"))),
        None => {}
    }
}

/// The quotes in an option list, closed or left open by the line's end.
fn show_quotes(options: &[u8], shown: &mut Features) {
    let mut open: Option<u8> = None;
    let mut escaped = false;
    for &byte in options {
        match open {
            Some(quote) if byte == quote && !escaped => {
                shown.insert(format!("option {} closed", char::from(quote)));
                open = None;
            }
            Some(quote) => escaped = quote == b'\'' && byte == b'\\' && !escaped,
            None if matches!(byte, b'\'' | b'"' | b'`') => open = Some(byte),
            None => {}
        }
    }
    if let Some(quote) = open {
        shown.insert(format!("option {} open", char::from(quote)));
    }
}

/// The classes of the bytes of an ill-formed sequence, up to and with the one that it cannot go on with.
fn show_fault(text: &[u8], place: &str, shown: &mut Features) {
    let place: usize = place.parse().unwrap();
    let taken = str::from_utf8(&text[place..])
        .unwrap_err()
        .error_len()
        .unwrap_or(text.len() - place);
    let classes: Vec<_> = (place..=place + taken)
        .map(|at| byte_class(text.get(at)))
        .collect();
    shown.insert("refused 2".to_string());
    shown.insert(format!("refused at {}", classes.join(" ")));
}

/// Bytes that the table of well-formed sequences treats alike.
fn byte_class(byte: Option<&u8>) -> &'static str {
    match byte {
        None => "end",
        Some(0..=0x7f) => "ASCII",
        Some(0x80..=0x8f) => "80-8F",
        Some(0x90..=0x9f) => "90-9F",
        Some(0xa0..=0xbf) => "A0-BF",
        Some(0xc0 | 0xc1) => "C0-C1",
        Some(0xc2..=0xdf) => "C2-DF",
        Some(0xe0) => "E0",
        Some(0xed) => "ED",
        Some(0xe1..=0xef) => "E1-EF",
        Some(0xf0) => "F0",
        Some(0xf1..=0xf3) => "F1-F3",
        Some(0xf4) => "F4",
        Some(0xf5..) => "F5-FF",
    }
}
