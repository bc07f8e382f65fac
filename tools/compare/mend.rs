//! Where our answer parts from the Rust's on purpose, and what it should be there.
//!
//! Within single quotes of a psql argument, `\` and one to three octal digits, or `\x` and one or two hexadecimal digits, stand
//! for a character (its low eight bits), and two single quotes stand for one. The Rust takes the digits for plain characters, and
//! two quotes for the end of one quoted part and the start of another. It matters only to the option list of `\g (` and `\gx (`, which
//! ends with the argument whose last character is `)`.
//!
//! The intended answer is the Rust's own answer to a text of the same length, in which plain characters stand for each such
//! escape and each two quotes, the last of them `)` where `)` is meant.

/// What is written plainly.
#[derive(Clone, Copy, PartialEq)]
pub enum Mend {
    Escapes,
    EscapesAndQuotes,
}

/// The text with the option list at `place` written plainly; none if there is no such list or nothing to write in it.
pub fn plainly(mend: Mend, text: &[u8], place: usize) -> Option<Vec<u8>> {
    let mut at = place + options_start(text.get(place..)?)?;
    let mut plain = text.to_vec();
    let mut quote = None;
    while let Some(&byte) = text.get(at) {
        match (byte, quote) {
            (b'\n' | b'\r', _) | (b'\\', None) => break,
            (b'\'' | b'"' | b'`', None) => quote = Some(byte),
            (b'\'', Some(b'\''))
                if mend == Mend::EscapesAndQuotes && text.get(at + 1) == Some(&b'\'') =>
            {
                plain[at..at + 2].fill(b'a');
                at += 1;
            }
            (_, Some(open)) if byte == open => quote = None,
            (b'\\', Some(b'\'')) => at += write_plainly(&text[at + 1..], &mut plain[at..]) - 1,
            _ => {}
        }
        at += 1;
    }
    (plain != text).then_some(plain)
}

/// How far the `(` stands from the start of `\g (` or `\gx (`.
fn options_start(text: &[u8]) -> Option<usize> {
    let rest = text.strip_prefix(b"\\g")?;
    let rest = rest.strip_prefix(b"x").unwrap_or(rest);
    let blanks = rest
        .iter()
        .take_while(|byte| matches!(byte, b' ' | b'\t' | 11 | 12))
        .count();
    let found = blanks > 0 && rest.get(blanks) == Some(&b'(');
    found.then(|| text.len() - rest.len() + blanks)
}

/// Writes an escape, of which `after` follows its backslash, plainly over `out`; says how many bytes it takes.
fn write_plainly(after: &[u8], out: &mut [u8]) -> usize {
    let Some((length, value)) = escape(after) else {
        // A backslash quotes any other character, but no line end.
        return if matches!(after.first(), None | Some(b'\n' | b'\r')) {
            1
        } else {
            2
        };
    };
    out[..length].fill(b'a');
    if value == b')' {
        out[length - 1] = b')';
    }
    length
}

/// The length of an octal or hexadecimal escape, with its backslash, and what it stands for.
fn escape(after: &[u8]) -> Option<(usize, u8)> {
    let (start, most, base) = if after.first() == Some(&b'x') {
        (1, 2, 16)
    } else {
        (0, 3, 8)
    };
    let mut value: u32 = 0;
    let mut digits = 0;
    while let Some(digit) = after
        .get(start + digits)
        .and_then(|&byte| char::from(byte).to_digit(base))
        && digits < most
    {
        value = value * base + digit;
        digits += 1;
    }
    (digits > 0).then_some((1 + start + digits, value as u8))
}
