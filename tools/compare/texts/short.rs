//! All short texts over an alphabet: a full one, and one for each construct.

use crate::Family;

/// All sequences of at most `most` symbols, each between the bytes `before` and `after`.
pub struct Sequences {
    pub name: String,
    pub before: Vec<u8>,
    pub symbols: Vec<Vec<u8>>,
    pub most: u32,
    pub after: Vec<u8>,
}

impl Sequences {
    fn of(name: &str, before: &str, symbols: &[&str], most: u32) -> Box<dyn Family> {
        Sequences::between(name, before, symbols, most, "")
    }

    fn between(
        name: &str,
        before: &str,
        symbols: &[&str],
        most: u32,
        after: &str,
    ) -> Box<dyn Family> {
        Box::new(Sequences {
            name: name.to_string(),
            before: before.as_bytes().to_vec(),
            symbols: symbols
                .iter()
                .map(|symbol| symbol.as_bytes().to_vec())
                .collect(),
            most,
            after: after.as_bytes().to_vec(),
        })
    }

    fn of_bytes(name: &str, bytes: impl Iterator<Item = u8>, most: u32) -> Box<dyn Family> {
        Box::new(Sequences {
            name: name.to_string(),
            before: Vec::new(),
            symbols: bytes.map(|byte| vec![byte]).collect(),
            most,
            after: Vec::new(),
        })
    }
}

impl Family for Sequences {
    fn name(&self) -> &str {
        &self.name
    }

    fn count(&self) -> Option<u64> {
        let base = self.symbols.len() as u64;
        Some((0..=self.most).map(|length| base.pow(length)).sum())
    }

    /// The shorter sequences come first; within a length, the number in the base of the alphabet's size names the symbols.
    fn write(&self, number: u64, out: &mut Vec<u8>) {
        let base = self.symbols.len() as u64;
        let mut rest = number;
        let mut length = 0;
        while rest >= base.pow(length) {
            rest -= base.pow(length);
            length += 1;
        }
        out.extend_from_slice(&self.before);
        for _ in 0..length {
            out.extend_from_slice(&self.symbols[(rest % base) as usize]);
            rest /= base;
        }
        out.extend_from_slice(&self.after);
    }
}

/// Every character, alone and in the places where its bytes are looked at: an identifier, a tag, an escape and a psql argument.
pub struct Characters;

const CHARACTERS: u64 = 0x11_0000;

impl Family for Characters {
    fn name(&self) -> &str {
        "every character"
    }

    fn count(&self) -> Option<u64> {
        Some(2 * CHARACTERS)
    }

    fn write(&self, number: u64, out: &mut Vec<u8>) {
        // The numbers of surrogates are no characters: the replacement character stands in for them.
        let character = char::from_u32((number % CHARACTERS) as u32).unwrap_or('\u{fffd}');
        let text = if number < CHARACTERS {
            character.to_string()
        } else {
            format!(
                "a{character};1{character} ${character}$'${character}$E'\\{character}'\\{character} '\\{character}'{character}"
            )
        };
        out.extend_from_slice(text.as_bytes());
    }
}

/// Reaches every branch that few characters can reach.
#[rustfmt::skip]
const FULL: &[&str] = &[
    "'", "\"", "`", "e", "b", "x", "n", "u", "&", "$", "0", "1", "9", "_", ".", "E", "+", "-", "/", "*", "\\", "(",
    ")", " ", "\n", "\r", "\t", "\0", "g", "r", "o", "w", "h", "c", "|", "!", ";", ":", "é", "𝄞",
];

/// The rest of the one-character kinds, and capitals.
#[rustfmt::skip]
const REST: &[&str] = &[
    "=", ">", "<", "~", "#", "?", "%", "^", "@", "[", "]", "{", "}", ",", "\x0b", "\x0c", "\x7f", "B", "X", "N", "U",
    "O", "A", "F", "'", "\"", "&", "0", "$", "\\", ";", ".", "-", "/",
];

/// Bytes on both sides of every bound in the table of well-formed UTF-8.
#[rustfmt::skip]
const BOUNDS: [u8; 27] = [
    0x00, 0x41, 0x7f, 0x80, 0x8f, 0x90, 0x9f, 0xa0, 0xbf, 0xc0, 0xc1, 0xc2, 0xdf, 0xe0, 0xe1, 0xec, 0xed, 0xee, 0xef,
    0xf0, 0xf1, 0xf3, 0xf4, 0xf5, 0xf8, 0xfe, 0xff,
];

/// What tells in a psql command's arguments.
const ARGUMENT: &[&str] = &[
    "'", "\"", "`", "\\", "(", ")", "|", " ", "\n", "\r", "a", ";", "é",
];

/// A command of each sort, up to its arguments.
#[rustfmt::skip]
const COMMANDS: &[&str] = &[
    "\\g ", "\\gx ", "\\g", "\\gx", "\\o ", "\\out ", "\\w ", "\\write ", "\\d ", "\\gset ", "\\r ", "\\! ", "\\copy ",
    "\\h", "\\sf+ ", "\\g\t(", "\\gx\x0b(a ",
];

pub fn short_families() -> Vec<Box<dyn Family>> {
    let mut families = vec![
        Sequences::of_bytes("all bytes", 0..=255, 3),
        Sequences::of_bytes("bounds of UTF-8", BOUNDS.into_iter(), 4),
        Sequences::of("full alphabet", "", FULL, 4),
        Sequences::of("rest of the alphabet", "", REST, 4),
        Sequences::of("common alphabet", "", &FULL[..24], 5),
        Sequences::of(
            "byte-order mark",
            "\u{feff}",
            &["\u{feff}", " ", "\n", "a", ";", "'", "$", "\\"],
            5,
        ),
        Sequences::of(
            "statement ends",
            "",
            &[
                "(", ")", ";", "\\;", "a", " ", "\\g\n", "\\d\n", "'", "--\n",
            ],
            6,
        ),
    ];
    families.extend(numbers());
    families.extend(quotes());
    families.extend(psql_arguments());
    families
}

fn numbers() -> Vec<Box<dyn Family>> {
    vec![
        Sequences::of(
            "numbers",
            "",
            &["0", "1", "_", ".", "e", "E", "+", "-", "x", "b", "o", "$"],
            6,
        ),
        Sequences::of(
            "long numbers",
            "",
            &["0", "9", "_", ".", "e", "+", "x", "f"],
            7,
        ),
        Sequences::of(
            "numbers with a base",
            "0",
            &["b", "O", "x", "X", "0", "9", "_", "a", "g", ".", "é"],
            5,
        ),
        Sequences::of(
            "parameters",
            "$",
            &["0", "9", "_", "a", "$", ".", "é", " "],
            6,
        ),
    ]
}

fn quotes() -> Vec<Box<dyn Family>> {
    vec![
        Sequences::of(
            "strings",
            "",
            &["'", "\"", "\\", "e", "u", "&", "n", "x", "b", "a", "é", ";"],
            6,
        ),
        Sequences::of("escape strings", "e'", &["'", "\\", "a", "é", "\n", ";"], 7),
        Sequences::of("Unicode escapes", "U&", &["'", "\"", "\\", "a", ";"], 8),
        Sequences::of(
            "dollar quotes",
            "",
            &["$", "a", "b", "1", "é", " ", "'", ";"],
            7,
        ),
        Sequences::of("dollar quotes with a tag", "$ab$", &["$", "a", "b", "c"], 9),
        Sequences::of("dollar quotes without a tag", "$", &["$", "a", ";"], 11),
        Sequences::of("comments", "", &["/", "*", "-", "\n", "a"], 9),
        Sequences::of("nested comments", "/*", &["/", "*", ";"], 12),
    ]
}

fn psql_arguments() -> Vec<Box<dyn Family>> {
    let mut families: Vec<_> = COMMANDS
        .iter()
        .map(|command| {
            Sequences::of(
                &format!("arguments of {}", command.escape_debug()),
                command,
                ARGUMENT,
                5,
            )
        })
        .collect();
    let options = ["'", "\"", "`", "\\", ")", "|", " ", "\n", "a", "é"];
    families.push(Sequences::of("options of \\g", "\\g (", &options, 6));
    // Whether the pipe takes the backslash after it tells whether the option list was closed.
    families.push(Sequences::between(
        "options of \\g before a pipe",
        "\\g (",
        &options,
        6,
        " |b\\c;",
    ));
    let escapes = ["'", "\\", "0", "5", "1", "x", "2", "9", ")", "a"];
    families.push(Sequences::between(
        "escapes in options of \\g",
        "\\g ('",
        &escapes,
        6,
        "' |b\\c;",
    ));
    families.push(Sequences::between(
        "escapes in options of \\gx",
        "\\gx (a='\\",
        &escapes,
        5,
        "' |b\\c;",
    ));
    let letters = [
        "g", "x", "r", "o", "w", "h", "e", "f", "s", "v", "+", "!", " ",
    ];
    families.push(Sequences::of("short command words", "\\", &letters, 5));
    families
}
