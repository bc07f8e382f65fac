//! psql commands: every word that the lexer knows, whole and damaged, with telling arguments.

use crate::Listed;
use std::collections::BTreeSet;

/// Words that end a query.
#[rustfmt::skip]
pub const ENDING: &[&str] = &[
    "g", "gx", "gdesc", "gexec", "gset", "crosstabview", "watch", "r", "reset", "parse", "close_prepared",
    "startpipeline", "syncpipeline", "sendpipeline", "endpipeline", "flush", "flushrequest", "getresults",
];

/// Words after which a pipe takes the rest of the line.
pub const PIPED: &[&str] = &["g", "gx", "o", "out", "w", "write"];

/// Words that take the whole line; `copy` does in any case of its letters.
pub const LINES: &[&str] = &[
    "!", "copy", "COPY", "Copy", "cOpY", "h", "help", "ef", "ev", "sf", "sf+", "sv", "sv+",
];

/// Words of no special reading.
#[rustfmt::skip]
pub const OTHERS: &[&str] = &[
    "a", "c", "d", "dt+", "e", "echo", "i", "if", "endif", "p", "print", "pset", "q", "set", "timing", "x", "bind",
    "prompt", "G", "GX", "R", "O", "W", "H", "EF", "gfoo", "copyright", "unrestrict", "restrict",
];

#[rustfmt::skip]
const TAILS: &[&str] = &[
    "",
    " ",
    "\n;",
    " a;b\n;c",
    " |a\\b\n;",
    "|a\\b;",
    "\t \x0b\x0c|a\\b\r;",
    " (a) |b\\c\n;",
    "(a)|b\\c;",
    " (a) b|c\\d;",
    " (a ')' |b\\c;",
    " (a \")\" |b)|c) |d\\e;",
    " (a `)` |b) |c\\d;",
    " (a ')\n;b",
    " (a\\b) |c;",
    " 'a\\'b;' \"c\\d\" `e\\f`\\g;",
    " 'a\\\n;b'",
    "\ta\r;b",
    "\\\\;a",
    "\\;a",
    ";a",
    "'a b'c;d",
];

/// Every word and every near miss of it, with each tail; the words themselves also within a statement.
pub fn commands() -> Listed {
    let mut texts = Vec::new();
    for word in ENDING.iter().chain(PIPED).chain(LINES).chain(OTHERS) {
        for tail in TAILS {
            texts.push(format!("select (1\\{word}{tail}").into_bytes());
        }
        for near in near_misses(word) {
            texts.extend(
                TAILS
                    .iter()
                    .map(|tail| format!("\\{near}{tail}").into_bytes()),
            );
        }
    }
    Listed {
        name: "psql commands",
        texts,
    }
}

/// The word, its fronts, and what one slip of the pen makes of it.
pub fn near_misses(word: &str) -> BTreeSet<String> {
    let mut misses = BTreeSet::from([word.to_string(), word.to_uppercase()]);
    for i in 0..word.len() {
        let (front, letter, back) = (&word[..i], &word[i..i + 1], &word[i + 1..]);
        misses.insert(front.to_string());
        misses.insert(format!("{front}{back}"));
        misses.insert(format!("{front}{letter}{letter}{back}"));
        misses.insert(format!("{front}{}{back}", letter.to_uppercase()));
        misses.insert(format!("{front}_{back}"));
    }
    for more in ["x", "+", "é", "|", "(", "'", ":", ";", "\0"] {
        misses.insert(format!("{word}{more}"));
    }
    misses
}
