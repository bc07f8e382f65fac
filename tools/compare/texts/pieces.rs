//! Random texts put together from pieces that tell, some of them damaged.

use crate::psql::{ENDING, LINES, OTHERS, PIPED};
use crate::{Chance, Family};

pub struct Pieces {
    pub seed: u64,
}

#[rustfmt::skip]
const PIECES: &[&str] = &[
    // words, blanks, and the characters that end things
    "a", "select", "é", "𝄞x", "_b", "a$b", " ", "  ", "\t", "\n", "\r", "\r\n", "\x0b", "\x0c", "\0", "\u{feff}", ";", ";",
    ";\n", "(", ")", "(", ")", ",", ":", "::", "\\;", "\\:", "\\\\", "\\", "|", "!", "=", "<", ">", "~", "#", "?", "%", "^",
    "@", "[", "]", "{", "}", "*", "/", "-", "+", "&", ".", "..",
    // numbers and parameters
    "0", "1", "10", "1.", ".5", "1.5", "1..2", "1e", "1e+", "1e5", "1E-5", "1.e", "1_000", "1__0", "1_", "0x", "0xFf_1", "0xg",
    "0b", "0b01", "0b29", "0o", "0O17", "0o_7", "0_1", "00", "12abc", "1.5é", "$1", "$1a$", "$", "$0_",
    // strings and quoted names, closed and open
    "'a'", "'", "''", "'''", "'a;b'", "'\\'", "E'\\''", "e'a\\\\'", "E'", "E'\\", "B'01'", "b'", "X'1f'", "x'", "N'a'", "n'",
    "U&'a'", "u&'", "U&\"a\"", "u&\"", "U&", "u&a", "\"a\"", "\"", "\"\"", "\"a;\"\"b\"", "eb", "nx", "ub",
    // dollar quotes
    "$$", "$$a;b$$", "$a$", "$ab$", "$a$x;$ab$y$a$", "$é$", "$é$a$é$", "$1$", "$a", "$$a$",
    // comments
    "--", "-- a;b\n", "--a\r", "/*", "*/", "/**/", "/*/", "/* a; */", "/*/**/*/", "//", "**",
    // arguments of psql commands
    "'a b'", "'a\\'b'", "'\\051'", "'\\x29'", "'\\n'", "'a)'", "'a)'''", "\"a)\"", "`a)`", "`", "`a\\b`", "(a)", "(a b)",
    "(a 'b)", " |", "|a\\b", "(format=csv) |c",
];

impl Family for Pieces {
    fn name(&self) -> &str {
        "random pieces"
    }

    fn count(&self) -> Option<u64> {
        None
    }

    fn write(&self, number: u64, out: &mut Vec<u8>) {
        let mut chance = Chance::new(self.seed, number);
        let most = if chance.once_in(16) { 80 } else { 12 };
        for _ in 0..1 + chance.below(most) {
            let start = out.len();
            add_piece(&mut chance, out);
            if chance.once_in(8) {
                damage(&mut chance, start, out);
            }
        }
    }
}

/// A piece, or a psql command's word and often a blank after it.
fn add_piece(chance: &mut Chance, out: &mut Vec<u8>) {
    if !chance.once_in(5) {
        out.extend_from_slice(chance.one_of(PIECES).as_bytes());
        return;
    }
    let words = chance.one_of(&[ENDING, PIPED, PIPED, LINES, OTHERS]);
    out.push(b'\\');
    out.extend_from_slice(chance.one_of(words).as_bytes());
    out.extend_from_slice(
        chance
            .one_of(&[" ", " ", "\t", "", "\n", " (", "(", " |"])
            .as_bytes(),
    );
}

/// Drops, doubles, swaps or turns the case of one character of the piece that starts at `start`.
fn damage(chance: &mut Chance, start: usize, out: &mut Vec<u8>) {
    let piece = String::from_utf8(out.split_off(start)).expect("a piece is UTF-8");
    let mut characters: Vec<char> = piece.chars().collect();
    if !characters.is_empty() {
        let i = chance.below(characters.len());
        match chance.below(4) {
            0 => drop(characters.remove(i)),
            1 => characters.insert(i, characters[i]),
            2 => characters.swap(i, 0),
            _ => characters[i] = turned_case(characters[i]),
        }
    }
    out.extend(characters.into_iter().collect::<String>().into_bytes());
}

fn turned_case(letter: char) -> char {
    if letter.is_ascii_lowercase() {
        letter.to_ascii_uppercase()
    } else {
        letter.to_ascii_lowercase()
    }
}
