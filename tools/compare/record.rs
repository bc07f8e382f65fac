//! Records what the Rust lexer answers for some thousand telling texts, for the program `replay`.
//!   record FILE [SEED]
//! For each text: a line with its bytes in hexadecimal digits, the lines of its listing, and an empty line. A text is kept if it is
//! in the fixed list or shows something that none before it did. Fails if the kept ones do not show all that `wanted` names.

use feature::{Features, KNOWN, features};
use mend::Mend;
use std::io::Write;
use std::process::ExitCode;
use texts::{ENDING, Family, LINES, PIPED};

mod feature;
mod mend;

fn main() -> ExitCode {
    let mut arguments = std::env::args().skip(1);
    let file = arguments.next().expect("usage: record FILE [SEED]");
    let seed = arguments
        .next()
        .map_or(1, |word| word.parse().expect("a number"));
    let mut record = Record::default();
    for text in FIXED.iter().chain(PARTINGS).chain(EXAMPLES) {
        record.keep(text.as_bytes());
    }
    for family in texts::whole_families() {
        record.choose_from(&*family);
    }
    for family in texts::random_families(seed) {
        record.choose_from(&*family);
    }
    let missing: Vec<_> = wanted().difference(&record.shown).cloned().collect();
    if !missing.is_empty() {
        eprintln!("record: no text shows {missing:?}");
        return ExitCode::FAILURE;
    }
    std::fs::write(&file, &record.lines).expect("the file can be written");
    println!(
        "{} texts recorded, {} bytes",
        record.count,
        record.lines.len()
    );
    ExitCode::SUCCESS
}

/// Texts that tell something in every version of this program.
#[rustfmt::skip]
const FIXED: &[&str] = &[
    "", "\u{feff}", "\u{feff} ", "\u{feff}\u{feff}", "a;1e+", "1e+", "0b29", "1..10", "1. 10", "/*/", "/*/**/*/", "/**/*/",
    "$a$x$ab$y$a$", "$a$a$", "$a$b$a$", "$1a$", "$é$x$é$", "$$a$$b", "E'\\''", "'\\''", "e'\\", "a(;)b;c", "a\\;b;", ")(;", "());",
    "\\g (a) |x\\d", "\\g a\\d", "((a\\g\n;b", "((a\\r\n;b", "((a\\d\n;b", "a\\:b", "\\\\;a", "-- a\rb", "--", "-", "U&", "u&\"a\"\"b\";",
    "B'1''0'", "x'1f", "N'a'';'", "\"a;\"\"", "0x_f", "0x_g", "0b_1", "0o", "1_0_", "1__0", "1.5.2", ".5e-1x", "1.e", "$", "$9_$",
    "select 'a;b' as \"c;d\", $f$;$f$ /* ; */ -- ;\n;\n", "\\copy t from 'a;\\b\n;", "\\cOPY t\\;\r;", "\\o |a\\b\n\\o a\\b", "\\g (a ')' |b\\c;",
    "\\g (a \")\" |b\\c;", "\\g (a `)` |b\\c;", "\\g (a 'b\nc') |d;", "\\g (a \"b\rc\") |d;", "\\g (a `b\nc`) |d;", "\\g (a '\\)' |b\\c;",
    "\\g (a '\\\n) |b;", "\\gx (a)b) |c\\d;", "\\gx(a) |b\\c;", "\\g", "\\", "\\ a", "\\é a\\b", "\0", "\x7f;", "a\0b",
];

/// The inputs of docs/DIFFERENCES.md where PostgreSQL or psql reads otherwise and we do as the Rust does.
#[rustfmt::skip]
const PARTINGS: &[&str] = &[
    "E''\n'\\';a';b", "E'\\';a'", "E''\n''';a'", "create function g() returns int language sql begin atomic select 1; end;", "'a'\n'b'",
    "\\echo a\rb;\nc;", "a \\g '('format=csv) |c \\\\;b\nd;", "a \\g (format=csv)'\\0' |c \\\\;b\nd;", ":a$$;", ":E'\\';", "$E'\\';", "1e$$;",
    "0x$$;", "1_1$$;", "1e5$$;", "1e--;", "0o9", "X'1''f'", "\\foo a\\\\;b\nc;", "\\\\;a;", "a \\g (format=csv |c \\\\;b\nd;",
    "\\unrestrict a\\\\;b\nc;", "copy t from stdin;\nit's\n\\.\na;", "\\if false\na(\n\\endif\nb;",
];

/// The examples of docs/TOKENS.md, save those where we part from the Rust on purpose.
#[rustfmt::skip]
const EXAMPLES: &[&str] = &[
    "\u{feff} ", "a--b\nc", "--a\rb", "/*/", "/*/**/*/", "/**/*/", "a$1é", "\"a\"\"b\"c", "U&\"a\"", "u&a", "\"a\\\"b", "\"a",
    "'a''b'", "'\\''", "E'\\''", "E'\\\\''a'", "E'a\\", "we'a'", "n'a'X'f'b'1'", "u&'\\'", "'a'\n'b'", "$$a$b$$", "$$$",
    "$a$x$ab$y$a$", "$a$a$", "$a$x$A$", "$é$x$é$", "$1a$", "$1", "$", "$1$", "$a b$", "42", "1_000", "1_", "1__2", "007", "1a$",
    "4.", ".001", "1._5", "1.5_0e-1_0", "1e+", "1e_5", "1.e", "1e5x", "1..10", "1...5", "1.2.3", "0b29", "0xFF_g", "0o_17",
    "0x", "0xg", "0b_", "\\\\;", "a\\;b\\:c", "\\", "\\echo a;b\n;", "\\echo a\rb", "\\g a\\d", "\\G a", "\\echo 'a\\'b' c",
    "\\echo 'a;\n;", "\\echo \"\\\" \\d", "\\echo `\\` \\d", "\\! a\\b", "\\CoPy a\\b", "\\o |x\\d", "\\o a |x\\d", "\\o|x\\d",
    "\\g (a) |x\\d", "\\g (a |b) |x\\d", "\\g (a)b |x\\d", "\\g (a|x\\d", "\\g(a) |x\\d", "\\g (a')' |x\\d",
    "\\g (a'\\)' |x\\d", "\\g (a\")\" |x\\d", "\\g (a)'' |x\\d", "\\g (a'\\0519' |x\\d", "\\g (a'\\x029' |x\\d",
    "\\g (a'\\8' |x\\d", "\u{feff} ", "1e+", "0b29", "1..10", "/*/", "/*/**/*/", "$a$x$ab$y$a$", "$a$a$", "$1a$", "E'\\''",
    "'\\''", "\\g (a) |x\\d", "\\g a\\d",
];

/// The texts kept so far.
#[derive(Default)]
struct Record {
    count: u64,
    lines: Vec<u8>,
    shown: Features,
}

/// Of a family, the first texts and as many spread over the rest are looked at.
const LOOKED_AT: u64 = 6_000;
/// No longer text is kept, save the fixed ones.
const MOST_BYTES: usize = 240;

impl Record {
    fn choose_from(&mut self, family: &dyn Family) {
        let count = family.count().unwrap_or(10 * LOOKED_AT);
        let stride = (count / LOOKED_AT).max(1);
        let spread = (0..count).step_by(stride as usize);
        let mut text = Vec::new();
        for number in (0..count.min(LOOKED_AT)).chain(spread) {
            text.clear();
            family.write(number, &mut text);
            if text.len() <= MOST_BYTES {
                self.keep_if_new(&text);
            }
        }
    }

    fn keep_if_new(&mut self, text: &[u8]) {
        let listing = driver::listing(text);
        let features = features(text, str::from_utf8(&listing).unwrap());
        if !features.is_subset(&self.shown) && !parts_on_purpose(text, &listing) {
            self.keep(text);
        }
    }

    fn keep(&mut self, text: &[u8]) {
        let listing = driver::listing(text);
        self.shown
            .append(&mut features(text, str::from_utf8(&listing).unwrap()));
        self.count += 1;
        for byte in text {
            write!(self.lines, "{byte:02x}").unwrap();
        }
        self.lines.push(b'\n');
        self.lines.extend_from_slice(&listing);
        self.lines.push(b'\n');
    }
}

/// Whether an escape or two quotes in some option list change the listing; there our lexer parts from the Rust on purpose.
fn parts_on_purpose(text: &[u8], listing: &[u8]) -> bool {
    let differs = |mend, place| {
        mend::plainly(mend, text, place).is_some_and(|plain| driver::listing(&plain) != listing)
    };
    (0..text.len())
        .filter(|&place| text[place] == b'\\')
        .any(|place| differs(Mend::Escapes, place) || differs(Mend::EscapesAndQuotes, place))
}

/// What the recorded texts have to show.
fn wanted() -> Features {
    let mut all: Features = wanted_tokens()
        .into_iter()
        .chain(wanted_commands())
        .collect();
    all.extend(["1", "2", "3", "4"].map(|cause| format!("cause {cause}")));
    all.extend(["refused 2", "no token"].map(str::to_string));
    all
}

/// Every kind, with every value of its flags, bases and absent fields, and with and without junk.
fn wanted_tokens() -> Vec<String> {
    let mut all = Vec::new();
    let plain = "Unknown Whitespace Ident Semi Slash LineComment Minus Colon Dot DotDot Eq Gt And Lt Bang Plus Tilde Pound Question Or \
        Percent Caret Star Backtick At CloseBracket OpenBracket CloseCurly OpenCurly CloseParen OpenParen Comma";
    all.extend(plain.split_whitespace().map(str::to_string));
    all.extend(["Semi 2", "Colon 2", "PsqlCommand \\\\"].map(str::to_string));
    let flagged = "PsqlCommand BlockComment Str NationalStr ByteStr BitStr DollarQuotedString UnicodeEscStr EscStr";
    for kind in flagged.split_whitespace() {
        all.extend([format!("{kind} 0"), format!("{kind} 1")]);
    }
    all.extend(["0 0", "0 1", "1 0", "1 1"].map(|fields| format!("QuotedIdent {fields}")));
    for base in [2, 8, 10, 16] {
        all.extend([format!("Int {base} 0 junk"), format!("Int {base} 0 clean")]);
    }
    // Only a number with a base prefix can be empty, and then it has no junk.
    all.extend([2, 8, 16].map(|base| format!("Int {base} 1 clean")));
    for junk in ["junk", "clean"] {
        all.extend(
            ["Numeric -", "Numeric e", "PositionalParam $9"].map(|form| format!("{form} {junk}")),
        );
    }
    // A `$` before junk without a digit opens a dollar quote, or the junk has no second `$`.
    all.extend(["PositionalParam $ junk", "PositionalParam $ clean"].map(str::to_string));
    all
}

/// Every word that the lexer knows, read as it should be, and every way in which a command's arguments stop.
fn wanted_commands() -> Vec<String> {
    let mut all = Vec::new();
    all.extend(ENDING.iter().map(|word| format!("\\{word} ends a query")));
    all.extend(LINES.iter().map(|word| format!("\\{word} takes the line")));
    for word in PIPED {
        all.extend([
            format!("\\{word} takes a pipe"),
            format!("\\{word} takes a plain argument"),
        ]);
    }
    for word in ["g", "gx"] {
        all.extend([
            format!("\\{word} takes options"),
            format!("\\{word} takes a pipe after options"),
        ]);
    }
    all.extend(
        ["the end", "byte 10", "byte 13", "a backslash"]
            .map(|stop| format!("command before {stop}")),
    );
    for quote in ["'", "\"", "`"] {
        all.extend([
            format!("option {quote} closed"),
            format!("option {quote} open"),
        ]);
    }
    all.extend(KNOWN.iter().map(|word| format!("word {word}")));
    all
}
