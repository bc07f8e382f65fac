//! What the Rust lexer answers for a text, in the lines that our program prints.

use squawk_lexer::{Base, LiteralKind, Token, TokenKind, tokenize};
use std::io::Write;

/// The program takes no more bytes than this.
pub const MOST_BYTES: usize = 65_536;

/// All lines for a text, each ended by byte 10.
pub fn listing(input: &[u8]) -> Vec<u8> {
    let mut out = Vec::new();
    list(input, &mut out);
    out
}

/// Appends the lines for a text to `out`.
pub fn list(input: &[u8], out: &mut Vec<u8>) {
    if input.len() > MOST_BYTES {
        writeln!(out, "refused 13 {MOST_BYTES}").unwrap();
        return;
    }
    match std::str::from_utf8(input) {
        Ok(text) => list_tokens(text, out),
        Err(fault) => writeln!(out, "refused 2 {}", fault.valid_up_to()).unwrap(),
    }
}

fn list_tokens(text: &str, out: &mut Vec<u8>) {
    let mut place = 0;
    let mut count = 0;
    let mut ends = Ends::default();
    let mut tokens = tokenize(text).peekable();
    while let Some(token) = tokens.next() {
        write!(out, "token {place} {} ", token.len).unwrap();
        write_kind(token.kind, out);
        out.push(b'\n');
        place += token.len;
        count += 1;
        if let Some(end) = ends.pass(token, tokens.peek().is_none()) {
            writeln!(
                out,
                "end {} {} {} {} {}",
                end.start, end.len, end.cause, end.tokens, end.solid
            )
            .unwrap();
        }
    }
    writeln!(out, "total {} {count} {}", text.len(), ends.count).unwrap();
}

/// A statement that has ended.
struct End {
    start: u32,
    len: u32,
    cause: u8,
    tokens: u32,
    solid: u32,
}

/// The rule of ends: the parentheses open so far, and what has been passed since the last end.
#[derive(Default)]
struct Ends {
    depth: u32,
    start: u32,
    len: u32,
    tokens: u32,
    solid: u32,
    count: u32,
}

impl Ends {
    /// Passes a token; answers the statement that ends with it, if one does.
    fn pass(&mut self, token: Token, last: bool) -> Option<End> {
        self.len += token.len;
        self.tokens += 1;
        self.solid += u32::from(is_solid(token.kind));
        let cause = self.cause(token, last)?;
        let end = End {
            start: self.start,
            len: self.len,
            cause,
            tokens: self.tokens,
            solid: self.solid,
        };
        self.start += self.len;
        self.len = 0;
        self.tokens = 0;
        self.solid = 0;
        self.count += 1;
        Some(end)
    }

    fn cause(&mut self, token: Token, last: bool) -> Option<u8> {
        match token.kind {
            TokenKind::OpenParen => self.depth += 1,
            TokenKind::CloseParen => self.depth = self.depth.saturating_sub(1),
            TokenKind::Semi if token.len == 1 && self.depth == 0 => return Some(1),
            TokenKind::PsqlCommand { ends_query: true } => {
                self.depth = 0;
                return Some(2);
            }
            _ => {}
        }
        match (last, is_unterminated(token.kind)) {
            (false, _) => None,
            (true, false) => Some(3),
            (true, true) => Some(4),
        }
    }
}

fn is_solid(kind: TokenKind) -> bool {
    !matches!(
        kind,
        TokenKind::Whitespace | TokenKind::LineComment | TokenKind::BlockComment { .. }
    )
}

fn is_unterminated(kind: TokenKind) -> bool {
    match kind {
        TokenKind::BlockComment { terminated } | TokenKind::QuotedIdent { terminated, .. } => {
            !terminated
        }
        TokenKind::Literal { kind } => match kind {
            LiteralKind::Str { terminated }
            | LiteralKind::NationalStr { terminated }
            | LiteralKind::ByteStr { terminated }
            | LiteralKind::BitStr { terminated }
            | LiteralKind::DollarQuotedString { terminated }
            | LiteralKind::UnicodeEscStr { terminated }
            | LiteralKind::EscStr { terminated } => !terminated,
            LiteralKind::Int { .. } | LiteralKind::Numeric { .. } => false,
        },
        _ => false,
    }
}

/// A kind's name and its fields in the order of their declaration.
fn write_kind(kind: TokenKind, out: &mut Vec<u8>) {
    match kind {
        TokenKind::Literal { kind } => write_literal(kind, out),
        TokenKind::PsqlCommand { ends_query } => flag(out, "PsqlCommand", ends_query),
        TokenKind::BlockComment { terminated } => flag(out, "BlockComment", terminated),
        TokenKind::PositionalParam {
            trailing_junk_start,
        } => {
            write!(out, "PositionalParam {trailing_junk_start}").unwrap();
        }
        TokenKind::QuotedIdent {
            terminated,
            uescape,
        } => {
            flag(out, "QuotedIdent", terminated);
            write!(out, " {}", u8::from(uescape)).unwrap();
        }
        // A kind without fields is printed by its name.
        plain => write!(out, "{plain:?}").unwrap(),
    }
}

fn write_literal(kind: LiteralKind, out: &mut Vec<u8>) {
    match kind {
        LiteralKind::Int {
            base,
            empty_int,
            trailing_junk_start,
        } => {
            let base = number_of(base);
            write!(
                out,
                "Int {base} {} {trailing_junk_start}",
                u8::from(empty_int)
            )
            .unwrap();
        }
        LiteralKind::Numeric {
            empty_exponent_start,
            trailing_junk_start,
        } => {
            let exponent = match empty_exponent_start {
                Some(start) => start.to_string(),
                None => "-".to_string(),
            };
            write!(out, "Numeric {exponent} {trailing_junk_start}").unwrap();
        }
        LiteralKind::Str { terminated } => flag(out, "Str", terminated),
        LiteralKind::NationalStr { terminated } => flag(out, "NationalStr", terminated),
        LiteralKind::ByteStr { terminated } => flag(out, "ByteStr", terminated),
        LiteralKind::BitStr { terminated } => flag(out, "BitStr", terminated),
        LiteralKind::DollarQuotedString { terminated } => {
            flag(out, "DollarQuotedString", terminated);
        }
        LiteralKind::UnicodeEscStr { terminated } => flag(out, "UnicodeEscStr", terminated),
        LiteralKind::EscStr { terminated } => flag(out, "EscStr", terminated),
    }
}

fn number_of(base: Base) -> u8 {
    match base {
        Base::Binary => 2,
        Base::Octal => 8,
        Base::Decimal => 10,
        Base::Hexadecimal => 16,
    }
}

fn flag(out: &mut Vec<u8>, name: &str, value: bool) {
    write!(out, "{name} {}", u8::from(value)).unwrap();
}
