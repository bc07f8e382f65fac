//! Scripts like those that people and pg_dump write, whole and damaged, and texts about as long as the program takes.

use crate::{Chance, Family};

pub struct Scripts {
    pub seed: u64,
}

const NAMES: &[&str] = &[
    "account",
    "order_line",
    "\"Order\"",
    "public.item",
    "größe",
    "u",
    "e",
    "x1",
    "\"a\"\"b\"",
    "_t$1",
];

#[rustfmt::skip]
const VALUES: &[&str] = &[
    "1", "-2.50", "1e-3", "0xFF", "1_000_000", "NULL", "'it''s; so'", "E'tab\\t\\'q\\''", "B'0101'", "X'1FF'", "N'x'",
    "U&'d\\0061t\\+000061'", "$$a;'b'$$", "$q$;$$;$q$", "'2024-01-01'::date", "$1", "ARRAY[1,2]", "'multi\nline;'", "now()",
];

#[rustfmt::skip]
const BODIES: &[&str] = &[
    "BEGIN\n  NEW.changed := now();\n  RETURN NEW;\nEND;",
    "DECLARE\n  n int := 0; -- count; of rows\nBEGIN\n  EXECUTE 'select ''a;b''';\n  /* nested /* ; */ ; */\nEND;",
    "select $1 + $2;",
    "BEGIN\n  PERFORM $inner$ text; with $body dollars $inner$;\nEND",
];

#[rustfmt::skip]
const COMMANDS: &[&str] = &[
    "\\set x 'a b'\n", "\\echo `date` \"c\"\n", "\\copy t from 'f.csv' with (format csv); -- not read\n", "\\! ls; rm 'x\n",
    "\\connect - - - -\n", "\\if :x \\echo yes \\else\n", "\\endif\n", "\\d+ account\\d order_line\n", "\\pset format csv\n",
    "\\o |gzip > 'a\\b'\n", "\\o\n", "\\w out.sql\n", "\\sf my_function(int)\n", "\\h select; x\n", "\\unrestrict k3y\n",
];

#[rustfmt::skip]
const ENDINGS: &[&str] = &[
    ";\n", ";\n\n", ";\n", ";\r\n", " ;", "\\g\n", "\\gx\n", "\\gset pre_\n", " \\gexec\n", "\\g out.txt\n", "\\g |less\\;x\n",
    "\\g (format=csv border=2) |cat \\\\;\n", "\\gx (title='a)b' expanded) o\\\\ ;\n", "\\watch 2\n", "\\crosstabview\n",
    "\\gdesc\n", "\\; ", "\\r\n", "\\bind 1 'a' \\g\n", "",
];

impl Family for Scripts {
    fn name(&self) -> &str {
        "damaged scripts"
    }

    fn count(&self) -> Option<u64> {
        None
    }

    fn write(&self, number: u64, out: &mut Vec<u8>) {
        let mut chance = Chance::new(!self.seed, number);
        if chance.once_in(20) {
            out.extend_from_slice("\u{feff}".as_bytes());
        }
        for _ in 0..1 + chance.below(12) {
            add_part(&mut chance, out);
        }
        for _ in 0..chance.below(5) {
            damage(&mut chance, out);
        }
    }
}

/// A statement with its ending, a comment, or a psql command.
fn add_part(chance: &mut Chance, out: &mut Vec<u8>) {
    match chance.below(10) {
        0 => add(
            out,
            &[
                "-- Name: ",
                chance.one_of(NAMES),
                "; Type: TABLE; Owner: o'neil\n--\n\n",
            ],
        ),
        1 => add(
            out,
            &[
                "/* kept; ",
                chance.one_of(&["", "/* nested */", "-- "]),
                " */\n",
            ],
        ),
        2 | 3 => add(out, &[chance.one_of(COMMANDS)]),
        _ => {
            add_statement(chance, out);
            add(out, &[chance.one_of(ENDINGS)]);
        }
    }
}

fn add_statement(chance: &mut Chance, out: &mut Vec<u8>) {
    let name = chance.one_of(NAMES);
    match chance.below(6) {
        0 => add(
            out,
            &[
                "CREATE TABLE ",
                name,
                " (\n    id integer DEFAULT ",
                chance.one_of(VALUES),
                " NOT NULL,\n    b text\n)",
            ],
        ),
        1 => {
            let tag = chance.one_of(&["$$", "$body$", "$_$", "$Ü$"]);
            let body = chance.one_of(BODIES);
            add(
                out,
                &[
                    "CREATE FUNCTION ",
                    name,
                    "() RETURNS trigger\n    LANGUAGE plpgsql\n    AS ",
                    tag,
                    body,
                    tag,
                ],
            );
        }
        2 => {
            add(out, &["INSERT INTO ", name, " VALUES ("]);
            for _ in 0..1 + chance.below(4) {
                add(out, &[chance.one_of(VALUES), ", "]);
            }
            add(out, &[chance.one_of(VALUES), ")"]);
        }
        3 => add(
            out,
            &[
                "SELECT pg_catalog.set_config('search_path', ",
                chance.one_of(VALUES),
                ", false)",
            ],
        ),
        4 => add(
            out,
            &[
                "COPY ",
                name,
                " (a, b) FROM stdin;\n1\tit's\\n\n\\N\t\\\\x\n\\.",
            ],
        ),
        _ => {
            let operator = chance.one_of(&[
                "=", "<>", "~*", "@>", "||", "#>>", "!~", "^", "%", "->", "?&",
            ]);
            add(
                out,
                &[
                    "SELECT * FROM ",
                    name,
                    " WHERE a ",
                    operator,
                    " ",
                    chance.one_of(VALUES),
                ],
            );
        }
    }
}

fn add(out: &mut Vec<u8>, parts: &[&str]) {
    for part in parts {
        out.extend_from_slice(part.as_bytes());
    }
}

/// Takes bytes out, puts bytes in, swaps two, cuts the end off, or copies a stretch to another place. Where that splits a
/// character, the text is no longer UTF-8.
fn damage(chance: &mut Chance, text: &mut Vec<u8>) {
    if text.is_empty() {
        return;
    }
    let place = chance.below(text.len());
    let end = (place + 1 + chance.below(8)).min(text.len());
    match chance.below(7) {
        0 => drop(text.drain(place..end)),
        1 => text.truncate(place),
        2 => text.swap(place, end - 1),
        3 => {
            let stretch = text[place..end].to_vec();
            let target = chance.below(text.len());
            text.splice(target..target, stretch);
        }
        4 if chance.once_in(4) => text.insert(place, chance.next() as u8),
        _ => {
            let telling = chance.one_of(&[
                "'", "\"", "$", "$$", "\\", "(", ")", ";", "/*", "*/", "--", "\n", "\r", "`", "|",
                "\\g (",
            ]);
            text.splice(place..place, telling.bytes());
        }
    }
}

/// Texts whose lengths stand on both sides of the most that the program takes.
pub struct Sizes;

const FILLINGS: &[&str] = &[
    "a", ";", " ", "(", "a;", "é", "𝄞;", "'", "$a$", "/*", "\\d\n", "1.5e", "\\g\n",
];
const LEAST: usize = 65_534;
const LENGTHS: usize = 6;

impl Family for Sizes {
    fn name(&self) -> &str {
        "longest texts"
    }

    fn count(&self) -> Option<u64> {
        Some((FILLINGS.len() * LENGTHS) as u64)
    }

    /// A filling, repeated and cut off at the length, even within a character.
    fn write(&self, number: u64, out: &mut Vec<u8>) {
        let filling = FILLINGS[number as usize / LENGTHS].as_bytes();
        let length = LEAST + number as usize % LENGTHS;
        out.extend(filling.iter().copied().cycle().take(length));
    }
}
