#!/usr/bin/env python3
"""Respells the repository's own names of specs/ and proofs/ as today's Rattle spells names.

It was run once, at the top of the repository, on what the kit's port.py had left, before any edit by hand:

    python3 tools/respell.py --list    prints the table (old name, new name, what it names) and what falls together
    python3 tools/respell.py           turns crates/, docs/ and README.md by it, and prints what falls together

The rules:
  definitions, fields, constructors, variables   each dash becomes _
  types and facts                                upper camel case
  lemmas                                         a dash stays between two names: those that the lemma's own statement has,
                                                 be they of this repository or of std; a plain word is joined by _
  names that Rattle makes (goals, steps)         stay: they are no names of ours
The kit's own snake.py turns the text: clauses and ghost lines, files of specs/ and proofs/, and code spans of comments and
pages. Functions of src/, strings, inputs and outputs keep their names.
"""
import collections
import os
import re
import subprocess
import sys
import tempfile

KIT = os.path.dirname(subprocess.run(["rt", "doc"], capture_output=True, text=True, check=True).stdout.strip())
SNAKE = f"{KIT}/port/notes/2026-11-18-names-are-in-snake-case/snake.py"

NAME = r'[^\s(){}.;,@"«»]+'
DECLARATION = re.compile(rf"^( *)((?:pub |abbrev |unfoldable )*)({NAME}) (?:\{{[^{{}}\n]*\}} )*:(?= |$)(.*)$")
TYPE_HEAD = re.compile(rf"^( *)((?:pub |abbrev )*)(record|data) ({NAME})")
BOUND_NAME = re.compile(rf"(?:\blet |λ |λ \(|[({{])({NAME})(?= =| : |\.|(?: {NAME})* :)")
MADE_BY_RATTLE = re.compile(r"(loop|if|in|match|then|else|returns|overflow|bounds|invariant|decreases|nonzero)-")
GOALS = ("invariant-", "decreases-", "returns-", "overflow-", "bounds-", "loop-")
ANSWER_FILES = ("Answers.antt", "Invariants.antt", "Proof.antt")

# A type whose name has a symbol, and two lemmas that would get the name of a function.
BY_HAND = {"Open≤": "OpenAtMost", "options-end": "options_end_lem", "next-in": "next_in_lem"}
# Words of the older std that stand in names of lemmas.
STD_WORDS = {"getD": "get_or", "nth": "slice_get"}
# Words that are plain in the name of a lemma, also where its statement has a name like that.
PLAIN_WORDS = set("at by of on in one two three four none some more rest end first last nil all is".split())


def antt_files():
    for folder, inner, files in os.walk("crates"):
        inner[:] = [name for name in inner if name not in ("out", "data", "must-fail")]
        for name in sorted(files):
            if name.endswith(".antt"):
                yield os.path.join(folder, name)


def read(path):
    with open(path, encoding="utf-8") as file:
        return file.read()


def indent(line):
    return len(line) - len(line.lstrip())


def statement_at(lines, at, begin):
    """The statement that begins on a line and goes on below, indented more."""
    statement = begin
    for line in lines[at + 1:]:
        if not line.strip() or indent(line) <= indent(lines[at]):
            break
        statement += " " + line.strip()
    return statement


def declarations():
    """Each declared name with what it names, where, and its statement."""
    found = collections.defaultdict(list)
    for path in antt_files():
        lines = read(path).split("\n")
        holder = None  # the record or data whose members follow, with its indent
        in_module = False  # behind a `module _` with parameters, whose members are indented
        for at, line in enumerate(lines):
            in_module = in_module or (at > 0 and "module _" in lines[at - 1])
            if not line.strip() or line.lstrip().startswith("--"):
                continue
            if holder and indent(line) <= holder[1]:
                holder = None
            head = TYPE_HEAD.match(line)
            if head:
                holder = (head[3], indent(line))
                found[head[4]].append(("type", path, line))
                continue
            declared = DECLARATION.match(line)
            if not declared or declared[3].startswith(("let", "λ", "|", "--")):
                continue
            statement = statement_at(lines, at, declared[4])
            if re.match(r"\s*goal\.", statement):
                continue
            if holder:
                kind = "field" if holder[0] == "record" else "constructor"
            elif "abbrev" in declared[2] or "unfoldable" in declared[2]:
                kind = "definition"
            elif indent(line) and not in_module:
                kind = "local"
            else:
                kind = "lemma"
            found[declared[3]].append((kind, path, statement))
    return found


def variables():
    """The names with a dash that patterns, λ, let and signatures bind."""
    found = set()
    for path in antt_files():
        text = re.sub(r"--[^\n]*", "", read(path))
        found.update(match[1] for match in BOUND_NAME.finditer(text))
        for match in re.finditer(r"\(((?:[^\s(){}.;,:]+ )+):", text):
            found.update(match[1].split())
        for match in re.finditer(rf"(?m)^ *({NAME}) ([^=\n]*?) =(?: |$)", text):
            found.update(re.findall(NAME, match[2]))
    return {name for name in found if re.fullmatch(r"[a-z][a-z0-9]*-[a-z0-9-]*", name) and re.search(r"[a-z]-[a-z]", name)}


def lemma_name(name, own, statements):
    """A lemma's name: a dash between two names of its statement, else _."""
    words = name.split("-")
    text = " ".join(statements)
    said = set(re.findall(NAME, text)) | set(re.findall(r"\.(" + NAME + ")", text))
    new, at, after_name = "", 0, False
    while at < len(words):
        for to in range(len(words), at, -1):
            piece = "-".join(words[at:to])
            respelt = STD_WORDS.get(piece) or piece.replace("-", "_")
            ours = piece in own and own[piece] - {"lemma", "local"}
            stated = piece in said or respelt in said
            alone = to - at == 1
            if ours if not alone else (stated and piece not in PLAIN_WORDS or piece in STD_WORDS):
                is_name = True
                break
        else:
            to, respelt, is_name = at + 1, words[at], False
        if new:
            new += "-" if after_name and is_name else "_"
        new += respelt
        at, after_name = to, is_name
    return new


def respelt(name, own, statements):
    if name in BY_HAND:
        return BY_HAND[name]
    if name[0].isupper() and own[name] & {"type", "definition"}:
        return "".join(word[:1].upper() + word[1:] for word in name.split("-"))
    if own[name] - {"lemma"}:
        return name.replace("-", "_")
    return lemma_name(name, own, statements)


def imported_from_std():
    """The names that files import from elsewhere than this repository's crates, which keep their spelling."""
    ours = re.compile(r"Rattle\.(" + "|".join(os.listdir("crates")) + r")\.")
    found = set()
    for path in antt_files():
        for match in re.finditer(rf"(?m)^(?:pub )?use ({NAME}(?:\.{NAME})*)\.\{{([^}}]*)\}}", read(path)):
            if not ours.match(match[1] + "."):
                found.update(item.strip().split(" as ")[-1] for item in match[2].split(","))
    return found


def names():
    """What names what, and the table from old names to new ones."""
    declared = declarations()
    own = {name: {kind for kind, _, _ in places} for name, places in declared.items()}
    table = {}
    for name, places in declared.items():
        if name.startswith(GOALS) and all("/proofs/" in path and path.endswith(ANSWER_FILES) for _, path, _ in places):
            continue
        new = respelt(name, own, [statement for _, _, statement in places])
        if new != name:
            table[name] = new
    for name in variables():
        if name not in own and name not in table and not MADE_BY_RATTLE.match(name):
            table[name] = name.replace("-", "_")
    for name in imported_from_std() - set(own):
        table.pop(name, None)
    return own, table


def words_of_std():
    found = set()
    for page in ("std/specs/Prelude.antt", "core/specs/Prelude.antt", "std/proofs/Common.antt"):
        for match in re.finditer(r"\{([^}]*)\}", read(f"{KIT}/rattle/{page}")):
            found.update(word.strip().split(" as ")[-1] for word in match[1].split(","))
    return found


def names_of_source():
    found = collections.defaultdict(set)
    for folder, _, files in os.walk("crates"):
        if "/src" not in folder:
            continue
        crate = folder.split("/")[1]
        for name in files:
            text = re.sub(r"//[^\n]*", "", read(os.path.join(folder, name)))
            for match in re.finditer(r"\b(const|static|struct|enum|type|trait|fn|mod|ghost) (\w+)", text):
                found[match[2]].add((match[1], crate))
            for match in re.finditer(r"(?m)^ *(?:pub )?(?:ghost )?(\w+): ", text):
                found[match[1]].add(("field", crate))
            for match in re.finditer(r"[(,] *(?:mut )?(\w+): ", text):
                found[match[1]].add(("parameter", crate))
    return found


def print_collisions(own, table):
    std, source = words_of_std(), names_of_source()
    olds = collections.defaultdict(list)
    for name, new in sorted(table.items()):
        olds[new].append(name)
        if new in own:
            print(f"collision: {name} -> {new}: {new} is declared already, as {own[new]}")
        if new in std:
            print(f"collision: {name} -> {new}: a word of std")
        if new in source:
            kinds = "+".join(sorted(own.get(name, {"local"})))
            print(f"collision: {name} -> {new} ({kinds}): src/ has it: {sorted(source[new])}")
    for new, both in olds.items():
        if len(both) > 1:
            print(f"collision: {' and '.join(both)} all become {new}")
    for path in antt_files():
        words = set(re.findall(NAME, read(path)))
        for name, new in table.items():
            if name in words and new in words:
                print(f"collision: {path} has {name} and {new} already")


def turn(table):
    with tempfile.NamedTemporaryFile("w", suffix=".tsv", encoding="utf-8") as file:
        file.writelines(f"{name}\t{table[name]}\n" for name in sorted(table))
        file.flush()
        crates = [f"crates/{crate}/{part}" for crate in sorted(os.listdir("crates")) for part in ("src", "specs", "proofs")]
        crates = [folder for folder in crates if os.path.isdir(folder)]
        pages = [page for page in ("README.md", "docs", "examples") if os.path.exists(page)]
        snake = [sys.executable, SNAKE, "--table", file.name, "--only"]
        subprocess.run([*snake, "antt,rt", "--prose", "none", *crates], check=True)
        subprocess.run([*snake, "md", *pages], check=True)
    for folder, _, files in os.walk("crates"):
        if os.path.basename(folder) != "must-fail":
            continue
        for name in sorted(files):
            path = os.path.join(folder, name)
            text = read(path)
            new = re.sub(NAME, lambda word: table.get(word[0], word[0]) if "-" in word[0] else word[0], text)
            if new != text:
                print("edit:", path)
                with open(path, "w", encoding="utf-8") as file:
                    file.write(new)
    print(len(table), "names respelt")


def main():
    own, table = names()
    if "--list" in sys.argv:
        for name in sorted(table):
            print(f"{name}\t{table[name]}\t{'+'.join(sorted(own.get(name, {'local'})))}")
    print_collisions(own, table)
    if "--list" not in sys.argv:
        turn(table)


main()
