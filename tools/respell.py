#!/usr/bin/env python3
"""Gives the repository's own definitions, lemmas, fields and constructors of antt the spelling of today's Rattle: words in snake case,
types and modules in camel case. What Rust declares, exported names, strings, inputs and outputs keep their names.

usage: respell.py [--list] FOLDER     FOLDER is the top of the repository; --list prints the table and what falls together, and writes nothing

It goes by whole words: a name is turned in each .antt file, in the clauses and `ghost use` items of each .rt file, in the wrong programs of
must-fail/ and in the code spans of README.md and docs/. A file that takes the same word from a library of the kit keeps the library's.
"""

import glob
import os
import re
import sys

WORD = r'[^\s(){}.;,@"«»]+'
DECLARED = re.compile(rf"(?m)^ *(?:(?:pub|abbrev|unfoldable|private) )*({WORD})(?: \{{[^{{}}\n]*\}})* :(?= |$)")
CONSTRUCTOR = re.compile(rf"(?m)^ *\| *({WORD}) :")
USE = re.compile(r"(?m)^[ \t]*(?:ghost )?(?:unfoldable )?(?:pub )?use ([^\s{;]+?)(?:\.?\{([^}]*)\})?(?: as \S+)?;?[ \t]*$")
# A clause of a .rt file: its braces may hold more of them.
CLAUSE = re.compile(r"\b(?:requires|ensures)\*?(?: \w+)? \{|\bghost(?: \w+)?:? ?\{|\bghost use [^;]*;")


# Definitions that were in snake case already, and what a name of the same words with dashes becomes (None: the lemma on it).
DEFINED = {"last_of": None, "to_table": None, "at_most": None, "in_range": None, "end_of": "line_at_end"}

# Lemmas that were in snake case already, on definitions that come to be called so.
LEMMAS = {"back_at": "back_at_lem", "cleared_at": "cleared_at_lem", "guard_number": "guard_number_lem", "scaled_at": "scaled_at_lem", "written_out": "written_out_lem"}


def spelled(name):
    words = re.sub(r"(?<=[a-z0-9])[A-Z]", lambda m: "_" + m[0].lower(), name)
    return words.replace("-", "_")


TYPES = {"Comes-to": "ComesTo", "First-of": "FirstOf"}


def wanted(name):
    if not re.fullmatch(r"[a-z][A-Za-z0-9_'′-]*[₀-₉]*", name):
        return False
    return spelled(name) != name


def files(top, *ends):
    for f in sorted(glob.glob(os.path.join(top, "crates", "**", "*"), recursive=True)):
        if f.endswith(ends) and os.path.isfile(f) and not re.search(r"/crates/[^/]+/out/", f):
            yield f


def read(path):
    with open(path, encoding="utf-8") as f:
        return f.read()


def imports(text, own):
    """The words that a file takes from the kit, and those that it takes from this repository."""
    kit, here = set(), set()
    for path, items in USE.findall(text):
        steps = path.split(".")
        mine = steps[0] == "Rattle" and len(steps) > 1 and steps[1] in own
        names = [it.strip().split(" as ")[0].strip() for it in (items or "").split(",")]
        (here if mine else kit).update(it for it in names if it)
    return kit, here


def table_of(top, own):
    names = {}
    for f in files(top, ".antt"):
        text = re.sub(r"(?m)(^|\s)--.*$", r"\1", read(f))
        proof = f.endswith("/Proof.antt")
        for m in list(DECLARED.finditer(text)) + list(CONSTRUCTOR.finditer(text)):
            rest = text[m.end() :].lstrip()
            if proof and re.match(r"tie\.(Need-|invariant|decreases)", rest):
                continue
            if wanted(m[1]):
                names.setdefault(m[1], set()).add(f)
    return names


def turn(text, table):
    return re.sub(WORD, lambda m: table.get(m[0], m[0]), text)


def turn_antt(text, table, is_walk):
    # In the proof of a function a word behind a dot may be a step of the code, which is called as Rust calls it.
    def one(m):
        new = table.get(m[0], m[0])
        dotted = text[m.start() - 1 : m.start()] == "."
        return spelled(m[0]) if new != m[0] and is_walk and dotted and m[0] not in TYPES else new

    return re.sub(WORD, one, text)


def turn_rt(text, table):
    out, at = [], 0
    while True:
        m = CLAUSE.search(text, at)
        if not m:
            return "".join(out + [text[at:]])
        end = m.end()
        if m[0].endswith("{"):
            depth = 1
            while depth:
                depth += {"{": 1, "}": -1}.get(text[end], 0)
                end += 1
        out += [text[at : m.start()], turn(text[m.start() : end], table)]
        at = end


def turn_spans(text, table):
    return re.sub(r"`[^`\n]+`", lambda m: turn_words(m[0], table), text)


def turn_words(text, table):
    return re.sub(r"[^\s(){}.;,@\"«»`]+", lambda m: table.get(m[0], m[0]), text)


def main(argv):
    top = argv[-1]
    own = set(os.listdir(os.path.join(top, "crates")))
    names = table_of(top, own)
    table = {it: spelled(it) for it in names} | TYPES
    # A lemma on a definition of the same words gives way.
    camel = {table[it] for it in table if "-" not in it}
    for it in table:
        if "-" in it and (table[it] in camel or table[it] in DEFINED):
            table[it] = DEFINED.get(table[it]) or table[it] + "_lem"
    kit = {}
    tokens = {}
    for f in files(top, ".antt", ".rt"):
        text = read(f)
        taken, _ = imports(text, own)
        for it in taken & set(table):
            kit.setdefault(it, []).append(f)
        for it in set(re.findall(WORD, re.sub(r"(?m)(^|\s)(--|//).*$", r"\1", text))):
            tokens.setdefault(it, []).append(f)
    if "--list" in argv:
        new = {}
        for it in table:
            new.setdefault(table[it], []).append(it)
        for it, olds in sorted(new.items()):
            if len(olds) > 1:
                print("together:", it, olds)
            if it in tokens:
                print("there:", it, olds, len(tokens[it]), tokens[it][:3])
        for it, at in sorted(kit.items()):
            print("kit:", it, len(at), at[:2])
        print(len(table))
        return 0
    for f in files(top, ".antt"):
        text = read(f)
        mine = dict(table)
        taken, _ = imports(text, own)
        for it in taken:
            mine.pop(it, None)
        new = re.sub(rf"(?<!\.)\b({'|'.join(LEMMAS)})(?![\w.'-])", lambda m: LEMMAS[m[1]], text)
        new = turn_antt(new, mine, f.endswith("/Proof.antt"))
        if new != text:
            with open(f, "w", encoding="utf-8") as out:
                out.write(new)
    for f in files(top, ".rt"):
        text = read(f)
        mine = dict(table)
        taken, _ = imports(text, own)
        for it in taken:
            mine.pop(it, None)
        new = turn_rt(text, mine)
        if new != text:
            with open(f, "w", encoding="utf-8") as out:
                out.write(new)
    for f in files(top, ".edit"):
        text = read(f)
        new = turn(text, table)
        if new != text:
            with open(f, "w", encoding="utf-8") as out:
                out.write(new)
    for f in [os.path.join(top, "README.md")] + glob.glob(os.path.join(top, "docs", "**", "*.md"), recursive=True):
        text = read(f)
        new = turn_spans(text, table)
        if new != text:
            with open(f, "w", encoding="utf-8") as out:
                out.write(new)
    return 0


if __name__ == "__main__":
    raise SystemExit(main(sys.argv[1:]))
