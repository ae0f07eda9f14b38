#!/usr/bin/env python3
"""Brings the names of this repository's own definitions and lemmas to the spelling of today's Rattle.

usage: python3 tools/respell.py [FOLDER]

Run at the top of a checkout, after the kit's port.py. Words go to snake case, facts and types to upper camel case; a dash
stays only where it joins the names of two definitions, as in `length-uleb`. Names from Rust code, names that Rattle makes
(goals and their facts), strings, file names and prose stay. It stops, with nothing written, where two names would fall
together; run again, it changes nothing.
"""
import os
import re
import sys

ROOT = os.path.join(sys.argv[1] if len(sys.argv) > 1 else ".", "crates")
NAME = r"[^\s(){}\[\].,;:\"«»⌜⌝|=`]+"
SIGNATURE = re.compile(r"^(abbrev |unfoldable )?(pub )?(" + NAME + r") : (.*)$")
MEMBER = re.compile(r"^  (?:pub )?(" + NAME + r") : ")
# In a module with parameters, or below a `where`.
INNER = re.compile(r"^ +(?:abbrev |unfoldable )?(?:pub )?(" + NAME + r") : ")
TYPE = re.compile(r"^(?:pub )?(data|record) (" + NAME + r")")
IMPORT = re.compile(r"^(?:ghost )?use (\S+?)(?: as (" + NAME + r"))?;?$")
# Names that another definition of theirs would fall together with, or that say more in other words.
BY_HAND = {
    "put-each₂": "put_each_two",
    "getD-through": "get_or_through",
    # the lemma of a definition has `_lem` after its name
    "write-in": "write_in_lem",
    "first-word": "first_word_lem",
    # the library has `bit_or` and `bit_and`: these are lemmas on `bit` of them
    "bit-or": "bit-or",
    "bit-and": "bit-and",
}
# The same, where the definition still has its older name.
BESIDE = {"goes_on": ("goesOn", "goes_on_lem")}
# Functions and fields of Rust code whose names a definition now shares: in clauses and proofs only the definition is meant.
SHARED = "max_len right_origin is_hex is_hex_digit is_digit wanted_by is_open ends_here starts_here".split()
# Names of the library that lemmas of this repository are joined to by a dash.
LIBRARY = "length take drop append reverse map sum cond div mod".split()


def files(ending):
    for folder, dirs, names in os.walk(ROOT):
        dirs[:] = sorted(d for d in dirs if d != "out")
        for name in sorted(names):
            if name.endswith(ending):
                yield os.path.join(folder, name)


def read(path):
    with open(path, encoding="utf-8") as f:
        return f.read()


def declared(text):
    """The names that a file declares, each with its kind: word, lemma, type, member of a record, inner."""
    inside = None
    for line in text.split("\n"):
        kind = TYPE.match(line)
        if kind:
            inside = kind.group(1)
            yield kind.group(2), "type"
            continue
        member = MEMBER.match(line)
        if inside and member:
            yield member.group(1), "member" if inside == "record" else "word"
            continue
        signature = SIGNATURE.match(line)
        if signature:
            inside = None
            if not signature.group(4).startswith(("goal.", "given.")):
                yield signature.group(3), "word" if signature.group(1) else "lemma"
            continue
        inner = INNER.match(line)
        if inner and not inside:
            yield inner.group(1), "inner"
            continue
        if line and not line.startswith(" "):
            inside = None


def snake(part):
    return re.sub(r"(?<=[a-z0-9])([A-Z])", lambda m: "_" + m.group(1).lower(), part)


def respelled(name, kind, words):
    if name in BY_HAND:
        return BY_HAND[name]
    parts = name.split("-")
    if "" in parts:
        return name
    if name[0].isupper():
        return "".join(p[:1].upper() + p[1:] for p in parts)
    parts = [snake(p) for p in parts]
    joins = [kind in ("lemma", "inner") and a in words and b in words for a, b in zip(parts, parts[1:])]
    if kind == "inner" and not all(joins):
        return "_".join(parts)
    joined = parts[0]
    for part, join in zip(parts[1:], joins):
        joined += ("-" if join else "_") + part
    return joined


def code_spans(text, comment):
    """The pieces of a text, each with whether names in it are names of the code: no comments, no strings."""
    for piece in re.split(r'(' + comment + r'[^\n]*|b?"(?:[^"\\]|\\.)*")', text):
        yield piece, not piece.startswith((comment, '"', 'b"'))


def modules(text):
    found = set()
    for line in text.split("\n"):
        m = IMPORT.match(line)
        if m and "{" not in m.group(1):
            found.add(m.group(2) or m.group(1).split(".")[-1])
    return found - {"goal", "given", "need"}


def turn(text, comment, names, members):
    known = modules(text)
    out = []
    for piece, code in code_spans(text, comment):
        if not code:
            if piece.startswith(comment):
                piece = re.sub(r"`(" + NAME + r")`", lambda m: "`" + names.get(m.group(1), m.group(1)) + "`", piece)
            out.append(piece)
            continue
        made, at = [], 0
        for m in re.finditer(NAME, piece):
            made.append(piece[at:m.start()])
            name, before = m.group(0), piece[:m.start()]
            if before.endswith("."):
                q = re.search(r"(" + NAME + r")\.$", before)
                path = q is not None and q.group(1) in known
                made.append((names if path else members).get(name, name))
            else:
                made.append(names.get(name, name))
            at = m.end()
        made.append(piece[at:])
        out.append("".join(made))
    return "".join(out)


def main():
    kinds, where = {}, {}
    for path in files(".antt"):
        for name, kind in declared(read(path)):
            kinds.setdefault(name, set()).add(kind)
            where.setdefault(name, set()).add(path)
    words = {snake(n) for n, k in kinds.items() if k & {"word", "type"} and "-" not in n} | set(LIBRARY)
    names, members = {}, {}
    for name, kind in sorted(kinds.items()):
        for k in ("member", "lemma", "word", "type", "inner"):
            if k in kind:
                new = respelled(name, k, words)
                break
        if name in BESIDE and BESIDE[name][0] in kinds:
            new = BESIDE[name][1]
        if new == name:
            continue
        names[name] = new
        if "member" in kind:
            members[name] = new
    token = re.compile(NAME)
    clash = []
    for path in list(files(".antt")) + list(files(".rt")):
        have = set()
        for piece, code in code_spans(read(path), "--" if path.endswith(".antt") else "//"):
            if code:
                have |= set(token.findall(piece))
        seen = {}
        for name in have:
            new = names.get(name, name)
            if new in seen and name != seen[new] and new not in SHARED:
                clash.append((path, name, seen[new], new))
            seen[new] = name
    for name, new in names.items():
        if new in kinds and new not in names and new not in SHARED and {p.split("/crates/")[-1].split("/")[0] for p in where[name]} & {p.split("/crates/")[-1].split("/")[0] for p in where[new]}:
            clash.append(("a crate's own", name, new, new))
    if clash:
        for row in sorted(clash):
            print("falls together: %s: %s and %s, as %s" % row, file=sys.stderr)
        raise SystemExit(2)
    for path in list(files(".antt")) + list(files(".rt")) + list(files(".edit")):
        old = read(path)
        new = turn(old, "--" if path.endswith(".antt") else "//", names, members)
        if new != old:
            with open(path, "w", encoding="utf-8") as f:
                f.write(new)
    for name, new in sorted(names.items()):
        print(name, new)


main()
