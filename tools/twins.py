#!/usr/bin/env python3
"""twins.py FOLDER: pairs of functions in the sources below FOLDER whose bodies have nearly the same shape.

Names, numbers and texts count as alike, so that two functions which differ in a type, a size or a constant are found. A pair is
printed where both bodies have 14 words and signs or more, and 92 in 100 of them agree in their order.
"""

import difflib
import pathlib
import re
import sys

WORD = re.compile(r"[A-Za-z_]\w*|\d[\w]*|b?'[^']*'|b?\"[^\"]*\"|[^\s\w]")
KEPT = set("if else match for while loop let mut return in as self Some None Ok Err".split())


def shape(body):
    """The body's words and signs, with every name as `x` and every literal as `0`."""
    for word in WORD.findall(body):
        if re.match(r"\d|b?['\"]", word):
            yield "0"
        elif word in KEPT or not re.match(r"[A-Za-z_]", word):
            yield word
        else:
            yield "x"


def body_from(text, start):
    """What stands between the brace at `start` and its partner."""
    depth = 0
    for at in range(start, len(text)):
        depth += {"{": 1, "}": -1}.get(text[at], 0)
        if depth == 0:
            return text[start : at + 1]
    return text[start:]


def functions(folder):
    for path in sorted(folder.glob("*/src/**/*.rt")):
        text = re.sub(r"//[^\n]*", "", path.read_text())
        for head in re.finditer(r"(?m)^( *)(?:pub(?:\(crate\))? )?fn (\w+)", text):
            # The body begins at a brace that stands alone below the clauses, or at the end of the line of the signature.
            brace = re.compile(r"(?m)^%s\{|\)[^\n;{]*\{$" % head.group(1)).search(text, head.start())
            if brace:
                body = body_from(text, brace.end() - 1)
                yield "%s:%s" % (path.relative_to(folder), head.group(2)), list(shape(body))


def main():
    found = [f for f in functions(pathlib.Path(sys.argv[1])) if len(f[1]) >= 14]
    for i, (name, one) in enumerate(found):
        for other_name, other in found[i + 1 :]:
            if max(len(one), len(other)) > 1.3 * min(len(one), len(other)):
                continue
            alike = difflib.SequenceMatcher(None, one, other).ratio()
            if alike >= 0.92:
                print("%s ~ %s" % (name, other_name))


main()
