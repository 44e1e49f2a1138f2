#!/usr/bin/env python3
"""Brings the repository's own definitions and lemmas to the spelling of today's Rattle: types in camel case, all else in snake case.

usage: python3 tools/respell.py        at the top of the repository, after the toolchain's own porting script

A dash stays only in a lemma that is named by two functions of lists, as in 'nth-put', and quotes only round reserved words. Answers keep
the names that Rattle gives their goals, functions of src/ and strings keep theirs. A name that would fall together with a word of the
library gets another. It refuses to go on where two names of one file would fall together. Run again, it changes nothing.
"""

import os
import re
import sys

WORD = re.compile(r"(?<![\w'-])[A-Za-z][\w'-]*")
DECLARED = re.compile(r"^\s*(?:abbrev\s+|unfoldable\s+)?(?:pub\s+)?(?:data\s+|record\s+)?([A-Za-z][\w'-]*)\s*:(?!=)\s*(.*)$")
# a type with parameters, which may go on in further lines
WITH_PARAMETERS = re.compile(r"^\s*(?:pub\s+)?(?:data|record)\s+([A-Za-z][\w'-]*)\s*[({]()")
QUOTED = re.compile(r"«([A-Za-z]\w*)»")
RESERVED = set("data record deriving module where use mod pub package open as unfoldable abbrev axiom unfold unfolding ruleset mutual infix infixl infixr elim let in do".split())
OF_LISTS = {"nth", "put", "length", "map", "take", "drop", "append", "set", "keep", "among", "has", "get_or"}
# names with no rule: lists' getD is get_or now, If-some and If-ok would be words of the library with other arguments, the rest are local
GIVEN = {
    "getD-nth": "get_or-nth",
    "nth-getD": "nth-get_or",
    "If-some": "WhereSome",
    "If-ok": "WhereOk",
    "Goes-on": "GoesOn",
    "Goes_on": "GoesOn",
    "cell-item": "cell_item",
    "at-o": "at_o",
    "b-inward": "b_inward",
    "z-in": "z_in",
    "zero-th": "zero_th",
}


def files():
    for top, dirs, names in os.walk("crates"):
        dirs[:] = sorted(d for d in dirs if d not in ("out", "must-fail", "data"))
        for name in sorted(names):
            if name.endswith((".antt", ".rt")):
                yield os.path.join(top, name)


def declared(path, text):
    """The names that a file of specs/ or proofs/ declares, but for those that Rattle gives."""
    if not path.endswith(".antt"):
        return
    for line in text.splitlines():
        found = DECLARED.match(line) or WITH_PARAMETERS.match(line)
        if not found or line.lstrip().startswith("--"):
            continue
        answers = os.path.basename(path) in ("Answers.antt", "Invariants.antt")
        if answers and re.match(r"goal\.|\(.*\) → goal\.", found[2]):
            continue
        yield found[1]


def respelled(name):
    parts = name.split("-")
    if name[0].isupper():
        return "".join(p[:1].upper() + p[1:] for p in parts)
    return ("-" if OF_LISTS.issuperset(parts) else "_").join(parts)


def unquoted(text):
    return QUOTED.sub(lambda m: m[0] if m[1] in RESERVED else m[1], text)


def own_is_some(path, text):
    """The base crate's is_some is has_value: the library has a word is_some, over its own Option."""
    own = path.startswith(os.path.join("crates", "base", "")) or re.search(r"use Rattle\.base\.specs\.Choices\.\{[^}]*\bis_some\b", text)
    return re.sub(r"(?<![\w'.-])is_some(?![\w'-])", "has_value", text) if own and path.endswith(".antt") else text


def outside_strings(path, text, turn):
    if not path.endswith(".rt"):
        return turn(text)
    return "".join(part if i % 2 else turn(part) for i, part in enumerate(re.split(r'(b?"(?:[^"\\\n]|\\.)*")', text)))


def main():
    texts = {}
    for path in files():
        with open(path, encoding="utf-8") as f:
            texts[path] = f.read()
    names = {}
    for path, text in texts.items():
        for name in declared(path, text):
            names.setdefault(name, set()).add(path)
    turned = {n: respelled(n) for n in names if "-" in n} | GIVEN
    for old, new in sorted(turned.items()):
        if old in names and new != old and new in names:
            together = names[old] & names[new]
            print(f"look: {old} and {new} are now one name, in {', '.join(sorted(together)) or 'different files'}")
            if together:
                return 1
    for path, text in texts.items():
        new = own_is_some(path, outside_strings(path, text, lambda t: unquoted(WORD.sub(lambda m: turned.get(m[0], m[0]), t))))
        if new != text:
            with open(path, "w", encoding="utf-8") as f:
                f.write(new)
    print(f"{sum(a != b for a, b in turned.items() if a in names)} names respelled")
    return 0


if __name__ == "__main__":
    sys.exit(main())
