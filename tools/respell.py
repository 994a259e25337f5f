#!/usr/bin/env python3
"""Respells the project's own definitions and lemmas: words in snake case, as the library has them.

usage: python3 tools/respell.py            at the top: rewrites crates/, once, behind the move to the newer Rattle
       python3 tools/respell.py --list     prints each old name with its new one, and the names that would fall together

A name is the project's own where an .antt file of the project declares it. What Rattle makes of a function's code, what the library
declares, strings and comments stay as they are.
"""
import os
import re
import sys

TOP = os.path.dirname(os.path.dirname(os.path.abspath(__file__)))
WORD = r"[^\s(){}\[\],;:.λ∀«»\"|]+"
TOKEN = re.compile(WORD)
SIGNED = re.compile(r"^(\s*)((?:pub |abbrev |unfoldable |ruleset |opaque )*)(" + WORD + r")((?:\s+\{[^{}]*\})*)\s+:\s")
FIELD = re.compile(r"^\s+(?:pub )?(" + WORD + r")\s+:\s")
RULES = re.compile(r"^(?:pub )?ruleset (" + WORD + ")")
# names that Rattle made of a function's code in the older form: they are no words of the project's
MADE = re.compile(r"^(Need-.*|returns(-\d+)?|.*-requires(-\d+)?|.*-reads(-\d+)?|same-length(-\d+)?|invariant-loop.*|decreases-.*|"
                  r"enum-(told|known).*|overflow-.*|slice-bounds-.*|loop-(init|preserved|smaller).*|part-.*)$")
# Where the new spelling of a lemma is a definition's already, the lemma ends in _lem.
APART = {"wrongSize": "wrong_sizes"}
LEMMAS = {"back-in", "first-of", "kind-at", "no-part", "passed-by", "up-to", "value-at"}
# lemmas that are spelled in snake case already, where a definition comes to be spelled so: in these files alone
HERE = {
    "entry_whole": ["state/specs/Laws/Keeps/Whole.antt"],
    "first_cell": ["screen/specs/Laws/Found/Cell.antt", "screen/proofs/screening/finds_heights/Proof.antt"],
    "has_words": ["lines/specs/Laws/Numbers.antt", "lines/proofs/numbers/has_words/Proof.antt"],
    "one_code": ["acts/proofs/Acting.antt"],
    "rest_in": ["screen/specs/Laws/Walk/Walking.antt"],
    "rows_then": ["state/specs/Laws/Lookup.antt", "state/proofs/lookup/node_rows_in/Proof.antt"],
}
# parameters, fields and local names that no line declares by itself
MORE = ["open-calls", "tokenMade", "outsideBodies", "nameSizes'", "valueSizes'", "returnAt", "no-fix", "toldStep", "named-call",
        "named-assign", "noForm", "numberForm", "wholeToken", "treeDone", "whole-tree", "tree-facts", "most-passed", "most-refused",
        "most-spent", "most-lost"]
ALIAS = re.compile(r"\b([A-Z]\w*)·(\w+)")
STRING = re.compile(r'"(?:\\.|[^"\\])*"')


def files(suffixes):
    for folder, dirs, names in os.walk(os.path.join(TOP, "crates")):
        dirs[:] = sorted(d for d in dirs if d not in ("out", "target"))
        for n in sorted(names):
            if n.endswith(suffixes):
                yield os.path.join(folder, n)


def code(line):
    """A line of antt without its comment."""
    m = re.search(r"(^|\s)--(\s|$)", line)
    return (line, "") if not m else (line[:m.start()], line[m.start():])


def snake(w):
    w = w.replace("-", "_")
    w = re.sub(r"([a-z0-9])([A-Z])", r"\1_\2", w)
    w = re.sub(r"([A-Z])([A-Z][a-z])", r"\1_\2", w)
    return w.lower()


def declared():
    """The names that the project declares, each with the files that do."""
    own = {}
    for p in files(".antt"):
        made = p.endswith("/Proof.antt")
        with open(p, encoding="utf-8") as f:
            for line in f:
                text, _ = code(line)
                m = SIGNED.match(text) or FIELD.match(text)
                if m:
                    w = m.group(3) if m.re is SIGNED else m.group(1)
                else:
                    m = RULES.match(text)
                    if not m:
                        continue
                    w = m.group(1)
                if made and MADE.match(w):
                    continue
                own.setdefault(w, set()).add(p)
    return own


def borrowed():
    """The names that the project takes from the library."""
    got = set()
    for p in files((".antt", ".rt")):
        with open(p, encoding="utf-8") as f:
            for line in f:
                m = re.match(r"\s*(?:pub )?(?:ghost )?use Rattle\.(\w+)\..*\{(.*)\}", line)
                if m and not os.path.isdir(os.path.join(TOP, "crates", m.group(1))):
                    got.update(x.strip().split(" as ")[0] for x in m.group(2).split(","))
    return got


def table():
    own, lib = declared(), borrowed()
    new = {}
    for w in own:
        if w in lib or not re.match(r"[a-z]", w) or re.search(r"[^\w'₀-₉-]", w):
            continue
        s = APART.get(w, snake(w))
        if s != w:
            new[w] = s
    new.update((w, snake(w)) for w in MORE)
    camel = {s for w, s in new.items() if "-" not in w}
    for w in new:
        if w in LEMMAS or ("-" in w and new[w] in camel):
            new[w] += "_lem"
    return own, lib, new


def functions():
    """The names of the functions of src/: a proof that cites a call keeps their spelling."""
    got = set()
    for p in files(".rt"):
        with open(p, encoding="utf-8") as f:
            got.update(re.findall(r"\bfn (\w+)", f.read()))
    return got


def turn(text, new, rust, path):
    """The words of one piece of code, with no comment in it."""
    local = {w for w, ps in HERE.items() if any(path.endswith("/" + p) for p in ps)}
    out, at = [], 0
    for s in [*STRING.finditer(text), None]:
        piece = text[at:s.start() if s else len(text)]

        def word(m):
            w = m.group(0)
            field = piece[max(0, m.start() - 1):m.start()] == "."
            if w in local and not field:
                return w + "_lem"
            if w not in new:
                return w
            if field and snake(w) in rust:
                return snake(w)
            return new[w]

        piece = TOKEN.sub(word, piece)
        piece = ALIAS.sub(lambda m: snake(m.group(1)) + "_" + snake(m.group(2)), piece)
        out.append(piece + (s.group(0) if s else ""))
        at = s.end() if s else 0
    return "".join(out)


def turn_file(p, new, rust):
    with open(p, encoding="utf-8") as f:
        lines = f.read().split("\n")
    for i, line in enumerate(lines):
        if p.endswith(".antt"):
            text, rest = code(line)
            lines[i] = turn(text, new, rust, p) + rest
        elif p.endswith(".edit"):
            m = re.match(r"(old|new): ", line)
            if m:
                lines[i] = m.group(0) + turn(line[m.end():], new, rust, p)
        else:
            m = re.search(r"(^|\s)//", line)
            text, rest = (line[:m.start()], line[m.start():]) if m else (line, "")
            lines[i] = turn(text, new, rust, p) + rest
    with open(p, "w", encoding="utf-8") as f:
        f.write("\n".join(lines))


def main(words):
    own, lib, new = table()
    if words == ["--list"]:
        back = {}
        for a, b in sorted(new.items()):
            print(a, b)
            back.setdefault(b, []).append(a)
        for b, a in sorted(back.items()):
            if len(a) > 1 or b in own or b in lib:
                print("together:", b, a, "(also as it is)" if b in own else "", "(the library's)" if b in lib else "")
        return
    rust = functions()
    for p in list(files((".antt", ".rt", ".edit"))):
        turn_file(p, new, rust)


if __name__ == "__main__":
    main(sys.argv[1:])
