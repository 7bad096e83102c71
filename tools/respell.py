#!/usr/bin/env python3
"""Spells the repository's own definitions and lemmas as this Rattle's library spells its own.

usage: python3 tools/respell.py [--check] [--table FILE]      at the top of the repository, after port.py

A word in camel case gets underscores: waitOn becomes wait_on, waitN-as becomes wait_n-as.
A dash of a lemma's name stays where it joins two names, and a plain word hangs on by an underscore: and-end becomes and_end,
length-bump stays. A name is what the repository or the library's Prelude declares, and the words for operators.
What stays: types and modules, operators, the names of Rust sources, the names that Rattle makes (those that a function's proof
file declares, and what stands behind a dot), strings.
A definition whose new spelling a lemma or a variable has gets it, and that one gets _lem behind (a line 'lemma:'); a lemma whose
new spelling is in use stays. A word of the library is not taken (a line 'other:').
Turned: .antt files, the clauses and ghost items of .rt files, code spans of their comments and of pages, the edits of must-fail/.
--check writes nothing. --table FILE writes the old and the new spellings.
"""

import os
import re
import subprocess
import sys

WORD = re.compile(r"""[^\s(){}.;,@"«»`]+""")
DECLARED = re.compile(r"^ *(?:(?:pub|abbrev|unfoldable|pattern) )*([^\s(){}.;,@\"«»`:|λ]+)(?: \{[^{}\n]*\})* : ", re.M)
RECORD = re.compile(r"^ *(?:pub )?(?:record|data) ", re.M)
CAMEL = re.compile(r"(?<=[a-z0-9])(?=[A-Z])")
OWN = re.compile(r"/proofs/.*/?(Proof|Answers|Invariants)\.antt$")
# the words for operators and constructors, which lemmas' names join as names
OPERATORS = set("add sub mul div rem pow eq ne le lt ge gt zero suc one true false nil cons mem not and or refl".split())
# names of the repository that would be words of the library
OTHER = {"countBy": "count_marked"}
# the folder of the toolchain, of which `rt doc` prints the first page
KIT = os.path.dirname(subprocess.run(["rt", "doc"], capture_output=True, text=True).stdout.strip())
PRELUDE = os.path.join(KIT, "rattle/std/specs/Prelude.antt")


def texts(top, *ends):
    for folder, dirs, files in os.walk(top):
        dirs[:] = sorted(d for d in dirs if d not in ("out", "target", ".git"))
        for f in sorted(files):
            if f.endswith(ends):
                yield os.path.join(folder, f)


def read(path):
    with open(path, encoding="utf-8") as f:
        return f.read()


def own_proof(path):
    return OWN.search("/" + path) is not None


def is_plain(word):
    return bool(re.match(r"[a-z]", word)) and "◌" not in word


def snake(word):
    """waitN-as: wait_n-as"""
    return re.sub(r"[A-Z]", lambda m: m[0].lower(), CAMEL.sub("_", word)) if is_plain(word) else word


def without_code(text):
    """an .antt text without comments and strings"""
    return re.sub(r'"(?:[^"\\\n]|\\.)*"|(?<!\S)--[^\n]*', " ", text)


def clauses(text):
    """The spans of an .rt text that are antt: clauses and ghost items."""
    spans = []
    for m in re.finditer(r"^ *(?:pub )?ghost use [^;]*;", text, re.M):
        spans.append(m.span())
    head = r"\b(?:requires|ensures|invariant|decreases|ghost)\*?(?: +\w+)*(?: *:)? *\{"
    for m in re.finditer(head, text):
        depth, i = 1, m.end()
        while i < len(text) and depth:
            depth += {"{": 1, "}": -1}.get(text[i], 0)
            i += 1
        spans.append((m.end(), i))
    return spans


def table():
    """old: new, for each name that the repository declares"""
    names, made, used = set(), set(), {}
    antt = list(texts("crates", ".antt"))
    for p in antt:
        t = without_code(read(p))
        found = set(DECLARED.findall(t))
        (made if own_proof(p) else names).update(w for w in found if is_plain(w))
        for m in WORD.finditer(t):
            if t[m.start() - 1 : m.start()] != "." or m.start() == 0:
                used.setdefault(m[0], p)
    for p in texts("crates", ".rt"):
        t = read(p)
        for a, b in clauses(t):
            for m in WORD.finditer(t, a, b):
                if t[m.start() - 1] != ".":
                    used.setdefault(m[0], p)
    library = set(re.findall(r"""[^\s(){}.;,@"«»]+""", read(PRELUDE))) if os.path.isfile(PRELUDE) else set()
    known = {snake(w) for w in names if "-" not in w} | OPERATORS | {w for w in library if is_plain(w) and "-" not in w}
    rust, fields = set(), set()
    for p in texts("crates", ".rt"):
        rust.update(re.findall(r"\bfn (\w+)", read(p)))
        fields.update(re.findall(r"^    (?:pub )?(\w+): ", read(p), re.M))
    known |= rust
    new = {}
    for w in sorted(names):
        if w in made:
            to = w if "-" in w else snake(w)
        else:
            to = dashes(snake(w), known)
        if to != w:
            new[w] = to
    # locals in camel case too
    for w in sorted(used):
        if w not in new and is_plain(w) and "-" not in w and CAMEL.search(w):
            new[w] = snake(w)
    back = {}
    for w, to in list(new.items()):
        back.setdefault(to, []).append(w)
    for to, olds in sorted(back.items()):
        # of a definition in camel case and its lemma with a dash, the lemma keeps the dash
        if len(olds) > 1 and sum("-" not in w for w in olds) == 1:
            for w in olds:
                if "-" in w:
                    del new[w]
            olds = [w for w in olds if "-" not in w]
        if to in library:
            for w in olds:
                new[w] = OTHER.get(w, to + "_of")
                print(f"other: {w} is {new[w]}, since {to} is a word of the library")
            continue
        if len(olds) > 1:
            for w in olds:
                del new[w]
                print(f"stays: {w}, since {' '.join(olds)} fall together")
        elif to in used and to not in new and to not in fields:
            if "-" in olds[0]:
                del new[olds[0]]
            else:
                new[to] = to + "_lem"
                print(f"lemma: {to} is {new[to]}, since {olds[0]} is {to} now ({used[to]})")
    return new


def dashes(word, known):
    """Which dashes of a lemma's name join two names: the longest known names from the left."""
    parts = word.split("-")
    if len(parts) == 1:
        return word
    out, before = parts[0], parts[0] in known
    for part in parts[1:]:
        is_name = part.rstrip("'") in known or not re.match(r"[a-z]", part)
        out += ("-" if before and is_name else "_") + part
        before = is_name
    return out


def turn(text, new, aliases, skip=()):
    def one(m):
        w = m[0]
        if w not in new or w in skip:
            return w
        i = m.start()
        if i and text[i - 1] == ".":
            head = re.search(r"""([^\s(){};,@"«»`]+)\.$""", text[max(0, i - 200) : i])
            if not head or head[1] not in aliases:
                return w
        return new[w]

    return WORD.sub(one, text)


def aliases_of(text):
    """the names by which a file cites modules"""
    found = set(re.findall(r"\buse [^\n;{]*? as ([^\s;]+)", text))
    found |= {m.split(".")[-1] for m in re.findall(r"\buse ([^\s;{]+)(?=;|\s*$)", text, re.M)}
    return found - {"tie", "goal"}


def spans(text, new):
    """code spans of comments and of pages"""
    return re.sub(r"`[^`\n]+`", lambda m: turn(m[0], new, set()), text)


def main():
    write = "--check" not in sys.argv
    new = table()
    if "--table" in sys.argv:
        with open(sys.argv[sys.argv.index("--table") + 1], "w", encoding="utf-8") as f:
            f.writelines(f"{a}\t{b}\n" for a, b in sorted(new.items()))
    turned = {}
    for p in texts("crates", ".antt"):
        t = read(p)
        skip = set(DECLARED.findall(without_code(t))) if own_proof(p) else set()
        skip = {w for w in skip if "-" in w}
        turned[p] = turn(t, new, aliases_of(t), skip)
    for p in texts("crates", ".rt"):
        t = read(p)
        al, out, last = aliases_of(t), [], 0
        for a, b in sorted(clauses(t)):
            if a < last:
                continue
            out += [spans(t[last:a], new), turn(t[a:b], new, al)]
            last = b
        turned[p] = "".join(out) + spans(t[last:], new)
    for p in texts("crates", ".edit"):
        t = read(p)
        turned[p] = turn(t, new, {"t", "def"}) if re.search(r"^file: (specs|proofs)/", t, re.M) else t
    for p in [*texts("docs", ".md"), "README.md"]:
        turned[p] = spans(read(p), new)
    n = 0
    for p, t in turned.items():
        if t != read(p):
            n += 1
            if write:
                with open(p, "w", encoding="utf-8") as f:
                    f.write(t)
    print(f"{len(new)} names, {n} files")


main()
