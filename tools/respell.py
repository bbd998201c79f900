#!/usr/bin/env python3
"""Spells the repository's own definitions and lemmas as this Rattle does: words in snake case, types in camel case.

usage: tools/respell.py [--check]     at the top, once, right after port.py and before any edit by hand

It goes by the names that crates/*/specs and crates/*/proofs declare. Functions of src/, labels that Rattle makes (behind a dot, and declared at a type
`tie.X` or `goal.X`) and names of the library stay. Two names that would meet in some file are told apart: the lemma gets `_is` after its name.
"""
import collections
import os
import re
import sys

WORD = re.compile(r"[^\s(){}\[\].;,@\"«»`:]+")
DECLARED = re.compile(r"(?m)^ *((?:(?:unfoldable|abbrev|pub|record|data) +)*)([^\s(){}.;,@\"«»:]+)((?:\s+[({][^\n:]*:[^\n]*?[)}])*)\s+:\s+(\S.*)$")
GENERATED = re.compile(r"(?m)^ *(?:(?:unfoldable|abbrev|pub) +)*([^\s(){}.;,@\"«»:]+) +: +(?:tie|goal)\.")
QUIET = re.compile(r"--[^\n]*")
# where a definition and a lemma or a parameter would meet, and the script's own choice reads badly
CHOSEN = {"all_pass": "all_pass_is", "all_said": "all_said_is", "laid_out": "laid_out_is", "bedOrIsf": "bed_or_isf_of"}
NOT_NAMES = {"use", "let", "mod", "where"}


def files(root, endings, tops=("crates",)):
    for top in tops:
        if os.path.isfile(os.path.join(root, top)):
            yield os.path.join(root, top)
        for folder, dirs, names in os.walk(os.path.join(root, top)):
            dirs[:] = sorted(d for d in dirs if d not in ("out", "target", ".git"))
            for n in sorted(names):
                if n.endswith(endings):
                    yield os.path.join(folder, n)


def read(p):
    with open(p, encoding="utf-8") as f:
        return f.read()


def snake(n):
    return re.sub(r"(?<=[a-z0-9'])[A-Z]", lambda m: "_" + m[0].lower(), n).replace("-", "_")


def camel(n):
    return "".join(w[:1].upper() + w[1:] for w in re.split(r"[-_]", n))


def table(root):
    """Each name's new spelling, and the files that each old name stands in."""
    where, types, texts = collections.defaultdict(set), set(), {}
    for p in files(root, ".antt"):
        texts[p] = read(p)
        bare = QUIET.sub("", texts[p])
        made = set(GENERATED.findall(bare))
        for m in DECLARED.finditer(bare):
            head, name, kind = m[1], m[2], m[4]
            if name in NOT_NAMES or name in made or "·" in name or not re.match(r"[a-z]", name):
                continue
            where[name].add(p)
            if re.search(r"Type \d+( where)?$", kind):
                types.add(name)
    new = {n: camel(n) if n in types else snake(n) for n in where}
    # what a text names: behind no dot, and of code only what `ghost use` items and parameters name, since no clause can name a function
    words = {p: set(re.findall(r"(?<![.\w-])" + WORD.pattern, QUIET.sub("", t))) for p, t in texts.items()}
    for p in files(root, ".rt"):
        t = read(p)
        named = set(re.findall(r"\b(\w+): ", t))
        for m in re.finditer(r"ghost use [^;]*;", t):
            named |= set(WORD.findall(m[0]))
        for m in re.finditer(r"\{([^{}\n]*[≡≤<×→][^{}\n]*)\}", t):
            named |= set(WORD.findall(m[1]))
        words[p] = named
    specs = {n for n in where if any("/specs/" in p for p in where[n])}
    taken = set().union(*words.values()) | set(new.values())
    by = collections.defaultdict(set)
    for p, ws in words.items():
        for w in ws:
            by[w].add(p)
    out = {}
    for n in sorted(new):
        s = CHOSEN.get(n, new[n])
        if s == n:
            continue
        meets = set() if n in CHOSEN or s in CHOSEN else by.get(s, set()) & by[n]
        others = [o for o in new if o != n and CHOSEN.get(o, new[o]) == s]
        both = [o for o in others if by[o] & by[n] or (o in specs and n in specs)]
        if meets or both:
            # a definition keeps the plain name; a lemma gives way
            gives_way = n not in specs or bool(meets) or "-" in n
            if gives_way:
                s += "_is"
                if s in taken:
                    s += "_so"
                taken.add(s)
                print(f"look: {n} becomes {s}: {snake(n)} stands beside it in {sorted(meets)[0] if meets else both[0]}")
        out[n] = s
    return out, specs


def from_libraries(text, own):
    """The names that a text imports from the library."""
    out = set()
    for m in re.finditer(r"(?m)^ *(?:pub |ghost )?use ([^\s;{]+)\.\{([^}]*)\}", text):
        head = m[1].split(".")
        if not (head[0] == "Rattle" and len(head) > 1 and head[1] in own):
            out |= {w for it in m[2].split(",") for w in it.split() if w != "as"}
    return out


def fields(texts):
    """The names of the fields of the repository's records."""
    out = set()
    for t in texts:
        for m in re.finditer(r"(?m)^( *)(?:pub )?record [^\n]* where\n((?:\1 +[^\n]*\n|\n)*)", QUIET.sub("", t) + "\n"):
            out |= {f[2] for f in DECLARED.finditer(m[2])}
    return out


def turn(text, t, keep=frozenset(), behind=None):
    """The text with each name of t turned; behind a dot, of names with a dash, those alone that `behind` has, where it is given."""

    def one(m):
        w = m[0]
        if w not in t or w in keep:
            return w
        if behind is not None and w not in behind and text[m.start() - 1 : m.start()] == "." and "-" in w:
            return w
        return t[w]

    return WORD.sub(one, text)


def main(args):
    root = "."
    t, specs = table(root)
    own = set(os.listdir("crates"))
    of_records = fields(read(p) for p in files(root, ".antt"))
    n = 0
    humps = {k: v for k, v in t.items() if re.search("[a-z][A-Z]", k)}
    for p in files(root, (".antt", ".rt", ".edit", ".md", ".txt", ".rs", ".h", "theorems", "wrong_definitions", "run"), ("crates", "docs", "tools", ".ci", "rust", "README.md")):
        if p.endswith("respell.py") or "/thiserror/" in p:
            continue
        old = read(p)
        if p.endswith(".antt"):
            made = set(GENERATED.findall(QUIET.sub("", old)))
            # below proofs/F/ a name with a dash behind a dot is a label that Rattle makes, unless a record has it
            new = turn(old, t, made | from_libraries(old, own), of_records if re.search(r"/proofs/.*/", p) else None)
        elif p.endswith((".rt", ".edit")) or p.endswith(("theorems", "wrong_definitions.txt")):
            # a word with a dash is no name of Rust's; prose has its words with dashes in no code span
            new = "\n".join(
                turn(l, humps if re.match(r"\s*//", l) and "`" not in l else t, from_libraries(old, own)) for l in old.split("\n")
            )
        elif p.endswith(".md"):
            new = re.sub(r"`[^`\n]*`", lambda m: turn(m[0], t), old)
            new = turn(new, humps)
        elif p.endswith((".rs", ".h")):
            new = re.sub(r"//[^\n]*", lambda m: turn(m[0], humps), old)
        else:
            continue
        if new != old:
            n += 1
            if "--check" not in args:
                with open(p, "w", encoding="utf-8") as f:
                    f.write(new)
    print(f"respell: {len(t)} names, {n} files")


if __name__ == "__main__":
    main(sys.argv[1:])
