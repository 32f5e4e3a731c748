#!/usr/bin/env python3
"""Respells the repository's own definitions and lemmas as today's Rattle spells names.

usage: python3 tools/respell.py            at the top of the repository, once, right after port.py
       python3 tools/respell.py --rest     after that: names with a capital inside that stand in a module or behind `as`
       python3 tools/respell.py --list     prints the names with their new spelling, and writes nothing

Definitions, lemmas, fields and constructors of specs/ and proofs/: words in snake case (`tooShort` is `too_short`), a prime is an
apostrophe.
A dash stays between two names, as in `scan-next`, that is where what stands before it is itself a name declared here; elsewhere it is an
underscore. Types, facts and modules keep their capitals. Names of Rattle source, generated names and names of the library stay.
"""
import os
import re
import sys

WORDS = "unfoldable|abbrev|pub|data|record|mutual|opaque|ruleset"
DECLARED = re.compile(rf"^((?:(?:{WORDS}) +)*)([^\s(){{}}\[\];,.:]+)((?: *(?:\([^)]*\)|\{{[^}}]*\}}))*) *:(?!=)")
LOCAL = re.compile(r"^\s+(?:pub +)?([^\s(){}\[\];,.:λ]+) :(?!=)")
TOKEN = re.compile(r"[^\s(){}\[\];,.:\"`]+")
ALIAS = re.compile(r"\bas ([a-z][a-z0-9]*(?:[A-Z][A-Za-z0-9]*)+)\b")
WITHIN = re.compile(rf"^\s+(?:(?:{WORDS}) +)+([a-z][a-z0-9]*(?:[A-Z][A-Za-z0-9]*)+)(?: *(?:\([^)]*\)|\{{[^}}]*\}}))* *:(?!=)")
CAMEL = re.compile(r"^[a-z][a-z0-9]*'*[A-Z]|^[a-z][A-Za-z0-9]*[A-Z]")
# Names that would fall together with another, or with a definition that they speak of.
OTHERWISE = {
    "by_code": "by_code_lem",
    "counts_of": "counts_of_built",
    "one_more": "length_one_more",
    "run_on": "run_on_lem",
    "finished_as": "finished_as_stated",
    "text-output": "text_output_lem",
    "v-text": "v_text_is_utf8",
    "bytesLeft": "unread_bytes",
}
# Words of the library that our lemmas begin with, as in `length-padded`.
LIBRARY = set("length take drop map append replicate get_or set sum nat_eq and or not".split())


def files(ends):
    for top in ("crates", "docs"):
        for d, dirs, names in os.walk(top):
            dirs[:] = sorted(x for x in dirs if x not in ("out", "data"))
            for f in sorted(names):
                if f.endswith(ends):
                    yield os.path.join(d, f)
    for f in ("README.md", "CONTRIBUTING.md"):
        if f.endswith(ends):
            yield f


def declared():
    """The declared names: of specs/ and of the lemma files of proofs/; and those with a capital inside that stand elsewhere."""
    own, inner = set(), set()
    for p in files(".antt"):
        part = p.split("/")
        ours = part[2] == "specs" or len(part) == 4
        for line in open(p, encoding="utf-8"):
            m = DECLARED.match(line)
            if m and not line.startswith("--"):
                (own if ours else inner).add(m.group(2))
                continue
            m = LOCAL.match(line)
            if m:
                inner.add(m.group(1))
    return own, inner


def snake(part):
    if not CAMEL.match(part):
        return part
    part = re.sub(r"([A-Z]+)([A-Z][a-z])", r"\1_\2", part)
    return re.sub(r"([a-z0-9'])([A-Z])", r"\1_\2", part).lower()


def spelt(name, own):
    parts = name.replace("′", "'").split("-")
    if any(p == "" for p in parts):
        return "-".join(snake(p) for p in parts)
    out, old = snake(parts[0]), parts[0]
    for p in parts[1:]:
        joins = "-" if "-" not in old and (old in own or old in LIBRARY) else "_"
        out, old = out + joins + snake(p), old + "-" + p
    return out


def renamed():
    own, inner = declared()
    out = {}
    for n in own:
        new = spelt(n, own)
        if new != n:
            out[n] = new
    for n in inner:
        if any(CAMEL.match(p) for p in n.split("-")) and n not in out:
            out[n] = "-".join(snake(p) for p in n.split("-"))
    return own | inner, out | OTHERWISE


def rest():
    """The names that the first run does not see: declared in a module, or given by `as`."""
    out = {}
    for p in files((".antt", ".rt")):
        for line in open(p, encoding="utf-8"):
            m = WITHIN.match(line) or ALIAS.search(line)
            if m:
                out[m.group(1)] = snake(m.group(1))
    return out


def fall_together(names, out):
    """Names that fall together, and files where a new name already stands for something else."""
    seen, bad = {}, []
    for old, new in sorted(out.items()):
        if new in seen:
            bad.append(f"{old} and {seen[new]} would both be {new}")
        seen[new] = old
        if new in names:
            bad.append(f"{old} would be {new}, which is declared")
    for p in files((".antt", ".rt")):
        text = open(p, encoding="utf-8").read()
        tokens = set(TOKEN.findall(text))
        for t in tokens:
            if t in out and out[t] in tokens:
                bad.append(f"{p}: {t} would be {out[t]}, which stands there")
    return bad


def respell(text, out):
    return TOKEN.sub(lambda m: out.get(m.group(0), m.group(0)), text)


def quoted(text, out):
    """The text with what stands between back quotes respelled."""
    return re.sub(r"`[^`\n]+`", lambda m: respell(m.group(0), out), text)


def turn(path, text, out):
    """A page's names stand between back quotes, and so do those of a comment in Rattle source."""
    if path.endswith(".md"):
        return quoted(text, out)
    text = text.replace("′", "'") if not path.endswith(".rt") else text
    lines = text.split("\n")
    comment = "//" if path.endswith(".rt") else "--" if path.endswith(".antt") else "#"
    return "\n".join(quoted(x, out) if x.lstrip().startswith(comment) else respell(x, out) for x in lines)


def main():
    names, out = renamed()
    if "--rest" in sys.argv:
        out = rest()
    if "--list" in sys.argv:
        for n in sorted(out):
            print(f"{n}\t{out[n]}")
        for b in fall_together(names, out):
            print("together: " + b)
        return
    for p in files((".antt", ".rt", ".edit", ".md")):
        text = open(p, encoding="utf-8").read()
        new = turn(p, text, out)
        if new != text:
            open(p, "w", encoding="utf-8").write(new)


main()
