#!/usr/bin/env python3
"""Brings the repository's own definitions, lemmas and fields to one spelling: words in snake case, facts and types in camel case.

usage: tools/respell.py OLD      at the top of the repository, once, right after port.py; OLD is the commit before port.py

It renames what crates/*/specs and crates/*/proofs/*.antt declare, and the names that .rt files give to imports, in .antt files, in clauses and `ghost use`
lines of .rt files, in must-fail edits, and in code spans of the documents. Functions of src/, exported names, strings and outputs keep theirs.
A dash stays between two names of definitions; any other dash becomes `_`. Where a clause's import would have the name of a parameter in the file, which
would hide it, it is imported under another name, with `_of` behind. It prints where two names of one file would fall together.
port.py passes over a folder named target: crates/target was turned under another name (docs/PORT.md).
"""

import collections
import glob
import re
import subprocess
import sys

WORD = re.compile(r'[^\s(){}.;,@"«»`]+')
DECLARED = re.compile(r"^( *)((?:(?:pub|abbrev|unfoldable|data|record) )*)([^\s:(){}=λ]+) +:", re.M)
CONSTRUCTORS = {"nil", "cons", "zero", "suc", "some", "none", "append", "true", "false", "map", "length", "take", "drop", "part", "not", "and", "or"}
# lemmas that would get the name of the definition that they speak of, or of another lemma
LEMMAS = {"opens-with": "opens_with_lem", "index_read": "index_read_lem", "no-hash": "no_hash_lem", "member_of": "member_of_lem", "lines-on": "lines_on_lem", "survey-end": "survey_end_lem"}
CLAUSE = re.compile(r"(?:\brequires|\bensures)\s*(?:\w+\s*)?\{|\bghost\s+(?:\w+\s*(?::|=)\s*)?\{")
GHOST_USE = re.compile(r"ghost\s+use\b[^;]*;")


def files(*patterns):
    return sorted(p for it in patterns for p in glob.glob(it, recursive=True) if "/out/" not in p)


def read(path):
    with open(path, encoding="utf-8") as f:
        return f.read()


def write(path, text):
    with open(path, "w", encoding="utf-8") as f:
        f.write(text)


def snake(part):
    if not re.match(r"[a-z]", part):
        return part
    return re.sub(r"(?<=[a-z0-9])([A-Z])", lambda m: "_" + m[1].lower(), part)


def declared(text, definitions=False):
    for m in DECLARED.finditer(text):
        if m[1] and "pub" not in m[2]:
            continue
        yield m[3]


def spelled(name, defined):
    parts = [snake(it) for it in name.split("-")]
    out = parts[0]
    left = parts[0]
    for it in parts[1:]:
        joined = "-" if left in defined and it in defined | CONSTRUCTORS else "_"
        out += joined + it
        left = it if joined == "-" else left + "_" + it
    return out


def table(old):
    names, defined = set(), set()
    for p in files("crates/*/specs/**/*.antt", "crates/*/proofs/*.antt"):
        found = set(declared(read(p)))
        names |= found
        if "/specs/" in p:
            defined |= {snake(it) for it in found if "-" not in it}
    for p in files("crates/*/src/**/*.rt"):
        for use in GHOST_USE.findall(read(p)):
            names |= set(re.findall(r" as ([^\s,{}]+)", use))
    turned = {it: spelled(it, defined) for it in names if re.match(r"[a-z]", it)}
    turned = {a: b for a, b in turned.items() if a != b} | LEMMAS
    # names that port.py turned already: edits and documents still have the old ones
    before = subprocess.run(["git", "grep", "-hE", r"^ *((pub|abbrev|unfoldable) )*[a-z][A-Za-z0-9_'-]* +:", old, "--", ":(glob)crates/*/specs/**", ":(glob)crates/*/proofs/*.antt"], capture_output=True, text=True, check=True).stdout
    earlier = {}
    for name in declared(before):
        if re.match(r"[a-z][A-Za-z0-9_-]*$", name) and name not in turned:
            new = spelled(name, defined)
            if new != name and new in names:
                earlier[name] = new
    return turned, earlier


def renamed(text, turned):
    def turn(m):
        if m[0] in LEMMAS and text[m.start() - 1 : m.start()] == ".":
            return m[0]
        return turned.get(m[0], m[0])

    return WORD.sub(turn, text)


def of_library(text, own):
    """The names that a file takes from a library: they stay."""
    found = set()
    for path, group in re.findall(r"^(?:pub )?use ([^\s{]+?)\.\{([^}]*)\}", text, re.M):
        parts = path.split(".")
        if parts[0] != "Rattle" or parts[1] not in own:
            found |= {it.strip().split(" as ")[0] for it in group.split(",")}
    return found


def antt(text, turned):
    out = []
    for line in text.split("\n"):
        m = re.search(r"(?:^|\s)--(?:\s|$)", line)
        at = m.start() if m else len(line)
        camel = {a: b for a, b in turned.items() if re.search(r"[A-Z]", a)}
        out.append(renamed(line[:at], turned) + renamed(line[at:], camel))
    return "\n".join(out)


def ghosts(text):
    """The places of ghost use items and of clauses."""
    found = [m.span() for m in GHOST_USE.finditer(text)]
    for m in CLAUSE.finditer(text):
        depth, i = 1, m.end()
        while depth:
            depth += {"{": 1, "}": -1}.get(text[i], 0)
            i += 1
        found.append((m.start(), i))
    return sorted(found)


def rt(text, turned, path):
    spans = ghosts(text)
    code, pos = "", 0
    for a, e in spans:
        code += text[pos:a]
        pos = e
    code += text[pos:]
    code = re.sub(r"//[^\n]*", "", code)
    own = set(re.findall(r"[(,]\s*(?:mut )?([a-z_]\w*)\s*:[^:]", code))
    uses = [text[a:e] for a, e in spans if text[a:e].startswith("ghost use")]
    imported = set()
    for use in uses:
        group = re.search(r"\{(.*)\}", use, re.S)
        if group and "Rattle.std" not in use:
            imported |= {it.strip() for it in group[1].split(",") if " as " not in it}
    alias = {}
    for it in imported:
        new = turned.get(it, it)
        if new != it and new in own:
            alias[it] = new + "_of"
            print(f"alias: {path}: {it}: {new} as {alias[it]}")

    def use_item(m):
        it = m[0].strip()
        if it in alias:
            return m[0].replace(it, f"{turned.get(it, it)} as {alias[it]}")
        return renamed(m[0], turned)

    out, pos = "", 0
    for a, e in spans:
        out += text[pos:a]
        part = text[a:e]
        if part.startswith("ghost use"):
            head, group, tail = re.match(r"([^{]*\{?)([^}]*)(.*)", part, re.S).groups()
            out += head + re.sub(r"[^,]+", use_item, group) + tail
        else:
            out += renamed(part, {**turned, **alias})
        pos = e
    return out + text[pos:]


def clashes(path, text, turned):
    words = collections.defaultdict(set)
    for w in set(WORD.findall(re.sub(r"--[^\n]*", "", text))):
        words[turned.get(w, w)].add(w)
    return [(new, olds) for new, olds in words.items() if len(olds) > 1]


def main(old):
    turned, earlier = table(old)
    bad = 0
    for p in files("crates/*/specs/**/*.antt", "crates/*/proofs/**/*.antt"):
        text = read(p)
        for new, olds in clashes(p, text, turned):
            print(f"together: {p}: {sorted(olds)} -> {new}")
            bad += 1
    own = {p.split("/")[1] for p in glob.glob("crates/*/src")}
    for p in files("crates/*/specs/**/*.antt", "crates/*/proofs/**/*.antt"):
        text = read(p)
        stay = of_library(text, own)
        write(p, antt(text, {a: b for a, b in turned.items() if a not in stay}))
    for p in files("crates/*/src/**/*.rt"):
        write(p, rt(read(p), turned, p))
    # a folder specs/ may have no file Contracts any more
    subprocess.run(["git", "mv", "crates/book/specs/Contracts.antt", "crates/book/specs/Promises.antt"], check=True)
    for p in files("crates/**/*.antt", "crates/**/*.rt", "README.md", "docs/*.md"):
        text = read(p).replace("Rattle.book.specs.Contracts", "Rattle.book.specs.Promises").replace("book/specs/Contracts.antt", "book/specs/Promises.antt")
        write(p, text.replace("mod Contracts\n", "mod Promises\n") if p == "crates/book/specs/Lib.antt" else text)
    every = {**earlier, **turned}
    for p in files("crates/*/must-fail/*.edit"):
        write(p, renamed(read(p), every))
    for p in files("README.md", "docs/*.md", "docs/landings/*.md", "host/README.md", "rust/README.md"):
        write(p, re.sub(r"`[^`\n]+`", lambda m: renamed(m[0], every), read(p)))
    print(f"{len(turned)} names turned, {len(earlier)} turned before; {bad} may fall together")


main(sys.argv[1])
