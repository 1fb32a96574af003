#!/usr/bin/env python3
"""Turns this repository's own names in specs/ and proofs/ to the spelling of today's Rattle: words in snake case, types and modules in camel case.

usage: python3 tools/spell.py          at the top of the repository, once, right after the kit's port.py
       python3 tools/spell.py --look   writes nothing, and says what would change and which names fall together

A name is one that a file of specs/ or proofs/ declares. `fooBar` and `foo-bar` become `foo_bar`. Where a definition and a lemma fall together, the lemma ends in `_lem`.
Names of Rust source, of the library, of generated modules and of goals stay, and so do strings, inputs and outputs.
"""

import collections
import os
import re
import sys

WORD = r"[^\s(){}\[\],;.«»\":=`]+"
HEAD = re.compile(r"^(\s*)((?:abbrev |unfoldable |pub )*)(" + WORD + r"(?: " + WORD + r")*) : (.*)$")
USE = re.compile(r"^(?:pub )?(?:ghost )?use ([^\s{}]+?)(?:\.\{([^}]*)\})?(?: as (\S+?))?;?$")
TOKEN = re.compile(r"Rattle\.[^\s(){}\[\],;«»\"`:]+|[^\s(){}\[\],;.«»\"`:]+")

# A lemma that would have its definition's name.
LEMMAS = {
    "part_bytes": "part_bytes_lem", "bytes-at": "bytes_at_lem", "first_head": "first_head_lem", "within_of": "within_of_lem", "index-at": "index_at_lem",
    "offset_at": "offset_at_lem", "stored-in": "stored_in_lem", "used-up": "used_up_lem", "on-scan": "on_scan_lem", "on-got": "on_got_lem", "alloc_by": "alloc_by_lem",
    "card-of": "card_of_lem", "table-ok": "table_ok_lem", "no-entry": "no_entry_lem", "refused-if": "refused_if_lem", "meets-file": "meets_file_lem",
    "read-from": "read_from_lem", "alloc_on": "alloc_on_lem", "extend-on": "extend_on_lem", "one-file": "one_file_lem", "each-valid": "each_valid_lem",
    "tally-from": "tally_from_lem", "up-to": "up_to_lem", "next-block": "next_block_lem", "visit-from": "visit_from_lem", "visit-held": "visit_held_lem",
    "ones-in": "ones_in_lem",
}

# Those of them that have an underscore already, as the kit's script made them, with the module that declares each: they are turned there and where they are imported from there.
HOMES = {
    "part_bytes": "reading.proofs.Plain", "first_head": "writes.proofs.Writes", "within_of": "writes.proofs.Widths", "offset_at": "writes.proofs.Widths",
    "alloc_by": "windows.proofs.Alloc", "alloc_on": "replay.proofs.Allotted",
}


def snake(name):
    name = re.sub(r"(?<=[a-z0-9])(?=[A-Z])", "_", name)
    return name.lower().replace("-", "_").replace("′", "'")


def texts(root):
    for folder, dirs, files in os.walk(os.path.join(root, "crates")):
        dirs[:] = sorted(d for d in dirs if d != "out")
        for f in sorted(files):
            if f.endswith((".antt", ".rt")):
                yield os.path.join(folder, f)


def declared(paths):
    """The names that files of specs/ and proofs/ declare, each with its files."""
    names = collections.defaultdict(set)
    for p in paths:
        if not p.endswith(".antt"):
            continue
        for line in open(p, encoding="utf-8"):
            m = HEAD.match(line.rstrip("\n"))
            if not m or m.group(3).startswith("--") or (p.endswith("Proof.antt") and m.group(4).startswith("tie.")):
                continue
            for n in m.group(3).split():
                names[n].add(p)
    return names


def mapping(names):
    turned = {n: snake(n) for n in names if n[0].islower() and snake(n) != n}
    turned.update({n: to for n, to in LEMMAS.items() if n in names})
    return turned


def at_home(name, path, text):
    """Whether `name` means the lemma in this file: always, but for the names of HOMES."""
    if name not in HOMES:
        return True
    home = HOMES[name]
    if path.endswith("crates/" + home.replace(".", "/") + ".antt"):
        return True
    return any(name in [i.strip() for i in m.group(1).split(",")] for m in re.finditer(r"^use Rattle\." + re.escape(home) + r"\.\{([^}]*)\}", text, re.M))


def turn(path, text, turned):
    """The text with each name respelled: in Rust source only within clauses, ghost items and quoted names of comments, in comments only quoted names."""
    rust = path.endswith(".rt")
    here = {n: to for n, to in turned.items() if at_home(n, path, text)}
    ghosts = clauses(text) if rust else None
    aliases = {m.group(2): m.group(1) for m in re.finditer(r"^use (\S+) as (\S+)$", text, re.M)}
    out, pos = [], 0
    for m in TOKEN.finditer(text):
        word = m.group(0)
        bare = word.rstrip("?!")
        if text[m.start() - 1:m.start()] == "." and bare in LEMMAS:
            root = re.search(r"([\w'-]+)\.$", text[:m.start()])
            module = root and aliases.get(root.group(1))
            if not module or (bare in HOMES and module != "Rattle." + HOMES[bare]):
                continue
            out.append(text[pos:m.start()] + LEMMAS[bare] + word[len(bare):])
            pos = m.end()
            continue
        if bare in here and meant(text, m.start(), bare, rust, ghosts):
            out.append(text[pos:m.start()] + here[bare] + word[len(bare):])
            pos = m.end()
    return "".join(out) + text[pos:]


def clauses(text):
    """The runs of Rust source that are clauses, braces included."""
    runs = []
    for m in re.finditer(r"^ +(?:requires|ensures|ghost)\b[^{\n]*\{", text, re.M):
        depth, at = 1, m.end()
        while depth and at < len(text):
            depth += {"{": 1, "}": -1}.get(text[at], 0)
            at += 1
        runs.append((m.start(), at))
    return runs


def meant(text, at, word, rust, ghosts):
    """Whether a word at this place is a name of specs/ or proofs/. In a comment a word with capitals inside is one; another only between backquotes."""
    start = text.rfind("\n", 0, at) + 1
    before = text[start:at]
    comment = before.find("//" if rust else "--")
    if comment >= 0:
        return before.count("`", comment) % 2 == 1 or word.lower() != word
    if not rust:
        return True
    return before.lstrip().startswith("ghost ") or any(a <= at < b for a, b in ghosts)


def main():
    root = os.getcwd()
    look = "--look" in sys.argv[1:]
    paths = list(texts(root))
    turned = mapping(declared(paths))
    if look:
        by = collections.defaultdict(set)
        for p in paths:
            text = open(p, encoding="utf-8").read()
            words = set(m.group(0) for m in TOKEN.finditer(text))
            for n in words & set(turned):
                if turned[n] in words and turned[n] not in turned:
                    print(f"{p}: {n} -> {turned[n]}, which stands there already")
                by[(p, turned[n])].add(n)
        for (p, to), ns in sorted(by.items()):
            if len(ns) > 1:
                print(f"{p}: {sorted(ns)} -> {to}")
        print(f"{len(turned)} names")
        return
    changed = 0
    for p in paths:
        text = open(p, encoding="utf-8").read()
        new = turn(p, text, turned)
        if new != text:
            with open(p, "w", encoding="utf-8") as f:
                f.write(new)
            changed += 1
    print(f"{len(turned)} names in {changed} files")


main()
