#!/usr/bin/env python3
"""Spells the definitions and lemmas of this repository in snake case: `isWriter` is `is_writer`, `meets-known` is `meets_known`.

usage: tools/spell_names.py [--list]    at the top of the repository, once, after the kit's own script

It goes over the .antt files of specs/ and proofs/ for what they declare (what Proof.antt files declare stays: a converter takes those),
and writes the new names wherever the old ones stand: in those files, in the clauses of .rt files, in must-fail edits, and between the
backquotes of comments and pages. Types, modules and names of the library keep their spelling. It stops where two names would fall together.
"""
import collections
import glob
import re
import sys

TOKEN = re.compile(r"[^\s(){}.;,@\"«»\[\]\\`|]+")
DECLARED = re.compile(r"^\s*(?:(?:pub|abbrev|unfoldable|data|record)\s+)*((?:[^\s(){}\[\].,;:λ]+\s+)+)(?:[({].*\s)?:(?:\s|$)")
# a comment, a string, or what lies between
PART = re.compile(r"(?:--|//)[^\n]*|\"(?:[^\"\\\\\n]|\\\\.)*\"|[^\"\n]+?(?=--|//|\"|\n|$)|.", re.S)
USE = re.compile(r"^\s*(?:pub |ghost )*use ([^\s{]+?)\.\{(.*)\}")
CRATES = {p.split("/")[1] for p in glob.glob("crates/*/")}
# names of the library beside which ours would stand
LIBRARY = {"bit_and", "bit_or", "bit_xor"}
NO = {"let", "elim", "in", "module", "use", "where"}


def snake(name):
    if name.isupper() or name.replace("-", "").isupper():
        return name.replace("-", "_")
    name = name.replace("-", "_")
    return "_".join(part if part[:1].isupper() else re.sub(r"(?<=[a-z0-9])([A-Z])", r"_\1", part).lower() for part in name.split("_"))


def texts(*patterns):
    return sorted(p for each in patterns for p in glob.glob(each, recursive=True) if "/out/" not in p)


def own(module):
    parts = module.split(".")
    return parts[0] == "Rattle" and len(parts) > 1 and parts[1] in CRATES


def part(met, turn, foreign):
    """Strings stay; of a comment only what stands between backquotes, or is an old name outside quotation marks."""
    text = met[0]
    if text.startswith('"'):
        return text
    if text.startswith(("--", "//")):
        pieces = re.split(r'(`[^`]*`|"[^"]*")', text)
        return "".join(it if it.startswith('"') else TOKEN.sub(lambda n: turn(n[0], foreign), it) for it in pieces)
    return TOKEN.sub(lambda n: turn(n[0], foreign), text)


def main():
    proofs = texts("crates/*/specs/**/*.antt", "crates/*/proofs/**/*.antt")
    declared = collections.defaultdict(set)
    for path in proofs:
        with open(path, encoding="utf-8") as file:
            text = file.read()
        if path.endswith("/Proof.antt"):
            continue
        for line in text.splitlines():
            if line.lstrip().startswith("--") or " use " in f" {line}":
                continue
            met = DECLARED.match(line)
            if met and not NO & set(met[1].split()):
                for name in met[1].split():
                    declared[name].add(path)
    new = {name: snake(name) for name in declared if snake(name) != name and not name[:1].isupper() or "-" in name and name.replace("-", "").isupper()}
    # local names, which no line declares
    new.update(treeNodes="tree_nodes", eqK="eq_k")
    # A lemma that would have the name of its function, or of one of the library's, gets `_lem`.
    taken = collections.Counter(new.values())
    for name, to in sorted(new.items()):
        if "-" in name and (taken[to] > 1 or to in declared or to in LIBRARY):
            new[name] = to + "_lem"
    bad = 0
    for to, count in sorted(collections.Counter(new.values()).items()):
        clash = [name for name in new if new[name] == to] + ([to] if to in declared else [])
        homes = [path.split("/")[1] for name in clash for path in declared[name]]
        if len(clash) > 1 and len(set(homes)) < len(homes) and len({frozenset(path.split("/")[1] for path in declared[n]) for n in clash}) < len(clash):
            bad += 1
            print("falls together:", to, "<-", {n: sorted(declared[n])[:4] for n in clash})
    if "--list" in sys.argv:
        for name, to in sorted(new.items()):
            print(name, "->", to)
        return
    if bad:
        sys.exit("names fall together")

    def turn(token, foreign):
        return new[token] if token in new and token not in foreign else token

    for path in proofs + texts("crates/*/src/**/*.rt", "crates/*/must-fail/*.edit"):
        with open(path, encoding="utf-8") as file:
            text = file.read()
        foreign = set()
        for line in text.splitlines():
            met = USE.match(line)
            if met and not own(met[1]):
                foreign |= set(TOKEN.findall(met[2]))
        out = PART.sub(lambda m: part(m, turn, foreign), text)
        if out != text:
            with open(path, "w", encoding="utf-8") as file:
                file.write(out)
    for path in texts("*.md", "docs/**/*.md", "bench/**/*.md"):
        with open(path, encoding="utf-8") as file:
            text = file.read()
        out = re.sub(r"`[^`\n]*`", lambda m: TOKEN.sub(lambda n: turn(n[0], set()), m[0]), text)
        if out != text:
            with open(path, "w", encoding="utf-8") as file:
                file.write(out)


main()
