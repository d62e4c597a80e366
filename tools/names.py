#!/usr/bin/env python3
"""Spells the definitions and lemmas of this repository as today's Rattle does: words in snake case, ' for a prime.

    python3 tools/names.py [--dry]        at the top, once, behind the kit's port.py

A name that a file of specs/ or proofs/ declares is respelled wherever it stands: in those files, in src/, in must-fail/
and .ci/straight.d/, and in the documents. Types and modules keep their spelling, and so does what src/ declares. A dash
between two words becomes an underscore, but where it joins a list's word to another name, as in length-words. Two names
that would fall together in one file are told, and nothing is written.
"""
import pathlib
import re
import sys

TOP = pathlib.Path(__file__).resolve().parent.parent
JOINED = {"length", "take", "drop", "append", "map"}  # words of lists before a dash, which joins two names
FUNCTIONS = set()  # what src/ declares: a definition may have the name of the function that it speaks of
TOKEN = re.compile(r"[^\s(){}\[\],;:.`\"@]+")
RULESET = re.compile(r"^\s*(?:pub +)?ruleset +([^\s=]+) *=")


def antt(text):  # a text without its comments
    return re.sub(r"--[^\n]*", "", text)


def declared(text):
    """The names that a file of specs/ or proofs/ declares: signatures, fields, constructors, rulesets."""
    for line in antt(text).splitlines():
        found = RULESET.match(line)
        if found:
            yield found.group(1)
            continue
        found = re.match(r"^\s*(?:(?:pub|abbrev|unfoldable) +)*([^\s(){},;.:=]+)(?: +\{[^}]*\})* +:(?: |$)", line)
        if found and found.group(1) not in ("module", "use", "let", "record", "data", "in", "_", "|"):
            yield found.group(1)


def respelled(name, own):
    parts = name.replace("′", "'").split("-")
    words = []
    for part in parts:
        if part[:1].isupper():
            words.append(part)
        else:
            words.append(re.sub(r"(?<=[a-z0-9'])([A-Z])", lambda m: "_" + m.group(1).lower(), part))
    if len(words) == 2 and words[0] in JOINED and words[1] in own | JOINED:
        return "-".join(words)
    return "_".join(words)


def main():
    dry = "--dry" in sys.argv
    files = [p for p in TOP.glob("crates/*/*/**/*") if p.is_file() and "/out/" not in str(p)]
    logic = [p for p in files if p.suffix == ".antt"]
    others = [p for p in files if p.suffix in (".rt", ".edit")] + list(TOP.glob(".ci/straight.d/*.edit"))
    names = set()
    for path in logic:
        names |= set(declared(path.read_text()))
    own = {re.sub(r"(?<=[a-z0-9])([A-Z])", lambda m: "_" + m.group(1).lower(), n) for n in names if n[:1].islower()}
    table = {}
    for name in sorted(names):
        if re.match("(invariant|decreases)-", name):
            continue  # a name of the kit's
        if name[:1].isupper() or not re.search(r"-|′|[a-z0-9][A-Z]", name):
            continue
        new = respelled(name, own)
        if new != name:
            table[name] = new
    # a lemma does not take its definition's name
    taken = {new for name, new in table.items() if "-" not in name} | {n for n in names if n not in table}
    for path in others:
        if path.suffix == ".rt":
            taken |= set(re.findall(r"^ *(?:pub(?:\(crate\))? )?(?:fn|mod) ([a-z0-9_]+)", path.read_text(), re.M))
    FUNCTIONS.update(taken)
    for name, new in table.items():
        if "-" in name and new in taken:
            table[name] = new + "_lem"
    # what the kit declares under one of these spellings keeps it
    foreign = set()
    for path in logic + others:
        for module, inside in re.findall(r"use ([^\s;]+?)\.\{([^}]*)\}", path.read_text()):
            if re.match(r"Rattle\.(?!std\b|core\b)", module):
                continue
            foreign |= set(re.split(r"[\s,]+", inside))
    for name in sorted(foreign & set(table)):
        print(f"the kit has this name: {name}")
        del table[name]
    bad = 0
    changed = []
    docs = [p for p in TOP.glob("*.md")] + [p for p in TOP.glob("docs/**/*.md")] + [p for p in TOP.glob("host/headers/*.txt")]
    loose = set(docs) | {p for p in others if p.suffix == ".edit"}
    for path in logic + others + docs:
        text = path.read_text()
        met = {}

        def put(found):
            word = found.group(0)
            new = table.get(word, word)
            if path in loose and new == word and respelled(word, own) in names:
                new = respelled(word, own)  # the kit's script respelled it, but not here
            met.setdefault(new, set()).add(word)
            return new

        if path in docs:
            new = re.sub(r"`[^`\n]+`", lambda m: TOKEN.sub(put, m.group(0)), text) if path.suffix == ".md" else TOKEN.sub(put, text)
        else:
            new = TOKEN.sub(put, text)
        for word, olds in met.items():
            if len(olds) > 1 and word not in FUNCTIONS:
                print(f"{path.relative_to(TOP)}: fall together as {word}: {', '.join(sorted(olds))}")
                bad += 1
        if new != text:
            changed.append((path, new))
    print(f"{len(table)} names, {len(changed)} files, {bad} fall together")
    if "--table" in sys.argv:
        for name, new in table.items():
            print(name, new)
    if bad or dry:
        return 1 if bad else 0
    for path, new in changed:
        path.write_text(new)
    return 0


sys.exit(main())
