#!/usr/bin/env python3
"""Gives the definitions and lemmas of specs/ and proofs/ the spelling of today's Rattle.

usage: python3 tools/respell.py [--dry]     once, at the top of the repository, behind port.py

The crate csv, whose name the kit has for a library of its own, becomes csv_calls.
A type or a fact begins with a capital and is in camel case; every other name is in snake case. In a lemma's name a dash
stays where it joins two names, and is '_' ahead of or behind a plain word. Names in src/, labels of functions' goals and
names of the library stay. A name that would fall together with another in one file gets '_lem'.
"""
import collections
import glob
import os
import re
import sys

DRY = "--dry" in sys.argv
WORD = re.compile(r"[^\W\d][\w'₀-₉-]*", re.UNICODE)
DECLARED = re.compile(r"^(\s*)((?:(?:abbrev|unfoldable|pub|opaque|record|data)\s+)*)([^\W\d][\w'₀-₉-]*)\s*((?:\{[^}]*\}\s*|\([^)]*\)\s*)*):(?:\s|$)")
CONSTRUCTOR = re.compile(r"^\s+\|?\s*(pub\s+)?([^\W\d][\w'₀-₉-]*)\s*:\s")
# Facts by cases, each beside a record of the same words, and a set of an example beside its result.
OWN = {n: n[0].upper() + n[1:-2] + "ByCase" for n in "namedIs quotedIs fieldIs runIs cellIs shortIs shortCellIs recordIs shortRecordIs rowIs judgedIs".split()}
OWN["lateFree"] = "late_free_set"
# The words of the library that names of lemmas are made with.
LIBRARY = {"length", "sum", "map", "take", "drop", "append", "reverse", "replicate", "set", "filter", "min", "max", "add", "sub", "mul", "div", "mod", "pow", "cond", "not", "zero", "suc", "nil", "cons", "flatten", "zip", "fold"}


def files():
    for top in ("specs", "proofs"):
        for f in sorted(glob.glob(f"crates/*/{top}/**/*.antt", recursive=True)):
            yield f
    for f in sorted(glob.glob("crates/*/src/*.rt")):
        yield f
    for f in sorted(glob.glob("crates/*/must-fail/*.edit")):
        yield f


def of_function(f):
    """Whether f is the proof of one function."""
    return bool(re.search(r"/proofs/.+/[^/]+\.antt$", f)) and f.count("/") >= 4 and not re.search(r"/proofs/[A-Z]\w*/", f)


def snake(word):
    word = re.sub(r"([a-z0-9'₀-₉])([A-Z])", r"\1_\2", word)
    word = re.sub(r"([A-Z]+)([A-Z][a-z])", r"\1_\2", word)
    return word


def lower(word):
    return "_".join(p.lower() for p in snake(word).split("_"))


def owner_of(lines, i, indent):
    """The nearest line ahead of line i that is less far in."""
    for line in reversed(lines[:i]):
        if line.strip() and not line.lstrip().startswith("--") and len(line) - len(line.lstrip()) < indent:
            return line
    return ""


def declared():
    """Each name of specs/ and of the lemma files: where it stands, whether as a type or fact, whether as a field."""
    names = collections.defaultdict(list)
    for f in files():
        if not f.endswith(".antt") or of_function(f):
            continue
        lines = open(f, encoding="utf-8").read().split("\n")
        for i, line in enumerate(lines):
            m = DECLARED.match(line)
            if not m or line.lstrip().startswith(("--", "let ", "λ")):
                continue
            indent, marks, name = m.group(1), m.group(2), m.group(3)
            owner = owner_of(lines, i, len(indent)) if indent else ""
            field = bool(re.match(r"\s*(?:pub\s+)?(?:record|data)\b", owner))
            rest = line
            j = i + 1
            while j < len(lines) and lines[j].startswith((" ", "→")) and not DECLARED.match(lines[j]):
                rest += " " + lines[j].strip()
                j += 1
            fact = bool(re.search(r"(→|:)\s*Type( 0| 1| \{?ℓ\}?)?\s*(where)?\s*$", rest.rstrip())) and not field
            names[name].append((f, fact, field))
    return names


def respelled(name, fact, known):
    if fact:
        new = name if name[0].isupper() else name[0].upper() + name[1:]
        return "".join(p[0].upper() + p[1:] for p in re.split(r"[-_]", new) if p)
    if name[0].isupper() and "-" not in name:
        return name
    parts = name.split("-")
    out = ""
    for k, part in enumerate(parts):
        plain = part if part[0:1].isupper() else lower(part)
        if k:
            # a dash joins two names
            out += "-" if is_name(parts[k - 1], known) and is_name(part, known) else "_"
        out += plain
    return out


def is_name(part, known):
    return part in known or part in LIBRARY or part[0:1].isupper()


def imports(text):
    """The names that a file imports, each with its module."""
    found = {}
    for m in re.finditer(r"use ([\w.'*]+(?:\.[\w'-]+)*)\.\{([^}]*)\}", text):
        for part in m.group(2).split(","):
            part = part.strip()
            if part:
                found[part] = m.group(1)
    return found


def rename_crate(old, new):
    os.rename(f"crates/{old}", f"crates/{new}")
    for f in ["crates.txt", *files()]:
        text = open(f, encoding="utf-8").read()
        if f == "crates.txt":
            turned = re.sub(rf"(?m)(^|(?<= )){old}(?=[: \n]|$)", new, text)
        else:
            turned = text.replace(f"Rattle.{old}.", f"Rattle.{new}.")
            if f.endswith(".rt"):
                turned = re.sub(rf"(?<![\w:.]){old}::", f"{new}::", turned)
        if turned != text:
            open(f, "w", encoding="utf-8").write(turned)


def main():
    names = declared()
    crates = {d for d in os.listdir("crates")}
    # what counts as a name within a lemma's name: definitions of specs/ and types
    known = {n for n, places in names.items() if "-" not in n and any("/specs/" in p[0] and not p[2] for p in places)}
    change = {}
    for n, places in names.items():
        fact = any(p[1] for p in places)
        new = OWN.get(n) or respelled(n, fact, known)
        if new != n:
            change[n] = new
    # names of the library that some file imports keep their spelling
    for f in files():
        if f.endswith(".edit"):
            continue
        text = open(f, encoding="utf-8").read()
        for part, module in imports(text).items():
            word = part.split(" as ")[-1].strip()
            top = module.split(".")
            ours = top[0] == "Rattle" and len(top) > 1 and top[1] in crates
            if not ours and word in change:
                print(f"library: {word} of {module} in {f}")
                change.pop(word)
    # names that fall together: the definition has the plain spelling
    texts = {f: open(f, encoding="utf-8").read() for f in files() if f.endswith(".antt")}
    again = True
    while again:
        again = False
        for f, text in texts.items():
            back = collections.defaultdict(set)
            here = {n for n, places in names.items() if any(p[0] == f for p in places)}
            for n in here | {p.split(" as ")[-1].strip() for p in imports(text)}:
                back[change.get(n, n)].add(n)
            for new, olds in back.items():
                if len(olds) < 2:
                    continue
                plain = [n for n in olds if n not in names] or [n for n in olds if n in known] or sorted(olds, key=lambda n: ("-" in n, n))
                print(f"together: {sorted(olds)} in {f}; plain: {plain[0]}")
                for n in olds:
                    if n != plain[0]:
                        change[n] = change.get(n, n) + "_lem"
                        again = True
    fields = {n for n, places in names.items() if any(p[2] for p in places)}

    def turn(text, f):
        def word(m):
            w = m.group(0)
            if w not in change:
                return w
            if m.start() and text[m.start() - 1] == "." and not text[: m.start() - 1].endswith((" ", "(")):
                # a field, or a path's last part
                before = re.search(r"([\w.'-]+)\.$", text[max(0, m.start() - 120) : m.start()])
                path = bool(before) and before.group(1).startswith("Rattle.")
                if not path and w not in fields and not re.search(r"[A-Z][\w]*\.$", text[max(0, m.start() - 60) : m.start()]):
                    return w
            return change[w]

        if f.endswith(".rt"):
            return turn_source(text, word)
        return WORD.sub(word, text)

    def turn_source(text, word):
        # only ghost items and clauses
        out, depth = [], 0
        for line in text.split("\n"):
            ghost = depth > 0 or re.match(r"^\s*(ghost\b|requires\b|ensures\b|decreases\b|#\[tactic)", line)
            if ghost:
                depth += line.count("{") - line.count("}")
                depth = max(depth, 0)
                bare = line
                if re.match(r"^\s*ghost use ", line) and ";" not in line:
                    pass
                out.append(sub_all(bare, word))
            else:
                out.append(line)
        return "\n".join(out)

    def sub_all(line, word):
        def one(m):
            return change.get(m.group(0), m.group(0))
        return WORD.sub(one, line)

    n = 0
    for f in files():
        text = open(f, encoding="utf-8").read()
        new = turn(text, f)
        if new != text:
            n += 1
            if not DRY:
                open(f, "w", encoding="utf-8").write(new)
    print(f"respell: {len(change)} names, {n} files")
    if not DRY and os.path.isdir("crates/csv"):
        rename_crate("csv", "csv_calls")
    if DRY:
        for a in sorted(change):
            print(f"  {a} -> {change[a]}")


main()
