#!/usr/bin/env python3
"""Writes the repository's own words of specs/ and proofs/ in snake case, as today's Rattle spells words (types, modules and facts keep
their capital).

usage: tools/snake_names.py [--list]      at the top of the repository; --list shows the renamings and writes nothing

    nthWindow -> nth_window      lookup-answers -> lookup_answers

What it takes: each definition, lemma and field of a record of the files in specs/ and proofs/ that begins with a small letter. Where a
lemma and a definition would fall together, the lemma gets `_lem`. What a function's proof folder (proofs/F/) calls a goal or a step is
Rattle's name and is left. Files of src/ get the new names in their clauses and imports (`ghost use`, `requires`, `ensures`) alone, and
comments in code marks alone. It ran once, straight after port.py.
"""
import glob
import os
import re
import sys

IDENT = r"[^\s(){}\[\].,;:@\"`⌜⌝«»|]+"
DEFINED = re.compile(r"^(?:abbrev )?(?:unfoldable )?(?:pub )?(?:abbrev )?(" + IDENT + r")(?: \S+)*? :(?: |$)")
FIELD = re.compile(r"^ +(?:pub )?(" + IDENT + r") : ")
# What port.py had put into snake case already and now falls together with a definition: the file or crate, the name, its new name.
ALREADY = [
    ("crates/machine/proofs/FitsLaws.antt", "in_window", "in_window_lem"),
    ("crates/demands/", "no_call", "no_call_lem"),
    ("crates/cases/proofs/BadVersions.antt", "runs_on", "runs_on_lem"),
    ("crates/cases/specs/BadVersions.antt", "runs_on", "runs_on_lem"),
    ("crates/protocol/proofs/NumbersLaws.antt", "call_back", "call_back_lem"),
]
KEEP = set("data record where pub use abbrev unfoldable unfolding let in elim as ruleset".split())


def snake(name):
    name = re.sub(r"(?<=[a-z0-9])([A-Z])(?=[a-z0-9]|$)", lambda m: "_" + m.group(1).lower(), name)
    name = re.sub(r"(?<=[A-Za-z0-9_])-(?=[A-Za-z0-9_])", "_", name)
    return name.replace("′", "'")


def own(root):
    """The files whose definitions are the repository's own: specs/*.antt and proofs/*.antt, and the helpers of a function's folder."""
    for p in sorted(glob.glob(os.path.join(root, "crates/*/specs/*.antt")) + glob.glob(os.path.join(root, "crates/*/proofs/**/*.antt"), recursive=True)):
        yield p


def names(root):
    found = {}
    for p in own(root):
        folder = os.path.relpath(p, root).split(os.sep)
        of_function = folder[2] == "proofs" and len(folder) > 4
        for line in open(p, encoding="utf-8"):
            if line.startswith("--") or line.startswith("use "):
                continue
            m = DEFINED.match(line)
            if not m and not of_function:
                m = FIELD.match(line)
            if not m:
                continue
            name = m.group(1)
            if of_function and (name.startswith("returns-") or re.search(r": (tie|goal)\.", line) or re.search(r"-spec$", name)):
                continue
            if name in KEEP or not name[0].islower() or snake(name) == name:
                continue
            found.setdefault(name, p)
    return found


def code_words(root):
    """Names of src/, which keep their spelling."""
    words = set()
    for p in glob.glob(os.path.join(root, "crates/*/src/**/*.rt"), recursive=True):
        words |= set(re.findall(r"[A-Za-z_][A-Za-z_0-9]*", open(p, encoding="utf-8").read()))
    return words


def renamed(found):
    """Old name -> new name."""
    table = {n: snake(n) for n in found}
    camel = {table[n] for n in table if "-" not in n} | {"row_slot", "at_start"}
    for n in table:
        if "-" in n and table[n] in camel:
            table[n] += "_lem"
    return table


TOKEN = re.compile(r"(?<![^\s(){}\[\].,;:@\"`⌜⌝«»|])" + IDENT)


def turn_line(line, table, steps=frozenset()):
    def one(m):
        word = m.group(0)
        if word in steps and m.start() and line[m.start() - 1] == ".":
            return word
        return table.get(word, word)

    return TOKEN.sub(one, line)


def turn_comment(text, table):
    return re.sub(r"`([^`]+)`", lambda m: "`" + turn_line(m.group(1), table) + "`", text)


def turn_antt(text, table, steps=frozenset()):
    out = []
    for line in text.split("\n"):
        if line.lstrip().startswith("--"):
            out.append(turn_comment(line, table))
        else:
            code, dash, comment = line.partition(" -- ")
            out.append(turn_line(code, table, steps) + (dash + turn_comment(comment, table) if dash else ""))
    return "\n".join(out)


def goals(text):
    """The names that a function's file gives to goals."""
    return set(re.findall(r"(?m)^(?:pub )?(" + IDENT + r") : (?:tie|goal)\.", text))


def turn_rt(text, table):
    """Only what stands in `ghost use` lines, in clauses and in comments' code marks."""
    out, depth = [], 0
    for line in text.split("\n"):
        s = line.strip()
        if depth == 0 and (s.startswith("ghost use") or re.match(r"(requires|ensures|ghost)\b", s)):
            depth = s.count("{") - s.count("}")
            out.append(turn_line(line, table))
        elif depth > 0:
            depth += s.count("{") - s.count("}")
            out.append(turn_line(line, table))
        else:
            if "//" in line:
                at = line.index("//")
                line = line[:at] + turn_comment(line[at:], table)
            out.append(line)
    return "\n".join(out)


def main(argv):
    root = os.getcwd()
    found = names(root)
    table = renamed(found)
    if argv == ["--list"]:
        for n in sorted(table):
            print(n, table[n], os.path.relpath(found[n], root))
        return 0
    steps = {n for n in table if "-" in n and n.replace("-", "_") in code_words(root)}
    for p in own(root):
        rel = os.path.relpath(p, root)
        t = open(p, encoding="utf-8").read()
        here = dict(table)
        here.update({old: new for where, old, new in ALREADY if rel.startswith(where)})
        of_function = rel.split(os.sep)[2] == "proofs" and rel.count(os.sep) > 3
        if of_function:
            for g in goals(t):
                here.pop(g, None)
        n = turn_antt(t, here, steps if of_function else frozenset())
        if n != t:
            open(p, "w", encoding="utf-8").write(n)
    for p in sorted(glob.glob(os.path.join(root, "crates/*/src/**/*.rt"), recursive=True)):
        t = open(p, encoding="utf-8").read()
        n = turn_rt(t, table)
        if n != t:
            open(p, "w", encoding="utf-8").write(n)
    return 0


if __name__ == "__main__":
    raise SystemExit(main(sys.argv[1:]))
