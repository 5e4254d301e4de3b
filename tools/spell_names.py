#!/usr/bin/env python3
"""Respells this repository's own definitions and lemmas as today's Rattle spells names.

usage: python3 tools/spell_names.py [--list | --anyway]     at the top of the repository, once, after the kit's port.py

Types and facts are in upper camel case, everything else in snake case; a dash stays where a lemma is named by two names.
Only antt is respelled: files of specs/ and proofs/, and in files of src/ the imports, the clauses, the ghost fields and the
ghost members. Functions, strings, comments, edits, inputs and outputs keep their names. Names that fall together are
printed, and then nothing is written but with --anyway. --list only prints what would be respelled.
"""
import os
import re
import sys

# Lemmas on a function of a function, named by both: the dash between them stays.
OUTER = ("length", "take", "sum", "weighed")
INNER = ("append", "channels", "covered", "frame", "held", "latest", "little_endian", "parts", "turned", "window")
JOINED = {f"{o}_{i}": f"{o}-{i}" for o in OUTER for i in INNER} | {"little_endian_weighed": "little_endian-weighed"}
# Names that would fall together with another: a fact with a variant of this repository, a function with one of the kit's.
OTHER = {"No-soh": "HasNoSoh", "fromBits": "value_with_bits", "from-bits": "value_with_bits"}
# How a name begins that Rattle makes from the code.
MADE = re.compile(
    r"(?:returns|overflow_\w+|overflow|bounds|slice_bounds|slice-bounds|nonzero_\w+|offset_bounds|invariant_of|invariant-of|invariant-loop"
    r"|decreases|loop|ghost|prove|if|else|then|match)(?:-|$)|in-(?!front$|range$)|in_(?:ok|err|default)-|invariant-|.*-requires(?:-\d)?$|T_prop$"
)
NAME = r"[^\W\d][\w'\-]*"
TOKEN = re.compile(r"(?<![\w'\-])" + NAME)


def files(*ends):
    for folder, dirs, names in os.walk("crates"):
        dirs[:] = sorted(d for d in dirs if d not in ("out", "target"))
        for f in sorted(names):
            if f.endswith(ends):
                yield os.path.join(folder, f)


def read(path):
    with open(path, encoding="utf-8") as f:
        return f.read()


def bare(text):
    """The antt text with its comments blanked, line by line."""
    return "\n".join(line if (at := comment(line)) < 0 else line[:at] for line in text.split("\n"))


def comment(line):
    found = re.search(r"(?:^|\s)--(?:\s|$)", line)
    return found.start() if found else -1


def own_names():
    """Names that the repository's antt declares: definitions, lemmas, fields, constructors and local names."""
    own = set()
    for path in files(".antt"):
        text = bare(read(path))
        for line in text.split("\n"):
            if re.match(r"\s*(?:pub )?use |\s*(?:pub )?mod ", line):
                continue
            head = re.match(r"\s*(?:(?:abbrev|unfoldable|pub|data|record|ruleset|let) )*(" + NAME + r")(?: |$)", line)
            typed = re.match(r"\s*(?:(?:abbrev|unfoldable|pub|data|record|ruleset) )*(" + NAME + r"(?: " + NAME + r")*)(?: [({][^=]*)? :", line)
            answer = re.search(r":\s*(?:need|needs|goal|given|choice)\.", line)
            if typed and not answer:
                own.update(typed.group(1).split())
            if head and re.match(r"\s*(?:pub )?(?:data|record|ruleset) ", line):
                own.add(head.group(1))
            for m in re.finditer(r"[({]((?:" + NAME + r" )+):", line):
                own.update(m.group(1).split())
            for m in re.finditer(r"\blet (" + NAME + r")\s*[:=]", line):
                own.add(m.group(1))
            for m in re.finditer(r"λ ([^.]*)\.", line):
                own.update(TOKEN.findall(m.group(1)))
            for m in re.finditer(r"(?:\[|\|) ([^↦|\[]*) ↦", line):
                own.update(TOKEN.findall(m.group(1))[1:])
    for path in files(".rt"):
        for m in re.finditer(r"λ ([^.{}]*)\.", read(path)):
            own.update(TOKEN.findall(m.group(1)))
    return {n for n in own if not MADE.match(n)}


def library_names():
    taken = set()
    for path in files(".antt", ".rt"):
        for m in re.finditer(r"(?m)^(?:ghost |pub )*use ((?:Rattle\.std|native|lib|borrow|Prim|denote|mathlib|logic)[\w.'-]*)\.\{([^}]*)\}", read(path)):
            taken.update(w.split(" as ")[0].strip() for w in m.group(2).split(","))
    return taken


def snake(name):
    name = re.sub(r"(?<=[a-z0-9])(?=[A-Z])", "_", name)
    return "_".join(w if w.isupper() and len(w) == 1 else w.lower() for w in re.split(r"[-_]", name) if w)


def spelled(name):
    if name in OTHER:
        return OTHER[name]
    if name[0].isupper():
        if "-" not in name and "_" not in name:
            return name
        return "".join(w[0].upper() + w[1:] for w in re.split(r"[-_]", name))
    new = snake(name)
    return JOINED.get(new, new)


def renamings():
    own, taken = own_names(), library_names()
    new = {}
    for n in own:
        if ("-" in n or re.search(r"[a-z0-9][A-Z]", n) or (n[0].isupper() and "_" in n)) and n not in taken:
            s = spelled(n)
            if s != n:
                new[n] = s
    clash = {}
    for old, s in new.items():
        clash.setdefault(s, {old})
        clash[s].add(old)
    for s, olds in clash.items():
        if s in own:
            olds.add(s)
        if s in taken:
            olds.add("library: " + s)
    return new, {s: o for s, o in clash.items() if len(o) > 1}


def turned(text, new):
    return TOKEN.sub(lambda m: new.get(m.group(0), m.group(0)), text)


def turn_antt(text, new):
    out = []
    for line in text.split("\n"):
        at = comment(line)
        code, said = (line, "") if at < 0 else (line[:at], line[at:])
        said = re.sub(r"`([^`]*)`", lambda m: "`" + turned(m.group(1), new) + "`", said)
        out.append(turned(code, new) + said)
    return "\n".join(out)


def spans(text):
    """Where antt stands in a file of src/: imports, clauses and ghost fields."""
    for m in re.finditer(r"(?m)^\s*ghost use [^;]*;", text):
        yield m.start(), m.end()
    for m in re.finditer(r"\b(?:requires|ensures|ghost)\*?(?: \w+)?(?::| =)? ?(?:by )?\{", text):
        depth, at = 0, m.end() - 1
        while at < len(text):
            depth += {"{": 1, "}": -1}.get(text[at], 0)
            at += 1
            if depth == 0:
                break
        yield m.start(), at


def turn_rt(text, new):
    done, out = 0, []
    for a, b in sorted(spans(text)):
        if a < done:
            continue
        out.append(text[done:a] + turned(text[a:b], new))
        done = b
    return "".join(out) + text[done:]


def main():
    new, clash = renamings()
    for s, olds in sorted(clash.items()):
        print(f"falls together as {s}: {', '.join(sorted(olds))}")
    if "--list" in sys.argv:
        for n in sorted(new):
            print(f"{n} -> {new[n]}")
        return 0
    if clash and "--anyway" not in sys.argv:
        return 1
    changed = 0
    for path in files(".antt", ".rt"):
        old = read(path)
        text = turn_antt(old, new) if path.endswith(".antt") else turn_rt(old, new)
        if text != old:
            with open(path, "w", encoding="utf-8") as f:
                f.write(text)
            changed += 1
    print(f"{len(new)} names, {changed} files")
    return 0


if __name__ == "__main__":
    sys.exit(main())
