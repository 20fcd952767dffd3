#!/usr/bin/env python3
"""Spells the repository's own definitions and lemmas as the library spells its own: words joined by underscores, types in
camel case, no middle dots.

usage: spell_names.py [FOLDER]    FOLDER has crates/; it is rewritten in place, once, right after the upgrade scripts

A name is turned where the repository defines it: at the top of a file of specs/ or proofs/, as a constructor, as a record's
field, or as a variable. Names that a file takes from the library, names that the check makes (goals), strings, comments of
source files and code stay.
"""

import os
import re
import sys

PART = r"[\w'₀-₉ℕℤ]"
NAME = re.compile(rf"(?<![\w'.◌-])(?:[A-Za-zΑ-ωℕ_]{PART}*)(?:[-·]{PART}+)+|(?<=\.)(?:[A-Za-zΑ-ωℕ_]{PART}*)(?:[-·]{PART}+)+")
DEFINED = re.compile(rf"^\s*(?:\| )?(?:pub |abbrev |data |record )*([A-Za-zΑ-ω_]{PART}*(?:[-·]{PART}+)+)\s*(?=[{{(:]|$|where)")
BOUND = re.compile(r"λ ([^.]+)\.|\(([^()]*?) :|let ([^ ]+) ")
GOAL = re.compile(r"/proofs/.*/(Answers|Invariants|Choices|Proof)\.antt$")


def files(top, ends):
    for folder, dirs, names in os.walk(os.path.join(top, "crates")):
        dirs[:] = sorted(d for d in dirs if d not in ("out", ".git"))
        for n in sorted(names):
            if n.endswith(ends):
                yield os.path.join(folder, n)


# lemmas on bits that would otherwise have the names of the library's operations
OTHERWISE = {"bit-and": "bit_of_and", "bit-or": "bit_of_or", "bit-xor": "bit_of_xor", "bit-shr": "bit_of_shr"}


def spelled(name):
    if name in OTHERWISE:
        return OTHERWISE[name]
    if "·" not in name:
        return name.replace("-", "_")
    if name[0].islower():
        return re.sub("[-·]", "_", name)
    return "".join(w[:1].upper() + w[1:] for w in re.split("[-·]", name))


def code_of(line):
    """The line without its comment."""
    return re.split(r"(?:^|\s)--(?:\s|$)", line)[0]


def taken(text):
    """The names that a file has from the library, and those that the check makes."""
    away = set()
    for m in re.finditer(r"^(?:ghost )?use ((?:Rattle\.std|Prim|mathlib|lib|logic)[\w.]*|[\w.'+-]*\.Goals)\.\{([^}]*)\}", text, re.M):
        away |= {w for n in m[2].split(",") for w in n.replace(" as ", " ").split()}
    away |= set(re.findall(rf"\bgoal\.([\w'-]+)", text))
    return away


def own_names(top):
    """Every name with a hyphen or a middle dot that the repository defines or binds."""
    names = set()
    for p in files(top, ".antt"):
        text = open(p, encoding="utf-8").read()
        away = taken(text)
        for line in text.splitlines():
            line = code_of(line)
            if line.startswith("use "):
                continue
            m = DEFINED.match(line)
            found = [m[1]] if m else []
            for b in BOUND.finditer(line):
                found += NAME.findall(b[1] or b[2] or b[3])
            names |= {n for n in found if n not in away}
    return names


def aliases(text):
    """The names that a file gives to the repository's own: a type's stays a type's, any other's is in snake case."""
    made = {}
    for m in re.finditer(r"^(?:ghost )?use (?!Rattle\.std|Prim|mathlib|lib|logic)[^{]*(?<!Goals)\.\{([^}]*)\}", text, re.M):
        for part in m[1].split(","):
            words = part.split()
            if len(words) == 3 and words[1] == "as" and re.search("[-·]", words[2]):
                is_type = words[0][0].isupper()
                made[words[2]] = spelled(words[2]) if is_type else re.sub("[-·]", "_", words[2]).lower()
    return made


def turn_line(line, names, away, made):
    def one(m):
        n = m[0]
        if n in made:
            return made[n]
        return spelled(n) if n in names and n not in away else n

    return NAME.sub(one, line)


def turn_antt(text, names):
    away, made = taken(text), aliases(text)
    out = []
    for line in text.splitlines(keepends=True):
        from_library = re.match(r"use (Rattle\.std|Prim|mathlib|lib|logic)", line) or ".Goals.{" in line
        out.append(line if from_library else turn_line(line, names, away, made))
    return "".join(out)


def turn_rt(text, names):
    """Only ghost lines and clauses, to their closing braces."""
    away, made, out, depth = taken(text), aliases(text), [], 0
    for line in text.splitlines(keepends=True):
        head = line.strip()
        begins = re.match(r"(pub )?ghost |(requires|ensures)\b", head)
        if (begins or depth > 0) and not head.startswith("//"):
            out.append(line if re.match(r"ghost use Rattle\.std", head) else turn_line(line, names, away, made))
            depth = max(0, depth + line.count("{") - line.count("}"))
        else:
            out.append(line)
    return "".join(out)


def fall_together(names):
    """Names that would be one after the turn."""
    by = {}
    for n in names:
        by.setdefault(spelled(n), set()).add(n)
    return {k: v for k, v in by.items() if len(v) > 1}


def main(argv):
    top = argv[0] if argv else "."
    names = own_names(top)
    for new, old in sorted(fall_together(names).items()):
        print(f"look: {', '.join(sorted(old))} are all {new} now")
    words = set()
    for p in files(top, (".antt", ".rt")):
        words |= set(re.findall(rf"[A-Za-z_]{PART}*", open(p, encoding="utf-8").read()))
    for n in sorted(names):
        if spelled(n) in words:
            print(f"look: {n} is {spelled(n)} now, a name that stood already")
    changed = 0
    for p in files(top, (".antt", ".rt")):
        text = open(p, encoding="utf-8").read()
        new = turn_antt(text, names) if p.endswith(".antt") else turn_rt(text, names)
        if new != text:
            open(p, "w", encoding="utf-8").write(new)
            changed += 1
    print(f"{len(names)} names, {changed} files")


if __name__ == "__main__":
    main(sys.argv[1:])
