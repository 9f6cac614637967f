#!/usr/bin/env python3
"""Respells this repository's own definitions and lemmas as today's Rattle spells names: words in snake case, facts and types
in camel case. Run once, at the top, after /opt/rattle/port/port.py. Names of the library, of src/, of goals and steps stay.

usage: python3 tools/respell.py [--list]      --list prints the names and their new spelling and changes nothing
"""
import os
import re
import sys

TOKEN = re.compile(r"[^\s(){}\[\],;.|@\"`]+")
SIGNATURE = re.compile(r"\s*(?:pub |abbrev |unfoldable )*((?:[^\s(){}\[\],;.:|=λ]+ )+): (.*)")
HEADING = re.compile(r"\s*(?:pub |abbrev )*(?:record|data) ([^\s(){}\[\],;.:]+)")

# Names that would fall together with another of the repository.
APART = {"Text-refused": "TextIsRefused", "pairsOf": "record_pairs", "refusal-of": "verdict_refusal", "recipe-of": "crossed_recipe"}
# A definition or lemma that would have the name of a function of its crate gets the ending that the library gives such a one.
LIKE_FUNCTIONS = {
    "fault-words", "flaw-words",
    "closing-first", "or-error", "holes-have-bodies", "plan-marks-holes", "readings-independent", "refusal-exact", "text-exists",
    "text-length-bounded", "text-reads-as-plan", "text-refused", "spells-only-in-bodies",
    "bind-named", "judge-bind", "judge-finish", "judge-release", "one-slate",
    "listings-tell", "tokens-fit", "reader-and-writer-agree", "refused-or-good", "split-field",
}
# Where such a name is a field of a record, it has no ending.
FIELDS = {("crates/worklist/specs/Promise.antt", "refusal-exact"), ("crates/worklist/proofs/Keeping.antt", "refusal-exact")}


def new_name(name):
    if name in APART:
        return APART[name]
    if name in LIKE_FUNCTIONS:
        return name.replace("-", "_") + "_lem"
    if name[0].isupper():
        return "".join(part[:1].upper() + part[1:] for part in re.split("[-_]", name))
    return re.sub(r"([a-z0-9])([A-Z])", lambda m: m[1] + "_" + m[2].lower(), name.replace("-", "_"))


def files():
    for folder, folders, names in os.walk("crates"):
        folders[:] = sorted(d for d in folders if d not in ("out", "target"))
        for name in sorted(names):
            if name.endswith((".rt", ".antt")):
                yield os.path.join(folder, name)


def of_lemmas(path):
    """Whether the file has definitions or lemmas, and not the goals of one function."""
    parts = path.split("/")
    return path.endswith(".antt") and (parts[2] == "specs" or (parts[2] == "proofs" and len(parts) == 4))


def declared(text, goals):
    """The names that the text declares, but for goals."""
    found = set()
    for line in text.splitlines():
        line = line.split(" -- ")[0]
        m = SIGNATURE.match(line)
        if m and not line.lstrip().startswith("--") and not (goals and m[2].startswith("goal.")):
            found |= set(m[1].split())
        m = HEADING.match(line)
        if m:
            found.add(m[1])
    return {n for n in found if re.fullmatch(r"[^\W\d][\w'₀-₉-]*", n) and new_name(n) != n}


def split_comment(line, mark):
    """The code of a line, and its comment."""
    at, inside = 0, False
    while at < len(line):
        if line[at] == '"' and (at == 0 or line[at - 1] != "\\"):
            inside = not inside
        elif not inside and line.startswith(mark, at) and (mark == "//" or at == 0 or line[at - 1] == " "):
            return line[:at], line[at:]
        at += 1
    return line, ""


def respell(path, text, names):
    mark = "//" if path.endswith(".rt") else "--"
    goals = path.endswith(".antt") and not of_lemmas(path)
    out = []
    for line in text.splitlines(keepends=True):
        code, comment = split_comment(line, mark)
        parts = re.split(r'("(?:[^"\\]|\\.)*")', code)

        def turn(part):
            def one(m):
                name = m[0]
                # a step of a goal keeps the name that the check made for it
                if goals and part[max(0, m.start() - 2):m.start()] == "c." and not re.match(r"[\w.]", part[max(0, m.start() - 3):m.start() - 2] or " "):
                    return name
                if name not in names:
                    return name
                if (path, name) in FIELDS:
                    return name.replace("-", "_")
                return new_name(name)
            return TOKEN.sub(one, part)

        out.append("".join(p if p.startswith('"') else turn(p) for p in parts) + comment)
    return "".join(out)


def main():
    texts = {p: open(p, encoding="utf-8").read() for p in files()}
    own = set()
    for path, text in texts.items():
        if of_lemmas(path):
            own |= declared(text, False)
    if "--list" in sys.argv:
        for name in sorted(own):
            print(name, new_name(name))
        return
    for path, text in texts.items():
        names = own | (declared(text, True) if path.endswith(".antt") and not of_lemmas(path) else set())
        turned = respell(path, text, names)
        if turned != text:
            with open(path, "w", encoding="utf-8") as f:
                f.write(turned)


main()
