#!/usr/bin/env python3
"""Brings the repository's own definitions and lemmas to snake case: `beAt-more` becomes `be_at-more`.

usage: tools/spelling.py    at the top of the repository, once, right after the kit's port.py

It goes over specs/, proofs/, src/ and the must-fail edits of each crate, and over the code words of README.md and docs/.
A name in lower camel case is one of antt's: functions of src/, exported names and types have no such names.
A lemma that would then have the name of a definition ends in `_lem`. It prints how many names it turned.
"""
import glob
import re

# lemmas that would have a definition's name, and where the word is a field and stays
LEMMAS = (
    "left_by is_found first_part goes_on after_list wrote_on all_true list_length same_class list_read taken_out kept_out held_on "
    "by_rank cut_list cut_out"
).split()
FIELDS = ("crates/model/proofs/Untouched.antt", "crates/columns/")
OLDER = {"getD": "get_or"}

TOKEN = re.compile(r"[A-Za-z_][A-Za-z0-9_'!₀-₉⁻¹ℕ-]*")
LEMMA = re.compile(r"(?<![\w.'·-])(" + "|".join(LEMMAS) + r")(?![\w'!-])")


def is_camel(token):
    return re.match(r"[a-z]", token) and re.search(r"[a-z0-9_'₀-₉][A-Z]", token)


def snake(token):
    parts = token.split("-")
    for i, part in enumerate(parts):
        if part in OLDER:
            parts[i] = OLDER[part]
        elif re.match(r"[a-z]", part):
            part = re.sub(r"(?<=[a-z0-9'₀-₉])([A-Z])", r"_\1", part)
            part = re.sub(r"(?<=[A-Z])([A-Z])(?=[a-z])", r"_\1", part)
            parts[i] = part.lower()
    return "-".join(parts)


def read(path):
    with open(path, encoding="utf-8") as f:
        return f.read()


def write(path, text):
    with open(path, "w", encoding="utf-8") as f:
        f.write(text)


def main():
    proofs = sorted(glob.glob("crates/*/specs/**/*.antt", recursive=True) + glob.glob("crates/*/proofs/**/*.antt", recursive=True))
    names = {t for p in proofs for t in TOKEN.findall(read(p)) if is_camel(t)}
    turn = lambda m: snake(m.group(0)) if m.group(0) in names else m.group(0)
    for p in proofs:
        old = read(p)
        text = old if p.startswith(FIELDS) else LEMMA.sub(r"\1_lem", old)
        text = TOKEN.sub(turn, text)
        if text != old:
            write(p, text)
    for p in sorted(glob.glob("crates/*/src/**/*.rt", recursive=True) + glob.glob("crates/*/must-fail*/*.edit")):
        old = read(p)
        text = TOKEN.sub(turn, old)
        if text != old:
            write(p, text)
    now = {t for p in proofs for t in TOKEN.findall(read(p))}
    told = lambda m: snake(m.group(0)) if is_camel(m.group(0)) and snake(m.group(0)) in now else m.group(0)
    for p in ["README.md"] + sorted(glob.glob("docs/**/*.md", recursive=True)):
        old = read(p)
        text = re.sub(r"`[^`\n]+`", lambda m: TOKEN.sub(told, m.group(0)), old)
        if text != old:
            write(p, text)
    print(f"spelling: {len(names)} names")


if __name__ == "__main__":
    main()
