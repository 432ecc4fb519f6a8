#!/usr/bin/env python3
"""Brings the names that this repository's specs and lemmas declare to today's spelling: words in snake case, types and modules as they are.

usage: python3 tools/respell.py [--check]      at the top of the repository; --check only lists names that would fall together

A name that specs/ or a lemma file declares and that has a dash or a capital inside turns everywhere: in .antt files, in the clauses of .rt files, in must-fail
edits, and in the code spans of comments and documents. Types, operators, functions of src/, strings and prose keep their names, and so does what a file
imports from a library.
"""

import collections
import glob
import os
import re
import sys

WORD = r"""[^\s(){}.;,@"«»]+"""
DECLARED = re.compile(
    r"(?m)^ *(?:(?:pub|abbrev|unfoldable) +)*(" + WORD + r")(?: [({][^\n]*?[)}])* :(?= |$)"
)
STRING = r'b?"(?:\\.|[^"\\\n])*"'
SPAN = re.compile(r"`[^`\n]+`")


# Lemmas, fields and constructors that would be spelled like a definition of the same file.
APART = {
    "ample-reply": "ample_reply_lem",
    "answer-rows": "answer_rows_lem",
    "at-place": "at_place_lem",
    "bad-batch": "on_bad_batch",
    "bit-and": "bit_and_lem",
    "bit-or": "bit_or_lem",
    "bit-xor": "bit_xor_lem",
    "bodies-at": "bodies_at_lem",
    "body-at": "body_at_lem",
    "deep-now": "deep_now_lem",
    "first-behind": "first_behind_lem",
    "first-linking": "first_linking_lem",
    "first-reading": "first_reading_lem",
    "held-from": "held_from_lem",
    "kind-at": "kind_at_lem",
    "kind-rules": "kind_rules_lem",
    "too-deep": "is_too_deep",
    "type-part": "type_part_lem",
    "unlinked-at": "unlinked_place",
    "with-numbers": "with_numbers_lem",
    "word-at": "word_at_lem",
}

# The same of names that port.py had turned already, in these files.
APART_IN = {
    "crates/linking/proofs/FirstReading.antt": {"first_entry": "first_entry_lem"},
    "crates/linking/proofs/FirstLinking.antt": {"linked_to": "linked_to_lem"},
    "crates/reader/proofs/Ample.antt": {"line_reply": "line_reply_lem"},
    "crates/capitals/proofs/LetterLaws.antt": {"small_bytes": "small_bytes_lem"},
    "crates/book/specs/Check.antt": {"no_target": "without_target"},
    "crates/book/proofs/Parsing.antt": {"no_target": "without_target"},
    "crates/book/proofs/Promises.antt": {"no_target": "without_target"},
}


def turned(name):
    """The name in snake case. A type keeps its capitals, and so does an operator."""
    if name in APART:
        return APART[name]
    if not re.fullmatch(r"[a-z][\w'₀-₉-]*", name):
        return name
    return re.sub(r"(?<=[A-Za-z0-9])[A-Z]", lambda m: "_" + m[0].lower(), name).replace("-", "_")


def declarations(root="."):
    for path in sorted(glob.glob(f"{root}/crates/*/specs/*.antt") + glob.glob(f"{root}/crates/*/proofs/*.antt")):
        with open(path, encoding="utf-8") as f:
            text = f.read()
        for m in DECLARED.finditer(text):
            if m[1] not in ("pub", "use", "--", "let"):
                yield path, m[1]


def table():
    names = {name for _, name in declarations()}
    return {name: turned(name) for name in names if turned(name) != name}


def fallen(rows):
    """Names of one file that fall together: two that the file has, and that would be spelled alike."""
    for path in sorted(glob.glob("crates/**/*.antt", recursive=True) + glob.glob("crates/**/*.rt", recursive=True)):
        with open(path, encoding="utf-8") as f:
            words = set(re.findall(WORD, f.read()))
        by_new = collections.defaultdict(set)
        rows_here = rows | APART_IN.get(path, {})
        for w in words:
            by_new[rows_here.get(w, w)].add(w)
        for new, old in by_new.items():
            if len(old) > 1:
                yield path, new, sorted(old)


def lent(text, own):
    """The names that a file imports from a library: they stay as they are in that file."""
    names = set()
    for m in re.finditer(r"\buse ([^\s;{]+)\.\{([^}]*)\}", text):
        steps = m[1].split(".")
        if steps[0] != "Rattle" or steps[1] not in own:
            names |= {word.split(" as ")[0].strip() for word in m[2].split(",")}
    return names


def respell(code, rows):
    return re.sub(WORD, lambda m: rows.get(m[0], m[0]), code)


def spans(prose, rows):
    return SPAN.sub(lambda m: "`" + respell(m[0][1:-1], rows) + "`", prose)


def by_comments(text, rows, mark):
    parts = re.split(f"({STRING}|{mark}[^\n]*)", text)
    for i, part in enumerate(parts):
        if i % 2 == 0:
            parts[i] = respell(part, rows)
        elif part.startswith(mark):
            parts[i] = spans(part, rows)
    return "".join(parts)


def main():
    rows = table()
    clashes = list(fallen(rows))
    for path, new, old in clashes:
        print(f"{path}: {', '.join(old)} -> {new}")
    if "--check" in sys.argv:
        return
    own = set(os.listdir("crates"))
    kinds = [("crates/**/*.antt", "--"), ("crates/**/*.rt", "//"), ("crates/**/*.edit", "# "), ("docs/**/*.md", None), ("*.md", None)]
    for pattern, mark in kinds:
        for path in glob.glob(pattern, recursive=True):
            with open(path, encoding="utf-8") as f:
                text = f.read()
            here = rows | APART_IN.get(path, {})
            kept = lent(text, own)
            here = {old: new for old, new in here.items() if old not in kept}
            new = by_comments(text, here, mark) if mark else spans(text, here)
            if new != text:
                with open(path, "w", encoding="utf-8") as f:
                    f.write(new)


if __name__ == "__main__":
    main()
