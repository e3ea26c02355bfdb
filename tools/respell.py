#!/usr/bin/env python3
"""Spells this repository's own definitions and lemmas as today's Rattle does: words in snake case, types and facts in camel case.

usage: python3 tools/respell.py     at the top, once, right after the kit's port.py

A name of the library keeps its spelling; names that Rattle makes (goals, steps, fields of `c` and `l`) follow the source's names.
It prints names that fall together with another name of the same file; they are to be looked at by hand.
"""

import os
import re

WORD = r"[A-Za-z0-9_'ℕ→≡]+(?:-[A-Za-z0-9_'ℕ→≡]+)+"
TOKEN = re.compile(r"(?<![\w'·-])" + WORD + r"(?![\w'·-])")
LIBRARY = re.compile(r"^(?:ghost )?use (?:Rattle\.std|lib|borrow|mathlib|Prim)\.[^{\n]*\{([^}]*)\}", re.M)
MADE = re.compile(r"(?:goal|c|l|w)(?:\.[\w'-]+)+")

# words of Rattle's and functions of src/ in names that Rattle makes
SOURCE = [
    "is_empty", "up_to", "check_group", "first_loose", "first_unpaired", "judge_sheet", "check_ends", "symmetric_difference", "linked_to",
    "split_at", "as_slice", "into_iter", "from_residual", "type_inv", "in_default", "in_ok", "in_err", "invariant_of", "offset_bounds",
    "overflow_add", "overflow_sub", "overflow_mul", "overflow_cast", "MOST_DIGITS",
]
MADE_WORDS = [(re.compile(r"(?<![\w])" + w.replace("_", "-") + r"(?![\w])"), w) for w in SOURCE]


def files(ending):
    for folder, dirs, names in os.walk("crates"):
        dirs[:] = sorted(d for d in dirs if d not in ("out", "target"))
        for name in sorted(names):
            if name.endswith(ending):
                yield os.path.join(folder, name)


def read(path):
    with open(path, encoding="utf-8") as f:
        return f.read()


def spelled(name):
    parts = name.split("-")
    if name[0].isupper() and len(parts[0]) > 1:
        return "".join(p[0].upper() + p[1:] for p in parts)
    return "_".join(parts)


def made(name):
    for pattern, word in MADE_WORDS:
        name = pattern.sub(word, name)
    return name


def code_of(line, mark):
    at = line.find(mark)
    return (line, "") if at < 0 else (line[:at], line[at:])


def of_function(path):
    """Whether the file is the proof of one function."""
    return os.path.basename(path) in ("Answers.antt", "Invariants.antt", "Choices.antt", "Proof.antt")


def main():
    library = set()
    for ending in (".antt", ".rt"):
        for path in files(ending):
            for names in LIBRARY.findall(read(path)):
                library |= {n.strip() for n in names.split(",")}
    own = set()
    for path in files(".antt"):
        for line in read(path).split("\n"):
            code = re.sub(MADE, "", code_of(line, "--")[0])
            if of_function(path):
                code = re.sub(r"^(?:abbrev pub |pub )?(?:returns|overflow|invariant|decreases|loop|bounds|offset|from|value|iterator)-[^ ]*", "", code)
            own |= {t for t in TOKEN.findall(code) if re.search(r"[A-Za-z]{2}|^[A-Z]-", t)}
    own -= library
    for path in list(files(".antt")) + list(files(".rt")):
        antt = path.endswith(".antt")
        mark = "--" if antt else "//"
        lines = []
        for line in read(path).split("\n"):
            code, comment = code_of(line, mark)
            if antt and of_function(path):
                if not code.startswith("use "):
                    code = re.sub(r"^(?:abbrev pub |pub )?[\w'-]+", lambda m: made(m.group(0)), code)
                code = MADE.sub(lambda m: made(m.group(0)), code)
                holes = []

                def hide(m):
                    holes.append(m.group(0))
                    return f"\x00{len(holes) - 1}\x00"

                code = MADE.sub(hide, code)
                head = re.match(r"^(?:abbrev pub |pub )?(?:returns|overflow|invariant|decreases|loop|bounds|offset|from|value|iterator)[\w'-]*", code)
                start = head.end() if head else 0
                code = code[:start] + TOKEN.sub(lambda m: spelled(m.group(0)) if m.group(0) in own else m.group(0), code[start:])
                code = re.sub("\x00(\\d+)\x00", lambda m: holes[int(m.group(1))], code)
            else:
                code = TOKEN.sub(lambda m: spelled(m.group(0)) if m.group(0) in own else m.group(0), code)
            comment = TOKEN.sub(lambda m: spelled(m.group(0)) if m.group(0) in own and m.group(0)[0].isupper() else m.group(0), comment)
            lines.append(code + comment)
        old, new = read(path), "\n".join(lines)
        if new != old:
            before = set(re.findall(r"[\w'-]+", old))
            for name in sorted(own & before):
                if spelled(name) in before:
                    print(f"look: {path}: {name} and {spelled(name)}")
            with open(path, "w", encoding="utf-8") as f:
                f.write(new)


main()
