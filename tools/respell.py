#!/usr/bin/env python3
"""Brings the names of this repository's definitions and lemmas to today's spelling: words in snake case, joined by underscores.

usage: python3 tools/respell.py        at the top, once, right behind port.py; `--list` prints old and new names and changes nothing

Only names that specs/ and proofs/ declare are turned, wherever they stand as a whole word: in .antt files, in the clauses and ghost
imports of .rt files, in must-fail edits, and between backticks in comments and documents. Functions of src/, types, modules, strings and
names that Rattle makes keep theirs. Two names that would fall together are kept apart by CLASHES.
"""

import os
import re
import sys

# A token is what stands between these.
SPLIT = re.compile(r"([\s(){}\[\].,;\"`|]+)")
SIGNATURE = re.compile(r"^(\s*)((?:(?:abbrev|unfoldable|pub|record|data|syntax) )*)([^\s(){}]+) : (.*)")
MADE = re.compile(r"^(?:tie|goal)\.|^statement\b|^\{M : Type 1\} → statement")
OF_LIBRARY = re.compile(r"^\s*(?:pub )?use (\S+?)\.\{([^}]*)\}")
# Old name -> new name, where the rule alone would give two things one name.
CLASHES = {"so-far": "best_so_far"}
# Lemmas in snake case already, whose name a definition of another spelling now gets: they get `_lem`, in these files.
LEMMAS = {
    "all_in": ["crates/plan_laws/proofs/Numbers.antt"],
    "in_order": ["crates/solomon_form/proofs/Earliest.antt"],
    "is_lawful": ["crates/attempts/proofs/KeptLaws.antt"],
    "kept_if": ["crates/plan_laws/proofs/Refused.antt"],
    "left_word": ["crates/plan_laws/proofs/Parsing.antt"],
    "same_word": ["crates/plan_laws/proofs/CountedWords.antt"],
    "goes_on": ["crates/trials/proofs/", "crates/word_steps/proofs/"],
}
# Names that a lemma of another crate has too.
PLACED = {"crates/trial_list/": {"a-tip": "tells_tip", "no-tip": "tells_no_tip"}}
def crates():
    return sorted(d for d in os.listdir("crates") if os.path.isdir(os.path.join("crates", d)))


def files(*endings):
    for folder, dirs, names in os.walk("crates"):
        dirs[:] = sorted(d for d in dirs if d != "out")
        for name in sorted(names):
            if name.endswith(endings):
                yield os.path.join(folder, name)


def read(path):
    with open(path, encoding="utf-8") as f:
        return f.read()


def snake(name):
    name = name.replace("getD", "get_or")
    name = re.sub(r"(?<=[a-z0-9])([A-Z])(?=[a-z0-9]|$|[-_])", lambda m: "_" + m.group(1).lower(), name)
    return name.replace("-", "_")


def is_turned(name):
    """Whether a name is a word that today is written in another way."""
    if not re.match(r"^[a-z]", name):
        return False
    return "-" in name or re.search(r"[a-z0-9][A-Z]", name) is not None


def declared():
    """The names that are turned, with the files that declare them."""
    found = {}
    for path in files(".antt"):
        for line in read(path).split("\n"):
            if line.lstrip().startswith("--"):
                continue
            m = SIGNATURE.match(line)
            if m and is_turned(m.group(3)) and not MADE.match(m.group(4)):
                found.setdefault(m.group(3), set()).add(path)
    return found


def imported():
    """Names that come from the library."""
    own = {"Rattle." + c for c in crates()}
    names = set()
    for path in files(".antt", ".rt"):
        for m in re.finditer(r"use (\S+?)\.\{([^}]*)\}", read(path)):
            if ".".join(m.group(1).split(".")[:2]) not in own:
                names.update(n.strip().split(" as ")[0] for n in m.group(2).split(","))
    return names


def tokens():
    """Each token of each .antt file."""
    every = {}
    for path in files(".antt"):
        for token in SPLIT.split(read(path)):
            every.setdefault(token, set()).add(path)
    return every


def standing():
    """The declared names that keep their spelling."""
    names = set()
    for path in files(".antt"):
        for line in read(path).split("\n"):
            m = SIGNATURE.match(line)
            if m and not line.lstrip().startswith("--") and not is_turned(m.group(3)):
                names.add(m.group(3))
    return names - set(LEMMAS)


def table():
    found, library, kept = declared(), imported(), standing()
    names = {old: CLASHES.get(old, snake(old)) for old in found if old not in library}
    of_definitions = {names[old] for old in names if "-" not in old}
    for old in names:
        # "A lemma that would have its function's name gets `_lem`."
        if "-" in old and (names[old] in of_definitions or names[old] in kept):
            names[old] += "_lem"
    return names, found, library


def for_file(path, names):
    """The names that are turned in a file."""
    more = {old: old + "_lem" for old, places in LEMMAS.items() if any(path.startswith(p) for p in places)}
    for place, placed in PLACED.items():
        if path.startswith(place):
            more |= placed
    return names | more if more else names


def turned(text, names, is_proof=False):
    parts = SPLIT.split(text)
    for i, part in enumerate(parts):
        if part in names:
            # In the proof of a function a step of its code stands behind a dot, and no lemma.
            parts[i] = snake(part) if is_proof and parts[i - 1] == "." else names[part]
    return "".join(parts)


def quoted(text, names):
    """Between backticks alone."""
    return re.sub(r"`[^`\n]*`", lambda m: turned(m.group(0), names), text)


def antt(text, names, is_proof):
    lines = []
    for line in text.split("\n"):
        lines.append(quoted(line, names) if line.lstrip().startswith("--") else turned(line, names, is_proof))
    return "\n".join(lines)


def source(text, names):
    """A .rt file or an edit: its comments between backticks alone. Code has none of the turned words: it is in Rust's spelling."""
    lines = []
    for line in text.split("\n"):
        bare = re.sub(r"^(old|new): ?", "", line).lstrip()
        lines.append(quoted(line, names) if bare.startswith("//") else turned(line, names))
    return "\n".join(lines)


def main():
    names, found, library = table()
    if "--list" in sys.argv:
        for old in sorted(names):
            print(old, names[old])
        return
    if "--clashes" in sys.argv:
        every = tokens()
        new = {}
        for old in sorted(names):
            new.setdefault(names[old], []).append(old)
        for word, olds in sorted(new.items()):
            if len(olds) > 1:
                print("both:", word, olds, [sorted(found[o])[0] for o in olds])
            elif word in every:
                print("stands:", word, olds, sorted(found[olds[0]])[0], sorted(every[word])[:4])
        print("library:", sorted(n for n in found if n in library))
        return
    for path in files(".antt"):
        text = read(path)
        write(path, text, antt(text, for_file(path, names), path.endswith("/Proof.antt")))
    for path in files(".rt", ".edit"):
        text = read(path)
        write(path, text, source(text, names))
    for top in (".", "docs", "docs/changes", "examples"):
        for name in sorted(os.listdir(top)):
            if name.endswith(".md"):
                path = os.path.join(top, name)
                text = read(path)
                write(path, text, quoted(text, names))


def write(path, old, new):
    if new != old:
        with open(path, "w", encoding="utf-8") as f:
            f.write(new)


if __name__ == "__main__":
    main()
