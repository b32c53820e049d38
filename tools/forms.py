#!/usr/bin/env python3
"""Counts the places of older forms in the crates' code: tools/forms.py [--places] [FOLDER OF CRATES]

Each form is found by its text, so a place may be one that a reader keeps: docs/DESIGN-PASS.md says which and why.
"""
import collections
import pathlib
import re
import sys

FUNCTION = re.compile(r"^ *(?:pub(?:\(crate\))? )?(?:const )?(?:extern \"C\" )?fn (\w+)")
FLAGS = r"found|done|all|kept|stuck|ended|settled|growing|second|fault|number"
BY_HAND = r"same_cargo|same_tally|same_trip|later|lesser|less|both|is_within|wide|flag|yes_or_no|difference|as_place|byte_at|number_at"
FACTS = ["LayoutOf", "IsAccepted", "LimitsOf", "Whole", "SmallTrip", "CargoWithin", "TripWithin", "EditSmall", "EditKnown",
         "tracks_words", "1687 ≤ length cells", "PairsOf", "SetsFit"]


def signatures(text):
    """Each function's lines from its name to the brace that opens its body, with the number of the first."""
    lines = text.split("\n")
    for number, line in enumerate(lines):
        if FUNCTION.match(line):
            end = next((k for k in range(number, len(lines)) if lines[k].rstrip() in ("{", "    {") or lines[k].rstrip().endswith(") {")), number)
            yield number + 1, "\n".join(lines[number:end + 1])


def structs(text):
    """Each struct's or enum's lines, with the number of the first."""
    lines = text.split("\n")
    for number, line in enumerate(lines):
        if re.match(r"^(pub )?(struct|enum) ", line):
            end = next((k for k in range(number, len(lines)) if lines[k] == "}"), number)
            yield number + 1, "\n".join(lines[number:end + 1])


def places(file, text):
    """Pairs of a form and a place's line."""
    for number, body in structs(text):
        if re.match(r"^(pub )?enum ", body) and "Refused {" in body:
            yield "1 enums with a case for a refusal", number
        for line, field in enumerate(body.split("\n")):
            if re.match(rf"^    (pub )?({FLAGS}): (bool|u32|usize),", field) and not body.startswith("pub enum"):
                yield "1 flags or fault numbers with a value beside", number + line
    for number, head in signatures(text):
        name = FUNCTION.match(head).group(1)
        if re.search(r"fault|offence|driven", name) and re.search(r"-> (u32|Fault|Offence|Driven|Step|Verdict)\b", head):
            yield "1 functions that answer a fault by its number", number
        if re.match(rf"^({BY_HAND})$", name) and "layout" not in head and "day:" not in head:
            yield "4 conversions, copies and tests by hand", number
        for fact in FACTS:
            if re.search(rf"requires.*{re.escape(fact)}", head):
                yield f"5 contracts that require {fact}", number
        if re.search(r"layout: (day::fields::)?Layout\b", head):
            yield "5 functions that take a day and its layout", number
        if len(re.findall(r"^    (?:mut )?\w+: ", head.split("requires")[0].split("ensures")[0], re.M)) > 8:
            yield "5 functions of more than eight parameters", number
        if re.search(r": &mut \[[\w<>]+\], (at|from): usize|at: usize, \w+: u8\)", head):
            yield "6 functions that take a buffer and a place in it", number
        if re.search(r"near: bool|run: Run", head):
            yield "7 functions told which test to run", number
    for number, line in enumerate(text.split("\n"), 1):
        if line.startswith("//") and re.search(r"\b0 (for none|is no|says|where there is none|where none|for nothing|for the removal)|number 0 is none|256 where none|Number 0", line):
            yield "1 numbers that stand for none", number
        if re.match(r"^\s*while ", line):
            rest = text.split("\n")[number:number + 25]
            indent = len(line) - len(line.lstrip())
            body = []
            for inner in rest:
                if inner.rstrip() == " " * indent + "}":
                    break
                body.append(inner)
            counted = any(re.search(r"\b\w+ (\+|-)= 1;", inner) for inner in body)
            yield ("3 loops that count by hand" if counted else "3 other while loops"), number
        if re.search(r"\bas (u8|u32|u64|usize)\b", line):
            yield "4 casts by `as`", number
        if re.match(r"^\s*for \w+ in .*\.\.", line):
            yield "3 for loops over a range of numbers", number
        if re.search(r"\bnumber: \d+\b", line):
            yield "1 refusals by a bare number", number


def main():
    arguments = [a for a in sys.argv[1:] if a != "--places"]
    root = pathlib.Path(arguments[0] if arguments else pathlib.Path(__file__).resolve().parent.parent / "crates")
    found = collections.defaultdict(list)
    for file in sorted(root.glob("*/src/*.rt")):
        for form, line in places(file, file.read_text()):
            found[form].append(f"{file.relative_to(root)}:{line}")
    for form in sorted(found):
        print(f"{len(found[form]):4}  {form}")
        if "--places" in sys.argv:
            for place in found[form]:
                print(f"        {place}")


main()
