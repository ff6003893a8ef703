#!/usr/bin/env python3
"""Brings the repository's own definitions and lemmas to the spelling of today's Rattle: words in snake case.

Run once at the top, after the kit's port.py. `camelCase` becomes `camel_case` in specs, proofs, contracts
and must-fail edits; names that begin with a capital (types, facts, modules) and the hyphens of lemmas stay.
"""
import glob
import re

TOKEN = re.compile(r"(?<![0-9])[A-Za-zα-ωΑ-Ω_][A-Za-z0-9_α-ωΑ-Ω₀-₉'′-]*")

# Words that would fall together with a field of a record of src/.
OTHER = {"returnHeard": "heard_return"}

# Lemmas, fields and locals of proofs/ that port.py gave an underscore, and that would fall together with a
# definition: they take their hyphen again.
HYPHENED = """all_digits each_from ended_by entered_from given_by goes_on in_order in_place is_found joined_in
kept_by leaves_in left_in length_two one_more own_in part_in reach_of same_row set_after slot_held stays_on
too_few written_on""".split()

# Of these, fields of records in proofs/: they are read behind a dot, too.
FIELDS = {"goes_on", "own_in", "part_in", "in_order"}


def segment(text):
    if not text or not (text[0].islower() or text[0] == "_"):
        return text
    return re.sub(r"(?<=[a-z0-9])([A-Z])", lambda m: "_" + m.group(1).lower(), text)


def spelled(name):
    if name in OTHER:
        return OTHER[name]
    return "-".join(segment(part) for part in name.split("-"))


def hyphened(text):
    """In a file of proofs/: the words of HYPHENED with their hyphens, where they stand alone."""

    def one(m):
        name = m.group(0)
        if name not in HYPHENED:
            return name
        before = text[m.start() - 1 : m.start()]
        after = text[m.end() : m.end() + 1]
        if after == "." or (before == "." and name not in FIELDS):
            return name
        return name.replace("_", "-")

    return TOKEN.sub(one, text)


def main():
    changed = 0
    for path in sorted(glob.glob("crates/**/*", recursive=True)):
        if not path.endswith((".antt", ".rt", ".edit")):
            continue
        with open(path, encoding="utf-8") as file:
            text = file.read()
        new = hyphened(text) if "/proofs/" in path else text
        new = TOKEN.sub(lambda m: spelled(m.group(0)), new)
        if new != text:
            changed += 1
            with open(path, "w", encoding="utf-8") as file:
                file.write(new)
    print(f"spelling: {changed} files changed")


if __name__ == "__main__":
    main()
