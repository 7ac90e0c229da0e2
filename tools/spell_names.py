#!/usr/bin/env python3
"""Spells this repository's own names as today's Rattle does: words in snake case, joined by underscores.

usage: python3 tools/spell_names.py          in the repository: rewrites specs, proofs, clauses, edits and pages in place
       python3 tools/spell_names.py --list   prints each old name beside the new one, and writes nothing

Run it once, after the kit's port.py. It goes by text. A name turns where it is declared in specs/, or in a file of lemmas below
proofs/, in camel case or with dashes. What stays: types, facts and modules, which are in camel case; labels of a
function's proof, which the check makes; names of src/, strings, inputs and outputs. Names that would fall together
with another meaning have a spelling of their own in OTHERWISE.
"""

import glob
import re
import sys

# Names that the rule would give a spelling that another name has.
OTHERWISE = {
    "buffer-after": "buffer_after_cases",
    "decided-by": "decided_by_is",
    "fits-at": "said_fits_at",
    "goesOn": "going_on",
    "lowest-address": "lowest_address_is",
    "no-tag": "no_tag_stops",
    "not-answered": "no_answer",
    "ones-in": "ones_in_ones",
    "put-mid": "put_mid_part",
    "said_at": "turn_there",
    "several-tags": "several_leave_tags",
    "stored_answer": "answer_stored",
    "tags-after": "leaves_tags",
    "tags-after'": "leaves_tags'",
    "turn-of": "turn_of_at",
    "valid-heap": "valid_heap_of",
}

WORD = re.compile(r"[^\s(){}.;,@\"«»:`|\[\]]+")
DECLARED = re.compile(
    r"(?m)^ *(?:(?:abbrev|unfoldable|pub|ruleset) +)*([^\s(){}.;,@\"«»:]+)(?: \{[^{}\n]*\}| \([^()\n]*\))* [:=](?: |$)"
)
CLAUSES = re.compile(r"ghost use [^;]*;|\b(?:requires|ensures)(?: \w+)? \{(?:[^{}]|\{[^{}]*\})*\}|//[^\n]*", re.S)
SPAN = re.compile(r"```.*?```|`[^`]+`", re.S)


def read(path):
    with open(path, encoding="utf-8") as f:
        return f.read()


def spelled(name):
    """The name in snake case."""
    if name in OTHERWISE:
        return OTHERWISE[name]
    return re.sub(r"(?<=[a-z0-9])[A-Z]", lambda m: "_" + m[0].lower(), name).replace("-", "_").replace("′", "'")


def texts():
    """Files of definitions and of lemmas, without the folders of functions' proofs."""
    specs = glob.glob("crates/*/specs/**/*.antt", recursive=True)
    laws = glob.glob("crates/*/proofs/*.antt") + glob.glob("crates/*/proofs/Laws/**/*.antt", recursive=True)
    return sorted(specs + laws)


def old_names():
    names = set()
    for path in texts():
        for it in DECLARED.finditer(read(path)):
            name = it[1]
            if name[0].islower() and spelled(name) != name:
                names.add(name)
    return names | set(OTHERWISE)


def turned(text, table):
    return WORD.sub(lambda m: table.get(m[0], m[0]), text)


def declared():
    return {it[1] for path in texts() for it in DECLARED.finditer(read(path))}


def turned_to_declared(text, table, names):
    """Pages and edits, which port.py leaves: a name turns also where it is declared by now in snake case."""

    def one(m):
        word = m[0]
        if word in table:
            return table[word]
        return spelled(word) if word[0].islower() and spelled(word) in names else word

    return WORD.sub(one, text)


def main():
    if "answer_stored" in declared():
        sys.exit("spell_names: the names have today's spelling: nothing to do")
    table = {name: spelled(name) for name in old_names()}
    if "--list" in sys.argv:
        for name in sorted(table):
            print(name, table[name])
        return
    for path in texts() + glob.glob("crates/*/proofs/**/Proof.antt", recursive=True):
        write(path, lambda text: turned(text, table))
    for path in glob.glob("crates/*/src/**/*.rt", recursive=True):
        write(path, lambda text: CLAUSES.sub(lambda m: turned(m[0], table), text))
    names = declared()
    for path in glob.glob("crates/*/must-fail/*.edit"):
        write(path, lambda text: turned_to_declared(text, table, names))
    for path in ["README.md", *glob.glob("docs/**/*.md", recursive=True)]:
        write(path, lambda text: SPAN.sub(lambda m: turned_to_declared(m[0], table, names), text))


def write(path, change):
    before = read(path)
    after = change(before)
    if after != before:
        with open(path, "w", encoding="utf-8") as f:
            f.write(after)


main()
