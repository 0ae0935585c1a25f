#!/usr/bin/env python3
"""Brings the repository's own definitions and lemmas to today's spelling: words in snake case, types and facts in camel case.

usage: python3 tools/respell.py [--dry]     at the top of the repository, once, after the kit's own porting script

It takes the names that are defined in the .antt files of specs/ and proofs/, at the head of a line, within a block or as a
field of a record; the answers to goals keep theirs, since the toolchain makes those. It writes them anew in .antt and .rt
files, in must-fail edits and in the documents. Functions of src/, strings, inputs and outputs keep their names.
"""
import os
import re
import sys

# A name whose plain snake form is a field of a struct as well, and would be read as that.
APART = {
    "enablementMax": "effective_enablement_max",
    "enablementMin": "effective_enablement_min",
    "maxAvailability": "effective_max_availability",
    "lowBreakpoint": "effective_low_breakpoint",
    "highBreakpoint": "effective_high_breakpoint",
    "agcStatus": "agc_status_of",
    "upperRun": "upper_run_of",
    "lowerRun": "lower_run_of",
    "rampUp": "of_ramp_up",
    "rampDown": "of_ramp_down",
}
# In these files a name means another thing: the field of a record, a lemma, or a fact that is local to a proof.
IN_FILE = {
    "crates/limits/specs/Bounds.antt": {"upperRun": "upper_run", "lowerRun": "lower_run"},
    "crates/limits/proofs/InBounds.antt": {"upperRun": "upper_run", "lowerRun": "lower_run"},
    "crates/station/proofs/Held.antt": {"entry_in": "entry_in_lem", "is_open": "row_is_open"},
    "crates/fcas/proofs/Sizes.antt": {"at_least": "at_least_lem", "at_most": "at_most_lem"},
}
# The same where it stands behind a dot.
FIELDS = {"upperRun": "upper_run", "lowerRun": "lower_run"}
# What the kit's script has renamed, for the documents.
KIT = {
    "atLeast": "at_least", "atMost": "at_most", "callsOf": "calls_of", "capAt": "cap_at", "capOf": "cap_of",
    "entryOf": "entry_of", "firstOf": "first_of", "inWord": "in_word", "kindOf": "kind_of", "openedOf": "opened_of",
    "rowAt": "row_at", "unitAt": "unit_at", "viewOf": "view_of", "wholeOf": "whole_of",
}
HEAD = re.compile(r"^(?:abbrev pub|unfoldable pub|abbrev|unfoldable|pub record|record|pub data|data|pub ruleset|ruleset|pub)?\s*([^\s:{}()\[\].,;|«»]+) (?::|\(.*\) :) ?(.*)$")
# A lemma or a definition in a block of its own, with names that today's spelling would not have.
INNER = re.compile(r"^ +(?:pub |abbrev pub |abbrev |unfoldable pub )?([a-z0-9']+(?:-[a-z0-9]+)+|[a-z]+[A-Z][A-Za-z]*) :(?: |$)")
FIELD = re.compile(r"^  (?:pub )?([^\s:{}()\[\].,;|«»]+) : ")
LETTER = r"[\w'\u2019\u2032\u2080-\u209f\u2124\u2115]"


def files(*ends):
    for folder, dirs, names in os.walk("."):
        dirs[:] = sorted(d for d in dirs if d not in (".git", "out", "target"))
        for name in sorted(names):
            if name.endswith(ends):
                yield os.path.join(folder, name)


def snake(name):
    if name in APART:
        return APART[name]
    if name[0].isupper():
        return name.replace("-", "_") if "-" in name else name
    out = re.sub(r"([a-z0-9])([A-Z])", lambda m: m[1] + "_" + m[2].lower(), name)
    return out.replace("-", "_")


def own():
    found, fields = {}, set()
    for path in files(".antt"):
        in_record = False
        for line in open(path, encoding="utf-8"):
            if re.match(r"^(pub )?record ", line):
                in_record = True
                continue
            if line[:1] not in (" ", "\n", "-"):
                in_record = False
            inner = INNER.match(line)
            if inner and not in_record:
                found.setdefault(inner[1], path)
                continue
            m = FIELD.match(line) if in_record else HEAD.match(line)
            if not m or line.startswith(("use ", "--", "mod ", "pub mod ", "unfolding")):
                continue
            if not in_record and re.match(r"(goal|given|need)\.", m[2].strip()):
                continue
            found.setdefault(m[1], path)
            if in_record:
                fields.add(m[1])
    return found, fields


def main(dry):
    found, fields = own()
    names = {n: snake(n) for n in found}
    names = {a: b for a, b in names.items() if a != b}
    taken = {}
    for a, b in names.items():
        taken.setdefault(b, []).append(a)
    # A lemma that would have its function's name.
    for b, many in sorted(taken.items()):
        for a in many:
            if len(many) > 1 and "-" in a:
                names[a] = b + "_lem"
    names["in-range"] = "in_range_lem"
    if dry:
        words = {}
        for path in files(".antt", ".rt"):
            for w in set(re.findall(LETTER + "+", open(path, encoding="utf-8").read())):
                words.setdefault(w, path)
        for a, b in sorted(names.items()):
            print(f"{a} -> {b}" + (f"   ALREADY A WORD in {words[b]}" if b in words else ""))
        return

    def either(words):
        return "(" + "|".join(sorted(map(re.escape, words), key=len, reverse=True)) + ")(?![\\w'\\-])"

    # Names with a dash are lemmas, and no code: a file of src/ has them in imports alone.
    plain = re.compile("(?<![\\w'\\-«])" + either(names))
    coded = re.compile("(?<![\\w'\\-«])" + either([n for n in names if "-" not in n]))
    pages = dict(KIT, **names)
    page = re.compile("(?<![\\w'\\-])" + either([n for n in pages if "-" not in n]))
    for path in files(".antt", ".rt", ".edit", ".md"):
        text = open(path, encoding="utf-8").read()
        local = IN_FILE.get(os.path.relpath(path), {})
        if local:
            both = re.compile("(?<![\\w'\\-«])" + either(set(names) | set(local)))

        def word(m):
            n = m[1]
            if n in local:
                return local[n]
            if "-" in n and n not in fields and m.string[m.start() - 1 : m.start()] == ".":
                # A step of the code, which the toolchain names.
                return n
            if n in FIELDS and m.string[m.start() - 1 : m.start()] == ".":
                return FIELDS[n]
            return names[n]

        def turned(line):
            if line.lstrip().startswith(("--", "//")):
                return line
            if path.endswith(".antt") or line.startswith(("ghost use", "#[tactic")):
                return (both if local else plain).sub(word, line)
            return coded.sub(word, line)

        if path.endswith(".md"):
            new = re.sub(r"`[^`\n]*`", lambda m: page.sub(lambda w: pages[w[1]], m[0]), text)
        else:
            new = "\n".join(turned(line) for line in text.split("\n"))
        if new != text:
            open(path, "w", encoding="utf-8").write(new)


if __name__ == "__main__":
    main("--dry" in sys.argv)
