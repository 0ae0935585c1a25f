#!/usr/bin/env python3
"""Lists groups of functions of crates/*/src whose bodies are the same but for names, types and constants.

usage: tools/twins.py [FOLDER]     (default: the repository that this file is in)

A body is read as its words and signs; each name becomes `i`, each number `n`, each text `t`. Tests and bodies of
fewer than 12 signs are left out."""
import collections, glob, os, re, sys

root = sys.argv[1] if len(sys.argv) > 1 else os.path.join(os.path.dirname(os.path.abspath(__file__)), "..")
KEYWORDS = {"if", "else", "match", "for", "in", "let", "mut", "return", "while", "loop", "Some", "None", "Ok", "Err", "self", "true", "false", "as", "fn"}
TOKEN = re.compile(r'//[^\n]*|b?"(?:\\.|[^"\\])*"|b?\'(?:\\.|[^\'\\])\'|[A-Za-z_]\w*|\d[\w.]*|\S')


def bodies(text):
    for m in re.finditer(r"\bfn\s+(\w+)", text):
        # the body begins at the first brace that is not a clause's
        i = m.end()
        while i < len(text):
            c = re.compile(r"\b(?:requires|ensures)\b[^{]*\{|\{|;").search(text, i)
            if not c or c.group() == ";":
                break
            depth, j = 1, c.end()
            while depth and j < len(text):
                depth += {"{": 1, "}": -1}.get(text[j], 0)
                j += 1
            if c.group() == "{":
                yield m.group(1), text.count("\n", 0, m.start()) + 1, text[c.end():j - 1]
                break
            i = j


def shape(body):
    out = []
    for t in TOKEN.findall(body):
        if t.startswith("//"):
            continue
        if t[0] in "\"'" or t[:2] in ('b"', "b'"):
            out.append("t")
        elif t[0].isdigit():
            out.append("n")
        elif t in KEYWORDS:
            out.append(t)
        elif t[0].isalpha() or t[0] == "_":
            out.append("i")
        else:
            out.append(t)
    return " ".join(x for x in out if x != ",")


groups = collections.defaultdict(list)
for path in sorted(glob.glob(os.path.join(root, "crates/*/src/*.rt"))):
    if path.endswith("tests.rt"):
        continue
    for name, line, body in bodies(open(path).read()):
        s = shape(body)
        if s.count(" ") >= 11:
            groups[s].append("%s:%d %s" % (os.path.relpath(path, root), line, name))
found = sorted(g for g in groups.values() if len(g) > 1)
for g in found:
    print("; ".join(g))
print("%d groups, %d functions" % (len(found), sum(map(len, found))))
