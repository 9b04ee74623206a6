#!/usr/bin/env python3
"""Lists functions of crates/*/src that have one shape: the same body but for names, types and numbers.

    python3 tools/shapes.py [COMMIT]            functions of one shape, a group a line
    python3 tools/shapes.py --params [COMMIT]   parameters, by name and type, that 15 functions or more take together

By these the design pass counts twins and parameters that travel together. Bodies of fewer than 30 tokens are left out, since most short bodies
are alike by chance.
"""
import collections
import itertools
import re
import subprocess
import sys

arguments = [a for a in sys.argv[1:] if a != "--params"]
commit = arguments[0] if arguments else None


def files():
    if commit is None:
        out = subprocess.check_output(["git", "ls-files", "crates"], text=True)
        for name in out.split():
            if "/src/" in name and name.endswith(".rt"):
                yield name, open(name, encoding="utf-8").read()
        return
    out = subprocess.check_output(["git", "ls-tree", "-r", "--name-only", commit, "crates"], text=True)
    for name in out.split():
        if "/src/" in name and name.endswith(".rt"):
            yield name, subprocess.check_output(["git", "show", f"{commit}:{name}"], text=True)


TOKEN = re.compile(r"//[^\n]*|b?\"(?:\\.|[^\"\\])*\"|b?'(?:\\.|[^'\\])'|[A-Za-z_][A-Za-z_0-9]*|0x[0-9a-fA-F_]+|[0-9][0-9_]*|[^\sA-Za-z0-9_]")
WORDS = set("if else while for in loop match return break continue let mut fn as true false ref move".split())


def functions(text):
    for m in re.finditer(r"^(?:pub )?fn ([a-z_0-9]+)", text, re.M):
        at = text.find("\n{", m.end())
        if at < 0:
            continue
        end = text.find("\n}", at)
        yield m.group(1), text[at + 1:end + 2]


def shape(body):
    names = {}
    out = []
    for t in TOKEN.findall(body):
        if t.startswith("//"):
            continue
        if re.match(r"[0-9]|b?[\"']", t):
            out.append("0")
        elif re.match(r"[A-Za-z_]", t) and t not in WORDS:
            out.append("n%d" % names.setdefault(t, len(names)))
        else:
            out.append(t)
    return " ".join(out), len(out)


def parameters(text):
    for m in re.finditer(r"^(?:pub )?fn [a-z_0-9]+[^(]*\(([^)]*)\)", text, re.M):
        found = []
        for p in m.group(1).split(","):
            if ":" in p:
                name, kind = p.strip().split(":", 1)
                found.append(name.removeprefix("mut ").strip() + ": " + re.sub(r"&('a )?(mut )?", "&", kind.strip()))
        yield found


if "--params" in sys.argv:
    count = collections.Counter()
    for name, text in files():
        for found in parameters(text):
            for size in (2, 3, 4):
                count.update(itertools.combinations(found, size))
    often = {p: n for p, n in count.items() if n >= 15}
    most = [(n, p) for p, n in often.items() if not any(set(p) < set(q) and m == n for q, m in often.items())]
    for n, p in sorted(most, key=lambda x: (-x[0], x[1])):
        print(n, ", ".join(p))
    print(f"{len(most)} sets")
    sys.exit()

groups = {}
for name, text in files():
    for f, body in functions(text):
        s, n = shape(body)
        if n >= 30:
            groups.setdefault(s, []).append((name, f))
found = [g for g in groups.values() if len(g) > 1]
for g in sorted(found, key=lambda g: (-len(g), g)):
    print("  ".join(f"{name[7:]}:{f}" for name, f in g))
print(f"{len(found)} groups, {sum(len(g) for g in found)} functions")
