#!/usr/bin/env python3
"""Brings names that tools/respell.py did not see to today's spelling: lemmas and fields that stand indented, in a module, a record or a
`where`, whose words are joined by dashes. A dash stays between two words of std, as in `length-drop`.

usage: tools/respell_inner.py [--list]   at the top of the repository, once

Left alone: goals (`pub G : goal.G`), names that Rattle makes, names of std, and what stands after a dot unless it is such a field.
"""

import collections
import os
import re
import sys

from respell import DASHED, STD, TOKEN, read, walk

SIGN = re.compile(r"^ *(?:abbrev |unfoldable )*(?:pub )?([^\s(){}\[\].,;:]+)(?: [^:=]*)? : ")
IMPORT = re.compile(r"^use ([\w.+-]+)\.\{([^}]*)\}", re.M)


def code(text):
    return "\n".join(l for l in text.split("\n") if not l.lstrip().startswith(("--", "use ")))


def declared():
    out = set()
    for p in walk("crates", ".antt"):
        lines = read(p).split("\n")
        for line in lines:
            if line.lstrip().startswith(("--", "use ")) or ": goal." in line:
                continue
            m = SIGN.match(line)
            if m and DASHED.match(m.group(1)):
                out.add(m.group(1))
    return out


def fields():
    """Names that records of ours declare."""
    out = set()
    for p in walk("crates", ".antt"):
        inside = None
        for line in read(p).split("\n"):
            if not line.strip():
                continue
            depth = len(line) - len(line.lstrip())
            if inside is not None and depth <= inside:
                inside = None
            if re.match(r" *(?:pub )?record ", line) and line.rstrip().endswith("where"):
                inside = depth
            elif inside is not None:
                m = SIGN.match(line)
                if m:
                    out.add(m.group(1))
    return out


def made():
    """Names of goals, and of std, that a file of ours cites."""
    out = set()
    for p in walk("crates", ".antt"):
        text = read(p)
        out |= set(re.findall(r"(?m)^pub (\S+) : goal\.", text)) | set(re.findall(r"(?m)^abbrev pub (\S+) : goal\.", text))
        for m in IMPORT.finditer(text):
            names = [n.strip().split(" as ")[0] for n in m.group(2).split(",")]
            if not m.group(1).startswith("Rattle.cdf_") or m.group(1).endswith(".Goals"):
                out |= set(names)
    return out


def new(name):
    parts = name.split("-")
    out = parts[0]
    for a, b in zip(parts, parts[1:]):
        out += ("-" if a in STD and b in STD else "_") + b
    return out


def main():
    ours, theirs, held = declared(), made(), fields()
    names = {n: new(n) for n in ours - theirs if new(n) != n}
    both = sorted(n for n in ours & theirs if new(n) != n)
    bad = []
    for p in walk("crates", ".antt"):
        there = set(TOKEN.findall(code(read(p))))
        for t in sorted(there & set(names)):
            if names[t] in there:
                bad.append((p, t))
    for p, t in bad:
        print(f"fall together: {p}: {t} becomes {names[t]}, which stands there")
        names[t] = new(t) + "_lem"
    print("also a name of Rattle's or of std, left: " + " ".join(both))
    if "--list" in sys.argv:
        for a in sorted(names):
            print(a, names[a])
        return 0
    n = 0
    for p in walk("crates", ".antt", ".edit"):
        text = read(p)
        dotted = lambda m: m.start() and text[m.start() - 1] == "." and m.group(0) not in held
        got = TOKEN.sub(lambda m: m.group(0) if dotted(m) else names.get(m.group(0), m.group(0)), text)
        if got != text:
            n += 1
            with open(p, "w", encoding="utf-8") as f:
                f.write(got)
    for a in sorted(names):
        print(a, names[a])
    print(f"respell_inner: {len(names)} names in {n} files")
    return 0


if __name__ == "__main__":
    raise SystemExit(main())
