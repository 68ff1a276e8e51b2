#!/usr/bin/env python3
"""Brings the repository's own names to today's spelling, after port.py: definitions, fields, constructors and lemmas in snake case.

usage: tools/respell.py          at the top of the repository, once; what it renamed is printed, and names that fall together stop it
       tools/respell.py --list   only prints the names

A camel name `editionOf` becomes `edition_of`. A dash stays between two words of std, as in `length-drop`; else it becomes `_`.
Left alone: functions and constants of src/, generated names in a function's Proof.antt (a goal declared with a type of its Tie, and
what stands after a dot that is no field of ours), strings, and text in comments that is no name of ours.
"""

import collections
import os
import re
import sys

TOKEN = re.compile(r"[^\s(){}\[\],;:\\λ@\"`'|⟦⟧⌜⌝.]+'*")
HEAD = re.compile(r"^(?:abbrev |unfoldable )?(?:pub )?([^\s(){}\[\].,;:]+)(?: [^:=()]*)? : ")
FIELD = re.compile(r"^ +(?:pub )?([^\s(){}\[\].,;:]+) : ")
CAMEL = re.compile(r"^[a-z][a-z0-9]*(?:[A-Z][a-z0-9]*)+'*$")
DASHED = re.compile(r"^[^\W\d_][\w']*(?:-[\w']+)+$")
KEEP = {"c", "κs"}
# Words of std that a dash of ours joins, as in `length-drop`; any other dash of ours becomes `_`.
STD = set("append take drop length get_or set map replicate cons suc zero omega".split())

# Lemmas that would have the name of the definition that they speak of: (what stands in the file's path, the lemma).
LEMMAS = [
    ("cdf_builder_runs/proofs/Building", "the_end"),
    ("cdf_check/proofs/Same", "step_in"),
    ("cdf_explain/proofs/", "told_at"),
    ("cdf_grammar/proofs/TextAgrees", "value_after"),
    ("cdf_lookup_spec/proofs/Telling", "same_bytes"),
    ("cdf_unit_data/proofs/Names", "name_by"),
    ("cdf_unit_name/proofs/name/", "name_by"),
    ("cdf_rescue_c/proofs/Pairs", "in-turn"),
    ("cdf_builder_calls/proofs/", "unit-bytes"),
    ("cdf_builder_numbers/proofs/Told", "reply-of"),
    ("cdf_grammar/proofs/Forward", "unit-here"),
    ("cdf_rescue_spec/proofs/", "group-bytes"),
    ("cdf_unit_table/proofs/Others", "none_only"),
    ("crates/", "length-bytes"),
    ("crates/", "root-kind"),
    ("crates/", "skipped-top"),
    ("crates/", "any-row"),
    ("crates/", "ranked-units"),
]


def walk(top, *ends):
    for folder, dirs, files in os.walk(top):
        dirs[:] = sorted(d for d in dirs if d not in ("out", ".git", "target", "wip"))
        for f in sorted(files):
            if f.endswith(ends):
                yield os.path.join(folder, f)


def read(p):
    with open(p, encoding="utf-8") as f:
        return f.read()


def is_proof(p):
    return "/proofs/" in p and (os.path.basename(p) == "Proof.antt" or "/Proof/" in p)


def goals(text):
    """The names that a function's proof declares for goals, and its own last one."""
    out = set(re.findall(r"(?m)^(\S+) : tie\.", text))
    out |= set(re.findall(r"(?m)^pub (\S+[-_]spec) : ", text))
    return out


def declared():
    plain, fields = set(), set()
    for p in walk("crates", ".antt"):
        text = read(p)
        skip = goals(text) if is_proof(p) else set()
        block = False
        for line in text.split("\n"):
            if line.startswith("--") or line.startswith("use "):
                continue
            m = HEAD.match(line)
            if m and not line.startswith(" "):
                block = False
                name = m.group(1)
                if name not in ("record", "data") and name not in skip:
                    plain.add(name)
            if re.match(r"(?:pub )?(?:record|data) ", line):
                block = True
                continue
            m = FIELD.match(line)
            if m and block:
                fields.add(m.group(1))
    return plain, fields


def snake(name):
    return re.sub(r"(?<=[a-z0-9'])([A-Z])", lambda m: "_" + m.group(1).lower(), name)


def table():
    plain, fields = declared()
    out = {}
    for n in plain | fields:
        if n in KEEP:
            continue
        new = n
        if DASHED.match(n):
            parts = [snake(q) if CAMEL.match(q) else q for q in n.split("-")]
            # a dash stays between two names of definitions
            new = parts[0]
            for i, q in enumerate(parts[1:], 1):
                joined = n not in fields and parts[i - 1] in STD and q in STD
                new += ("-" if joined else "_") + q
        elif CAMEL.match(n):
            new = snake(n)
        if new != n:
            out[n] = new
    # local names in camel case
    for p in walk("crates", ".antt"):
        for line in read(p).split("\n"):
            code = line.split("--")[0]
            for t in TOKEN.findall(code):
                if CAMEL.match(t):
                    out.setdefault(t, snake(t))
    return out, fields


def respell(text, names, fields, proof, skip):
    def one(m):
        t = m.group(0)
        if t not in names or t in skip:
            return t
        at = m.start()
        after_dot = at > 0 and text[at - 1] == "."
        if after_dot and proof and t not in fields and not CAMEL.match(t):
            return t
        return names[t]

    return TOKEN.sub(one, text)


def lemmas():
    """Lemmas of LEMMAS get `_lem`."""
    for part, name in LEMMAS:
        new = name.replace("-", "_") + "_lem"
        n = 0
        for p in walk("crates", ".antt"):
            if part not in p:
                continue
            text = read(p)
            got = re.sub(r"(?<![\w.'-])" + re.escape(name) + r"(?![\w'-])", new, text)
            if got != text:
                n += 1
                with open(p, "w", encoding="utf-8") as f:
                    f.write(got)
        print(f"{part}: {name} {new} in {n} files")


def check(names):
    """Names that fall together: two that become one, or one that becomes a name that is used as it stands beside it."""
    bad = []
    back = collections.defaultdict(set)
    for a, b in names.items():
        back[b].add(a)
    for p in walk("crates", ".antt", ".rt"):
        text = read(p)
        code = "\n".join(l for l in text.split("\n") if not l.lstrip().startswith(("--", "//")))
        there = set(TOKEN.findall(code))
        for t in sorted(there):
            if t in names:
                if names[t] in there:
                    bad.append(f"{p}: {t} becomes {names[t]}, which stands there")
                for other in back[names[t]] - {t}:
                    if other in there and t < other:
                        bad.append(f"{p}: {t} and {other} become {names[t]}")
    return bad


def main():
    if "--list" not in sys.argv:
        lemmas()
    names, fields = table()
    if "--list" in sys.argv:
        for a in sorted(names):
            print(a, names[a])
        print("\n".join(check(names)))
        return 0
    bad = check(names)
    print("\n".join("fall together: " + b for b in bad))
    n = 0
    for p in walk("crates", ".antt", ".rt", ".edit"):
        text = read(p)
        proof = is_proof(p)
        skip = goals(text) if proof else set()
        new = respell(text, names, fields, proof, skip)
        if new != text:
            with open(p, "w", encoding="utf-8") as f:
                f.write(new)
            n += 1
    for a in sorted(names):
        print(a, names[a])
    print(f"respell: {len(names)} names in {n} files")
    return 0


if __name__ == "__main__":
    raise SystemExit(main())
