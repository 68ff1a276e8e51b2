#!/usr/bin/env python3
"""Counts in src/ what docs/DESIGN-PASS.md speaks of, by patterns of lines: a line for each kind of place, with how many there are.

    tools/design_places.py             the counts
    tools/design_places.py --places    each place, too
"""
import re
import sys
from pathlib import Path

ROOT = Path(__file__).resolve().parent.parent
KINDS = [
    # point, what, pattern of a line
    ("1", "own enums", r"^(pub )?enum "),
    ("1", "a number beside a value in a struct", r"^    (pub )?number: usize,$"),
    ("1", "a refusal told as a number", r"number: (\d+|fault|number|left\.number|NO_SLOT)\b|^\s+return \d+;$|\brefused\(\d+|\bstopped\((\d+|NO_STEP)"
     r"|refused\(number|Header::Stop\(\d"),
    ("1", "a test of a number for a refusal", r"\bnumber [!=]= 0|\b(fault|number) != 0"),
    ("1", "constants for kinds (ids, actions, states)", r"^pub const [A-Z_]+: usize = \d+;$"),
    ("2", "functions by a lent row or table, with a twin or made for one", r"\bfn \w+_(by|in|with)\("),
    ("2", "a type or helper that stands twice", r"\bfn (around|last_depth|write_entry|wide|no_unit|no_begun|stopped|turn|refused)\("
     r"|struct (Span|Place|Cursor|Builder|Parts)\b"),
    ("3", "loops by `while`", r"^\s*while "),
    ("3", "loops by `for`", r"^\s*for "),
    ("3", "an index counted by hand", r"^\s+(i|k|at|id|count|left|found|n|next|done) (\+= 1|= \1 [+-] 1|-= 1|\+= (7|11)|= at \+ (7|11));$"),
    ("4", "a field copied into a local of its name", r"^\s+let (\w+) = [\w.]+\.\1;$"),
    ("4", "a value of zeros or of nothing by hand", r"\bfn no_\w+\("),
    ("4", "a conversion by hand", r"\bfn (wide|flag|answered|cursor|parts|answer|parts_from|numbers_from|call_by|place_from|builder_from)\("),
    ("4", "derives", r"^\s*#\[derive\("),
    ("5", "the open units as parameters of their own", r"\bo1: (Open|Begun)\b[,)]"),
    ("6", "parallel arrays", r"\[usize; (4|14|64|256)\]"),
    ("6", "a buffer and a place in it as parameters", r"\bout: &mut \[u8\], at:"),
    ("7", "a switch on the number of a call or a count", r"if (code|count|level) == \d"),
]


def main():
    show = "--places" in sys.argv[1:]
    files = sorted(ROOT.glob("crates/*/src/**/*.rt"))
    for point, what, pattern in KINDS:
        places = []
        for path in files:
            for number, line in enumerate(path.read_text(encoding="utf-8").splitlines(), 1):
                if not line.lstrip().startswith("//") and re.search(pattern, line):
                    places.append(f"{path.relative_to(ROOT)}:{number}: {line.strip()}")
        print(f"{point}  {what}: {len(places)}")
        if show:
            print("\n".join("    " + place for place in places))


main()
