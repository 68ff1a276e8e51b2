#!/usr/bin/env python3
"""The last part of docs/DESIGN-PASS.md: each public signature, clause, type, definition and claim that changed since the commit
in the first line of that page, as it was and as it is, without comments.

    tools/design_statements.py           compares that part of the page; the status is 1 where it differs
    tools/design_statements.py --write   writes it anew
"""
import re
import subprocess
import sys
from pathlib import Path

ROOT = Path(__file__).resolve().parent.parent
PAGE = ROOT / "docs/DESIGN-PASS.md"
HEAD = "## Statements, as they were and as they are"
SIGNED = re.compile(r"((?:unfoldable |abbrev |pub )*)(record |data )?(\S+)( .*)")


def now(pattern):
    for path in sorted(ROOT.glob(pattern)):
        yield str(path.relative_to(ROOT)), path.read_text(encoding="utf-8")


def then(commit, suffix, part):
    """The files of a commit, all in one call of git."""
    names = subprocess.run(["git", "ls-tree", "-r", "--name-only", commit, "crates"], cwd=ROOT, stdout=subprocess.PIPE, check=True)
    names = [n for n in names.stdout.decode().splitlines() if n.endswith(suffix) and f"/{part}/" in n]
    asked = "".join(f"{commit}:{n}\n" for n in names).encode()
    said = subprocess.run(["git", "cat-file", "--batch"], input=asked, cwd=ROOT, stdout=subprocess.PIPE, check=True).stdout
    at = 0
    for name in names:
        end = said.index(b"\n", at)
        size = int(said[at:end].split()[2])
        yield name, said[end + 1:end + 1 + size].decode()
        at = end + 2 + size


def code_items(text):
    """The open functions with their contracts, the public structs, enums and traits, and the impls of traits with their ghost members."""
    functions, types, impls = {}, {}, {}
    owner, kept, indent, name, whole, made = "", None, "", "", None, None
    for line in text.splitlines():
        bare = not line.lstrip().startswith("//")
        if head := re.match(r"impl(?:<[^>]*>)? (?:(\w+)(?:<[^>]*>)? for )?(\w+)", line):
            owner = f"{head[2]}::"
            made = impls[line.removesuffix(" {")] = [line.removesuffix(" {")] if head[1] else None
            if made is None:
                del impls[line.removesuffix(" {")]
        elif line == "}":
            owner, made = "", None
        if made and line.startswith("    ghost "):
            made.append(line)
        if head := re.match(r"pub (?:struct|enum|trait) (\w+)", line):
            whole = types[head[1]] = []
        if whole is not None and bare and line.strip():
            whole.append(line)
        if line == "}" or whole is not None and line.endswith(";") and not line.startswith(" "):
            whole = None
        if head := re.match(r'(\s*)pub (?:extern "C" )?fn (\w+)', line):
            indent, name, kept = head[1], owner + head[2], []
        if kept is not None:
            if line == indent + "{":
                functions[name] = kept
                kept = None
            elif bare:
                kept.append(line.removeprefix(indent))
    return functions, types, {head: lines for head, lines in impls.items() if len(lines) > 1}


def spec_items(text):
    found, kept = {}, None
    for line in text.splitlines():
        if not line.strip() or line.lstrip().startswith("--"):
            continue
        if line[0] != " ":
            if line.startswith(("use ", "pub use ", "pub mod ", "mod ")):
                kept = None
                continue
            head = SIGNED.fullmatch(line)
            if head and (head[2] or head[4].startswith(" : ")):
                kept = found[head[3]] = []
        if kept is not None:
            kept.append(line)
    return found


def gather(code, definitions):
    functions, types, specs, claims, impls = {}, {}, {}, {}, {}
    for path, text in code:
        crate = path.split("/")[1]
        made, declared, promised = code_items(text)
        impls.update({(crate, head): lines for head, lines in promised.items()})
        functions.update({(crate, name): lines for name, lines in made.items()})
        types.update({(crate, name): lines for name, lines in declared.items()})
    for path, text in definitions:
        crate = path.split("/")[1]
        for name, lines in spec_items(text).items():
            (claims if path.endswith("/Claims.antt") and lines[0].startswith("pub record ") else specs)[crate, name, path] = lines
    return functions, types, specs, claims, impls


def block(page, where, *sides):
    page += [f"{where}:", "", "```"]
    for k, side in enumerate(sides):
        page += ([""] if k else []) + side
    page += ["```", ""]


def plain(lines):
    return re.sub(r"\s+", " ", " ".join(lines)).strip()


def part(page, what, before, after, where):
    """What changed, what is gone and what is new. A thing that moved to another file of its crate, or to another crate, and kept its name and
    its words is none of these."""
    gone = {key: lines for key, lines in before.items() if key not in after}
    new = {key: lines for key, lines in after.items() if key not in before}
    for key in list(gone):
        for other in list(new):
            if other[1] == key[1] and (plain(new[other]) == plain(gone[key]) or other[0] == key[0]):
                if plain(new[other]) != plain(gone[key]):
                    before[other] = gone[key]
                del gone[key], new[other]
                break
    changed = [key for key in after if key in before and key not in new and plain(before[key]) != plain(after[key])]
    for title, keys in (("changed", changed), ("gone", gone), ("new", new)):
        if not keys:
            continue
        page += [f"### {what}, {title}: {len(keys)}", ""]
        for key in sorted(keys):
            sides = [before[key], after[key]] if title == "changed" else [before[key] if title == "gone" else after[key]]
            block(page, where(key), *sides)


def main():
    text = PAGE.read_text(encoding="utf-8")
    commit = text.split("\n", 1)[0].strip()
    before = gather(then(commit, ".rt", "src"), then(commit, ".antt", "specs"))
    after = gather(now("crates/*/src/**/*.rt"), now("crates/*/specs/**/*.antt"))
    page = [HEAD, "", "Written by `tools/design_statements.py --write`: each as it was at the commit of the first line, then as it is, without comments.",
            "What only moved, with its words, is not among them; imports are not.", ""]
    code = lambda key: f"`{key[0]}`"  # noqa: E731

    def spec(key):
        """Where a definition stands; of one whose file is gone, the crate."""
        name = key[2].removeprefix("crates/").removesuffix(".antt")
        return f"`{name}`" if (ROOT / key[2]).exists() else f"`{key[0]}`, in `specs/`"

    part(page, "Open functions", before[0], after[0], code)
    part(page, "Types", before[1], after[1], code)
    part(page, "Impls with ghost members", before[4], after[4], code)
    part(page, "Claims", before[3], after[3], spec)
    part(page, "Definitions of `specs/`", before[2], after[2], spec)
    made = "\n".join(page).rstrip() + "\n"
    start = text.index(HEAD)
    if "--write" in sys.argv[1:]:
        PAGE.write_text(text[:start] + made, encoding="utf-8")
    elif text[start:] != made:
        sys.exit("design_statements: the last part of docs/DESIGN-PASS.md is not what changed: tools/design_statements.py --write")


main()
