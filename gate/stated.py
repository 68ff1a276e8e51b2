"""Runs of 'cdf states': what it says is stored in samples/states; units, rows and ids are those of the model's table reader."""
import json
import subprocess

import inputs


def said_by(model, stream):
    """Of each unit start, depth, id and the rows before and after, by the model; number, offset, row and ids where it ends, None if well."""
    said = subprocess.run([model, "states", "/dev/stdin"], input=stream, stdout=subprocess.PIPE, check=True).stdout.decode().splitlines()
    units = [tuple(map(int, line.split())) for line in said[:-1]]
    return units, None if said[-1] == "end" else tuple(map(int, said[-1].split()))


def runs(cdf, model, write, compare, differs, wrong, names_in, streams):
    """Every run; the names of the fields of JSON that were met."""
    fields, started, read = set(), set(), set()
    stored = inputs.ROOT / "samples/states"
    texts = {f.stem: f.read_text(encoding="utf-8") for f in stored.glob("*.txt")}
    streams = streams | inputs.TABLED
    for name, stream in streams.items():
        given = [f"samples/{name}.cdf"] if f"{name}.cdf" in inputs.FILES else []
        units, fault = said_by(model, stream)
        started.add(0 if units else fault[0])
        read |= ({0} if len(units) > 1 else set()) | ({fault[0] if fault else 1} if units else set())
        if write:
            stored.mkdir(exist_ok=True)
            (stored / f"{name}.txt").write_bytes(
                subprocess.run([cdf, "states", *given], input=stream, stdout=subprocess.PIPE, check=False, cwd=inputs.ROOT).stdout)
            texts[name] = (stored / f"{name}.txt").read_text(encoding="utf-8")
        ends = f"refused, number {fault[0]} at byte {fault[1]}" if fault else f"Accepted: {len(units)} unit"
        if ends not in texts.get(name, ""):
            wrong.append(f"samples/states: of {name} the model says {ends}")
        compare(f"cdf states, {name}", [cdf, "states", *given], stream, texts.get(name, ""), status=int(bool(fault)), cwd=inputs.ROOT)
        run = subprocess.run([cdf, "states", "--json", *given], input=stream, stdout=subprocess.PIPE, check=False, cwd=inputs.ROOT)
        made = json.loads(run.stdout)
        fields |= names_in(made)
        told = [(one["start"], one["depth"], one["id"], one["before"]["state"], one["after"]["state"]) for one in made["units"]]
        ends = (made["number"], made["offset"], made["row"]["state"]) if "number" in made else None
        differs(f"cdf states --json, {name}", ("units", told, units), ("end", ends, fault and fault[:3]),
                ("ids", made.get("admitted", []), [inputs.KINDS[id - 1] for id in fault[3:]] if fault else []),
                ("status", run.returncode, int(bool(fault))))
    if texts.keys() != streams.keys():
        wrong.append(f"samples/states: its files are not those of the inputs: {sorted(texts.keys() ^ streams.keys())}")
    if started != {0, *range(3, 9)} or read != {0, 1, *range(3, 11)}:
        wrong.append(f"not every number that a start and NEXT give on a file is met: {started} and {read}")
    return fields


def on_terminal(run):
    """A file with an action that is not allowed: its lines are cut at 60 characters, and the fault has a colour."""
    text = ("short, read by the table of states (docs/STATE-TABLE.md).\n"
            "A state is a number for what an open unit is and has had so far. A line has the byte where a unit begins, how deep it lies, the unit,\n"
            "and the state of the unit around it: before it came -> from then on.\n"
            " 0  1  E/R data group     0 before the root -> 5 E/R data g…\n"
            " 6  2    template PERSON  5 E/R data group, nothing in it y…\n"
            "19  3      temporary key  14 template, nothing in it yet ->…\n")
    fault = "!! refused, number 8 at byte 29: The field SURNAME has the action 0 (none). "
    fault += "A field can have: 1 (create), 2 (read), 3 (update) or 4 (delete)."
    row = ("   The table admits it: the rule that it breaks comes after the table.\n"
           "   The state of the unit around it is 15 template with its temporary key. Row 15 admits: 8 field.\n")
    run("terminal: states", ["states", "short"], f"{text}\x1b[31m{fault}\x1b[0m\n{row}", 1)
    run("terminal: states without a colour", ["states", "short"], f"{text}{fault}\n{row}", 1, NO_COLOR="1")
