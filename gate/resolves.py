"""Runs of 'cdf resolve': what it says, in words and as JSON, is stored whole in samples/resolved, and the ranks are the model's."""
import json
import subprocess
import tempfile
from pathlib import Path

import inputs


def runs(cdf, model, write, compare, differs, wrong, names_in):
    """Every run; the names of the fields of JSON that were met."""
    fields, met = set(), set()
    stored = inputs.ROOT / "samples/resolved"
    texts = {f.name: f.read_text(encoding="utf-8") for f in stored.glob("*.*")}
    for name, stream in inputs.RESOLVED.items():
        given = [f"samples/{name}.cdf"] if f"{name}.cdf" in inputs.FILES else []
        # No stream has as many entity keys.
        said = subprocess.run([model, "resolve", "/dev/stdin", "65535"], input=stream, stdout=subprocess.PIPE, check=True).stdout.split()
        number, offset, _, *ranks = map(int, said)
        met.add(number)
        for words, ending in (([], "txt"), (["--json"], "json")):
            command, file = [cdf, "resolve", *words, *given], f"{name}.{ending}"
            if write:
                run = subprocess.run(command, input=stream, stdout=subprocess.PIPE, check=False, cwd=inputs.ROOT)
                stored.mkdir(exist_ok=True)
                (stored / file).write_bytes(run.stdout)
                texts[file] = run.stdout.decode()
            compare(f"cdf {' '.join(['resolve', *words])}, {name}", command, stream, texts.get(file, ""), status=int(number > 0), cwd=inputs.ROOT)
        text, made = texts.get(f"{name}.txt", ""), json.loads(texts.get(f"{name}.json", "{}"))
        fields |= names_in(made)
        told = [key["rank"] for key in made.get("keys", [])]
        differs(f"cdf resolve, {name}: the numbers", ("answer", (made.get("number", 0), made.get("offset", 0), told), (number, offset, ranks)),
                ("lines with a rank", text.count(", rank ") if not number else len(ranks), len(ranks)),
                ("number in words", f"refused, number {number}" in text, number > 0))
    due = {f"{name}.{ending}" for name in inputs.RESOLVED for ending in ("txt", "json")}
    if texts.keys() != due:
        wrong.append(f"samples/resolved: its files are not those of the inputs: {sorted(texts.keys() ^ due)}")
    if met != {0, 3, 4, 7, 18, 19, 20}:
        wrong.append(f"not all of 0, 3, 4, 7, 18, 19 and 20 are met by resolvings: {met}")
    page = (inputs.ROOT / "samples/README.md").read_text(encoding="utf-8")
    wrong += [f"samples/README.md: not what is stored of {name}" for name in ("family", "resolve-doubled", "resolve-missing")
              if texts.get(f"{name}.txt", "?") not in page]
    around(cdf, compare)
    return fields


def around(cdf, compare):
    """What goes wrong around the command, and how it is called."""
    for path, why in (("/no/such/file", "No such file or directory"), ("/", "Is a directory"), ("/proc/self/mem", "Input/output error")):
        compare(f"cdf resolve, unreadable: {path}", [cdf, "resolve", path], b"", "", f"cdf: cannot read {path}: {why}\n", 2)
    with tempfile.TemporaryDirectory() as name:
        (Path(name) / "pair.cdf").write_bytes(inputs.PAIR)
        for to, why in ((">/dev/full", " to standard output: No space left on device"), (">&-", ": standard output is closed")):
            compare(f"cdf resolve {to}", ["bash", "-c", f"'{cdf}' resolve pair.cdf {to}"], b"", "", f"cdf: cannot write{why}\n", 2, name)
    compare("cdf resolve <&-", ["bash", "-c", f"'{cdf}' resolve <&-"], b"", "", "cdf: cannot read standard input: it is closed\n", 2)
    usage = subprocess.run([cdf], capture_output=True, check=False, text=True).stderr.partition("\n")[2]
    compare("cdf resolve, two files", [cdf, "resolve", "a", "b"], b"", "", f"cdf: resolve: too many words: 'b'\n{usage}", 2)
    compare("cdf resolve, an option", [cdf, "resolve", "--ranks"], b"", "", f"cdf: resolve: no option '--ranks'\n{usage}", 2)
    said = subprocess.run([cdf, "resolve", "--help"], capture_output=True, check=False, text=True).stdout
    compare("cdf help resolve", [cdf, "help", "resolve"], b"", said if said.startswith("usage: cdf resolve ") else "its help")
