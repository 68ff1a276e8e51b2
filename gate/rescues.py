"""Runs of 'cdf rescue': what it says is stored in samples/rescued, and the group that it writes is the model's."""
import json
import os
import subprocess
import tempfile
from pathlib import Path

import inputs


def runs(cdf, model, write, compare, differs, wrong, names_in):
    """Every run, with what goes wrong around them; the names of the fields of JSON that were met."""
    fields = set()
    saved = inputs.ROOT / "samples/rescued"
    texts = {f.stem: f.read_text(encoding="utf-8") for f in saved.glob("*.txt")}
    with tempfile.TemporaryDirectory() as name:
        folder = Path(name)
        broken, mended = folder / "broken.cdf", folder / "mended.cdf"
        rescue = [cdf, "rescue", "broken.cdf", "mended.cdf"]
        met = set()
        for name, stream in inputs.RESCUED.items():
            broken.write_bytes(stream)
            mended.unlink(missing_ok=True)
            said = subprocess.run([model, "rescue", broken, "65535"], stdout=subprocess.PIPE, check=True).stdout.split()
            number, length, _, *cuts = map(int, said)
            met.add(number)
            # What stands between the runs, behind the prefix of an E/R group.
            ends = [6, *cuts, len(stream)]
            kept = b"".join(stream[ends[i]:ends[i + 1]] for i in range(0, len(ends), 2))
            group = None if number else bytes([0xCD, 0xF1, *divmod(length, 256), 0, 4]) + kept
            if write:
                saved.mkdir(exist_ok=True)
                (saved / f"{name}.txt").write_bytes(subprocess.run(rescue, stdout=subprocess.PIPE, check=False, cwd=folder).stdout)
                texts[name] = (saved / f"{name}.txt").read_text(encoding="utf-8")
                mended.unlink(missing_ok=True)
            if number and f"refused, number {number}: " not in texts.get(name, ""):
                wrong.append(f"samples/rescued: of {name} the model says {number}")
            compare(f"cdf rescue, {name}", rescue, b"", texts.get(name, ""), status=int(number > 0), cwd=folder)
            differs(f"cdf rescue, {name}: the file", ("group", mended.read_bytes() if mended.exists() else None, group),
                    ("folder", sorted(os.listdir(folder)), ["broken.cdf"] + ["mended.cdf"] * (number == 0)))
            run = subprocess.run([*rescue, "--json"], stdout=subprocess.PIPE, check=False, cwd=folder)
            made = json.loads(run.stdout)
            fields |= names_in(made)
            told = [at for one in made.get("dropped", []) for at in (one["start"], one["end"])]
            differs(f"cdf rescue --json, {name}", ("answer", (made.get("number", 0), made.get("bytes", 0), told), (number, length, cuts)),
                    ("status", run.returncode, int(number > 0)))
        if texts.keys() != inputs.RESCUED.keys():
            wrong.append(f"samples/rescued: its files are not those of the inputs: {sorted(texts.keys() ^ inputs.RESCUED.keys())}")
        if texts.get("rescue-person", "?") not in (inputs.ROOT / "samples/README.md").read_text(encoding="utf-8"):
            wrong.append("samples/README.md: not what is stored of rescue-person")
        if met != {0, 3, 16, 17}:
            wrong.append(f"not all of 0, 3, 16 and 17 are met by rescues: {met}")
        # What is there stays on a refusal, and is replaced else: through a link too, and where it is what was read.
        broken.write_bytes(inputs.K1)
        mended.write_bytes(b"as it was")
        refused = ("broken.cdf: refused, number 16: no whole template or relation was found. Nothing is written.\n"
                   "Nothing is wrong with it: it is a whole file data group, and needs no rescue.\n")
        compare("cdf rescue, refused where a file is", rescue, b"", refused, "", 1, folder)
        differs("cdf rescue, refused: the file", ("bytes", mended.read_bytes(), b"as it was"))
        (folder / "link").symlink_to("mended.cdf")
        whole_group = "written, 46 bytes. Kept: 1 template, 0 relations. Nothing was dropped.\n"
        compare("cdf rescue, to a link", [cdf, "rescue", "-", "link"], inputs.K2, "link: " + whole_group, "", 0, folder)
        differs("cdf rescue, to a link: the file", ("bytes", mended.read_bytes(), inputs.K2), ("link", (folder / "link").is_symlink(), True))
        broken.write_bytes(inputs.K2)
        compare("cdf rescue, to the same file", [cdf, "rescue", "broken.cdf", "broken.cdf"], b"", "broken.cdf: " + whole_group, "", 0, folder)
        for label, to, why in (("a folder", ".", "it is no plain file"), ("a device", "/dev/null", "it is no plain file"),
                               ("no such folder", "none/mended.cdf", "No such file or directory")):
            compare(f"cdf rescue, to {label}", [cdf, "rescue", "broken.cdf", to], b"", "", f"cdf: cannot write {to}: {why}\n", 2, folder)
        long = "standard input: refused: it has more than 1,048,576 bytes. Nothing is written.\n"
        compare("cdf rescue, too many bytes", [cdf, "rescue", "-", "mended.cdf"], inputs.K2 + bytes(1 << 20), long, "", 1, folder)
        run = subprocess.run([cdf, "rescue", "--json", "-", "mended.cdf"], input=inputs.K2 + bytes((1 << 20) - 46), stdout=subprocess.PIPE,
                             check=False, cwd=folder)
        differs("cdf rescue, 1,048,576 bytes", ("kept", json.loads(run.stdout)["kept"], 1), ("status", run.returncode, 0))
        differs("cdf rescue: nothing is left beside", ("folder", sorted(os.listdir(folder)), ["broken.cdf", "link", "mended.cdf"]))
    return fields
