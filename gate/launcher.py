"""Runs of the launcher ./cdf: as it is, and in a copy of the files that it needs, with stand-ins for what proves and builds."""
import os
import re
import shutil
import signal
import subprocess
import tempfile
import time
from pathlib import Path

# They leave a line for each call, and take a second. FAILS and LOSES tell the first to fail, and to take target/ away.
RT = """#!/bin/bash
[ "$1" != version ] || { echo a-kit; exit; }
echo "$$ $*" >>"$STAND_INS/called"
trap '' TERM
sleep 1 & wait
[ -z "${LOSES-}" ] || rm -rf target
[ -z "${FAILS-}" ] || { echo 'rt: no proof'; exit 1; }
"""
LIBRARY = """#!/bin/bash
echo 'library: checked cdf_one'
rt all check || exit 1
mkdir -p target && touch target/libcdf.a
"""
CARGO = """#!/bin/bash
mkdir -p rust/target/release
printf '#!/bin/bash\\necho "ran: $*"\\n' >rust/target/release/cdf
chmod +x rust/target/release/cdf
"""
TOOLS = "bash readlink find awk flock setsid sleep grep mkdir tail touch rm chmod cat"
KIT = "rattle-kit-13f logic dac8208d650f15bf"
BUILDING = "cdf: building the program: every function is proved first, in some minutes on four cores\n"
BUILT = "cdf: built in N seconds\n"
NEW, OLD = "the program is not built yet", "the program is older than what it is made of, and is not run"


def plain(error):
    """Standard error without what depends on the time: progress, and seconds."""
    error = re.sub(r"^cdf: proved [01] of 3\n", "", error, flags=re.M)
    return re.sub(r"built in \d+ seconds", "built in N seconds", error)


ENDS = signal.SIGTERM, signal.SIGINT, signal.SIGHUP
LONGEST = 60  # seconds that a run may take


def heard():
    """A gate in the background is started with some of these ignored, and a shell cannot take that back: here all are as in a terminal."""
    for end in ENDS:
        signal.signal(end, signal.SIG_DFL)


def ended(run):
    """What a run wrote; one that does not end is killed, which its status then says."""
    try:
        return run.communicate(timeout=LONGEST)
    except subprocess.TimeoutExpired:
        run.kill()
        return run.communicate()


class Copy:
    """A tree with the launcher, whose program is to be built."""

    def __init__(self, root, folder):
        self.top, self.bin = folder / "tree", folder / "bin"
        for path, text in (("library", LIBRARY), ("crates/cdf_one/src/lib.rt", ""), ("include/cdf.h", ""), ("rust/Cargo.toml", ""),
                           ("crates.txt", "# Three.\ncdf_one:\ncdf_two staticlib: cdf_one\ncdf_three:\n")):
            (self.top / path).parent.mkdir(parents=True, exist_ok=True)
            (self.top / path).write_text(text)
        shutil.copy(root / "cdf", self.top / "cdf")
        self.bin.mkdir()
        for name, text in (("rt", RT), ("cargo", CARGO)):
            (self.bin / name).write_text(text)
            (self.bin / name).chmod(0o755)
        for name in TOOLS.split():
            (self.bin / name).symlink_to(shutil.which(name))
        (self.top / "library").chmod(0o755)
        self.folder = folder

    def start(self, *words, path="tree/cdf", **environment):
        env = {"PATH": str(self.bin), "STAND_INS": str(self.folder), **environment}
        return subprocess.Popen([self.folder / path, *words], cwd=self.folder, env=env, stdin=subprocess.DEVNULL, stdout=subprocess.PIPE,
                                stderr=subprocess.PIPE, text=True, preexec_fn=heard)

    def run(self, *words, **more):
        run = self.start(*words, **more)
        output, error = ended(run)
        return output, plain(error), run.returncode

    def calls(self):
        path = self.folder / "called"
        return path.read_text().splitlines() if path.exists() else []

    def newer(self):
        """The tree becomes newer than the program."""
        later = time.time() + 2
        os.utime(self.top / "crates/cdf_one/src/lib.rt", (later, later))


def alive(pid):
    try:
        os.kill(pid, 0)
    except ProcessLookupError:
        return False
    return "Z" not in Path(f"/proc/{pid}/stat").read_text().rpartition(")")[2].split()[0]


def runs(root, compare, differs):
    def same(label, is_, due):
        differs(label, *zip(("output", "standard error", "status"), is_, due))

    def fails(why, more=""):
        return "", f"{more}cdf: {why}\n", 2

    # As it is: its program is there and newer than the tree.
    with tempfile.TemporaryDirectory() as name:
        (Path(name) / "crates").mkdir()
        (Path(name) / "link").symlink_to(root / "cdf")
        (Path(name) / "cdf").symlink_to("link")
        listed = (root / "samples/expected/family.txt").read_bytes()
        sample = root / "samples/family.cdf"
        compare("./cdf from elsewhere", [root / "cdf", "list", sample], b"", listed, cwd=name)
        compare("./cdf by links", ["./cdf", "list", sample], b"", listed, cwd=name)
        compare("./cdf by links, with CDPATH", ["./cdf", "list", sample], b"", listed, cwd=name, env={**os.environ, "CDPATH": f"{name}:/tmp:."})
        differs("./cdf leaves nothing where it is called", ("folder", sorted(os.listdir(name)), ["cdf", "crates", "link"]))
    compare("./cdf gives the status on", [root / "cdf", "check"], b"", "refused 3 at 0\n", "", 1)

    with tempfile.TemporaryDirectory() as name:
        copy = Copy(root, Path(name))
        first, second = copy.start("list", "a"), copy.start("check", "b")
        said = [(*ended(run), run.returncode) for run in (first, second)]
        errors = sorted(plain(error) for _, error, _ in said)
        waits = "cdf: another call is building, waiting\n"
        differs("two first builds at once", ("outputs", [output for output, _, _ in said], ["ran: list a\n", "ran: check b\n"]),
                ("standard errors", errors, [waits, BUILDING + BUILT]), ("statuses", [status for *_, status in said], [0, 0]),
                ("proofs", len(copy.calls()), 1), ("progress", any(re.search("^cdf: proved [01] of 3$", error, re.M) for _, error, _ in said), True))
        same("a second command builds nothing", copy.run("show"), ("ran: show\n", "", 0))
        (Path(name) / "elsewhere").mkdir()
        (Path(name) / "elsewhere/cdf").symlink_to("../tree/cdf")
        same("the copy by a link, with CDPATH", copy.run("x", path="elsewhere/cdf", CDPATH=f"{name}:."), ("ran: x\n", "", 0))
        copy.newer()
        log = copy.top / "rust/target/build.log"
        other = f"cdf: this kit is a-kit; proved it was with {KIT}\n"
        same("newer, and cannot be built", copy.run("x", FAILS="1"),
             fails(f"{OLD}; it could not be built, and the whole account is in {log}", f"{BUILDING}library: checked cdf_one\nrt: no proof\n{other}"))
        same("target/ is lost", copy.run("x", FAILS="1", LOSES="1"),
             fails(f"{OLD}; target/ was removed while it was built: call again", BUILDING))
        (copy.top / "target").write_text("")
        same("target/ cannot be written", copy.run("x"), fails(f"{OLD}; {copy.top}/target and {log.parent} cannot be written"))
        (copy.top / "target").unlink()
        same("newer, and built", copy.run("x"), ("ran: x\n", BUILDING + BUILT, 0))

    with tempfile.TemporaryDirectory() as name:
        copy = Copy(root, Path(name))
        for end in ENDS:
            before = len(copy.calls())
            run = copy.start("x")
            while len(copy.calls()) == before and run.poll() is None:
                time.sleep(0.02)
            run.send_signal(end)
            output, error = ended(run)
            pid = int(copy.calls()[-1].split()[0])
            until = time.time() + 5
            while alive(pid) and time.time() < until:
                time.sleep(0.02)
            differs(f"a build ended by {end.name}", ("output", output, ""), ("standard error", plain(error), f"{BUILDING}cdf: the build was ended\n"),
                    ("status", run.returncode, 2), ("build goes on", alive(pid), False))
        same("after an ended build", copy.run("x"), ("ran: x\n", BUILDING + BUILT, 0))

    with tempfile.TemporaryDirectory() as name:
        copy = Copy(root, Path(name))
        for missing, why in (("cargo", "'cargo' must be on the PATH"), ("rt", f"the Rattle kit's command 'rt' must be on the PATH: {KIT}")):
            (copy.bin / missing).unlink()
            same(f"{missing} is missing", copy.run("x"), fails(f"{NEW}; to build it {why}"))
