"""Rooms: repositories of their own, made over what rt has checked in this one, in which wrong texts are tried.

A room has the crates that a check of one reads. Their texts are copies. The libraries below it, and the modules that were
checked of it, are links to this repository's, which takes less time: rt and the prover put a new file in the place of such
a one and write to none, as `shared` shows; those few that they do write to are copies.
"""
import contextlib
import fcntl
import os
import shutil
import subprocess
import tempfile
from pathlib import Path

TOP = Path(__file__).resolve().parent.parent
TEXTS = ("src", "specs", "proofs")


def listed():
    """The lines of crates.txt, by the crate that each names."""
    lines = (line.split("#")[0].strip() for line in (TOP / "crates.txt").read_text(encoding="utf-8").splitlines())
    return {line.split(":")[0].split()[0]: line for line in lines if ":" in line}


def below(name):
    """The crates of this repository that one stands on, each after those that it stands on."""
    lines, found = listed(), []

    def visit(crate):
        for one in lines[crate].split(":")[1].split():
            if one in lines and one not in found:
                visit(one)
                found.append(one)

    visit(name)
    return found


@contextlib.contextmanager
def place(name):
    """A folder for rooms, outside this repository, which is gone afterwards: always the same, since rt notes each folder in
    which it kept work, unless another run is in it."""
    top = Path(tempfile.gettempdir()) / f"exos-{name}-{os.getuid()}"
    with open(f"{top}.lock", "w", encoding="ascii") as lock:
        try:
            fcntl.flock(lock, fcntl.LOCK_EX | fcntl.LOCK_NB)
        except BlockingIOError:
            top = Path(tempfile.mkdtemp(prefix=f"exos-{name}-"))
        shutil.rmtree(top, ignore_errors=True)
        top.mkdir(mode=0o700)
        try:
            yield top
        finally:
            shutil.rmtree(top, ignore_errors=True)


def link(one, other):
    """Links a file that is never written to, where the room lies on its disk, and copies another."""
    if one.endswith(".oantt") or "/out/rlib/" in one:
        try:
            return os.link(one, other)
        except OSError:
            pass
    return shutil.copy2(one, other)


def make(room, name, whole=False):
    """Makes a room for a crate; a whole one is also for those below it."""
    crates, lines = [*below(name), name], listed()
    room.mkdir(parents=True)
    (room / "crates.txt").write_text("".join(f"{lines[crate]}\n" for crate in crates), encoding="utf-8")
    for crate in crates:
        here, there = TOP / "crates" / crate, room / "crates" / crate
        for part in TEXTS:
            if (here / part).is_dir():
                shutil.copytree(here / part, there / part)
        for part in ("rlib", "incremental"):
            if (here / "out" / part).is_dir() and (part == "rlib" or whole or crate == name):
                shutil.copytree(here / "out" / part, there / "out" / part, copy_function=link)


def shared(name):
    """What rooms link to of a crate: each file with what shows whether it was written to."""
    found = {}
    for part in ("rlib", "incremental"):
        for at, _, files in os.walk(TOP / "crates" / name / "out" / part):
            for file in (os.path.join(at, one) for one in files):
                stat = os.stat(file)
                # the prover tells by the time of an empty one when it last used a folder
                if stat.st_size:
                    found[file] = stat.st_size, stat.st_mtime_ns
    return found


def apply(edit, folder):
    """Applies an edit to the files of a folder, and returns whether each text of it stands as .ci/apply asks."""
    return subprocess.run([TOP / ".ci/apply", edit, folder]).returncode == 0


def ask(top, name, log, *words):
    """Asks rt in a crate's folder, of a room or of this repository; what it says is in the log. Returns its status."""
    log.parent.mkdir(parents=True, exist_ok=True)
    with open(log, "w", encoding="utf-8") as said:
        streams = {"stdin": subprocess.DEVNULL, "stdout": said, "stderr": said}
        return subprocess.run(["rt", *words], cwd=top / "crates" / name, **streams).returncode


def prove(top, name, log):
    """Asks rt for a crate, a library as those above it read it. Returns whether it is proved."""
    is_used = any(name in below(one) for one in listed())
    return ask(top, name, log, "lib" if is_used else "check") == 0
