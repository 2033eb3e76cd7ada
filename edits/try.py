#!/usr/bin/env python3
"""Tries the edits of edits/CRATE/ beside those of crates/CRATE/must-fail/: of the crates that are named, or of all that have some here.

It puts the repository's files as they stand, committed or not, into a temporary folder, with these edits among those of the gate, runs
`rt must-fail` there, and ends with its status.
"""

import pathlib
import shutil
import signal
import subprocess
import sys
import tempfile

ROOT = pathlib.Path(__file__).resolve().parent.parent
FILES = ["crates", "crates.txt", "HANDLES"]


def stop(why):
    print(why, file=sys.stderr)
    sys.exit(2)


def edits_of(crate):
    if not (ROOT / "crates" / crate / "src").is_dir():
        stop(f"edits/{crate}: there is no crate of this name")
    return sorted((ROOT / "edits" / crate).glob("*.edit")) or stop(f"edits/{crate}/ has no edits")


def copy_files(to):
    """The files that the repository has or is to have, without what builds left."""
    listed = subprocess.run(["git", "ls-files", "-coz", "--exclude-standard", *FILES], cwd=ROOT, capture_output=True, check=True)
    for name in filter(None, listed.stdout.decode().split("\0")):
        if (ROOT / name).is_file():  # else it was removed, and that isn't committed
            (to / name).parent.mkdir(parents=True, exist_ok=True)
            shutil.copyfile(ROOT / name, to / name)
    subprocess.run(["git", "init", "-q", to], check=True)


def put_edits(crate, edits, to):
    beside = to / "crates" / crate / "must-fail"
    beside.mkdir(exist_ok=True)
    for edit in edits:
        if (beside / edit.name).exists():
            stop(f"{edit.name} stands in edits/{crate}/ and in crates/{crate}/must-fail/: give one another name")
        shutil.copyfile(edit, beside / edit.name)


def main():
    crates = sys.argv[1:] or sorted(folder.name for folder in (ROOT / "edits").iterdir() if folder.is_dir())
    if not crates:
        stop("edits/ has no folder of a crate")
    edits = {crate: edits_of(crate) for crate in crates}
    signal.signal(signal.SIGTERM, lambda number, _: sys.exit(128 + number))
    with tempfile.TemporaryDirectory(prefix="edits-") as name:
        copied = pathlib.Path(name) / "repository"
        copied.mkdir()
        copy_files(copied)
        for crate in crates:
            put_edits(crate, edits[crate], copied)
        return subprocess.run(["rt", "must-fail", *crates], cwd=copied).returncode


if __name__ == "__main__":
    sys.exit(main())
