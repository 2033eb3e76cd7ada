"""Plays many texts by one build of `rt try`, which proves nothing."""

import pathlib
import re
import subprocess
import tempfile

from model.checks import repository

ENDED = re.compile(rb"^case=(\S+) run=([\w-]+)(?: status=(\d+))? .*\n", re.MULTILINE)


class Failed(Exception):
    """The build fails, or a run in it comes to no end."""


def write(folder, name, words, text):
    (folder / name).write_bytes(text)
    (folder / f"{name}.args").write_text("".join(f"{word}\n" for word in words))


def ran(crate, cases):
    """By name the exit code, the output and the errors of each case, which is (name, words, text). None stands for a run without an end."""
    with tempfile.TemporaryDirectory() as folder:
        for case in cases:
            write(pathlib.Path(folder), *case)
        done = subprocess.run(["rt", "try", "--cases", folder], cwd=repository.crate(crate), capture_output=True)
    _, *printed = re.split(rb"^== (\S+)\n", done.stdout, flags=re.MULTILINE)
    printed = dict(zip(printed[0::2], printed[1::2]))
    told, at = {}, 0
    for found in ENDED.finditer(done.stderr):
        name, how, status = found.groups()
        is_whole = how == b"ended" and name in printed
        told[name.decode()] = (int(status), printed[name], done.stderr[at:found.start()]) if is_whole else None
        at = found.end()
    if told.keys() != {name for name, _, _ in cases}:
        raise Failed(f"`rt try` in {crate} fails: {done.stderr.decode(errors='replace')[-1000:]}")
    return told
