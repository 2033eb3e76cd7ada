#!/usr/bin/env python3
"""Plays random traces by the model and by the proved program, and compares codes, output and errors byte for byte.

It stops at the first that differs, takes out of it each line without which it still differs, and shows where. Both traces are left
in the folder that is named. Run it at the top of the repository: `python3 -B -m model.checks.compare`.
"""

import argparse
import pathlib
import subprocess
import sys
import tempfile

from model.broker import broker, traces
from model.checks import repository, unproved
from model.traces import generate

CRATE = "kafka_room"


def ran(program, text):
    done = subprocess.run([program, "replay"], input=text, capture_output=True, timeout=60)
    return done.returncode, done.stdout, done.stderr


def wanted(text):
    """The exit code, the output and the errors for this text."""
    try:
        lines = traces.read(text)
    except traces.Bad as bad:
        return 2, b"", f"kafka_room: {bad.told()}\n".encode()
    return 0, broker.play(lines), b""


def shrunk(text, differs):
    """The trace without each line that it can lose and still differ."""
    lines = text.split(b"\n")
    place = len(lines) - 1
    while place >= 0:
        fewer = lines[:place] + lines[place + 1:]
        if differs(b"\n".join(fewer)):
            lines = fewer
        place -= 1
    return b"\n".join(lines)


def around(line, at):
    return line[max(0, at - 40):at + 40].decode("ascii", "replace")


def first_difference(ours, theirs):
    """The first line that differs, shortened around the place."""
    for number, (a, b) in enumerate(zip(ours.split(b"\n"), theirs.split(b"\n")), 1):
        if a != b:
            at = next((i for i, (x, y) in enumerate(zip(a, b)) if x != y), min(len(a), len(b)))
            return f"line {number}, byte {at}:\n  model    ..{around(a, at)}..\n  program  ..{around(b, at)}.."
    return f"the model printed {len(ours)} bytes, the program {len(theirs)}"


def show_text(text):
    for line in text.split(b"\n"):
        print("  " + (line if len(line) <= 100 else line[:97] + b"...").decode("ascii", "replace"))


def show_difference(text, theirs):
    code, output, errors = wanted(text)
    their_code, their_output, their_errors = theirs
    print(f"The model ends with {code}, the program with {their_code}; {first_difference(errors + output, their_errors + their_output)}")


def tell_difference(chosen, name, text, theirs):
    left = chosen.folder / f"{name}.trace"
    left.write_bytes(text)
    print(f"{left} differs.")
    if not chosen.unproved:
        code = wanted(text)[0]
        text = shrunk(text, lambda fewer: wanted(fewer)[0] == code and ran(chosen.program, fewer) != wanted(fewer))
        small = left.with_suffix(".small.trace")
        small.write_bytes(text)
        theirs = ran(chosen.program, text)
        print(f"Of its lines these do, left in {small}:")
    show_text(text)
    show_difference(text, theirs)


def runs(chosen, named):
    """What the program does with each text, one after the other."""
    if not chosen.unproved:
        return (ran(chosen.program, text) for text in named.values())
    told = unproved.ran(CRATE, [(name, ["replay"], text) for name, text in named.items()])
    return (told[name] or (None, b"", b"") for name in named)


def compare(chosen, kinds):
    """Whether all traces agree."""
    named = {f"{kind}_{seed}": generate.made(kind, seed) for kind in kinds for seed in range(chosen.first, chosen.first + chosen.count)}
    codes = {kind: {} for kind in kinds}
    for (name, text), theirs in zip(named.items(), runs(chosen, named)):
        if theirs != wanted(text):
            tell_difference(chosen, name, text, theirs)
            return False
        counts = codes[name.split("_")[0]]
        counts[theirs[0]] = counts.get(theirs[0], 0) + 1
    for kind, counts in codes.items():
        told = ", ".join(f"{count} with code {code}" for code, count in sorted(counts.items()))
        print(f"{kind}: {chosen.count} traces agree, {told}", flush=True)
    return True


def main():
    options = argparse.ArgumentParser(description=__doc__)
    options.add_argument("program", nargs="?", type=pathlib.Path, default=repository.program(CRATE))
    options.add_argument("--count", type=int, default=1000, metavar="N", help="traces of each kind")
    options.add_argument("--first", type=int, default=0, metavar="SEED", help="the seed of the first")
    options.add_argument("--kind", choices=generate.KINDS, action="append", help="only this kind")
    options.add_argument("--unproved", action="store_true", help="plays all by one build of `rt try`, which proves nothing")
    options.add_argument("--folder", type=pathlib.Path, default=pathlib.Path(tempfile.gettempdir()), help="where a trace that differs is left")
    chosen = options.parse_args()
    if not chosen.unproved and not chosen.program.is_file():
        print(f"{chosen.program} isn't there: `make build` makes it", file=sys.stderr)
        return 2
    kinds = chosen.kind or generate.KINDS
    try:
        # One kind at a time says sooner that its traces agree, but for the build of each.
        return 0 if all(compare(chosen, some) for some in ([kinds] if chosen.unproved else [[kind] for kind in kinds])) else 1
    except unproved.Failed as failed:
        print(failed, file=sys.stderr)
        return 2


if __name__ == "__main__":
    sys.exit(main())
