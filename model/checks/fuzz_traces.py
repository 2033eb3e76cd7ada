#!/usr/bin/env python3
"""Plays texts that mostly were valid traces and then were changed, by the model and by the proved program, and compares codes, output
and errors byte for byte.

A seed gives a trace of the repository, or a random one, and its changes (model/traces/mutated.py). It stops at the first text that
differs, takes out of it each line without which it still differs, and shows where. Run it at the top of the repository:
`python3 -B -m model.checks.fuzz_traces`.
"""

import argparse
import collections
import functools
import multiprocessing
import os
import pathlib
import random
import subprocess
import sys
import tempfile
import time

from model.checks import compare, repository
from model.traces import generate, mutated

# How many texts are made of one trace, and played by one process before it tells.
OF_ONE = 20
AT_ONCE = 200
KINDS = ["waiting", "mixed", "plain", "lagging", "mixed", "file"]
# The longest file of the repository that is changed.
MOST_BYTES = 8000


@functools.lru_cache(maxsize=None)
def files():
    texts = [trace.read_bytes() for trace in repository.played()]
    return [text for text in texts if len(text) <= MOST_BYTES]


@functools.lru_cache(maxsize=1)
def whole(number):
    """The trace from which so many texts are made."""
    kind = KINDS[number % len(KINDS)]
    return random.Random(f"file {number}").choice(files()) if kind == "file" else generate.made(kind, number)


def made(seed):
    return mutated.text(random.Random(f"fuzz {seed}"), whole(seed // OF_ONE))


def ran(program, text):
    """What the program does with a text. A run without an end has no code."""
    try:
        return compare.ran(program, text)
    except subprocess.TimeoutExpired:
        return None, b"", b""


def agree(program, seed):
    """The exit code of a text, where the model and the program agree, else None."""
    text = made(seed)
    theirs = ran(program, text)
    return theirs[0] if theirs == compare.wanted(text) else None


def agree_all(program, seeds):
    """How many texts ended with each code, and the first seed whose text differs."""
    codes = collections.Counter()
    for seed in seeds:
        code = agree(program, seed)
        if code is None:
            return codes, seed
        codes[code] += 1
    return codes, None


def compare_all(chosen):
    """The codes of all texts, and the first seed whose text differs."""
    upto = chosen.first + chosen.count
    parts = [range(first, min(first + AT_ONCE, upto)) for first in range(chosen.first, upto, AT_ONCE)]
    codes = collections.Counter()
    with multiprocessing.Pool(chosen.jobs) as pool:
        for done, differs in pool.imap_unordered(functools.partial(agree_all, chosen.program), parts):
            codes += done
            if differs is not None:
                pool.terminate()
                return codes, differs
    return codes, None


def main():
    options = argparse.ArgumentParser(description=__doc__)
    options.add_argument("program", nargs="?", type=pathlib.Path, default=repository.program(compare.CRATE))
    options.add_argument("--count", type=int, default=20_000, metavar="N", help="texts")
    options.add_argument("--first", type=int, default=0, metavar="SEED", help="the seed of the first")
    options.add_argument("--jobs", type=int, default=os.cpu_count(), metavar="N", help="how many are played at a time")
    options.add_argument("--folder", type=pathlib.Path, default=pathlib.Path(tempfile.gettempdir()), help="where a text that differs is left")
    chosen = options.parse_args()
    chosen.unproved = False
    if not chosen.program.is_file():
        print(f"{chosen.program} isn't there: `make build` makes it", file=sys.stderr)
        return 2
    began = time.monotonic()
    codes, differs = compare_all(chosen)
    if differs is not None:
        compare.tell_difference(chosen, f"fuzz_{differs}", made(differs), ran(chosen.program, made(differs)))
        return 1
    told = ", ".join(f"{count} with code {code}" for code, count in sorted(codes.items()))
    print(f"fuzz: {chosen.count} changed texts agree, {told}, in {time.monotonic() - began:.0f} s")
    return 0


if __name__ == "__main__":
    sys.exit(main())
