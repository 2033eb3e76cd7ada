"""Lets real clients, and frames of our own, speak to `serve` of a program, and checks what they are told and what it prints.

Each check starts a `serve` of its own and brings it to its end. A line is printed for each, with what was seen. It ends with 1 where a
check fails, and with 2 where the program isn't there; a check whose client isn't installed is skipped. README.md says what is checked.
Run it at the top of the repository: `python3 -B -m clients.check`.
"""

import argparse
import os
import pathlib
import sys
import time

from clients import followers, held_lanes, hostile_frames, kafka_python, kcat, late_followers, own_frames
from clients.served import Failed, Program
from model.checks import repository

# The checks of a client, and the client; those of our own frames need none.
GROUPS = [
    (own_frames.CHECKS, None), (hostile_frames.CHECKS, None), (held_lanes.CHECKS, None),
    (kcat.CHECKS, kcat), (kafka_python.CHECKS, kafka_python), (followers.CHECKS, followers),
]
# Those that take half a minute.
SLOW = [(late_followers.CHECKS, late_followers)]
# The most letters that are told of what was seen.
MOST_TOLD = 600
NAMES, SLOW_NAMES = ([name for checks, _ in groups for name in checks] for groups in (GROUPS, SLOW))


def passes(program, name, check):
    """Whether the check passes; its line is printed."""
    began = time.monotonic()
    try:
        how, told = "ok", check(program)
    except Failed as failed:
        how, told = "FAILED", str(failed)
    except Exception as fault:
        how, told = "FAILED", f"{type(fault).__name__}: {fault}"
    print(f"{name}: {how} after {time.monotonic() - began:.1f} s: {told[:MOST_TOLD]}", flush=True)
    return how == "ok"


def counted(program, chosen):
    """How many of the chosen checks failed, and how many were skipped."""
    failed, skipped = 0, 0
    for checks, client in GROUPS + SLOW:
        wanted = {name: check for name, check in checks.items() if name in chosen}
        lacks = client.missing() if client and wanted else None
        if client and wanted and not lacks:
            print(client.version(), flush=True)
        for name, check in wanted.items():
            if lacks:
                print(f"{name}: skipped, {lacks}", flush=True)
                skipped += 1
            elif not passes(program, name, check):
                failed += 1
    return failed, skipped


def main():
    options = argparse.ArgumentParser(description=__doc__)
    options.add_argument("program", nargs="?", type=pathlib.Path, default=repository.program("kafka_room"))
    options.add_argument("--only", action="append", choices=NAMES + SLOW_NAMES, metavar="NAME",
                         help=f"only this check: {', '.join(NAMES + SLOW_NAMES)}")
    options.add_argument("--slow", action="store_true", help="also those that take half a minute")
    options.add_argument("--plain", action="store_true", help="another program: what it writes to standard error isn't checked")
    chosen = options.parse_args()
    if not os.access(chosen.program, os.X_OK) or not chosen.program.is_file():
        print(f"{chosen.program} isn't there: `make build` makes it", file=sys.stderr)
        return 2
    began = time.monotonic()
    failed, skipped = counted(Program(chosen.program.resolve(), chosen.plain), chosen.only or NAMES + SLOW_NAMES * chosen.slow)
    print(f"clients: {failed or 'none'} failed, {skipped or 'none'} skipped, in {time.monotonic() - began:.0f} s")
    return 1 if failed else 0


if __name__ == "__main__":
    sys.exit(main())
