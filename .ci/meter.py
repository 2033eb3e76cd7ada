#!/usr/bin/env python3
"""Measures what processor time each crate takes while `rt ci` runs: meter.py PID FILE, until it is told to end (SIGTERM)
or PID has ended.

Once a second it reads /proc for all processes below PID, and writes the table to FILE at its end. A check counts with all that it
started, also with what has ended since. The figures are measured and not exact: what a process does after it was last looked at, at
most a second of it, is lost, and so is one that ends sooner.
"""

import dataclasses
import os
import pathlib
import re
import signal
import sys
import threading
import time

TICK = os.sysconf("SC_CLK_TCK")
KINDS = ("proof", "tests", "edits", "other")
# A built program or test, where rt runs it.
RUN = re.compile(r"/rt-run-[^/]+/bin/(\w+?)(_tests)?$")
# The folders in which rt checks a crate with an edit, and the crate once without one, to begin with.
EDITED = re.compile(r"/rt-edits?-")
HEAD = ("Measured once a second: of each process what it did after it was last looked at is lost.\n"
        "from and to: minutes from the start, of the proof and tests. The others: processor seconds.")


@dataclasses.dataclass
class Process:
    parent: int
    start: int
    own: int
    ended: int  # of its children that have ended
    words: list
    folder: str

    @property
    def name(self):
        return os.path.basename(self.words[0]) if self.words else ""


def read(pid):
    """A process, or None where it has ended meanwhile."""
    try:
        here = pathlib.Path(f"/proc/{pid}")
        fields = (here / "stat").read_text().rpartition(")")[2].split()
        words = (here / "cmdline").read_bytes().decode(errors="replace").split("\0")[:-1]
        folder = os.readlink(here / "cwd")
    except OSError:
        return None
    number = [int(field) if field.lstrip("-").isdigit() else 0 for field in fields]
    return Process(number[1], number[19], number[11] + number[12], number[13] + number[14], words, folder)


def label(process):
    """The crate that a process works for and its kind of work, or None for one that works for no crate."""
    words = process.words
    for word in words:
        run = RUN.search(word)
        if run:
            return run[1], "tests"
    if process.name != "rattle" or "--crate-name" not in words[:-1]:
        return None
    crate = words[words.index("--crate-name") + 1]
    if EDITED.search(process.folder + "/"):
        return crate, "edits"
    return crate, "tests" if "--test" in words else "proof"


class Meter:
    def __init__(self, top):
        self.top, self.began = top, time.monotonic()
        # by process, which is its number and its start: what it does, and the ticks that it and its children took so far
        self.seen = {}
        # by crate: the first and the last minute of its proof and tests
        self.spans = {}

    def look(self):
        found = {int(name): read(name) for name in os.listdir("/proc") if name.isdigit()}
        found = {pid: process for pid, process in found.items() if process}
        children = {}
        for pid, process in found.items():
            children.setdefault(process.parent, []).append(pid)
        self.walk(self.top, found, children)

    def walk(self, pid, found, children):
        for child in children.get(pid, []):
            process = found[child]
            if child == os.getpid():
                continue
            does = label(process)
            if does:
                self.note(child, process, does, whole(child, found, children))
            else:
                self.note(child, process, ("rt and the rest", "other"), process.own)
                self.walk(child, found, children)

    def note(self, pid, process, does, ticks):
        # A process that turns into another program counts as that one. One that has ended and was not waited for yet has no words any more.
        did, before = self.seen.get((pid, process.start), (does, 0))
        does = does if process.words else did
        self.seen[pid, process.start] = does, max(before, ticks)
        if does[1] in ("proof", "tests"):
            minute = (time.monotonic() - self.began) / 60
            self.spans[does[0]] = self.spans.get(does[0], (minute, minute))[0], minute

    def rows(self):
        """By crate the seconds of each kind."""
        rows = {}
        for (crate, kind), ticks in self.seen.values():
            row = rows.setdefault(crate, dict.fromkeys(KINDS, 0.0))
            row[kind] += ticks / TICK
        return rows

    def told(self):
        rows = self.rows()
        lines = [HEAD, f"{'from':>6} {'to':>6} {'proof':>8} {'tests':>8} {'edits':>8} {'sum':>8}  crate"]
        for crate, row in sorted(rows.items(), key=lambda item: -sum(item[1].values())):
            first, last = self.spans.get(crate, (0, 0))
            kinds = " ".join(f"{row[kind]:8.0f}" for kind in KINDS[:3])
            lines.append(f"{first:6.1f} {last:6.1f} {kinds} {sum(row.values()):8.0f}  {crate}")
        total = {kind: sum(row[kind] for row in rows.values()) / 60 for kind in KINDS}
        parts = ", ".join(f"{minutes:.1f} {kind}" for kind, minutes in total.items())
        lines.append(f"processor minutes: {sum(total.values()):.1f} in all ({parts})")
        return "\n".join(lines) + "\n"


def whole(pid, found, children):
    """The ticks of a process and of all below it."""
    return found[pid].own + found[pid].ended + sum(whole(child, found, children) for child in children.get(pid, []))


def main():
    ends = threading.Event()
    for number in (signal.SIGTERM, signal.SIGINT):
        signal.signal(number, lambda *_: ends.set())
    meter = Meter(int(sys.argv[1]))
    while not ends.wait(1) and os.path.exists(f"/proc/{meter.top}"):
        meter.look()
    pathlib.Path(sys.argv[2]).write_text(meter.told())
    return 0


if __name__ == "__main__":
    sys.exit(main())
