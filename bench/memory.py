#!/usr/bin/env python3
"""Measures what memory `kafka_room serve` takes with 64 lanes: for itself, for a session, for a request that waits, for a frame of 8 MiB
and for a reply that isn't read. README.md says what is done and what is printed. Run it at the top of the repository:
`python3 -B -m bench.memory`."""

import argparse
import contextlib
import os
import pathlib
import sys
import time
from dataclasses import dataclass, field

from clients import frames
from clients.frames import Link
from clients.served import Failed, Program, Serving, expect, until
from model.broker import wire
from model.checks import repository

LANES = 64
# As long as no request is answered meanwhile, in milliseconds.
LONG = 600_000
LARGE = wire.MOST_FRAME
# The memory of a process is looked at once it has stayed the same for so long, in seconds.
QUIET = 0.3


@dataclass
class Room:
    """A `serve` with 64 lanes, and what is connected to it."""
    serving: Serving
    links: list = field(default_factory=list)

    def status(self, name):
        """A number of /proc/PID/status, in KiB."""
        with open(f"/proc/{self.serving.process.pid}/status") as lines:
            return next(int(line.split()[1]) for line in lines if line.startswith(f"{name}:"))

    def now(self):
        """What it holds in memory, once that no longer changes."""
        held, since = self.status("VmRSS"), time.monotonic()
        while time.monotonic() - since < QUIET:
            time.sleep(0.02)
            if self.status("VmRSS") != held:
                held, since = self.status("VmRSS"), time.monotonic()
        return held


def ask_all(room, question, answer):
    for link in room.links:
        link.asks(question, answer)


def nothing(_):
    """Connections that said nothing."""


def asked(room):
    """Connections that were answered once, and say nothing more."""
    ask_all(room, wire.versions_request(1), wire.versions(1, 0))


def wait(room):
    """Fetches that wait, each of one partition."""
    for link in room.links:
        link.send(frames.fetch(1, b"t", 0, wait=LONG))


def wait_for_64(room):
    """Fetches that wait, each of 64 partitions."""
    for link in room.links:
        named = [(index, 0, 1_048_576) for index in range(64)]
        link.send(wire.fetch_request(1, [(b"t", named)], wait=LONG))


def nearly_a_frame(room):
    """Frames of 8 MiB that lack their last byte."""
    for link in room.links:
        link.send(LARGE.to_bytes(4, "big") + bytes(LARGE - 1))


def a_frame(room):
    """Frames of 8 MiB that were answered: produces of records that are no batch."""
    head = frames.produce(1, b"t", b"")[4:]
    size = LARGE - len(head)
    body = head[:-4] + size.to_bytes(4, "big") + bytes(size)
    expect(len(body) == LARGE, "the frame should have 8 MiB")
    ask_all(room, wire.frame(body), frames.produced(1, b"t", -1, code=10))


def unread(room):
    """Replies of 8 MB that nobody reads, each of eight batches that the logs have once."""
    for link in room.links:
        link.send(wire.fetch_request(1, [(b"t", [(index, 0, 1_048_576) for index in range(8)])]))


def fill(port):
    """Eight partitions with a batch of 1 MB each."""
    large = frames.batch(bytes(1_000_000))
    with Link(port) as link:
        for index in range(8):
            link.asks(frames.produce(index, b"t", large, partition=index), frames.produced(index, b"t", 0, partition=index))
        link.has_to_end()


RUNS = [nothing, asked, wait, wait_for_64, nearly_a_frame, a_frame, unread]


def measured(program, act):
    """What 64 connections cost: the memory before them and with them, the most that there was, and what is left once they are gone."""
    with contextlib.ExitStack() as connected, Serving(program, ["t 64 0"], LANES + 2, lanes=LANES) as serving:
        room = Room(serving)
        if act is unread:
            fill(serving.port)
        before = room.now()
        room.links = [connected.enter_context(Link(serving.port)) for _ in range(LANES)]
        until(lambda: waiting_to_be_accepted(serving.port) == 0, "64 connections are accepted")
        act(room)
        held = room.now()
        connected.close()
        return before, held, room.status("VmHWM"), room.now()


def waiting_to_be_accepted(port):
    """How many connections the system holds for a program that listens there."""
    place = f"0100007F:{port:04X}"
    with open("/proc/net/tcp") as lines:
        fields = [line.split() for line in lines]
    return sum(int(line[4].split(":")[1], 16) for line in fields if line[1] == place and line[3] == "0A")


def main():
    options = argparse.ArgumentParser(description=__doc__)
    options.add_argument("program", nargs="?", type=pathlib.Path, default=repository.program("kafka_room"))
    chosen = options.parse_args()
    if not os.access(chosen.program, os.X_OK):
        print(f"{chosen.program} isn't there: `make build` makes it", file=sys.stderr)
        return 2
    try:
        for act in RUNS:
            before, held, most, left = measured(Program(chosen.program.resolve()), act)
            print(f"{act.__doc__}\n  {before} KiB before, {held} with 64 of them: {(held - before) / LANES:.1f} KiB for each; "
                  f"{most} at most, {left} once they are gone", flush=True)
    except Failed as failed:
        print(failed, file=sys.stderr)
        return 1
    return 0


if __name__ == "__main__":
    sys.exit(main())
