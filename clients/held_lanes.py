"""A check with clients that hold a lane and give nothing for it, beside others that have to be served all the same."""

import contextlib
import time

from clients import frames
from clients.frames import Link
from clients.served import Serving, expect, soon
from model.broker import wire

# One more than are held at first.
LANES = 6
SILENT = 3
# For how many seconds a byte is sent each second.
SECONDS = 3
# A record that is asked for so often that no buffer between holds all replies.
LARGE = bytes(1_000_000)
ASKED = 60

QUESTION, ANSWER = wire.versions_request(1), wire.versions(1, 0)


def served_soon(port):
    """Asks twice over a connection of its own, and gives the milliseconds."""
    began = time.monotonic()
    with Link(port) as link:
        link.asks(QUESTION, ANSWER)
        link.asks(frames.fetch(2, b"orders", 1, wait=1), frames.fetched(2, b"orders", 1))
        link.has_to_end()
    return soon(began, "another client is served")


def drip(slow, port):
    """Sends a byte each second, and lets others be served meanwhile. Gives how many were, and the most milliseconds."""
    count, longest, began = 0, 0.0, time.monotonic()
    for number in range(SECONDS):
        slow.send(QUESTION[number:number + 1])
        while time.monotonic() < began + number + 1:
            count, longest = count + 1, max(longest, served_soon(port))
            time.sleep(0.05)
    return count, longest


def waits_for_a_lane(silent, port):
    """Where all lanes are held, the next client waits until one is free."""
    with Link(port), Link(port) as last:
        last.send(QUESTION)
        expect(not last.hears(0.3), "a client should wait while no lane is free")
        began = time.monotonic()
        silent.has_to_end()
        last.gets(ANSWER)
        return soon(began, "a client is served once a lane is free")


def others_are_served(program):
    """A client that sends a byte a second, one that never reads its replies and three that say nothing hold a lane each. The others
    are served meanwhile, as long as a lane is free, and once all are held as soon as one is free."""
    with Serving(program, ["orders 1 0"], connections=120, lanes=LANES) as serving, contextlib.ExitStack() as held:
        with Link(serving.port) as producer:
            producer.asks(frames.produce(1, b"orders", frames.batch(LARGE)), frames.produced(1, b"orders", 0))
            producer.has_to_end()
        *silent, slow, deaf = (held.enter_context(Link(serving.port)) for _ in range(SILENT + 2))
        deaf.send(b"".join(frames.fetch(number, b"orders", 0) for number in range(ASKED)))
        count, longest = drip(slow, serving.port)
        freed = waits_for_a_lane(silent[0], serving.port)
        slow.asks(QUESTION[SECONDS:], ANSWER)
        held.close()
        links = serving.ends(1)
    _check(links, count)
    return (f"{count} others were served within {longest:.1f} ms beside {SILENT + 2} that hold lanes, and one more {freed:.1f} ms "
            f"after a lane was free")


def _check(links, count):
    """In the order of their connections: the producer, those that said nothing, the slow one, the deaf one, and the others."""
    quiet, asked = [(0, 0, "closed")] * SILENT, [(1, 1, "closed")]
    expect(links[:SILENT + 2] == asked + quiet + asked, f"the links before that of the deaf client are {links[:SILENT + 2]}")
    calls, _, way = links[SILENT + 2]
    expect(way == "write-fault" and calls < ASKED, f"the client that never reads should be heard in part, and its link is {links[SILENT + 2]}")
    others = links[SILENT + 3:SILENT + 3 + count]
    expect(others == [(2, 2, "closed")] * count, f"{count} others should have been served, and are {others}")


CHECKS = {"frames-held-lanes": others_are_served}
