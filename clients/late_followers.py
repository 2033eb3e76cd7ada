"""A check that takes half a minute: followers that stand still leave the in-sync sets, and come back. `make clients` runs it, and the
gate doesn't."""

import contextlib
import signal
import time

from clients import followers, frames
from clients.frames import Link
from clients.served import SOON, Serving, expect, until
from model.broker import wire
from model.broker.partition import MOST_LAG

BOOK = frames.batch(b"book")
# How long a produce for all replicas may wait, in milliseconds: longer than any that waits here should have to.
TIMEOUT = 90_000
# In seconds: for how long a follower may lag, and how much sooner it may have fetched for the last time than it was stopped.
LAG, SINCE = MOST_LAG / 1000, 1


missing, version = followers.missing_program, followers.version


@contextlib.contextmanager
def following(serving, topic):
    """A follower of a topic's one partition."""
    follower = followers.started(serving, topic, 2**31 - 1)
    try:
        yield follower
    finally:
        follower.kill()
        follower.communicate()


def for_all(correlation, topic):
    return frames.produce(correlation, topic, BOOK, acks=-1, timeout=TIMEOUT)


def answered_after(links, other, began):
    """For each link the seconds until something comes. `serve` looks at who lags on each tick of its clock, and that goes on as requests
    come: so somebody asks something meanwhile."""
    took = {}
    while len(took) < len(links):
        expect(time.monotonic() - began < LAG + SOON, f"the produces should be answered within {LAG + SOON} s, and {len(took)} are")
        other.asks(wire.versions_request(1), wire.versions(1, 0))
        took.update({link: time.monotonic() - began for link in links if link not in took and link.hears(0.05)})
    return [took[link] for link in links]


def taken_again(link, correlation, topic, base):
    """Produces for all replicas until it isn't refused any more: then the follower has come back."""
    refused = frames.produced(correlation, topic, -1, code=19)

    def is_taken():
        link.send(for_all(correlation, topic))
        came = wire.frame(link.reply())
        is_right = came in (refused, frames.produced(correlation, topic, base))
        expect(is_right, f"a produce should be taken, or have code 19, and is told {came.hex()}")
        return came != refused
    until(is_taken, "a produce for all replicas is taken again")


def leave_and_come_back(program):
    """Of two topics with one follower each one asks for no more than the leader in sync, the other for both replicas. Their followers are
    stopped. Produces with acks all then wait, for 30 s since the followers' last fetch: the first is answered with code 0, and the other
    with code 20. From then on the first topic takes a record with acks all at once, the other refuses it with code 19, and takes one with
    acks 1. The followers go on, and a produce with acks all is taken again."""
    with Serving(program, ["alone 1 1", "both 1 1 2"], connections=12) as serving:
        with following(serving, "alone") as one, following(serving, "both") as another:
            took = asked(serving, [one, another])
        serving.ends(4, 4)
    return f"answered {took[0]:.1f} s and {took[1]:.1f} s after the followers were stopped"


def asked(serving, copies):
    """What is asked while the followers are stopped, and what has to come. Gives the seconds for which the two produces waited."""
    with Link(serving.port) as alone, Link(serving.port) as both, Link(serving.port) as other:
        alone.asks(for_all(1, b"alone"), frames.produced(1, b"alone", 0))
        both.asks(for_all(1, b"both"), frames.produced(1, b"both", 0))
        for copy in copies:
            copy.send_signal(signal.SIGSTOP)
        began = time.monotonic()
        alone.send(for_all(2, b"alone"))
        both.send(for_all(2, b"both"))
        took = answered_after([alone, both], other, began)
        expect(min(took) > LAG - SINCE, f"nobody should leave before {LAG} s, and the produces were answered after {took}")
        alone.gets(frames.produced(2, b"alone", 1))
        both.gets(frames.produced(2, b"both", 1, code=20))
        alone.asks(for_all(3, b"alone"), frames.produced(3, b"alone", 2))
        both.asks(for_all(3, b"both"), frames.produced(3, b"both", -1, code=19))
        both.asks(frames.produce(4, b"both", BOOK), frames.produced(4, b"both", 2))
        for copy in copies:
            copy.send_signal(signal.SIGCONT)
        taken_again(both, 5, b"both", 3)
        alone.asks(for_all(5, b"alone"), frames.produced(5, b"alone", 3))
    return took


CHECKS = {"followers-leave": leave_and_come_back}
