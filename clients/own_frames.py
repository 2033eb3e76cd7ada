"""Checks that send frames of their own, for which no client has to be installed: all that comes back is known to the byte."""

import re
import subprocess
import time

from clients import frames
from clients.frames import Link
from clients.served import PATIENCE, Serving, expect, expect_same, soon, text_of
from model.broker import batches, broker, wire

BOOK = frames.batch(b"book")
STORED = batches.stamped(BOOK, 0)


def waits_for_follower(program):
    """A produce for all replicas of a topic with one follower waits until that follower asks for what comes behind its record, and
    is then answered with code 0. Only then is the high watermark 1."""
    with Serving(program, ["copies 1 1"], connections=2) as serving:
        with Link(serving.port) as producer, Link(serving.port) as follower:
            producer.send(frames.produce(1, b"copies", BOOK, acks=-1, timeout=8000))
            follower.asks(frames.fetch(1, b"copies", 0, replica=1, wait=2000), frames.fetched(1, b"copies", 0, STORED))
            expect(not producer.hears(0.3), "the produce should wait while the follower hasn't shown that it has the record")
            began = time.monotonic()
            follower.asks(frames.fetch(2, b"copies", 1, replica=1), frames.fetched(2, b"copies", 1))
            producer.gets(frames.produced(1, b"copies", 0))
            took = soon(began, "the produce is answered")
        links = serving.ends(1)
        expect(links == [(1, 1, "closed"), (2, 2, "closed")], f"the producer has one call and the follower two, and not {links}")
    return f"answered {took:.1f} ms after the follower asked for offset 1"


def times_out(program):
    """A produce for all replicas, of which one never fetches, is answered with code 7 and its base offset, not before its timeout.
    The record stays in the log, above the high watermark."""
    with Serving(program, ["copies 1 1"], connections=2) as serving:
        with Link(serving.port) as producer:
            sent = time.monotonic()
            producer.send(frames.produce(1, b"copies", BOOK, acks=-1, timeout=400))
            took = producer.gets_after(sent, 400, frames.produced(1, b"copies", 0, code=7))
            soon(sent, "the produce is answered")
        serving.ends((1, 0), ways=["closed"])
    return f"code 7 after {took:.1f} ms, for a timeout of 400 ms"


def speaks_each_version(program):
    """A produce and a fetch in each version that is taken are answered in that version; version 5 tells where the log starts, which is
    nowhere of a partition that isn't there. A version just below these, or just above, ends the link."""
    pairs = [(0, frames.produce, wire.PRODUCE), (1, frames.fetch, wire.FETCH)]
    wrong = [(key, make, version) for key, make, taken in pairs for version in (taken[0] - 1, taken[-1] + 1)]
    stored = b"".join(batches.stamped(BOOK, offset) for offset in range(len(wire.PRODUCE)))
    with Serving(program, ["orders 1 0"], connections=1 + len(wrong)) as serving:
        with Link(serving.port) as link:
            for offset, version in enumerate(wire.PRODUCE):
                link.asks(frames.produce(1, b"orders", BOOK, version=version), frames.produced(1, b"orders", offset, version=version))
                link.asks(frames.produce(2, b"orders", BOOK, 1, version=version), frames.produced(2, b"orders", -1, 1, 3, version))
            for version in wire.FETCH:
                link.asks(frames.fetch(3, b"orders", 0, version=version, start=0), frames.fetched(3, b"orders", 3, stored, version=version))
            link.has_to_end()
        for _, make, version in wrong:
            with Link(serving.port) as link:
                link.send(make(1, b"orders", 0 if make is frames.fetch else BOOK, version=version))
                link.has_to_end()
        served = serving.end()
    calls = 2 * len(wire.PRODUCE) + len(wire.FETCH)
    wanted = [f"link 0 calls {calls} replies {calls} closed"]
    wanted += [f"link {number} calls 0 replies 0 refused unsupported {key} {version}" for number, (key, _, version) in enumerate(wrong, 1)]
    expect_same(served.lines[:len(wanted)], wanted, "what is printed")
    return f"{calls} requests in {len(wire.PRODUCE) + len(wire.FETCH)} versions, {len(wrong)} refused in others"


def fills_a_log(program):
    """A log that is full takes no more: in version 3 the partition has code 6, from version 4 on it has 56. The other partition of the
    same request takes its batch."""
    large = frames.batch(bytes(1_048_504))
    count, left = divmod(broker.LOG_LIMIT, len(large))
    expect(left == 0, f"batches of {len(large)} bytes should fill a log")
    with Serving(program, ["orders 2 0"], connections=2) as serving, Link(serving.port) as link:
        began = time.monotonic()
        for offset in range(count):
            link.asks(frames.produce(offset, b"orders", large), frames.produced(offset, b"orders", offset))
        took = time.monotonic() - began
        for offset, (version, code) in enumerate([(3, 6), (4, 56), (5, 56)]):
            asked = wire.produce_request(1, [(b"orders", [(0, BOOK), (1, BOOK)])], version=version)
            link.asks(asked, wire.produced(1, [(b"orders", [(0, code, -1, -1), (1, 0, offset, 0)])], version))
        link.has_to_end()
        serving.ends(count, 3)
    return f"full with {count} batches of {len(large)} bytes after {took:.1f} s, and then codes 6, 56 and 56"


def second_on_the_port(program):
    """A second program on the same port ends with 5. It prints its partitions and `done`, and says on standard error at which
    address it can't listen, and why. The first goes on."""
    topics = ["orders 2 0"]
    with Serving(program, topics, connections=2) as serving:
        words = program.serve(serving.port, 2, 1)
        second = subprocess.run(words, input=text_of(topics), capture_output=True, text=True, timeout=PATIENCE)
        expect(second.returncode == 5, f"the second should end with 5, and ended with {second.returncode}: {second.stderr}")
        printed = "".join(f"part {number} end 0 high 0 batches 0 bytes 0\n" for number in range(2)) + "done\n"
        expect(second.stdout == printed, f"the second should print {printed!r}, and printed {second.stdout!r}")
        if not program.is_plain:
            expect(serving.address in second.stderr, f"standard error should name {serving.address}, and is {second.stderr!r}")
            why = re.findall(r"[a-z]+", second.stderr.replace(serving.address, "").replace("kafka_room", ""))
            expect(len(why) >= 3, f"standard error should say why, and is {second.stderr!r}")
        with Link(serving.port) as link:
            link.asks(wire.versions_request(1), wire.versions(1, 0))
        serving.ends(0, 0, ways=["closed"])
    return f"status 5, {second.stderr.strip()!r}"


def _asks_what_is_offered(link):
    link.asks(wire.versions_request(5, version=3, rest=bytes.fromhex("026b023100")), wire.versions(5, 35))
    link.asks(wire.versions_request(6), wire.versions(6, 0))


def _produces_without_a_reply(link):
    link.send(frames.produce(1, b"orders", BOOK, acks=0))


def _produces_and_fetches(link):
    pair = frames.batch(b"pen", b"ink")
    link.asks(frames.produce(1, b"orders", pair), frames.produced(1, b"orders", 1))
    link.asks(frames.fetch(2, b"orders", 1), frames.fetched(2, b"orders", 3, batches.stamped(pair, 1)))


def _ends_within_a_frame(link):
    link.send(frames.produce(1, b"orders", BOOK)[:7])


def _sends_a_size_too_great(link):
    link.send((wire.MOST_FRAME + 1).to_bytes(4, "big"))


def _asks_for_an_api_that_is_unknown(link):
    link.send(wire.frame(wire.header(22, 0, 1)))


def _asks_in_a_version_that_is_unsupported(link):
    link.send(wire.produce_request(1, [], version=9))


def _polls_and_sends_no_more(link):
    sent = time.monotonic()
    link.send(frames.fetch(1, b"orders", 3, wait=200))
    link.sends_no_more()
    link.gets_after(sent, 200, frames.fetched(1, b"orders", 3))


# What is done over each link in turn, and what has to be printed of it.
LINKS = [
    (_asks_what_is_offered, "calls 2 replies 2 closed"),
    (_produces_without_a_reply, "calls 1 replies 0 closed"),
    (_produces_and_fetches, "calls 2 replies 2 closed"),
    (_ends_within_a_frame, "calls 0 replies 0 truncated 7"),
    (_sends_a_size_too_great, "calls 0 replies 0 too-long 8388609"),
    (_asks_for_an_api_that_is_unknown, "calls 0 replies 0 refused unknown-api 22"),
    (_asks_in_a_version_that_is_unsupported, "calls 0 replies 0 refused unsupported 0 9"),
    (_polls_and_sends_no_more, "calls 1 replies 1 closed"),
    (lambda link: None, "calls 0 replies 0 closed"),
]


def prints_all(program):
    """After as many links as it was told, one after the other, `serve` ends by itself with 0. It prints each link in the order of
    acceptance, with its calls, its replies and how it ended, then each partition, then `done`, and nothing else."""
    size = len(BOOK) + len(frames.batch(b"pen", b"ink"))
    wanted = [f"link {number} {told}" for number, (_, told) in enumerate(LINKS)]
    wanted += [f"part 0 end 3 high 3 batches 2 bytes {size}", "part 1 end 0 high 0 batches 0 bytes 0", "done"]
    with Serving(program, ["orders 1 0", "copies 1 1"], connections=len(LINKS)) as serving:
        for act, _ in LINKS:
            with Link(serving.port) as link:
                act(link)
                link.has_to_end()
        served = serving.end()
    expect(served.status == 0, f"serve should end with 0, and ended with {served.status}: {served.errors}")
    expect_same(served.lines, wanted, "what is printed")
    return f"{len(wanted)} lines as they should be"


CHECKS = {
    "frames-follower": waits_for_follower,
    "frames-timeout": times_out,
    "frames-versions": speaks_each_version,
    "frames-full": fills_a_log,
    "frames-print": prints_all,
    "frames-port": second_on_the_port,
}
