"""Checks with frames that no client of Kafka sends: counts, sizes, lengths, offsets and waits at their edges, and frames that end too soon."""

import struct
import time

from clients import frames
from clients.frames import Link
from clients.served import Serving, expect, expect_same, soon
from model.broker import batches, wire
from model.traces import mutated

MOST_16, MOST_32, MOST_64 = 2**15 - 1, 2**31 - 1, 2**63 - 1
# The offset at which a batch has its last offset delta, and that at which it has its count.
LAST, COUNT = 23, 57
BATCH = frames.batch(b"a")
METADATA = struct.pack(">hhih", 3, 1, 7, -1)


def with_numbers(batch, *numbers):
    """The batch with 32-bit numbers at these places, and its right length and checksum."""
    for place, number in numbers:
        batch = batch[:place] + struct.pack(">i", number) + batch[place + 4:]
    return mutated.mended(batch)


def with_longer_length(batch):
    """The batch whose record has its length spelled in two bytes, and its right length and checksum."""
    return mutated.mended(batch[:batches.HEADER] + bytes([batch[batches.HEADER] | 0x80, 0]) + batch[batches.HEADER + 1:])


def asked(offset, most=1_048_576, least=1, version=wire.FETCH[0], start=wire.NO_LOG_START):
    return wire.fetch_request(2, [(b"t", [(0, offset, most, start)])], wait=60_000, least=least, version=version)


def told(code, version=wire.FETCH[0]):
    place = -1 if code else 0
    return wire.fetched(2, 0, [(b"t", [(0, code, place, place, b"")])], version)


def refused(code, partition=0):
    return frames.produced(1, b"t", -1, partition, code)


# What is sent over a connection, what has to come back soon, and how its line goes on.
EDGES = [
    (wire.frame(METADATA + struct.pack(">i", MOST_32)), b"", f"calls 0 replies 0 refused too-many {MOST_32}"),
    (wire.frame(METADATA + struct.pack(">i", -MOST_32 - 1)), b"", "calls 0 replies 0 refused bad-request 10"),
    (frames.produce(1, b"t", with_numbers(BATCH, (COUNT, MOST_32), (LAST, MOST_32 - 1))), refused(87), "calls 1 replies 1 closed"),
    (frames.produce(1, b"t", with_longer_length(BATCH)), refused(87), "calls 1 replies 1 closed"),
    (asked(MOST_64) + asked(-MOST_64 - 1), told(1) + told(1), "calls 2 replies 2 closed"),
    (asked(0, most=-5, least=-1), told(0), "calls 1 replies 1 closed"),
    (asked(0, least=0, version=5, start=MOST_64) + asked(0, least=0, version=5, start=-MOST_64 - 1), 2 * told(0, 5), "calls 2 replies 2 closed"),
    (asked(MOST_64, version=5) + asked(-1, version=5, start=0), 2 * told(1, 5), "calls 2 replies 2 closed"),
    (frames.produce(1, b"t", BATCH, partition=-1), refused(3, -1), "calls 1 replies 1 closed"),
    (frames.produce(1, b"t", BATCH, version=MOST_16), b"", f"calls 0 replies 0 refused unsupported 0 {MOST_16}"),
    (frames.produce(1, b"t", BATCH, version=-MOST_16 - 1), b"", f"calls 0 replies 0 refused unsupported 0 {-MOST_16 - 1}"),
    (struct.pack(">i", MOST_32), b"", f"calls 0 replies 0 too-long {MOST_32}"),
    (struct.pack(">i", -MOST_32 - 1), b"", f"calls 0 replies 0 too-long {-MOST_32 - 1}"),
]
# The link whose fetch waits for as long as may be said, and the link that answers it.
WAITED = ["calls 1 replies 1 closed"] * 2


def lines_of(serving):
    served = serving.end()
    expect(served.status == 0, f"serve should end with 0, and ended with {served.status}: {served.errors}")
    return served.lines


def at_their_edges(program):
    """Each edge is answered or ends its link as it should. A fetch that may wait for 2,147,483,647 ms does wait, and is answered when a
    record comes."""
    longest = 0.0
    with Serving(program, ["t 1 0"], connections=len(EDGES) + len(WAITED)) as serving:
        for sent, reply, _ in EDGES:
            began = time.monotonic()
            with Link(serving.port) as link:
                link.asks(sent, reply)
                link.has_to_end()
            longest = max(longest, soon(began, "what is at an edge is answered"))
        with Link(serving.port) as waits, Link(serving.port) as producer:
            waits.send(frames.fetch(1, b"t", 0, wait=MOST_32))
            expect(not waits.hears(0.3), "a fetch should wait for as long as it says")
            producer.asks(frames.produce(1, b"t", BATCH), frames.produced(1, b"t", 0))
            waits.gets(frames.fetched(1, b"t", 1, batches.stamped(BATCH, 0)))
        lines = lines_of(serving)
    wanted = [f"link {number} {line}" for number, line in enumerate([line for _, _, line in EDGES] + WAITED)]
    expect_same(lines, wanted + [f"part 0 end 1 high 1 batches 1 bytes {len(BATCH)}", "done"], "what is printed")
    return f"{len(EDGES)} edges answered within {longest:.1f} ms, and a fetch that waits for 2,147,483,647 ms"


# A frame of each api, in each version that the program takes, and one in another.
WHOLE = [
    *(frames.produce(1, b"t", BATCH, version=version) for version in wire.PRODUCE),
    *(frames.fetch(2, b"t", 0, version=version) for version in wire.FETCH),
    wire.metadata_request(7, None),
    wire.versions_request(4),
    wire.versions_request(5, version=3, rest=bytes.fromhex("00026b023100")),
]


def cut_short(program):
    """A frame that ends too soon, at each of its lengths, is no call, and isn't answered."""
    cut = [frame[:length] for frame in WHOLE for length in range(len(frame))]
    with Serving(program, ["t 1 0"], connections=len(cut)) as serving:
        for piece in cut:
            with Link(serving.port) as link:
                link.send(piece)
                link.has_to_end()
        lines = lines_of(serving)
    ends = [f"truncated {len(piece)}" if piece else "closed" for piece in cut]
    wanted = [f"link {number} calls 0 replies 0 {end}" for number, end in enumerate(ends)]
    expect_same(lines, wanted + ["part 0 end 0 high 0 batches 0 bytes 0", "done"], "what is printed")
    return f"{len(WHOLE)} frames, cut {len(cut)} times"


CHECKS = {"frames-edges": at_their_edges, "frames-cut": cut_short}
