#!/usr/bin/env python3
"""Sends streams that mostly were valid and then were changed to `serve` of a program: whole, in pieces, slowly, and with a reset in
mid-frame.

On one lane the connections come one after the other, and each has to be answered to the byte as the model's broker answers it. On eight
lanes they come beside each other; there each reply has to be the model's for states that the partitions had (seen_replies.py). In both
cases `serve` goes on, ends with 0, and prints of each connection what it sent, and of each partition what was appended. It stops at the
first run that fails, and says how it is made again. Run it at the top of the repository: `python3 -B -m model.checks.fuzz_links`.
"""

import argparse
import collections
import concurrent.futures
import os
import pathlib
import random
import socket
import struct
import sys
import time
from dataclasses import dataclass, field

from clients import served
from clients.served import Failed, Program, Serving, expect
from model.broker import broker, wire
from model.checks import repository, seen_replies
from model.traces import talks

# The most connections of one `serve`; of one whose topics have followers, which has to be over before one of these has lagged for 30 s;
# and how many clients there are at a time where there are lanes for them.
EACH = 200
WITH_FOLLOWERS = 50
BESIDE = 8
# With SO_LINGER, closing a socket resets its connection.
AT_ONCE = struct.pack("ii", 1, 0)


# ---- a client


@dataclass
class Spoken:
    """A connection that is over: when it began and ended, and the replies that came."""
    talk: talks.Talk
    began: float
    ended: float = 0.0
    data: bytes = b""
    replies: list = field(default_factory=list)

    def cut(self):
        """The replies, one by one."""
        self.replies, rest = [], self.data
        while len(rest) >= 4 and len(rest) >= 4 + int.from_bytes(rest[:4], "big"):
            size = 4 + int.from_bytes(rest[:4], "big")
            self.replies.append(rest[:size])
            rest = rest[size:]
        return rest


def took(link):
    """The next bytes, or none where the link is over. Where the broker closed it before it had read all, that looks like a fault."""
    try:
        return link.recv(65_536)
    except socket.timeout:
        raise Failed(f"not within {served.PATIENCE} s: a reply, or the end of the link") from None
    except OSError:
        return b""


def send(link, talk):
    """Sends what it can: the broker may close the link before all is sent."""
    try:
        for number, piece in enumerate(talk.pieces):
            if number and talk.pause:
                time.sleep(talk.pause)
            link.sendall(piece)
    except OSError:
        pass


def speak(port, talk):
    link = socket.create_connection((served.HOST, port), served.PATIENCE)
    link.setsockopt(socket.IPPROTO_TCP, socket.TCP_NODELAY, 1)
    spoken = Spoken(talk, time.monotonic())
    with link:
        send(link, talk)
        if talk.tail is not None:
            listen_and_reset(link, spoken)
        elif talk.is_rude:
            link.setsockopt(socket.SOL_SOCKET, socket.SO_LINGER, AT_ONCE)
        else:
            listen_to_the_end(link, spoken)
    spoken.ended = time.monotonic()
    return spoken


def listen_to_the_end(link, spoken):
    try:
        link.shutdown(socket.SHUT_WR)
    except OSError:
        pass
    while piece := took(link):
        spoken.data += piece
    expect(spoken.cut() == b"", f"a reply is cut: {spoken.data.hex()}")


def listen_and_reset(link, spoken):
    wanted = len(spoken.talk.reading.answered)
    while len(spoken.replies) < wanted:
        piece = took(link)
        expect(piece, f"{wanted} replies should come before the reset, and there came {len(spoken.replies)}")
        spoken.data += piece
        spoken.cut()
    link.sendall(spoken.talk.tail)
    link.setsockopt(socket.SOL_SOCKET, socket.SO_LINGER, AT_ONCE)


# ---- what has to be printed


def told_of(talk):
    """The line of a connection, without its number."""
    reading = talk.reading
    end = reading.end if talk.tail is None else "read-fault"
    return f"calls {len(reading.requests)} replies {len(reading.answered)} {end}"


def lines_of(serving):
    """What `serve` printed, where it ended as it should and nobody had to bring it to its end: the lines of links, and of partitions."""
    ended = serving.end()
    expect(ended.status == 0, f"serve should end with 0, and ended with {ended.status}: {ended.errors}")
    expect(ended.filled == 0, f"{ended.filled} connections were lost")
    expect(ended.errors.count("\n") == 1, f"standard error should be one line, and is {ended.errors!r}")
    expect(ended.lines[-1:] == ["done"], f"the last line should be done, and is {ended.lines[-1:]}")
    links, parts = ended.lines[:serving.connections], ended.lines[serving.connections:-1]
    for number, line in enumerate(links):
        expect(line.startswith(f"link {number} "), f"line {number} should be that of link {number}, and is {line!r}")
    return [line.partition(f"link {number} ")[2] for number, line in enumerate(links)], parts


# ---- one lane


class OneLane:
    """The model's broker, at which the connections are one after the other."""

    def __init__(self, topics, port):
        self.broker = broker.Broker(topics, port)

    def answered(self, talk):
        """What comes back over a connection."""
        self.broker.sessions[0], self.broker.out = broker.Session(), []
        self.broker.line("bytes", (0, talk.data))
        self.broker.line("close", 0)
        while self.broker.waiting:
            self.broker.line("clock", self.broker.waiting[0].deadline)
        return b"".join(bytes.fromhex(line.split(b" ")[2].decode()) for line in self.broker.out if line.startswith(b"reply "))

    def parts(self):
        self.broker.out = []
        self.broker.summary()
        return [line.decode().rstrip("\n") for line in self.broker.out if line.startswith(b"part ")]


def on_one_lane(program, random_, count):
    """The ways in which the connections ended."""
    topics = random_.choice([talks.TOPICS, talks.WITH_FOLLOWERS])
    each = count if topics is talks.TOPICS else WITH_FOLLOWERS
    said = [talks.made(random_, topics, may_be_rude=False) for _ in range(count)]
    return [link for first in range(0, count, each) for link in one_after_the_other(program, topics, said[first:first + each])]


def one_after_the_other(program, topics, said):
    with Serving(program, declared(topics), connections=len(said), lanes=1) as serving:
        model = OneLane(topics, serving.port)
        for number, talk in enumerate(said):
            wanted, came = model.answered(talk), speak(serving.port, talk).data
            expect(came == wanted, f"connection {number} sent {talk.data.hex()}\nmodel   {wanted.hex()}\nprogram {came.hex()}")
        links, parts = lines_of(serving)
    served.expect_same(links, [told_of(talk) for talk in said], "the links")
    served.expect_same(parts, model.parts(), "the partitions")
    return links


def declared(topics):
    return [topic.words.decode() for topic in topics]


# ---- lanes beside each other


def logs_of(port, topics):
    """The logs as they are, read by a last connection. What it sends is given too."""
    named = [(topic.name, [(index, 0, broker.REPLY_LIMIT) for index in range(topic.partitions)]) for topic in topics]
    spoken = speak(port, talks.Talk([wire.fetch_request(1, named, wait=0)]))
    expect(len(spoken.replies) == 1, "the last connection should get one reply")
    reader = wire.Reader(spoken.replies[0][12:])
    logs = []
    for _ in range(reader.number(">i")):
        reader.string()
        for _ in range(reader.number(">i")):
            expect(reader.take(6)[4:] == b"\0\0", "the last fetch should have code 0")
            reader.take(8 + 8 + 4)
            logs.append(seen_replies.logs_in(reader.records()))
    return logs, spoken


def check_replies(seen, all_spoken):
    """Each connection's replies, where none stands before one that was over when it began."""
    ends = {}
    for spoken in sorted(all_spoken, key=lambda spoken: spoken.began):
        floors = [0] * len(seen.logs)
        for other, reached in ends.items():
            if all_spoken[other].ended < spoken.began:
                floors = list(map(max, floors, reached))
        number = next(number for number, one in enumerate(all_spoken) if one is spoken)
        try:
            ends[number] = seen.check(spoken.talk.reading.requests, spoken.replies, floors)
        except seen_replies.Wrong as wrong:
            raise Failed(f"connection {number} sent {spoken.talk.data.hex()}, and was told {spoken.data.hex()}: {wrong}") from None


def check_links(links, kept, rude):
    """The lines are those of the connections, in any order. A client that went away may have been heard to any place."""
    left = collections.Counter(links)
    left.subtract(told_of(spoken.talk) for spoken in kept)
    missing, others = [line for line, count in left.items() if count < 0], list(left.elements())
    expect(not missing, f"these lines should be printed, and aren't: {missing}, where these are: {others}")
    expect(len(others) == len(rude), f"{len(rude)} lines should be of clients that went away, and {len(others)} are")
    ends = {"read-fault", "write-fault"} | {spoken.talk.reading.end for spoken in rude}
    for line in others:
        expect(line.split(" ", 4)[4] in ends, f"a client that went away should have an end among {ends}, and one has {line!r}")


def on_many_lanes(program, random_, count):
    said = [talks.made(random_, talks.TOPICS, may_be_rude=True) for _ in range(count - 1)]
    with Serving(program, declared(talks.TOPICS), connections=count, lanes=BESIDE) as serving:
        with concurrent.futures.ThreadPoolExecutor(BESIDE) as pool:
            all_spoken = list(pool.map(lambda talk: speak(serving.port, talk), said))
        logs, last = logs_of(serving.port, talks.TOPICS)
        links, parts = lines_of(serving)
    kept, rude = [spoken for spoken in all_spoken if not spoken.talk.is_rude], [spoken for spoken in all_spoken if spoken.talk.is_rude]
    check_links(links, kept + [last], rude)
    seen = seen_replies.Seen(talks.TOPICS, serving.port, logs)
    check_replies(seen, kept)
    try:
        seen.check_all([request for spoken in rude for request in spoken.talk.reading.requests])
    except seen_replies.Wrong as wrong:
        raise Failed(str(wrong)) from None
    ends = [(log[-1][0] + log[-1][1] if log else 0, len(log), sum(len(data) for _, _, data in log)) for log in logs]
    wanted = [f"part {number} end {end} high {end} batches {many} bytes {size}" for number, (end, many, size) in enumerate(ends)]
    served.expect_same(parts, wanted, "the partitions")
    return links


# ---- the whole


def runs(first, count, each):
    """The seed, the kind and the connections of each run."""
    for number, done in enumerate(range(0, count, each)):
        seed = first + number
        yield seed, on_many_lanes if seed % 2 else on_one_lane, min(each, count - done)


def main():
    options = argparse.ArgumentParser(description=__doc__)
    options.add_argument("program", nargs="?", type=pathlib.Path, default=repository.program("kafka_room"))
    options.add_argument("--count", type=int, default=2000, metavar="N", help="connections")
    options.add_argument("--first", type=int, default=0, metavar="SEED", help="the seed of the first run")
    options.add_argument("--each", type=int, default=EACH, metavar="N", help=f"the most connections of a run, else {EACH}")
    chosen = options.parse_args()
    if not os.access(chosen.program, os.X_OK) or not chosen.program.is_file():
        print(f"{chosen.program} isn't there: `make build` makes it", file=sys.stderr)
        return 2
    began, ways, lanes = time.monotonic(), collections.Counter(), collections.Counter()
    for seed, plays, count in runs(chosen.first, chosen.count, chosen.each):
        try:
            links = plays(Program(chosen.program.resolve()), random.Random(f"links {seed}"), count)
        except Failed as failed:
            print(f"--first {seed} --count {count} --each {count} fails: {failed}")
            return 1
        ways.update(line.split(" ")[4] for line in links)
        lanes[plays.__name__] += count
    told = ", ".join(f"{count} {way}" for way, count in sorted(ways.items()))
    print(f"fuzz: {lanes['on_one_lane']} connections on one lane, {lanes['on_many_lanes']} on {BESIDE}, {told}, "
          f"in {time.monotonic() - began:.0f} s: all is as the model has it")
    return 0


if __name__ == "__main__":
    sys.exit(main())
