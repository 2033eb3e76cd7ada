"""Starts `serve` of a program on a free port, and brings it to its end.

`serve` ends by itself once so many connections as it was told have come and all of them are served. A client makes as many as it
likes, so a check tells `serve` to take more than it needs, and when its clients are gone it makes those that are left, one after
the other: each connects, says at once that nothing will come, and waits until `serve` has closed it.
"""

import os
import pathlib
import random
import re
import socket
import subprocess
import tempfile
import time
from dataclasses import dataclass

HOST = "127.0.0.1"
# The most seconds for what takes no time, before it counts as not done; and the most before it counts as late.
PATIENCE = 10
SOON = 3
# How the link of a client may end that goes away while it waits for a reply.
LEFT = ("closed", "read-fault", "write-fault")

LINK = re.compile(r"link (\d+) calls (\d+) replies (\d+) (.+)")
PART = re.compile(r"part (\d+) end (\d+) high (\d+) batches \d+ bytes \d+")


class Failed(Exception):
    """What was expected, and what came in its place."""


def expect(holds, what):
    if not holds:
        raise Failed(what)


def expect_same(found, wanted, what):
    """Lines that have to be the same; the first that isn't is told."""
    for number, (line, right) in enumerate(zip(found, wanted)):
        expect(line == right, f"line {number} of {what} should be {right!r}, and is {line!r}")
    expect(len(found) == len(wanted), f"{what} should have {len(wanted)} lines, and has {len(found)}")


def soon(since, what):
    """The milliseconds since a moment, which have to be few."""
    took = time.monotonic() - since
    expect(took < SOON, f"{what} only after {took:.1f} s, and not within {SOON} s")
    return took * 1000


def until(holds, what, seconds=PATIENCE):
    """Waits until it holds."""
    end = time.monotonic() + seconds
    while not holds():
        expect(time.monotonic() < end, f"not within {seconds} s: {what}")
        time.sleep(0.002)


@dataclass
class Program:
    path: pathlib.Path
    # Another program with the same command line: its standard error may say anything or nothing.
    is_plain: bool = False

    def serve(self, port, lanes, connections):
        words = ["serve", "--port", port, "--lanes", lanes, "--connections", connections]
        return [str(self.path), *map(str, words)]


def free_port():
    """A port at which nobody listens, below those that the system gives to whoever connects: so no client has it by chance."""
    while True:
        port = random.randrange(12_000, 32_000)
        with socket.socket() as tried:
            try:
                tried.bind((HOST, port))
                return port
            except OSError:
                pass


def is_listening(port):
    """Whether somebody listens there. A connection would tell as much, but it would be one of those that `serve` counts."""
    place = f"0100007F:{port:04X}"
    with open("/proc/net/tcp") as lines:
        fields = [line.split() for line in lines]
    return any(line[1] == place and line[3] == "0A" for line in fields)


def text_of(topics):
    return "".join(f"topic {topic}\n" for topic in topics) + "end\n"


@dataclass
class Served:
    """What a `serve` told, once it had ended."""
    status: int
    lines: list
    errors: str
    # How many connections were made only to bring it to its end: its last links.
    filled: int


class Serving:
    """A running `serve`, for a `with`. What doesn't end by itself is ended there."""

    def __init__(self, program, topics, connections, lanes=8):
        self.program, self.topics, self.connections, self.lanes = program, topics, connections, lanes

    def __enter__(self):
        for _ in range(3):
            self.port = free_port()
            self._start()
            until(lambda: is_listening(self.port) or self.process.poll() is not None, f"serve listens on port {self.port}")
            if self.process.returncode != 5:
                break
            self._close()
        if self.process.returncode is not None:
            why = f"serve should listen, and ended with {self.process.returncode}: {self._read(self.told)}"
            self._close()
            raise Failed(why)
        return self

    def _start(self):
        self.source, self.sink, self.told = (tempfile.TemporaryFile() for _ in range(3))
        self.source.write(text_of(self.topics).encode())
        self.source.seek(0)
        words = self.program.serve(self.port, self.lanes, self.connections)
        self.process = subprocess.Popen(words, stdin=self.source, stdout=self.sink, stderr=self.told)

    def __exit__(self, *_):
        if self.process.poll() is None:
            self.process.kill()
            self.process.wait()
        self._close()

    def _close(self):
        for stream in (self.source, self.sink, self.told):
            stream.close()

    @staticmethod
    def _read(stream):
        stream.seek(0)
        return stream.read().decode(errors="replace")

    @property
    def address(self):
        return f"{HOST}:{self.port}"

    def processor_seconds(self):
        """What all its threads have used so far."""
        with open(f"/proc/{self.process.pid}/stat") as stat:
            fields = stat.read().rpartition(")")[2].split()
        return (int(fields[11]) + int(fields[12])) / os.sysconf("SC_CLK_TCK")

    def _is_filled(self):
        """Makes a connection that asks nothing; whether `serve` took it, and closed it."""
        try:
            with socket.create_connection((HOST, self.port), PATIENCE) as link:
                link.shutdown(socket.SHUT_WR)
                return link.recv(1) == b""
        except socket.timeout:
            raise Failed(f"not within {PATIENCE} s: a connection is served, now that the clients are gone") from None
        except OSError:
            # It no longer listened, or stopped while this one waited to be accepted.
            return False

    def end(self):
        """Makes the connections that are left, and waits until it has ended by itself."""
        filled = 0
        while self.process.poll() is None and self._is_filled():
            filled += 1
        try:
            status = self.process.wait(PATIENCE)
        except subprocess.TimeoutExpired:
            raise Failed(f"not within {PATIENCE} s: serve ends, after {self.connections} connections") from None
        return Served(status, self._read(self.sink).splitlines(), self._read(self.told), filled)

    def ends(self, *parts, ways=LEFT):
        """Brings it to its end, and checks what it told. Each of `parts` is a partition's log end, which is its high watermark too,
        or both of them. `ways` are those in which the links of clients may end. Gives these links, as (calls, replies, way)."""
        served = self.end()
        expect(served.status == 0, f"serve should end with 0, and ended with {served.status}: {served.errors}")
        expect(served.lines[-1:] == ["done"], f"the last line should be done, and is {served.lines[-1:]}")
        links = links_of(served, self.connections)
        for _, _, way in links:
            expect(way in ways, f"a client's link should end as {' or '.join(ways)}, and one ended as {way}")
        check_parts(served.lines[self.connections:-1], parts)
        if not self.program.is_plain:
            self._check_announced(served.errors)
        return links

    def _check_announced(self, errors):
        """Standard error is the one line that says where it listens and what it has."""
        begins = f"kafka_room: listening on {self.address}, {self.lanes} lanes, up to {self.connections} connections, topics "
        expect(errors.startswith(begins) and errors.find("\n") == len(errors) - 1,
               f"standard error should be a line that begins with {begins!r}, and is {errors!r}")
        for name, partitions, *_ in map(str.split, self.topics):
            expect(f"{name} ({partitions})" in errors[len(begins):], f"{name} ({partitions}) should stand in {errors!r}")


def links_of(served, connections):
    """The links of the clients, as (calls, replies, way). As many links have to stand as there were connections, first and in rising
    number, and the last of them are those that asked nothing."""
    found = [LINK.fullmatch(line) for line in served.lines if line.startswith("link ")]
    expect(len(found) == connections and all(found), f"{connections} links should be printed, and there are {len(found)}")
    numbers = [f"link {number}" for number in range(connections)]
    expect_same([line.partition(" calls ")[0] for line in served.lines[:connections]], numbers, "what is printed, up to calls,")
    links = [(int(link[2]), int(link[3]), link[4]) for link in found]
    ours = connections - served.filled
    for number, link in enumerate(links):
        expect(link[1] <= link[0], f"link {number} should have no more replies than calls, and has {link}")
        expect(number < ours or link == (0, 0, "closed"), f"link {number} asked nothing, and is {link}")
    return links[:ours]


def check_parts(lines, parts):
    wanted = [(number, *(part if isinstance(part, tuple) else (part, part))) for number, part in enumerate(parts)]
    found = [PART.fullmatch(line) for line in lines]
    told = [tuple(map(int, part.groups())) for part in found if part]
    expect(all(found) and told == wanted, f"the partitions should have (number, log end, high watermark) {wanted}, and are {lines}")
