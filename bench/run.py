#!/usr/bin/env python3
"""Times `kafka_room replay` on traces that are made here, and `kafka_room storm`. README.md says what is run and what is printed.
Run it at the top of the repository: `python3 -B -m bench.run`."""

import argparse
import filecmp
import os
import pathlib
import subprocess
import sys
import tempfile
import time

from model.broker import batches, wire

ROOT = pathlib.Path(__file__).resolve().parent.parent
PROGRAM = ROOT / "crates" / "kafka_room" / "out" / "kafka_room"

# The yardstick: reading the digits of the same trace and writing the bytes that they spell, and nothing else.
YARDSTICK = ["basenc", "--base16", "-d"]
# The least of so many runs counts.
RUNS = 3
# The bytes of a short line.
LINE = 100


class Wrong(Exception):
    """The program didn't do what the trace asks for."""


def batch(value):
    """A record batch with one record, which has this value and no key."""
    return batches.batch([batches.record(0, value)])


def produce(correlation, partition, records):
    """A produce of one batch for the topic `t`, with acks 1."""
    return wire.produce_request(correlation, [(b"t", [(partition, records)])])


def fetch(correlation, partition, offset, wait=0):
    """A fetch from the topic `t`."""
    return wire.fetch_request(correlation, [(b"t", [(partition, offset, 1048576)])], wait=wait)


def fed(session, request):
    return b"bytes %d %s\n" % (session, request.hex().encode())


def small(requests, partitions):
    """One session: in turns a record is produced to a partition, and the newest of that partition is fetched."""
    one = batch(b"value")
    yield b"topic t %d 0\n" % partitions
    for number in range(requests // 2):
        turn, partition = divmod(number, partitions)
        yield fed(0, produce(2 * number, partition, one))
        yield fed(0, fetch(2 * number + 1, partition, turn))
    yield b"end\n"


def draws(seed):
    """Draws below a number, as the load asks for them: a linear congruential sequence modulo 2^64."""
    state = seed

    def draw(below):
        nonlocal state
        state = (state * 6364136223846793005 + 1442695040888963407) % 2**64
        return (state >> 33) % below

    return draw


def storm_produce(number, partition, acks, timeout):
    asked = [(b"storm", [(partition, batch(b"%016d" % number))])]
    return wire.produce_request(number, asked, acks=acks, timeout=timeout, client=None)


def storm_fetch(number, partition, replica, wait, least_bytes, offset):
    asked = [(b"storm", [(partition, offset, 4096)])]
    return wire.fetch_request(number, asked, replica=replica, wait=wait, least=least_bytes, most=65536, client=None)


def storm(requests, seed=7):
    """16 sessions and 8 partitions with a follower each, by blocks of 16 requests: produces for all replicas, fetches of the
    followers, which complete them, produces for the leader, and fetches of consumers. Most wait. Each block takes 10 ms, and at the end seconds pass until nobody waits."""
    draw = draws(seed)
    yield b"topic storm 8 1\n"
    for number in range(requests):
        block = number // 16
        partition = (number + block) % 8
        behind = 2 * ((block + 1) // 2)
        if block % 4 == 0:
            request = storm_produce(number, partition, -1, 1 + draw(200))
        elif block % 4 == 1:
            request = storm_fetch(number, partition, 1, 1 + draw(200), 1, behind)
        elif block % 4 == 2:
            request = storm_produce(number, partition, 1, 1000)
        else:
            wait, least_bytes = 1 + draw(200), 1 + draw(2000)
            request = storm_fetch(number, partition, -1, wait, least_bytes, draw(behind + 1))
        yield fed(number % 16, request)
        if number % 16 == 15 or number == requests - 1:
            yield b"clock %d\n" % (10 * (block + 1))
    # Until all have been answered: with each second every request that waits expires, and its session takes the next.
    for second in range(1, requests // 16 + 2):
        yield b"clock %d\n" % (10 * (block + 1) + 1000 * second)
    yield b"end\n"


def storm_produces(requests):
    """How many of the load's requests are produces: those of every second block."""
    return sum(number // 16 % 2 == 0 for number in range(requests))


def beside(requests, waiting):
    """One session as in `small`, while so many others wait at other partitions for bytes that never come."""
    one = batch(b"value")
    yield b"topic t 64 0\n"
    for session in range(1, waiting + 1):
        yield fed(session, fetch(session, session, 0, wait=2**31 - 1))
    for number in range(requests // 2):
        yield fed(0, produce(2 * number, 0, one))
        yield fed(0, fetch(2 * number + 1, 0, number))
    yield b"end\n"


def apart(requests):
    """64 sessions, each at a partition of its own: in turns a record is produced, and the newest is fetched."""
    one = batch(b"value")
    yield b"topic t 64 0\n"
    for number in range(requests):
        turn, session = divmod(number, 64)
        yield fed(session, fetch(number, session, turn // 2) if turn % 2 else produce(number, session, one))
    yield b"end\n"


def large(count):
    """One partition: batches of 1,048,576 bytes."""
    one = batch(bytes(1048504))
    assert len(one) == 1048576
    yield b"topic t 1 0\n"
    for number in range(count):
        yield fed(0, produce(number, 0, one))
    yield b"end\n"


def cut(count, each):
    """The same, the bytes of each frame cut over lines of so many bytes."""
    one = batch(bytes(1048504))
    yield b"topic t 1 0\n"
    for number in range(count):
        request = produce(number, 0, one)
        for at in range(0, len(request), each):
            yield fed(0, request[at:at + each])
    yield b"end\n"


def write(folder, lines):
    """Line by line, so that this process stays small: what the system tells of a child's memory begins with its parent's."""
    with open(folder / "trace", "wb") as trace, open(folder / "digits", "wb") as digits:
        for line in lines:
            trace.write(line)
            if line.startswith(b"bytes "):
                digits.write(line.split()[2].upper())


def timed(words, trace, out):
    """Runs the words from the trace to `out`. Gives the seconds, and the most bytes that the process held."""
    with open(trace, "rb") as source, open(out, "wb") as sink:
        start = time.perf_counter()
        child = subprocess.Popen(words, stdin=source, stdout=sink)
        _, status, usage = os.wait4(child.pid, 0)
        seconds = time.perf_counter() - start
    child.returncode = os.waitstatus_to_exitcode(status)
    if child.returncode != 0:
        raise Wrong(f"{words[0]} ended with code {child.returncode}")
    return seconds, usage.ru_maxrss * 1024


def told(out):
    """How many replies were printed, how many requests wait at the end, and how many records the partitions have in all."""
    replies, waiting, records = 0, 0, 0
    with open(out, "rb") as lines:
        for line in lines:
            if line.startswith(b"reply "):
                replies += 1
            elif line.startswith(b"session "):
                waiting += int(line.split()[7])
            elif line.startswith(b"part "):
                records += int(line.split()[3])
    return replies, waiting, records


def least(words, source, out):
    """The fewest seconds of several runs, and the most bytes."""
    runs = [timed(words, source, out) for _ in range(RUNS)]
    return min(seconds for seconds, _ in runs), max(memory for _, memory in runs)


def rivalled(words, program, other, folder):
    """The program's fewest seconds and most bytes, and the fewest seconds of the other one, where there is one, with the same words. The two
    take turns."""
    trace, out, rival = folder / "trace", folder / "out", folder / "rival"
    if other is None:
        return *least([str(program), *words], trace, out), None
    runs = [(timed([str(program), *words], trace, out), timed([str(other), *words], trace, rival)) for _ in range(RUNS)]
    return min(run[0][0] for run in runs), max(run[0][1] for run in runs), min(run[1][0] for run in runs)


def measured(program, folder, lines, requests, produces, other=None):
    """The program's seconds and bytes, the yardstick's seconds, the bytes of the trace, and the other program's seconds, where there is one."""
    trace, out = folder / "trace", folder / "out"
    write(folder, lines)
    seconds, memory, rival = rivalled(["replay"], program, other, folder)
    if other is not None and not filecmp.cmp(out, folder / "rival", shallow=False):
        raise Wrong(f"{other} prints something else of this trace")
    replies, waiting, records = told(out)
    if replies + waiting != requests:
        raise Wrong(f"{requests} requests had {replies} replies, and {waiting} wait")
    if records != produces:
        raise Wrong(f"{produces} produces of one record left {records} records")
    plain, _ = least(YARDSTICK, folder / "digits", out)
    return seconds, memory, plain, trace.stat().st_size, rival


def than(seconds, rival, other):
    """How many times as long as the other program's run it is, in words, where there is one."""
    return "" if rival is None else f", {seconds / rival:.2f} times as long as {other.name}"


def show(name, requests, other, seconds, memory, plain, size, rival):
    print(f"{name}: {requests} requests, {size / 1e6:.1f} MB of text")
    print(f"  {seconds:.3f} s, {requests / seconds:.0f} requests/s, {size / 1e6 / seconds:.1f} MB/s of text,"
          f" peak memory {memory / 1e6:.1f} MB, {memory / size:.1f} times the text")
    print(f"  {seconds / plain:.1f} times the yardstick's {plain:.3f} s{than(seconds, rival, other)}", flush=True)


def show_lines(program, folder, batches):
    seconds, _, plain, *_ = measured(program, folder, cut(batches, LINE), batches, batches)
    lines = batches * -(-len(produce(0, 0, batch(bytes(1048504)))) // LINE)
    print(f"short lines: {lines} lines of {LINE} bytes")
    print(f"  {seconds:.3f} s, {lines / seconds:.0f} lines/s; {seconds / plain:.1f} times the yardstick", flush=True)


def show_beside(program, folder, requests):
    print(f"beside those who wait: {requests} requests of one session", flush=True)
    for waiting in (0, 63):
        seconds, *_ = measured(program, folder, beside(requests, waiting), requests + waiting, requests // 2)
        print(f"  while {waiting} others wait elsewhere: {seconds:.3f} s", flush=True)


def show_workers(program, folder, name, lines, requests, other):
    """Beside the replay on one thread. With workers a trace's clock and sessions go on beside each other, so how many are answered can differ from run to run."""
    trace, out = folder / "trace", folder / "out"
    write(folder, lines)
    alone, _ = least([str(program), "replay"], trace, out)
    print(f"workers: {name}, {requests} requests; on one thread {alone:.3f} s", flush=True)
    first = None
    for workers in (1, 2, 4):
        seconds, _, rival = rivalled(["replay", "--workers", str(workers)], program, other, folder)
        replies, waiting, _ = told(out)
        first = first or seconds
        print(f"  {workers} workers: {seconds:.3f} s, {seconds / alone:.2f} times one thread, {first / seconds:.2f} times as fast as one worker;"
              f" {replies} answered, {waiting} wait{than(seconds, rival, other)}", flush=True)


def stormed(program, requests, workers, folder):
    """The seconds of a storm, after which nobody may wait."""
    seconds, _ = least([str(program), "storm", "7", str(requests), str(workers)], folder / "trace", folder / "out")
    if b" calls %d replies %d parked 0\n" % (requests, requests) not in (folder / "out").read_bytes():
        raise Wrong(f"{program} left requests of the storm without a reply")
    return seconds


def show_storms(program, folder, requests, other):
    """Beside another program with the same command, where one is named."""
    write(folder, [])
    print(f"storm: {requests} requests", flush=True)
    first = None
    for workers in (1, 2, 4):
        seconds = stormed(program, requests, workers, folder)
        first = first or seconds
        rival = None if other is None else stormed(other, requests, workers, folder)
        print(f"  {workers} workers: {seconds:.3f} s, {first / seconds:.2f} times as fast as one worker{than(seconds, rival, other)}", flush=True)


def show_growth(program, folder, name, lines_of, produces_of, first):
    print(f"growth: {name}", flush=True)
    before = None
    for requests in (first, 2 * first, 4 * first):
        seconds, memory, plain, *_ = measured(program, folder, lines_of(requests), requests, produces_of(requests))
        grown = "" if before is None else f", {seconds / before:.2f} times the time for half as many"
        print(f"  {requests} requests: {seconds:.3f} s{grown}; {seconds / plain:.1f} times the yardstick;"
              f" peak memory {memory / 1e6:.1f} MB", flush=True)
        before = seconds


def main():
    options = argparse.ArgumentParser(description=__doc__)
    options.add_argument("program", nargs="?", type=pathlib.Path, default=PROGRAM)
    options.add_argument("--small", type=int, default=20000, metavar="N", help="requests, every second one a fetch")
    options.add_argument("--large", type=int, default=31, metavar="N", help="batches of 1,048,576 bytes, at most 31")
    options.add_argument("--lines", type=int, default=20, metavar="N", help="batches of 1,048,576 bytes in short lines")
    options.add_argument("--growth", type=int, default=10000, metavar="N", help="the requests of the first of three runs")
    options.add_argument("--beside", type=pathlib.Path, metavar="PATH", help="another program with the commands replay and storm")
    chosen = options.parse_args()
    if not os.access(chosen.program, os.X_OK):
        print(f"{chosen.program} isn't there: `make build` makes it", file=sys.stderr)
        return 2
    with tempfile.TemporaryDirectory() as name:
        folder = pathlib.Path(name)
        try:
            print(f"load of the machine: {os.getloadavg()[0]:.1f}, on {os.cpu_count()} processors")
            for title, lines, requests, produces in [
                ("one partition", small(chosen.small, 1), chosen.small, chosen.small // 2),
                ("64 partitions", small(chosen.small, 64), chosen.small, chosen.small // 2),
                ("requests that wait", storm(chosen.small), chosen.small, storm_produces(chosen.small)),
                ("large batches", large(chosen.large), chosen.large, chosen.large),
            ]:
                show(title, requests, chosen.beside, *measured(chosen.program, folder, lines, requests, produces, chosen.beside))
            show_beside(chosen.program, folder, chosen.small)
            show_lines(chosen.program, folder, chosen.lines)
            show_workers(chosen.program, folder, "requests that wait", storm(chosen.small), chosen.small, chosen.beside)
            show_workers(chosen.program, folder, "64 sessions apart", apart(5 * chosen.small), 5 * chosen.small, chosen.beside)
            show_storms(chosen.program, folder, chosen.small, chosen.beside)
            show_growth(chosen.program, folder, "one partition", lambda requests: small(requests, 1), lambda requests: requests // 2,
                        chosen.growth)
            show_growth(chosen.program, folder, "requests that wait", storm, storm_produces, chosen.growth)
        except Wrong as wrong:
            print(wrong, file=sys.stderr)
            return 1
    return 0


if __name__ == "__main__":
    sys.exit(main())
