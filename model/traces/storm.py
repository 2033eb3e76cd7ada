#!/usr/bin/env python3
"""The lines of a generated load, made apart from the crate `storm`: `python3 -B -m model.traces.storm SEED COUNT` prints them."""

import sys

from model.broker import batches, wire

BLOCK = 16
PARTITIONS = 8


class Draws:
    """The upper bits of a linear congruential generator modulo 2^64."""

    def __init__(self, seed):
        self.state = seed

    def below(self, most):
        self.state = (self.state * 6364136223846793005 + 1442695040888963407) % 2**64
        return (self.state >> 33) % most


def _produce(number, partition, acks, timeout):
    batch = batches.batch([batches.record(0, b"%016d" % number)])
    return wire.produce_request(number, [(b"storm", [(partition, batch)])], acks=acks, timeout=timeout, client=None)


def _fetch(number, partition, replica, wait, least, offset):
    return wire.fetch_request(
        number, [(b"storm", [(partition, offset, 4096)])], replica=replica, wait=wait, least=least, most=65536, client=None
    )


def _request(draws, number):
    """The frame of a request. Draws are made in the order in which they stand here."""
    block = number // BLOCK
    partition = (number + block) % PARTITIONS
    behind = 2 * ((block + 1) // 2)
    if block % 4 == 0:
        return _produce(number, partition, -1, 1 + draws.below(200))
    if block % 4 == 1:
        return _fetch(number, partition, 1, 1 + draws.below(200), 1, behind)
    if block % 4 == 2:
        return _produce(number, partition, 1, 1000)
    wait = 1 + draws.below(200)
    least = 1 + draws.below(2000)
    return _fetch(number, partition, -1, wait, least, draws.below(behind + 1))


def lines(seed, count):
    """The lines of the load, as the text of a trace has them."""
    draws = Draws(seed)
    yield f"topic storm {PARTITIONS} 1"
    for number in range(count):
        yield f"bytes {number % BLOCK} {_request(draws, number).hex()}"
        if number % BLOCK == BLOCK - 1 or number == count - 1:
            yield f"clock {10 * (number // BLOCK + 1)}"
    yield "end"


if __name__ == "__main__":
    for line in lines(int(sys.argv[1]), int(sys.argv[2])):
        print(line)
