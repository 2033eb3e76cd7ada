"""What the transcribed definitions say of requests and topics, and the few words of lists in which all of them are written.

How they are transcribed stands in `play.py`.
"""

from dataclasses import dataclass
from functools import lru_cache
from typing import Any

from model.broker import wire

record = dataclass(frozen=True)


def minus(a, b):
    return max(0, a - b)


def slice_get(items, place):
    return items[place] if place < len(items) else None


def slice_set(items, place, item):
    return items[:place] + (item,) + items[place + 1:]


def filter_map(of, items):
    return tuple(made for made in map(of, items) if made is not None)


def flat_map(of, items):
    return tuple(made for item in items for made in of(item))


def AllZip(holds, first, second):
    return len(first) == len(second) and all(map(holds, first, second))


def IsStrictlyIncreasing(numbers):
    return all(a < b for a, b in zip(numbers, numbers[1:]))


# ==== kwire: what is read and spelled by wire.py, in the shape that the definitions have


@record
class Topic:
    name: bytes
    partitions: int
    followers: int
    min_insync: int


@record
class Configuration:
    port: int
    topics: tuple


@record
class ProducePart:
    index: int
    records: Any


@record
class FetchPart:
    index: int
    offset: int
    log_start: int
    most: int


@record
class AskedTopic:
    """A ProduceTopic or a FetchTopic."""
    name: bytes
    parts: tuple


@record
class Produce:
    version: int
    transactional: Any
    acks: int
    timeout: int
    topics: tuple


@record
class Fetch:
    version: int
    replica: int
    max_wait: int
    min_bytes: int
    max_bytes: int
    isolation: int
    topics: tuple


@record
class Metadata:
    topics: Any


@record
class Versions:
    version: int


@record
class Request:
    correlation: int
    ask: Any


def fetch_part(index, offset, most, log_start):
    return FetchPart(index, offset, log_start, most)


def ask_in(read):
    fields = read.fields
    if read.key == 0:
        topics = tuple(AskedTopic(name, tuple(ProducePart(*part) for part in parts)) for name, parts in fields["topics"])
        return Produce(read.version, fields["transactional"], fields["acks"], fields["timeout"], topics)
    if read.key == 1:
        topics = tuple(AskedTopic(name, tuple(fetch_part(*part) for part in parts)) for name, parts in fields["topics"])
        return Fetch(read.version, fields["replica"], fields["wait"], fields["min"], fields["max"], fields["isolation"], topics)
    if read.key == 3:
        return Metadata(None if fields["names"] is None else tuple(fields["names"]))
    return Versions(read.version)


@lru_cache(maxsize=4096)
def IsRequest(body):
    """The one request that this body is, or None."""
    try:
        read = wire.read_request(body)
    except wire.Refused:
        return None
    return Request(read.correlation, ask_in(read))


@lru_cache(maxsize=4096)
def IsRefused(body):
    """The words of the one refusal of this body, or None."""
    try:
        wire.read_request(body)
    except wire.Refused as refused:
        return str(refused)
    return None


def next_frame_of(stream):
    """("whole", end), ("not yet", None) or ("too long", size)."""
    kind, what = wire.next_frame(stream)
    return (kind, 4 + len(what)) if kind == "whole" else (kind, what)


framed = wire.frame


def IsFrameBody(body):
    return len(body) <= wire.MOST_FRAME


def part_from(before, topics, name, index):
    if not topics or index < 0:
        return None
    topic, more = topics[0], topics[1:]
    if topic.name == name:
        return before + index if index < topic.partitions else None
    return part_from(before + topic.partitions, more, name, index)


def part_of(config, name, index):
    return part_from(0, config.topics, name, index)


def followers_of(topics):
    return flat_map(lambda topic: (topic.followers,) * topic.partitions, topics)


def min_insyncs_of(topics):
    return flat_map(lambda topic: (topic.min_insync,) * topic.partitions, topics)


def min_insync_at(topics, part):
    return slice_get(min_insyncs_of(topics), part) or 0
