"""Frames, requests and replies, as docs/protocol.md lays them out."""

import struct
from dataclasses import dataclass

MOST_FRAME = 8_388_608
MOST_NAMED = 64
# The versions of each api that are taken, by its key.
VERSIONS = {0: range(3, 6), 1: range(4, 6), 3: range(1, 2), 18: range(0, 1)}
PRODUCE, FETCH = VERSIONS[0], VERSIONS[1]
# The version of both from which on a reply tells where a log starts, and a fetch too. Where that isn't known it is told as -1.
WITH_LOG_START = 5
NO_LOG_START = -1


class Refused(Exception):
    """A body that is no request: the words of its first fault."""


class _Unread(Exception):
    """A field that doesn't read."""


@dataclass
class Request:
    key: int
    version: int
    correlation: int
    # of a produce: the transactional id, acks, timeout, topics of (index, records); of a fetch: replica, wait, min, max, isolation,
    # topics of (index, offset, most bytes, log start); of metadata: names or None
    fields: dict


class Reader:
    def __init__(self, data):
        self.data, self.at = data, 0

    def field(self, read):
        """A field, or a bad request at its first byte."""
        start = self.at
        try:
            return read()
        except _Unread:
            raise Refused(f"bad-request {start}") from None

    def take(self, count):
        if self.at + count > len(self.data):
            raise _Unread
        piece = self.data[self.at:self.at + count]
        self.at += count
        return piece

    def _number(self, form):
        return struct.unpack(form, self.take(struct.calcsize(form)))[0]

    def number(self, form):
        return self.field(lambda: self._number(form))

    def _sized(self, form, nullable):
        length = self._number(form)
        if length == -1 and nullable:
            return None
        if length < 0:
            raise _Unread
        return self.take(length)

    def string(self):
        return self.field(lambda: self._sized(">h", False))

    def nullable_string(self):
        return self.field(lambda: self._sized(">h", True))

    def records(self):
        return self.field(lambda: self._sized(">i", True))

    def _count(self, nullable):
        count = self._number(">i")
        if count < -1 or (count == -1 and not nullable):
            raise _Unread
        return None if count == -1 else count

    def count(self, before, nullable=False):
        """How many items of a kind follow, of which so many were named before."""
        count = self.field(lambda: self._count(nullable))
        if count is not None and before + count > MOST_NAMED:
            raise Refused(f"too-many {before + count}")
        return count


def next_frame(data):
    """What stands at the front: ("whole", body), ("not yet", None) or ("too long", size)."""
    if len(data) < 4:
        return "not yet", None
    (size,) = struct.unpack(">i", data[:4])
    if size < 0 or size > MOST_FRAME:
        return "too long", size
    if len(data) < 4 + size:
        return "not yet", None
    return "whole", data[4:4 + size]


def _topics(reader, part):
    topics, named = [], 0
    for _ in range(reader.count(0)):
        name = reader.string()
        count = reader.count(named)
        named += count
        topics.append((name, [part() for _ in range(count)]))
    return topics


def _produce(reader, _):
    fields = {
        "transactional": reader.nullable_string(),
        "acks": reader.number(">h"),
        "timeout": reader.number(">i"),
    }
    fields["topics"] = _topics(reader, lambda: (reader.number(">i"), reader.records()))
    return fields


def _fetch_part(reader, version):
    index, offset = reader.number(">i"), reader.number(">q")
    start = reader.number(">q") if version >= WITH_LOG_START else NO_LOG_START
    return index, offset, reader.number(">i"), start


def _fetch(reader, version):
    fields = {name: reader.number(">i") for name in ("replica", "wait", "min", "max")}
    at = reader.at
    fields["isolation"] = reader.number(">b")
    if fields["isolation"] not in (0, 1):
        raise Refused(f"bad-request {at}")
    fields["topics"] = _topics(reader, lambda: _fetch_part(reader, version))
    return fields


def _metadata(reader, _):
    count = reader.count(0, nullable=True)
    return {"names": None if count is None else [reader.string() for _ in range(count)]}


def read_request(body):
    reader = Reader(body)
    key, version, correlation = reader.number(">h"), reader.number(">h"), reader.number(">i")
    if key not in VERSIONS:
        raise Refused(f"unknown-api {key}")
    if key == 18 and version != 0:
        return Request(key, version, correlation, {})
    if version not in VERSIONS[key]:
        raise Refused(f"unsupported {key} {version}")
    reader.nullable_string()
    fields = {0: _produce, 1: _fetch, 3: _metadata, 18: lambda *_: {}}[key](reader, version)
    if reader.at != len(body):
        raise Refused(f"bad-request {reader.at}")
    seen = set()
    for number, (name, parts) in enumerate(fields.get("topics", [])):
        for part in parts:
            if (name, part[0]) in seen:
                raise Refused(f"twice {number} {part[0]}")
            seen.add((name, part[0]))
    return Request(key, version, correlation, fields)


# ---- what is written


def string(text):
    return struct.pack(">h", -1) if text is None else struct.pack(">h", len(text)) + text


def records(data):
    return struct.pack(">i", -1) if data is None else struct.pack(">i", len(data)) + data


def array(items):
    return struct.pack(">i", len(items)) + b"".join(items)


def frame(body):
    return struct.pack(">i", len(body)) + body


def _reply(correlation, body):
    return frame(struct.pack(">i", correlation) + body)


def _log_start(version, start):
    return struct.pack(">q", start) if version >= WITH_LOG_START else b""


def _produced_part(version, index, code, base, start):
    return struct.pack(">ihqq", index, code, base, -1) + _log_start(version, start)


def produced(correlation, topics, version=PRODUCE[0]):
    """Topics of (index, code, base offset, log start)."""
    told = [string(name) + array([_produced_part(version, *part) for part in parts]) for name, parts in topics]
    return _reply(correlation, array(told) + struct.pack(">i", 0))


def _fetched_part(version, aborted, index, code, high, start, data):
    return struct.pack(">ihqq", index, code, high, high) + _log_start(version, start) + aborted + records(data)


def fetched(correlation, isolation, topics, version=FETCH[0]):
    """Topics of (index, code, high watermark, log start, batches)."""
    aborted = struct.pack(">i", -1 if isolation == 0 else 0)
    told = [string(name) + array([_fetched_part(version, aborted, *part) for part in parts]) for name, parts in topics]
    return _reply(correlation, struct.pack(">i", 0) + array(told))


def metadata(correlation, port, topics):
    """Topics of (code, name, partitions, followers)."""
    broker = struct.pack(">i", 0) + string(b"localhost") + struct.pack(">i", port) + string(None)
    told = []
    for code, name, partitions, followers in topics:
        replicas = array([struct.pack(">i", replica) for replica in range(followers + 1)])
        parts = [struct.pack(">hii", 0, index, 0) + replicas + replicas for index in range(partitions)]
        told.append(struct.pack(">h", code) + string(name) + b"\0" + array(parts))
    return _reply(correlation, array([broker]) + struct.pack(">i", 0) + array(told))


def versions(correlation, code):
    table = [struct.pack(">hhh", key, taken[0], taken[-1]) for key, taken in VERSIONS.items()]
    return _reply(correlation, struct.pack(">h", code) + array(table))


# ---- requests, for traces that are made


def header(key, version, correlation, client=b"c"):
    return struct.pack(">hhi", key, version, correlation) + string(client)


def produce_request(correlation, topics, acks=1, timeout=1000, transactional=None, version=PRODUCE[0], client=b"c"):
    """Topics of (index, bytes or None)."""
    told = [string(name) + array([struct.pack(">i", index) + records(data) for index, data in parts]) for name, parts in topics]
    return frame(header(0, version, correlation, client) + string(transactional) + struct.pack(">hi", acks, timeout) + array(told))


def _asked_part(version, index, offset, most, start=NO_LOG_START):
    return struct.pack(">iq", index, offset) + _log_start(version, start) + struct.pack(">i", most)


def fetch_request(correlation, topics, replica=-1, wait=100, least=1, most=52_428_800, isolation=0, version=FETCH[0], client=b"c"):
    """Topics of (index, offset, most bytes), or with the log start behind these, which version 5 tells."""
    told = [string(name) + array([_asked_part(version, *part) for part in parts]) for name, parts in topics]
    return frame(header(1, version, correlation, client) + struct.pack(">iiiib", replica, wait, least, most, isolation) + array(told))


def metadata_request(correlation, names, client=b"c"):
    asked = struct.pack(">i", -1) if names is None else array([string(name) for name in names])
    return frame(header(3, 1, correlation, client) + asked)


def versions_request(correlation, version=0, rest=b"", client=b"c"):
    return frame(header(18, version, correlation, client) + rest)
