"""What happens in a trace, as the model plays it: who asks what, what waits, what each session is told, and why."""

import struct
from dataclasses import dataclass
from typing import Any

from model.broker import broker, wire
from model.words import words

CODES = {
    1: "offset out of range", 2: "corrupt message", 3: "unknown topic or partition", 6: "not leader or follower", 7: "request timed out",
    9: "replica not available", 10: "message too large", 19: "not enough replicas", 20: "not enough replicas after append",
    21: "invalid required acks", 35: "unsupported version", 42: "invalid request", 56: "storage error", 76: "unsupported compression type",
    87: "invalid record",
}
APIS = {0: "Produce", 1: "Fetch", 3: "Metadata", 18: "ApiVersions"}


# ---- replies in words


def records_words(data, high):
    """The batches of a reply, by their values where these are few."""
    if not data:
        return "no records"
    told, at, bases = [], 0, []
    while at < len(data):
        base, length = struct.unpack(">qi", data[at:at + 12])
        bases.append(base)
        told += words.values_of(data[at:at + 12 + length])
        at += 12 + length
    if len(told) > 5 or any(value is not None and len(value) > 24 for value in told):
        return f"{words.counted(len(told), 'record')} in {words.counted(len(data), 'byte')} from offset {bases[0]}"
    values = " ".join("null" if value is None else words.quoted(value) for value in told)
    return f"{values} from offset {bases[0]}"


class Reply:
    """The frame of a reply in a version, read from the left."""

    def __init__(self, frame, version):
        self.data, self.version, self.at = frame, version, 8

    def number(self, form):
        size = struct.calcsize(form)
        (number,) = struct.unpack(form, self.data[self.at:self.at + size])
        self.at += size
        return number

    def bytes(self, form):
        length = max(0, self.number(form))
        self.at += length
        return self.data[self.at - length:self.at]

    def several(self, item):
        return [item() for _ in range(max(0, self.number(">i")))]

    def topics(self, part):
        def topic():
            name = self.bytes(">h")
            return [words.place_words(name, index) + ": " + told for index, told in self.several(part)]
        return [told for topic in self.several(topic) for told in topic]

    def log_start(self):
        start = self.number(">q") if self.version >= wire.WITH_LOG_START else wire.NO_LOG_START
        return "" if start == wire.NO_LOG_START else f", log start {start}"

    def produced(self):
        index, code, base, _ = (self.number(form) for form in (">i", ">h", ">q", ">q"))
        told = f"error {code}, {CODES[code]}" if code else f"written at offset {base}"
        return index, told + (f", though written at offset {base}" if code and base >= 0 else "") + self.log_start()

    def fetched(self):
        index, code, high, _ = (self.number(form) for form in (">i", ">h", ">q", ">q"))
        start = self.log_start()
        self.several(lambda: (self.number(">q"), self.number(">q")))
        data = self.bytes(">i")
        return index, f"error {code}, {CODES[code]}" if code else f"{records_words(data, high)}, high watermark {high}{start}"

    def described(self):
        self.several(lambda: (self.number(">i"), self.bytes(">h"), self.number(">i"), self.bytes(">h")))
        self.number(">i")
        return self.several(self.topic_described)

    def topic_described(self):
        code, name = self.number(">h"), words.plain(self.bytes(">h"))
        self.number(">b")
        replicas = [0]

        def partition():
            for form in (">h", ">i", ">i"):
                self.number(form)
            replicas[0] = len(self.several(lambda: self.number(">i")))
            self.several(lambda: self.number(">i"))
        partitions = len(self.several(partition))
        if code:
            return f"topic {name}: error {code}, {CODES[code]}"
        return f"topic {name}: {words.counted(partitions, 'partition')} with {words.counted(replicas[0], 'replica')}"


def reply_words(request, frame):
    reply = Reply(frame, request.version)
    if request.key == 0:
        told = reply.topics(reply.produced)
    elif request.key == 1:
        reply.number(">i")
        told = reply.topics(reply.fetched)
    elif request.key == 3:
        told = reply.described() or ["no topic"]
    else:
        code = reply.number(">h")
        apis = reply.several(lambda: f"{APIS[reply.number('>h')]} {reply.number('>h')} to {reply.number('>h')}")
        told = ([f"error {code}, {CODES[code]}"] if code else []) + ["versions of " + ", ".join(apis)]
    return "; ".join(told) or "no partition"


# ---- what happens


@dataclass
class Asked:
    """A request: its few words, until when it may wait where it waits, how it came to its end, by whose doing, and what was told."""
    what: str
    deadline: Any = None
    how: Any = None
    cause: Any = None
    told: Any = None


@dataclass
class Event:
    """`kind` is asked, waits, told, ends, leaves or comes back; `what` is the request, the words of a session's end, or those of the
    follower that leaves an in-sync set or comes back to it. Where the clock has one leave, that is no session's doing."""
    kind: str
    session: Any
    what: Any


class Watched(broker.Broker):
    """The broker of the model, which notes what happens in each line."""

    def __init__(self, topics):
        super().__init__(topics)
        self.events, self.asked, self.cause = [], {}, None

    def note(self, kind, session, what):
        self.events.append(Event(kind, session, what))

    def line(self, kind, what):
        self.events, self.cause = [], what[0] if kind == "bytes" else what if kind == "close" else kind
        super().line(kind, what)

    def act(self, number):
        self.cause = number
        super().act(number)

    def leave(self, number, replica):
        super().leave(number, replica)
        self.note("leaves", None, f"follower {replica} leaves the in-sync set of {words.place_words(*self.place_of(number))}")

    def fetched(self, number, replica, offset):
        partition = self.partitions[number]
        was_in_sync = replica in partition.in_sync
        super().fetched(number, replica, offset)
        if not was_in_sync and replica in partition.in_sync:
            told = f"follower {replica} comes back to the in-sync set of {words.place_words(*self.place_of(number))}"
            self.note("comes back", self.cause, told)

    def handle(self, number, request):
        asked = self.asked[number] = Asked(words.short_words(request))
        self.note("asked", number, asked)
        super().handle(number, request)
        waiting = next((waiting for waiting in self.waiting if waiting.session == number), None)
        if waiting is not None:
            asked.deadline = waiting.deadline
            self.note("waits", number, asked)
        elif asked.how is None:
            asked.how = "quiet"

    def reply(self, number, request, parts):
        asked = self.asked[number]
        asked.cause = self.cause
        asked.how = "at once" if asked.deadline is None else "satisfied" if self.is_satisfied(request, parts) else "expired"
        super().reply(number, request, parts)
        asked.told = reply_words(request, bytes.fromhex(self.out[-1].split()[2].decode()))
        self.note("told", number, asked)

    def finish(self, number, end):
        super().finish(number, end)
        self.note("ends", number, end)


@dataclass
class Told:
    """A line of a trace: its kind and what stands behind it, its words, and what happened in it."""
    kind: str
    what: Any
    words: str
    about: list
    events: list


class Teller:
    def __init__(self, lines):
        self.broker = Watched([what for kind, what in lines if kind == "topic"])
        self.builder = words.Builder()
        self.inboxes = {}
        self.lines = [self.line(kind, what) for kind, what in lines]
        self.broker.summary()

    def printed(self):
        """All that the model prints."""
        return b"".join(self.broker.out)

    def line(self, kind, what):
        told, about = self.words(kind, what)
        has_ended = kind == "bytes" and self.broker.sessions[what[0]].end is not None
        self.broker.line(kind, what)
        if has_ended:
            about.append(f"session {what[0]} has ended: this is dropped")
        elif kind == "bytes" and self.is_unread(what[0]):
            about.append(f"session {what[0]} waits: what comes behind its request is read later")
        return Told(kind, what, told, about, self.broker.events)

    def is_unread(self, session):
        is_waiting = any(waiting.session == session for waiting in self.broker.waiting)
        return is_waiting and wire.next_frame(self.broker.sessions[session].inbox)[0] != "not yet"

    def words(self, kind, what):
        if kind == "topic":
            followers = words.counted(what.followers, "follower") if what.followers else "no followers"
            told = f"topic {what.name.decode()} with {words.counted(what.partitions, 'partition')} and {followers}"
            if what.min_insync > 1:
                told += f", at least {words.counted(what.min_insync, 'replica')} in sync"
        elif kind == "bytes":
            return self.bytes_words(*what)
        elif kind == "close":
            told = f"session {what} closes"
        elif kind == "clock":
            told = f"the clock shows {what} ms"
        else:
            told = "end"
        return told, []

    def bytes_words(self, session, data):
        """The words of a line of bytes: those of its frames where it is whole frames and the words give them back, else the bytes."""
        before = self.inboxes.get(session, b"")
        frames, rest = frames_of(before + data)
        self.inboxes[session] = rest
        raw = f"bytes {session} {data.hex()}"
        told = [self.frame_words(body, number) for number, body in enumerate(frames, self.builder.requests + 1)]
        if not before and not rest and all(told):
            line = f"session {session} " + "; then ".join(told)
            requests = self.builder.requests
            try:
                if self.builder.line(line) == raw:
                    return line, []
            except words.Unclear:
                pass
            self.builder.requests = requests
        about = [f"session {session} has sent: {what or 'a frame that is no request'}" for what in told]
        if rest and wire.next_frame(rest)[0] == "not yet":
            about.append(f"session {session} has sent {words.counted(len(rest), 'byte')} of a frame")
        return raw, about

    def frame_words(self, body, number):
        try:
            return words.request_words(wire.read_request(body), body, number)
        except wire.Refused:
            return None


def frames_of(data):
    frames = []
    while True:
        kind, body = wire.next_frame(data)
        if kind != "whole":
            return frames, data
        frames.append(body)
        data = data[4 + len(body):]


def event_words(event):
    """What happened, in words, or None where the line's own words tell it."""
    if event.kind == "waits":
        return f"session {event.session} waits, at most until {event.what.deadline} ms"
    if event.kind == "told":
        why = {"satisfied": " (what it waited for has come)", "expired": " (its time has run out)"}.get(event.what.how, "")
        return f"session {event.session} is told: {event.what.told}{why}"
    if event.kind == "ends":
        return f"session {event.session} ends: {event.what}"
    return event.what if event.kind in ("leaves", "comes back") else None


def summary_line_words(line):
    """A line at the end of the output, of a partition or of a session that was named, in words; or None."""
    kind, *rest = line.split()
    numbers = [int(word) for word in rest if word.isdigit()]
    if kind == "part":
        number, log_end, high, count, size = numbers
        return (f"partition {number}: log end {log_end}, high watermark {high}, "
                f"{count} {'batch' if count == 1 else 'batches'} of {words.counted(size, 'byte')}")
    if kind == "session":
        number, calls, replies, parked = numbers
        return f"session {number}: {words.counted(calls, 'call')}, {replies} answered{', and waits' if parked else ''}"
    return None


def summary_words(printed):
    """The end of the output: each partition, and each session that was named."""
    return filter(None, map(summary_line_words, printed.decode().splitlines()))


def requests_of(data):
    """The requests at the front of what a session sent, up to the first that is refused: there the session ends."""
    for body in frames_of(data)[0]:
        try:
            yield wire.read_request(body)
        except wire.Refused:
            return


def answered_requests(lines):
    """By session the requests that have a reply, in the order in which it sent them."""
    sent = {}
    for kind, what in lines:
        if kind == "bytes":
            sent[what[0]] = sent.get(what[0], b"") + what[1]
    return {session: (request for request in requests_of(data) if request.fields.get("acks") != 0) for session, data in sent.items()}


def printed_words(lines, printed):
    """Each line that a program printed of these lines, in words, but for the last, which says nothing."""
    requests = answered_requests(lines)
    for line in printed.decode().splitlines():
        kind, *rest = line.split(" ", 2)
        if kind == "reply":
            request = next(requests.get(int(rest[0]), iter(())), None)
            told = "a reply to no request" if request is None else reply_words(request, bytes.fromhex(rest[1]))
            yield f"session {rest[0]} is told: {told}"
        elif kind == "end":
            yield f"session {rest[0]} ends: {rest[1]}"
        elif kind != "done":
            yield summary_line_words(line) or line
