"""A small language of words for traces. Each line of words is a line of a trace:

    topic t with 1 partition and 1 follower
    session 0 produces "a" to t/0, waits at most 1000 ms for all replicas
    session 1 fetches t/0 from offset 0 as follower 1, waits at most 500 ms for 1 byte
    session 1 asks for all topics; then asks for versions
    session 0 closes
    the clock shows 500 ms
    end

Lines that are blank, begin with a space or begin with # are for the reader alone. A topic is said with the least number of its replicas
in sync where that is above 1: `topic t with 1 partition and 2 followers, at least 2 replicas in sync`. A request is one of

    produces BATCH to TOPIC/INDEX and BATCH to TOPIC/INDEX ..
    fetches TOPIC/INDEX from offset N and TOPIC/INDEX from offset N with log start N up to N bytes ..
    asks for all topics | asks for no topic | asks for topic NAME and NAME ..
    asks for versions | asks for versions in version N with HEX

A batch is the values of its records, as "a" "b", where "k"*500 is k 500 times and null is null; or `bytes HEX`, or `nothing` for
null. The log start of a fetch is told from version 5 on, and is -1 where it isn't said. What isn't said is what stands in brackets.
After a request, each behind a comma and in any order:

    waits at most N ms for all replicas | waits for the leader | waits for nobody | has acks N     [a produce waits for the leader]
    has a timeout of N ms                                             [1000, where a produce waits for others than all replicas]
    waits at most N ms for N bytes                                    [a fetch waits at most 0 ms for 1 byte]
    as follower N | as replica N                                      [-1, a consumer]
    takes at most N bytes                                             [52428800; of one partition 1048576]
    reads committed                                                   [reads uncommitted]
    in version N                                                      [3 of a produce, 4 of a fetch]
    as transaction "X" | as client "X" | as no client                 [no transaction, client "c"]
    numbered N                                                        [the place of the request in the trace, from 1]

Bytes that are no such frames, as the pieces of one, are given as they stand in a trace: `bytes SESSION HEX`.
"""

import re
import struct

from model.broker import batches, wire

MOST_OF_PART = 1_048_576
MOST_OF_REPLY = 52_428_800
_TOKEN = re.compile(r'\s*("(?:\\.|[^"\\])*"(?:\*\d+)?|[^\s,;"]+|[,;])')


class Unclear(Exception):
    """Words that are no line."""


# ---- values between quotes


def plain(value):
    """The bytes as letters where they are, and else by their numbers."""
    return "".join(chr(byte) if 0x20 <= byte < 0x7F and byte not in b'"\\' else f"\\x{byte:02x}" for byte in value)


def quoted(value):
    """The value as words, where a long run of one byte is told as such."""
    if len(value) > 12 and value == value[:1] * len(value):
        return f"{quoted(value[:1])}*{len(value)}"
    return f'"{plain(value)}"'


def unquoted(token):
    body, _, times = token.rpartition('"')
    pieces = re.split(r"\\x([0-9a-f]{2})", body[1:])
    return b"".join(bytes([int(piece, 16)]) if at % 2 else piece.encode() for at, piece in enumerate(pieces)) * int(times[1:] or 1)


# ---- words become a trace


class Words:
    """The words of a line, read from the left."""

    def __init__(self, line):
        self.words, self.at, at, line = [], 0, 0, line.rstrip()
        while at < len(line):
            found = _TOKEN.match(line, at)
            if found is None:
                raise Unclear("a quote isn't closed")
            self.words.append(found[1])
            at = found.end()

    def next(self):
        return self.words[self.at] if self.at < len(self.words) else ""

    def take(self):
        word = self.next()
        if not word:
            raise Unclear("a word is missing at the end")
        self.at += 1
        return word

    def has(self, *words):
        """These words come next, and are taken. A choice of words is told with |."""
        here = self.words[self.at:self.at + len(words)]
        if len(here) == len(words) and all(word in choice.split("|") for word, choice in zip(here, words)):
            self.at += len(words)
            return True
        return False

    def need(self, *words):
        if not self.has(*words):
            raise Unclear(f"{' '.join(words)} is missing before {self.next() or 'the end'}")

    def number(self):
        word = self.take()
        if not re.fullmatch(r"-?\d+", word):
            raise Unclear(f"{word} is no number")
        return int(word)

    def hex(self):
        word = self.take()
        if not re.fullmatch(r"([0-9a-fA-F]{2})*", word):
            raise Unclear(f"{word} is no pairs of hex digits")
        return bytes.fromhex(word)

    def value(self):
        word = self.take()
        if not word.startswith('"'):
            raise Unclear(f"{word} isn't between quotes")
        return unquoted(word)

    def place(self):
        name, slash, index = self.take().rpartition("/")
        if not slash or not re.fullmatch(r"-?\d+", index):
            raise Unclear("a partition is written TOPIC/INDEX")
        return name.encode(), int(index)


def _batch(words):
    if words.has("nothing"):
        return None
    if words.has("bytes"):
        return b"" if words.next() == "to" else words.hex()
    values = []
    while words.next().startswith('"') or words.next() == "null":
        values.append(None if words.has("null") else words.value())
    return batches.batch([batches.record(offset, value) for offset, value in enumerate(values)])


def _gathered(parts):
    """Partitions one after the other, as topics with their partitions. A topic that comes again after another is told again."""
    topics = []
    for name, part in parts:
        if not topics or topics[-1][0] != name:
            topics.append((name, []))
        topics[-1][1].append(part)
    return topics


def _produce(words, told):
    parts = []
    while words.next() not in ("", ",", ";"):
        data = _batch(words)
        words.need("to")
        name, index = words.place()
        parts.append((name, (index, data)))
        words.has("and")
    told.update(acks=1, timeout=1000)
    while words.has(","):
        if words.has("waits", "at", "most"):
            told["timeout"] = words.number()
            words.need("ms", "for", "all", "replicas")
            told["acks"] = -1
        elif words.has("waits", "for", "the", "leader"):
            told["acks"] = 1
        elif words.has("waits", "for", "nobody"):
            told["acks"] = 0
        elif words.has("has", "acks"):
            told["acks"] = words.number()
        elif words.has("has", "a", "timeout", "of"):
            told["timeout"] = words.number()
            words.need("ms")
        elif words.has("as", "transaction"):
            told["transactional"] = words.value()
        else:
            _versioned_clause(words, told)
    return wire.produce_request(told.pop("numbered"), _gathered(parts), **told)


def _fetch(words, told):
    parts = []
    while words.next() not in ("", ",", ";"):
        if words.has("as"):
            _replica(words, told)
            continue
        name, index = words.place()
        words.need("from", "offset")
        offset, most, start = words.number(), MOST_OF_PART, wire.NO_LOG_START
        if words.has("with", "log", "start"):
            start = words.number()
        if words.has("up", "to"):
            most = words.number()
            words.need("byte|bytes")
        parts.append((name, (index, offset, most, start)))
        words.has("and")
    told.setdefault("wait", 0)
    while words.has(","):
        if words.has("waits", "at", "most"):
            told["wait"] = words.number()
            words.need("ms", "for")
            told["least"] = words.number()
            words.need("byte|bytes")
        elif words.has("takes", "at", "most"):
            told["most"] = words.number()
            words.need("byte|bytes")
        elif words.has("reads", "committed"):
            told["isolation"] = 1
        elif words.next() == "as" and words.words[words.at + 1:words.at + 2] in (["follower"], ["replica"]):
            words.take()
            _replica(words, told)
        else:
            _versioned_clause(words, told)
    return wire.fetch_request(told.pop("numbered"), _gathered(parts), **told)


def _replica(words, told):
    words.need("follower|replica")
    told["replica"] = words.number()


def _versioned_clause(words, told):
    if words.has("in", "version"):
        told["version"] = words.number()
    else:
        _any_clause(words, told)


def _any_clause(words, told):
    if words.has("numbered"):
        told["numbered"] = words.number()
    elif words.has("as", "no", "client"):
        told["client"] = None
    elif words.has("as", "client"):
        told["client"] = words.value()
    else:
        raise Unclear(f"{words.next() or 'nothing'} stands behind a comma")


def _asks(words, told):
    words.need("for")
    if words.has("versions"):
        version, rest = 0, b""
        if words.has("in", "version"):
            version = words.number()
            rest = words.hex() if words.has("with") else b""
        make = lambda: wire.versions_request(told.pop("numbered"), version, rest, **told)
    else:
        names = None
        if not words.has("all", "topics"):
            names = []
            if not words.has("no", "topic"):
                words.need("topic|topics")
                names.append(words.take().encode())
                while words.has("and"):
                    names.append(words.take().encode())
        make = lambda: wire.metadata_request(told.pop("numbered"), names, **told)
    while words.has(","):
        _any_clause(words, told)
    return make()


_VERBS = {"produces": _produce, "fetches": _fetch, "asks": _asks}


class Builder:
    """Makes a trace of words, line by line."""

    def __init__(self):
        self.requests = 0

    def frame(self, words):
        verb = words.take()
        if verb not in _VERBS:
            raise Unclear(f"a session produces, fetches, asks or closes, and {verb} is none of these")
        self.requests += 1
        return _VERBS[verb](words, {"numbered": self.requests})

    def session(self, words):
        number = words.number()
        if words.has("closes"):
            return f"close {number}"
        data = self.frame(words)
        while words.has(";"):
            words.need("then")
            data += self.frame(words)
        return f"bytes {number} {data.hex()}"

    def line(self, text):
        """The line of a trace, or None where the words are for the reader alone."""
        if not text.strip() or text[0] in " #":
            return None
        words = Words(text)
        if words.has("topic"):
            made = self.topic(words)
        elif words.has("the", "clock", "shows"):
            made = f"clock {words.number()}"
            words.need("ms")
        elif words.has("session"):
            made = self.session(words)
        elif words.has("bytes"):
            made = f"bytes {words.number()} {words.take()}"
        elif words.has("end"):
            made = "end"
        else:
            raise Unclear("a line begins with topic, session, the clock, bytes or end")
        if words.next():
            raise Unclear(f"{words.next()} is a word too many")
        return made

    def topic(self, words):
        name = words.take()
        words.need("with")
        partitions = words.number()
        words.need("partition|partitions", "and")
        followers = 0 if words.has("no") else words.number()
        words.need("follower|followers")
        return f"topic {name} {partitions} {followers}{self.least_in_sync(words)}"

    @staticmethod
    def least_in_sync(words):
        if not words.has(","):
            return ""
        words.need("at", "least")
        least = words.number()
        words.need("replica|replicas", "in", "sync")
        return f" {least}"


def built(text):
    """The trace of a text of words."""
    builder, lines = Builder(), []
    for number, line in enumerate(text.split("\n"), 1):
        try:
            made = builder.line(line)
        except Unclear as unclear:
            raise Unclear(f"line {number}: {unclear}") from None
        except struct.error:
            raise Unclear(f"line {number}: a number is out of its range") from None
        if made is not None:
            lines.append(made)
    return "".join(line + "\n" for line in lines)


# ---- a trace becomes words


def counted(count, thing):
    return f"{count} {thing}" if count == 1 else f"{count} {thing}s"


def values_of(data):
    """The values of the records of a batch, and how many records it has, whatever stands beside the values."""
    at, values = batches.HEADER, []
    for _ in range(batches.count_of(data)):
        reader = batches.Bytes(data[at:])
        body = batches.Bytes(reader.take(reader.varint(32)))
        body.take(1)
        body.varint(64)
        body.varint(32)
        body.sized(-1)
        values.append(body.sized(-1))
        at += reader.at
    return values


def batch_words(data):
    if data is None:
        return "nothing"
    if batches.fault_code(data) is None:
        values = values_of(data)
        if batches.batch([batches.record(offset, value) for offset, value in enumerate(values)]) == data:
            return " ".join("null" if value is None else quoted(value) for value in values)
    return f"bytes {data.hex()}" if data else "bytes"


def place_words(name, index):
    return f"{plain(name)}/{index}"


def parts_of(request):
    return [(name, *part) for name, parts in request.fields["topics"] for part in parts]


def _produce_words(request):
    fields = request.fields
    told = " and ".join(f"{batch_words(data)} to {place_words(name, index)}" for name, index, data in parts_of(request))
    clauses = {
        -1: [f"waits at most {fields['timeout']} ms for all replicas"], 0: ["waits for nobody"], 1: [],
    }.get(fields["acks"], [f"has acks {fields['acks']}"])
    if fields["acks"] != -1 and fields["timeout"] != 1000:
        clauses.append(f"has a timeout of {fields['timeout']} ms")
    if fields["transactional"] is not None:
        clauses.append(f"as transaction {quoted(fields['transactional'])}")
    return f"produces {told}".rstrip(), clauses


def _log_start_words(start):
    return "" if start == wire.NO_LOG_START else f" with log start {start}"


def _fetch_words(request):
    fields = request.fields
    told = " and ".join(f"{place_words(name, index)} from offset {offset}" + _log_start_words(start)
                        + ("" if most == MOST_OF_PART else f" up to {counted(most, 'byte')}")
                        for name, index, offset, most, start in parts_of(request))
    replica = fields["replica"]
    if replica != -1:
        told += f" as follower {replica}" if replica >= 0 else f" as replica {replica}"
    clauses = []
    if (fields["wait"], fields["min"]) != (0, 1):
        clauses.append(f"waits at most {fields['wait']} ms for {counted(fields['min'], 'byte')}")
    if fields["max"] != MOST_OF_REPLY:
        clauses.append(f"takes at most {counted(fields['max'], 'byte')}")
    if fields["isolation"] == 1:
        clauses.append("reads committed")
    return f"fetches {told.strip()}".rstrip(), clauses


def _ask_words(request, body):
    if request.key == 18:
        if request.version == 0:
            return "asks for versions", []
        rest = _behind_client(body)
        return f"asks for versions in version {request.version}" + (f" with {rest.hex()}" if rest else ""), []
    names = request.fields["names"]
    if names is None:
        return "asks for all topics", []
    return "asks for " + ("topic " + " and ".join(map(plain, names)) if names else "no topic"), []


def _behind_client(body):
    reader = wire.Reader(body[8:])
    reader.nullable_string()
    return reader.data[reader.at:]


def short_words(request):
    """A request in a few words, without how long it may wait."""
    fields = request.fields
    if request.key not in (0, 1):
        return "metadata" if request.key == 3 else "versions"
    behind = " from {}" if request.key == 1 else ""
    places = [place_words(name, index) + behind.format(*rest) for name, index, *rest in parts_of(request)]
    told = ", ".join(places) if len(places) <= 3 else counted(len(places), "partition")
    if request.key == 0:
        acks = {-1: "all", 0: "none", 1: "leader"}.get(fields["acks"], fields["acks"])
        return f"produce to {told}, acks {acks}"
    return f"fetch {told}" + (f" as follower {fields['replica']}" if fields["replica"] >= 0 else "")


def request_words(request, body, number):
    """A request in words, as the request of this number in its trace."""
    told, clauses = {0: _produce_words, 1: _fetch_words}.get(request.key, lambda request: _ask_words(request, body))(request)
    if request.key in (0, 1) and request.version != wire.VERSIONS[request.key][0]:
        clauses.append(f"in version {request.version}")
    (length,) = struct.unpack(">h", body[8:10]) if len(body) >= 10 else (-1,)
    client = None if length < 0 else body[10:10 + length]
    if client != b"c":
        clauses.append("as no client" if client is None else f"as client {quoted(client)}")
    if request.correlation != number:
        clauses.append(f"numbered {request.correlation}")
    return ", ".join([told] + clauses)
