"""The text of a trace: its lines, and the first that is bad."""

from dataclasses import dataclass

MOST_BYTES = 67_108_864
MOST_MOMENT = 10 ** 15
MOST_COUNT = 4_294_967_295
# How many words a line of each kind has.
WORDS = {b"topic": (4, 5), b"bytes": (3,), b"close": (2,), b"clock": (2,), b"end": (1,)}
DIGITS = b"0123456789abcdefABCDEF"
# What the program tells of each kind of bad line.
SENTENCES = {
    "Word": "a line begins with topic, bytes, close, clock or end",
    "Form": "a line has as many words as its kind, and one space between two words",
    "Number": "a session is a number from 0 to 63, a moment from 0 to 10^15, partitions, followers and in-sync replicas from 0 to "
              "4294967295, with no leading zeros",
    "Hex": "bytes are written as pairs of hex digits",
    "BadTopic": "a topic has a new name of at most 249 letters, digits, dots, underscores and hyphens, at least 1 partition, "
                "at most 64 with those of other topics, at most 8 followers, and a least number of in-sync replicas from 1 to one more "
                "than its followers",
    "Order": "topics stand first and end last, the clock never goes back, and nothing more comes for a session that is closed",
    "NoEnd": "the line end is missing",
    "TooLong": "a trace has at most 67108864 bytes",
}


class Bad(Exception):
    """The first bad line: its number and its kind."""

    def __init__(self, line, kind):
        super().__init__(line, kind)
        self.line, self.kind = line, kind

    def told(self):
        return f"line {self.line}: {SENTENCES[self.kind]}"


class _Kind(Exception):
    pass


@dataclass
class Topic:
    name: bytes
    partitions: int
    followers: int
    # the least number of replicas in sync, the leader counted
    min_insync: int = 1

    @property
    def words(self):
        """What stands behind `topic` where the line is printed."""
        least = b" %d" % self.min_insync if self.min_insync > 1 else b""
        return b"%s %d %d" % (self.name, self.partitions, self.followers) + least


def _number(word, most):
    if not word.isdigit() or (len(word) > 1 and word[:1] == b"0") or int(word) > most:
        raise _Kind("Number")
    return int(word)


def _hex(word):
    if len(word) % 2 or any(digit not in DIGITS for digit in word):
        raise _Kind("Hex")
    return bytes.fromhex(word.decode())


def _line(piece):
    """One line by itself: its word, and what follows it."""
    words = piece.split(b" ")
    if words[0] not in WORDS:
        raise _Kind("Word")
    if len(words) not in WORDS[words[0]] or b"" in words:
        raise _Kind("Form")
    if words[0] == b"topic":
        return "topic", Topic(words[1], *(_number(word, MOST_COUNT) for word in words[2:]))
    if words[0] == b"bytes":
        session = _number(words[1], 63)
        return "bytes", (session, _hex(words[2]))
    if words[0] == b"close":
        return "close", _number(words[1], 63)
    if words[0] == b"clock":
        return "clock", _number(words[1], MOST_MOMENT)
    return "end", None


def _is_name(name):
    letters = b"abcdefghijklmnopqrstuvwxyzABCDEFGHIJKLMNOPQRSTUVWXYZ0123456789._-"
    return 1 <= len(name) <= 249 and name not in (b".", b"..") and all(letter in letters for letter in name)


def may_declare(topics, topic):
    return (
        _is_name(topic.name)
        and topic.name not in [other.name for other in topics]
        and 1 <= topic.partitions
        and sum(other.partitions for other in topics) + topic.partitions <= 64
        and topic.followers <= 8
        and 1 <= topic.min_insync <= topic.followers + 1
    )


def read(text):
    """The lines of a trace. Raises Bad for the first bad line."""
    if len(text) > MOST_BYTES:
        raise Bad(text[:MOST_BYTES].count(b"\n") + 1, "TooLong")
    pieces = text.split(b"\n")
    if pieces[-1] == b"":
        pieces.pop()
    lines, topics, closed, moment, ended = [], [], set(), 0, False
    for number, piece in enumerate(pieces, 1):
        try:
            kind, what = _line(piece)
            if ended or (kind == "topic" and any(other != "topic" for other, _ in lines)):
                raise _Kind("Order")
            if kind == "clock" and what < moment:
                raise _Kind("Order")
            if kind == "bytes" and what[0] in closed or kind == "close" and what in closed:
                raise _Kind("Order")
            if kind == "topic" and not may_declare(topics, what):
                raise _Kind("BadTopic")
        except _Kind as bad:
            raise Bad(number, bad.args[0]) from None
        if kind == "topic":
            topics.append(what)
        elif kind == "close":
            closed.add(what)
        elif kind == "clock":
            moment = what
        ended = kind == "end"
        lines.append((kind, what))
    if not ended:
        raise Bad(len(pieces) + 1, "NoEnd")
    return lines
