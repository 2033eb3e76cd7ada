"""Reads back the account that `tell_account` tells. How it tells one stands at the head of its main.rt."""

from model.definitions.accounts import (
    Account, AtOnce, Call, Cut, Expired, Parked, PartAccount, Point, Quiet, Satisfied, SessionEnd, Transcript,
)
from model.definitions.parts import Append, ClockLook, Follow, Look, Shrink, Tick
from model.definitions.requests import Configuration, Topic

HOWS = {b"quiet": Quiet, b"at-once": AtOnce, b"satisfied": Satisfied, b"expired": Expired, b"parked": Parked, b"cut": Cut}
ENTRIES = {b"append": Append, b"follow": Follow, b"shrink": Shrink, b"look": Look}
CLOCK_ENTRIES = {b"tick": Tick, b"look": ClockLook}
POINTS = (b"accept", b"finish")


class Unreadable(Exception):
    pass


def bytes_of(word):
    return b"" if word == b"-" else bytes.fromhex(word.decode())


def how_of(words):
    made, numbers = HOWS[words[0]], [int(word) for word in words[1:]]
    return made(*(numbers or [None])) if made is Cut else made(*numbers)


def end_of(words):
    kind = words[0].decode()
    if kind == "refused":
        return SessionEnd(kind, b" ".join(words[1:]).decode())
    return SessionEnd(kind, *(int(word) for word in words[1:]))


class Lines:
    """Lines of words, read from the front."""

    def __init__(self, text):
        if not text.endswith(b"\n"):
            raise Unreadable("the last line has no end")
        self.lines, self.at = [line.split(b" ") for line in text.split(b"\n")[:-1]], 0

    def take(self, *kinds):
        """The next line, where it is of one of these kinds, else None."""
        if self.at == len(self.lines) or self.lines[self.at][0] not in kinds:
            return None
        self.at += 1
        return self.lines[self.at - 1]

    def all_of(self, *kinds):
        found = []
        while (words := self.take(*kinds)) is not None:
            found.append(words)
        return found

    def entries(self, kinds):
        return tuple(kinds[kind](*map(int, numbers)) for kind, *numbers in self.all_of(*kinds))

    # ---- what an account is made of

    def config(self):
        _, port = self.take(b"port")
        topics = [Topic(bytes_of(name), *map(int, counts)) for _, name, *counts in self.all_of(b"topic")]
        return Configuration(int(port), tuple(topics))

    def parts(self):
        parts = []
        while (words := self.take(b"part")) is not None:
            parts.append(PartAccount(int(words[1]), bytes_of(words[2]), self.entries(ENTRIES)))
        return tuple(parts)

    def clock(self):
        if self.take(b"clock") is None:
            raise Unreadable("there is no clock")
        return self.entries(CLOCK_ENTRIES)

    def calls(self):
        calls = []
        while (words := self.take(b"call")) is not None:
            points = {kind: tuple(Point(int(part), int(place)) for _, part, place in self.all_of(kind)) for kind in POINTS}
            calls.append(Call(bytes_of(words[-1]), points[b"accept"], points[b"finish"], how_of(words[1:-1])))
        return tuple(calls)

    def transcripts(self):
        transcripts = []
        while (words := self.take(b"transcript")) is not None:
            calls, end = self.calls(), self.take(b"end")
            transcripts.append(Transcript(int(words[1]), int(words[2]), calls, end and end_of(end[1:])))
        return tuple(transcripts)

    def passes(self):
        passes = []
        while self.take(b"pass") is not None:
            passes.append(self.transcripts())
        return tuple(passes)

    def wins(self):
        return tuple(int(count) for _, count in self.all_of(b"wins"))


def read(text):
    """The account that is told, and what is printed of it."""
    told, mark, printed = text.partition(b"printed\n")
    if not mark:
        raise Unreadable("nothing is printed")
    lines = Lines(told)
    account = Account(lines.config(), lines.parts(), lines.clock(), lines.passes(), lines.wins())
    if lines.at != len(lines.lines):
        raise Unreadable(f"line {lines.at + 1} is none of an account")
    return account, printed
