"""Random traces, by kind, each from a seed of its own."""

import random

from model.broker import traces
from model.traces import crowded, lagging, mutated, requests, waiting

KINDS = ["plain", "mixed", "waiting", "lagging", "crowded", "changed", "spoiled"]
BAD_TOPICS = [
    b"topic . 1 0", b"topic t 0 0", b"topic t 65 0", b"topic t 1 9", b"topic t 01 0", b"topic %s 1 0" % (b"n" * 250), b"topic t 1 1 0",
    b"topic t 1 1 3", b"topic t 1 8 10", b"topic t 1 9 1", b"topic t 1 1 01", b"topic t 1 1 4294967295", b"topic t 1 1 4294967296",
    b"topic t 1 4294967295 4294967295", b"topic t 1 1 1 1",
]


def events(random_, declared, waits):
    """Lines of bytes, clocks and closes, without their order."""
    moment, closed = 0, set()
    for _ in range(random_.randint(1, 14)):
        kind = random_.random()
        if waits and kind < 0.2:
            moment += random_.choice([0, 1, 9, 10, 100, 1000])
            yield b"clock %d" % moment
            continue
        session = random_.choice([0, 0, 1, 2, 63])
        if session in closed:
            continue
        if 0.2 <= kind < 0.28:
            closed.add(session)
            yield b"close %d" % session
            continue
        frame = random_.choice([requests.produce, requests.fetch])(random_, declared, waits)
        if random_.random() < 0.15:
            frame = requests.other(random_, declared)
        if random_.random() < 0.05:
            frame = requests.broken(random_, frame)
        if random_.random() < 0.2:
            frame += requests.fetch(random_, declared, waits)
        for piece in requests.cut(random_, frame):
            digits = piece.hex() if random_.random() < 0.9 else piece.hex().upper()
            yield b"bytes %d %s" % (session, digits.encode())


def text(random_, waits):
    """A trace."""
    declared = requests.topics(random_, with_followers=waits)
    lines = [requests.topic_line(random_, topic) for topic in declared]
    lines += events(random_, declared, waits)
    return b"\n".join(lines + [b"end"]) + (b"" if random_.random() < 0.1 else b"\n")


def spoiled(random_, whole):
    """A text in which a line is missing, doubled, moved or changed, or that is cut."""
    lines = whole.split(b"\n")
    for _ in range(random_.choice([1, 1, 2])):
        place = random_.randrange(len(lines))
        line = lines[place]
        kind = random_.randrange(9)
        if kind == 0:
            lines.pop(place)
        elif kind == 1:
            lines.insert(random_.randrange(len(lines) + 1), line)
        elif kind == 2:
            lines[place] = random_.choice([b"", b" " + line, line + b" ", line + b"\r", line.replace(b" ", b"  ", 1), b"stop"])
        elif kind == 3:
            # Mostly first, as behind lines of another kind any topic comes too late.
            lines[random_.choice([0, 0, place])] = random_.choice(BAD_TOPICS)
        elif kind == 4:
            lines[place] = random_.choice([b"bytes 64 00", b"bytes 0 0", b"bytes 0 0g", b"bytes 0", b"bytes x 00", b"bytes 0 00 00"])
        elif kind == 5:
            lines[place] = random_.choice([b"clock -1", b"clock 1000000000000001", b"clock 1000000000000000", b"clock", b"clock 0"])
        elif kind == 6:
            lines[place] = random_.choice([b"close 0", b"close 64", b"close", b"end", b"end 0", b"END"])
        elif kind == 7:
            at = random_.randrange(len(line) + 1)
            lines[place] = line[:at] + bytes([random_.randrange(256)]) + line[at:]
        else:
            lines = lines[:place + 1]
        if not lines:
            break
    return b"\n".join(lines)


def is_trace(text):
    try:
        traces.read(text)
    except traces.Bad:
        return False
    return True


def changed(random_):
    """A trace that comes of another by some changes."""
    while True:
        text = mutated.text(random_, made(random_.choice(["mixed", "waiting", "lagging"]), random_.randrange(2**32)))
        if is_trace(text):
            return text


def made(kind, seed):
    """The text of a kind: `plain`, whose requests mostly wait for nothing, `mixed`, in which all may come, `waiting`, in which what
    comes just meets or just misses what waits, `lagging`, in which followers leave the in-sync sets and come back, `crowded`, in which many
    sessions wait for the same, `changed`, which comes of one of these by changes and still is a trace, or `spoiled`."""
    random_ = random.Random(f"{kind} {seed}")
    if kind in ("plain", "mixed"):
        return text(random_, waits=kind == "mixed")
    if kind == "waiting":
        return waiting.Maker(random_).made()
    if kind == "lagging":
        return lagging.Maker(random_).made()
    if kind == "crowded":
        return crowded.Crowd(random_).made()
    if kind == "changed":
        return changed(random_)
    return spoiled(random_, text(random_, waits=random_.random() < 0.5))
