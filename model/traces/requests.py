"""Random topics, batches and requests, mostly right ones, and frames that are cut or broken."""

import struct

from model.broker import batches, traces, wire

NAMES = [b"t", b"u", b"orders", b"a.b_c-9"]
UNKNOWN = b"nowhere"
# Where a fetch may say that its log starts.
STARTS = [-1, -1, 0, 3, -2, 2**63 - 1, -2**63]


def topic(random_, name, partitions, followers):
    """Mostly with the least number in sync that goes without saying."""
    return traces.Topic(name, partitions, followers, random_.randint(1, followers + 1) if random_.random() < 0.3 else 1)


def topics(random_, with_followers):
    return [
        topic(random_, name, random_.randint(1, 3), random_.randint(0, 2) if with_followers else 0)
        for name in random_.sample(NAMES, random_.randint(1, 3))
    ]


def topic_line(random_, declared):
    """As it is printed, or with a least number of 1, which need not be said."""
    is_said = declared.min_insync == 1 and random_.random() < 0.2
    return b"topic " + declared.words + (b" 1" if is_said else b"")


def some_batch(random_):
    """Mostly a batch, and sometimes one with a fault."""
    texts = [bytes(random_.choices(b"abcxyz", k=random_.choice([0, 1, 5, 70]))) for _ in range(random_.choice([1, 1, 1, 2, 5]))]
    key = random_.choice([None, b"", b"key"])
    headers = random_.choice([(), ((b"h", b"1"),), ((b"", None), (b"x", b""))])
    rows = [batches.record(offset, text, key, headers, random_.choice([0, 1, -1, 300])) for offset, text in enumerate(texts)]
    data = batches.batch(rows, attributes=random_.choice([0, 0, 8, 64]), base=random_.choice([0, 7]), producer=random_.choice([-1, 5]))
    fault = random_.randrange(14)
    if fault == 0:
        return batches.batch(rows, attributes=random_.choice([1, 4, 16, 32, 48]))
    if fault == 1:
        return batches.batch(rows, magic=random_.choice([0, 1, 3]))
    if fault == 2:
        return batches.batch(rows, count=random_.choice([0, len(rows) + 1]), last=random_.choice([0, len(rows) - 1, len(rows)]))
    if fault == 3:
        return data[:random_.randrange(len(data))]
    if fault == 4:
        place = random_.randrange(len(data))
        return data[:place] + bytes([data[place] ^ random_.randrange(1, 256)]) + data[place + 1:]
    if fault == 5:
        return random_.choice([None, b"", data + data, data + b"\0"])
    if fault == 6:
        # a byte of the records is another, and the checksum is right
        place = random_.randrange(61, len(data))
        rows = [data[61:place] + bytes([random_.randrange(256)]) + data[place + 1:]]
        return batches.batch(rows, count=len(texts))
    return data


def named(random_, declared, part):
    """One or more topics with partitions, mostly known ones, and no partition twice."""
    told = []
    for known in random_.sample(declared, random_.randint(1, len(declared))):
        indices = random_.sample(range(-1, known.partitions + 1), random_.randint(0, min(3, known.partitions + 2)))
        indices = [index for index in indices if 0 <= index < known.partitions or random_.random() < 0.2]
        told.append((known.name, [(index, *part()) for index in indices]))
    if random_.random() < 0.15:
        told.append((UNKNOWN, [(0, *part())]))
    return told


def no_version(random_, taken):
    """One that isn't taken, mostly just below those that are, or just above."""
    return random_.choice([taken[0] - 1, taken[-1] + 1, taken[0] - 1, taken[-1] + 1, -1, 2**15 - 1])


def in_version(frame, version):
    """The frame with another version in its header, whatever its layout."""
    return frame[:6] + struct.pack(">h", version) + frame[8:]


def produce(random_, declared, waits):
    return wire.produce_request(
        random_.randrange(100),
        named(random_, declared, lambda: (some_batch(random_),)),
        acks=random_.choice([-1, -1, 1, 0, 2] if waits else [-1, 0, 1, 1, 2]),
        timeout=random_.choice([-1, 0, 1, 10, 1000]),
        transactional=b"x" if random_.random() < 0.05 else None,
        version=random_.choice(wire.PRODUCE),
    )


def fetch(random_, declared, waits):
    return wire.fetch_request(
        random_.randrange(100),
        named(random_, declared, lambda: (
            random_.choice([0, 0, 1, 2, 3, 5, -1, 1000]), random_.choice([0, -1, 60, 69, 100, 200, 1 << 20]), random_.choice(STARTS))),
        replica=random_.choice([-1, -1, 1, 2, 0, 9] if waits else [-1, -1, -2, 0, 1]),
        wait=random_.choice([0, 1, 10, 100, 1000] if waits else [0, 0, -1]),
        least=random_.choice([0, 1, 1, 70, 200, -5]),
        most=random_.choice([0, -1, 69, 150, 1 << 20, 1 << 30]),
        isolation=random_.choice([0, 1]),
        version=random_.choice(wire.FETCH),
    )


def other(random_, declared):
    """A request of another api, or a body that is none."""
    names = random_.choice([None, [], [declared[0].name], [UNKNOWN, declared[-1].name, declared[-1].name]])
    index = random_.choice([0, 1])
    return random_.choice([
        wire.metadata_request(3, names),
        wire.versions_request(4),
        wire.versions_request(5, version=random_.choice([1, 3, -1]), rest=b"\2k\2"),
        wire.frame(wire.header(random_.choice([2, 4, 19, -1]), 0, 1)),
        wire.produce_request(6, [(b"t", [(index, b"")]), (b"t", [(index, b"")])]),
        wire.fetch_request(7, [(b"t", [(part, 0, 1) for part in range(random_.choice([64, 65]))])], version=random_.choice(wire.FETCH), wait=0),
        wire.fetch_request(8, [], isolation=random_.choice([0, 2, -1]), version=random_.choice(wire.FETCH), wait=0),
        in_version(produce(random_, declared, waits=False), no_version(random_, wire.PRODUCE)),
        in_version(fetch(random_, declared, waits=False), random_.choice([*wire.FETCH, no_version(random_, wire.FETCH)])),
        wire.frame(b""),
    ])


def broken(random_, frame):
    """A byte of a frame is another, or the frame is cut, or its size is one that no frame has."""
    if random_.random() < 0.2:
        return struct.pack(">i", random_.choice([-1, -2 ** 31, 2 ** 31 - 1, 8_388_609, 8_388_608])) + frame[4:]
    if random_.random() < 0.3:
        return frame[:random_.randrange(len(frame))]
    place = random_.randrange(len(frame))
    return frame[:place] + bytes([random_.randrange(256)]) + frame[place + 1:]


def cut(random_, data):
    """The bytes in pieces, mostly in one."""
    while data:
        size = len(data) if random_.random() < 0.6 else random_.randint(1, len(data))
        yield data[:size]
        data = data[size:]
