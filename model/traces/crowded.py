"""Random traces for threads: many sessions ask of few partitions at once, most of them waiting, and time goes on a little."""

from model.broker import wire
from model.traces import requests, waiting

WAITS = [0, 5, 20, 60, 1000]


class Crowd:
    def __init__(self, random_):
        self.random = random_
        self.declared = [requests.topic(random_, name, random_.choice([1, 1, 2]), random_.choice([0, 1, 1, 2]))
                         for name in random_.sample(requests.NAMES, random_.choice([1, 1, 2]))]
        self.sessions = random_.choice([3, 8, 16, 32, 64])
        self.closed, self.moment, self.correlation = set(), 0, 0

    def produce(self, name, indices):
        random_ = self.random
        parts = [(index, waiting.small_batch(random_)) for index in indices]
        return wire.produce_request(self.correlation, [(name, parts)], acks=random_.choice([-1, -1, 1, 0]), timeout=random_.choice(WAITS),
                                    version=random_.choice(wire.PRODUCE))

    def fetch(self, name, indices, replica):
        random_ = self.random
        parts = [(index, random_.choice([0, 0, 1, 1, 2, 3, 4, 5, 8]), 1 << 20) for index in indices]
        return wire.fetch_request(self.correlation, [(name, parts)], replica=replica, wait=random_.choice(WAITS),
                                  least=random_.choice([1, 1, 70, 140, 300]), most=random_.choice([1 << 20, 1 << 20, 140]),
                                  version=random_.choice(wire.FETCH))

    def request(self):
        random_ = self.random
        self.correlation += 1
        topic = random_.choice(self.declared)
        indices, kind = random_.sample(range(topic.partitions), random_.randint(1, topic.partitions)), random_.random()
        if kind < 0.4:
            return self.produce(topic.name, indices)
        return self.fetch(topic.name, indices, random_.randint(1, topic.followers) if kind < 0.7 and topic.followers else -1)

    def lines(self):
        """Lines of clocks, closes and bytes, mostly of bytes."""
        random_ = self.random
        for _ in range(random_.choice([40, 80, 150])):
            kind, session = random_.random(), random_.randrange(self.sessions)
            if kind < 0.06:
                self.moment += random_.choice([1, 5, 20, 50])
                yield b"clock %d" % self.moment
            elif session not in self.closed and kind < 0.08:
                self.closed.add(session)
                yield b"close %d" % session
            elif session not in self.closed:
                data = b"".join(self.request() for _ in range(random_.choice([1, 1, 2, 3])))
                for piece in requests.cut(random_, data) if random_.random() < 0.2 else [data]:
                    yield b"bytes %d %s" % (session, piece.hex().encode())

    def made(self):
        topics = [requests.topic_line(self.random, topic) for topic in self.declared]
        return b"\n".join([*topics, *self.lines(), b"end"]) + b"\n"
