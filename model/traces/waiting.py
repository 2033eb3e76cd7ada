"""Random traces whose requests wait. A broker plays along while a trace is made, so that what comes next can just meet what waits,
or just miss it: a deadline to the millisecond, a least sum to the byte, a follower's offset, several requests in one line."""

from model.broker import batches, broker, traces, wire
from model.traces import requests

TEXTS = [b"a", b"a", b"bc", b"", b"xyz" * 20]
SESSIONS = [0, 0, 1, 1, 2, 3, 5, 62, 63]


def small_batch(random_):
    """A batch of few sizes, so that sums of sizes are met exactly."""
    count = random_.choice([1, 1, 1, 2, 3])
    text = random_.choice(TEXTS)
    return batches.batch([batches.record(offset, text) for offset in range(count)])


class Maker:
    def __init__(self, random_):
        self.random = random_
        self.declared = self.topics_declared()
        self.broker = broker.Broker(self.declared)
        self.lines = [requests.topic_line(random_, topic) for topic in self.declared]
        self.closed = set()
        self.correlation = 0
        # pieces of frames that are still to come, by session
        self.pieces = {}

    def topics_declared(self):
        random_ = self.random
        return [requests.topic(random_, name, random_.choice([1, 1, 2, 3]), random_.choice([0, 1, 1, 2, 3]))
                for name in random_.sample(requests.NAMES, random_.choice([1, 1, 2, 3]))]

    # ---- lines

    def bytes_line(self, session, data):
        digits = data.hex() if self.random.random() < 0.95 else data.hex().upper()
        self.lines.append(b"bytes %d %s" % (session, digits.encode()))
        self.broker.line("bytes", (session, data))

    def close_line(self, session):
        self.closed.add(session)
        self.pieces.pop(session, None)
        self.lines.append(b"close %d" % session)
        self.broker.line("close", session)

    def clock_line(self, moment):
        self.lines.append(b"clock %d" % moment)
        self.broker.line("clock", moment)

    def send(self, session, data):
        """The bytes in one line, or in pieces of which the later ones come after other lines."""
        data = self.pieces.pop(session, b"") + data
        if self.random.random() < 0.15 and len(data) > 1:
            at = self.random.randrange(1, len(data))
            data, self.pieces[session] = data[:at], data[at:]
        self.bytes_line(session, data)

    # ---- what is asked

    def part(self):
        """A known partition: its topic, its number there and the broker's own state of it."""
        topic = self.random.choice(self.declared)
        index = self.random.randrange(topic.partitions)
        return topic.name, index, self.broker.partitions[self.broker.number_of(topic.name, index)]

    def parts(self):
        """One to four different ones, most often one."""
        chosen = {}
        for _ in range(self.random.choice([1, 1, 1, 2, 2, 3, 4])):
            name, index, partition = self.part()
            chosen[name, index] = partition
        return chosen

    def topics(self, parts):
        """(name, index) and fields, gathered by topic; now and then with a partition that isn't there."""
        told = {}
        for (name, index), fields in parts:
            told.setdefault(name, []).append((index, *fields))
        topics = list(told.items()) if self.random.random() < 0.98 else []
        if self.random.random() < 0.06:
            topics.append((requests.UNKNOWN, [(0, *parts[0][1])]))
        return topics

    def wait(self):
        """Often one that ends when another's does, or a millisecond beside it."""
        random_ = self.random
        deadlines = [waiting.deadline - self.broker.moment for waiting in self.broker.waiting]
        if deadlines and random_.random() < 0.4:
            return min(2 ** 31 - 1, max(0, random_.choice(deadlines) + random_.choice([-1, 0, 0, 1])))
        return random_.choice([1, 2, 10, 100, 500, 500, 500, 1000, 30000, 2 ** 31 - 1, 0, -5])

    def produce(self):
        random_ = self.random
        self.correlation += 1
        parts = [(key, (small_batch(random_) if random_.random() < 0.9 else requests.some_batch(random_),)) for key in self.parts()]
        return wire.produce_request(
            self.correlation, self.topics(parts), acks=random_.choice([-1, -1, -1, -1, 1, 1, 1, 0, 2]), timeout=self.wait(),
            transactional=b"x" if random_.random() < 0.02 else None, version=random_.choice(wire.PRODUCE))

    def least(self, parts, replica):
        """A least sum that is met now, or that a batch or two more would just meet, or just miss."""
        random_ = self.random
        gauge = "visible" if replica < 0 else "bytes"
        have = sum(min(max(0, most), max(0, getattr(self.broker.partitions[self.broker.number_of(*key)], gauge)
                                         - self.broker.partitions[self.broker.number_of(*key)].start_of(offset)))
                   for key, (offset, most, _) in parts)
        return have + random_.choice([0, 1, 1, 1, 1, 69, 69, 70, 68, 138, 139, 85, 207]) if random_.random() < 0.8 else 1

    def fetch(self, replica):
        random_ = self.random
        self.correlation += 1
        parts = []
        for key, partition in self.parts().items():
            position = partition.position(replica)
            offset = random_.choice([partition.log_end] * 4 + [partition.high, position, 0, max(0, partition.log_end - 1),
                                                              partition.log_end + (random_.random() < 0.1)])
            most = random_.choice([1 << 20, 1 << 20, 1 << 20, 69, 70, 68, 10, 0, 138])
            parts.append((key, (offset, most, random_.choice(requests.STARTS))))
        return wire.fetch_request(
            self.correlation, self.topics(parts), replica=replica, wait=self.wait(), least=self.least(parts, replica),
            most=random_.choice([1 << 20, 1 << 20, 1 << 30, 69, 68, 138, 0]), isolation=random_.choice([0, 0, 1]),
            version=random_.choice(wire.FETCH))

    def request(self):
        random_ = self.random
        kind = random_.random()
        if kind < 0.35:
            return self.produce()
        if kind < 0.7:
            return self.fetch(random_.choice([1, 1, 1, 2, 2, 3, 4, 0]))
        if kind < 0.96:
            return self.fetch(random_.choice([-1, -1, -1, -2]))
        return requests.other(random_, self.declared)

    # ---- what happens

    def ask(self):
        """One request or several of a session, mostly of one that waits for nothing."""
        random_ = self.random
        busy = {waiting.session for waiting in self.broker.waiting}
        ready = [session for session in SESSIONS if session not in self.closed and (session not in busy or random_.random() < 0.15)]
        if not ready:
            return
        session = random_.choice(ready)
        data = b"".join(self.request() for _ in range(random_.choice([1, 1, 1, 1, 2, 3])))
        if random_.random() < 0.02:
            data = requests.broken(random_, data) or data
        self.send(session, data)

    def catch_up(self, name, index):
        """A follower fetches from the log end on, or from before it."""
        partition = self.broker.partitions[self.broker.number_of(name, index)]
        if partition.followers == 0:
            return None
        self.correlation += 1
        replica = self.random.randint(1, partition.followers)
        offset = self.offset_of(partition, replica)
        return wire.fetch_request(
            self.correlation, [(name, [(index, offset, 1 << 20)])], replica=replica, wait=self.random.choice([0, 1, 100, 500]),
            version=self.random.choice(wire.FETCH))

    def offset_of(self, partition, replica):
        """From where a follower fetches next."""
        back = self.random.choice([0, 0, 0, 1, 1, 2, self.random.randint(0, partition.log_end)])
        return max(0, partition.log_end - back)

    def add_to(self, name, index):
        """A batch is produced that waits for nobody."""
        self.correlation += 1
        return wire.produce_request(self.correlation, [(name, [(index, small_batch(self.random))])], acks=self.random.choice([1, 1, 0, -1]),
                                    version=self.random.choice(wire.PRODUCE))

    def meet(self):
        """What a request that waits needs, or another partition: a follower's fetch, or a produce."""
        random_ = self.random
        free = [session for session in (4, 40, 60, 61) if session not in self.closed
                and not any(waiting.session == session for waiting in self.broker.waiting)]
        if not free:
            return
        wanted = [(waiting.request.key, name, index) for waiting in self.broker.waiting
                  for name, parts in waiting.request.fields["topics"] for index, *_ in parts]
        wanted = [(key, name, index) for key, name, index in wanted if self.broker.number_of(name, index) is not None]
        key, name, index = random_.choice(wanted) if wanted and random_.random() < 0.8 else (random_.randrange(2), *self.part()[:2])
        data = self.catch_up(name, index) if key == 0 or random_.random() < 0.4 else self.add_to(name, index)
        if data is not None:
            self.send(random_.choice(free), data)

    def pass_time(self):
        """Often to the millisecond of a deadline, or beside it."""
        random_ = self.random
        deadlines = [waiting.deadline for waiting in self.broker.waiting]
        if deadlines and random_.random() < 0.8:
            moment = random_.choice([min(deadlines), min(deadlines), random_.choice(deadlines)]) + random_.choice([-1, -1, 0, 0, 0, 1])
        else:
            moment = self.broker.moment + random_.choice([0, 1, 10, 1000])
        self.clock_line(min(traces.MOST_MOMENT, max(self.broker.moment, moment)))
        if random_.random() < 0.3 and 59 not in self.closed:
            # What a later line prints stands behind this, so that it shows what was due before.
            self.bytes_line(59, wire.versions_request(len(self.lines)))

    def finish_piece(self):
        if self.pieces:
            session = self.random.choice(sorted(self.pieces))
            self.bytes_line(session, self.pieces.pop(session))

    def close(self):
        open_ = [session for session in set(SESSIONS) | {4, 40, 59, 60, 61} if session not in self.closed and self.broker.sessions[session].is_named]
        if open_:
            self.close_line(self.random.choice(sorted(open_)))

    def made(self):
        random_ = self.random
        if random_.random() < 0.05:
            self.clock_line(traces.MOST_MOMENT - random_.choice([0, 0, 1, 10, 1000]))
        for _ in range(random_.randint(3, 24)):
            kind = random_.random()
            if kind < 0.4:
                self.ask()
            elif kind < 0.7:
                self.meet()
            elif kind < 0.82:
                self.pass_time()
            elif kind < 0.94:
                self.finish_piece()
            else:
                self.close()
        if random_.random() < 0.1:
            self.clock_line(traces.MOST_MOMENT)
        return b"\n".join(self.lines + [b"end"]) + (b"" if random_.random() < 0.1 else b"\n")
