"""A broker on one thread that scans an unordered list of waiting requests after every line. It is slow and plain on purpose."""

from dataclasses import dataclass

from model.broker import batches, wire
from model.broker.partition import Appended, Fetched, Left, Partition

PORT = 9092
LOG_LIMIT = 67_108_864
REPLY_LIMIT = 52_428_800
# The codes of a full log: NOT_LEADER_OR_FOLLOWER, and from this version of Produce on KAFKA_STORAGE_ERROR.
FULL, WITH_STORAGE_ERROR = (6, 56), 4
# The codes of a produce for all replicas where too few are in sync: NOT_ENOUGH_REPLICAS, where for that reason nothing is appended, and
# NOT_ENOUGH_REPLICAS_AFTER_APPEND.
TOO_FEW, TOO_FEW_AFTER = 19, 20


@dataclass
class Part:
    """What became of a named partition."""
    topic: bytes
    index: int
    code: int = 0
    number: int = -1
    base: int = -1
    count: int = 0
    start: int = 0
    most: int = 0


@dataclass
class Budget:
    """The bytes that a reply may still take. The first batch of a reply is taken whatever its size."""
    left: int
    has_taken: bool = False

    def take(self, count):
        self.left, self.has_taken = max(0, self.left - count), self.has_taken or count > 0


@dataclass
class Waiting:
    session: int
    request: wire.Request
    parts: list
    deadline: int


@dataclass
class Session:
    inbox: bytes = b""
    is_shut: bool = False
    is_named: bool = False
    end: str = None
    calls: int = 0
    replies: int = 0


class Broker:
    def __init__(self, topics, port=PORT):
        self.topics, self.port = topics, port
        self.partitions = [Partition(topic.followers) for topic in topics for _ in range(topic.partitions)]
        self.sessions = [Session() for _ in range(64)]
        self.waiting = []
        self.moment = 0
        self.out = []

    def number_of(self, name, index):
        before = 0
        for topic in self.topics:
            if topic.name == name:
                return before + index if 0 <= index < topic.partitions else None
            before += topic.partitions
        return None

    def place_of(self, number):
        """The topic and the index of a partition."""
        return [(topic.name, index) for topic in self.topics for index in range(topic.partitions)][number]

    # ---- accepting

    def append(self, request, topic, index, data):
        number, data, fields = self.number_of(topic, index), data or b"", request.fields
        if fields["transactional"] is not None:
            return Part(topic, index, 42)
        if number is None:
            return Part(topic, index, 3)
        if fields["acks"] not in (-1, 0, 1):
            return Part(topic, index, 21)
        code = batches.fault_code(data)
        if code is not None:
            return Part(topic, index, code)
        partition = self.partitions[number]
        if fields["acks"] == -1 and partition.insync < self.least_in_sync(number):
            return Part(topic, index, TOO_FEW)
        if partition.bytes + len(data) > LOG_LIMIT:
            return Part(topic, index, FULL[request.version >= WITH_STORAGE_ERROR])
        base, count = partition.log_end, batches.count_of(data)
        partition.history.append(Appended(base, count, batches.stamped(data, base)))
        return Part(topic, index, 0, number, base, count)

    def look(self, request, topic, index, offset, most, _):
        number, replica = self.number_of(topic, index), request.fields["replica"]
        if number is None:
            return Part(topic, index, 3)
        partition = self.partitions[number]
        if replica >= 0 and not 1 <= replica <= partition.followers:
            return Part(topic, index, 9)
        if not 0 <= offset <= partition.log_end:
            return Part(topic, index, 1)
        if replica >= 0:
            self.fetched(number, replica, offset)
        return Part(topic, index, 0, number, start=partition.start_of(offset), most=max(0, most))

    # ---- the in-sync sets

    def least_in_sync(self, number):
        """The least number of replicas in sync of the partition's topic, the leader counted."""
        return [topic.min_insync for topic in self.topics for _ in range(topic.partitions)][number]

    def fetched(self, number, replica, offset):
        self.partitions[number].history.append(Fetched(replica, offset, self.moment))

    def leave(self, number, replica):
        self.partitions[number].history.append(Left(replica, self.moment))

    def tick(self, moment):
        """Where the clock goes on, each follower that lags leaves."""
        if moment <= self.moment:
            return
        self.moment = moment
        for number, partition in enumerate(self.partitions):
            for replica in partition.lagging(moment):
                self.leave(number, replica)

    # ---- waiting

    def is_satisfied(self, request, parts):
        fields = request.fields
        if request.key == 0:
            return all(self.partitions[part.number].high >= part.base + part.count for part in parts if part.code == 0)
        gauge = "visible" if fields["replica"] < 0 else "bytes"
        counts = [min(part.most, max(0, getattr(self.partitions[part.number], gauge) - part.start)) for part in parts]
        return sum(counts) >= min(max(0, fields["min"]), limit_of(fields))

    def must_wait(self, request, parts):
        fields = request.fields
        if request.key == 0:
            return fields["acks"] == -1 and any(part.code == 0 for part in parts) and not self.is_satisfied(request, parts)
        if request.key == 1:
            is_whole = parts and all(part.code == 0 for part in parts)
            return fields["wait"] > 0 and is_whole and not self.is_satisfied(request, parts)
        return False

    # ---- answering

    def answer(self, request, parts):
        by_topic = iter(parts)
        told = [(name, [next(by_topic) for _ in named]) for name, named in request.fields.get("topics", [])]
        if request.key == 0:
            topics = [(name, [self.told_produced(request, part) for part in named]) for name, named in told]
            return wire.produced(request.correlation, topics, request.version)
        if request.key == 1:
            budget = Budget(limit_of(request.fields))
            topics = [(name, [self.told_fetched(request, part, budget) for part in named]) for name, named in told]
            return wire.fetched(request.correlation, request.fields["isolation"], topics, request.version)
        if request.key == 3:
            return wire.metadata(request.correlation, self.port, self.described(request.fields["names"]))
        return wire.versions(request.correlation, 0 if request.version == 0 else 35)

    def told_produced(self, request, part):
        code = part.code
        if code == 0 and request.fields["acks"] == -1:
            code = self.code_for_all(part)
        return part.index, code, part.base, log_start_of(part)

    def code_for_all(self, part):
        """What a produce for all replicas is told of a partition to which it was appended."""
        if self.partitions[part.number].high < part.base + part.count:
            return 7
        return TOO_FEW_AFTER if self.partitions[part.number].insync < self.least_in_sync(part.number) else 0

    def told_fetched(self, request, part, budget):
        if part.code != 0:
            return part.index, part.code, -1, log_start_of(part), b""
        partition = self.partitions[part.number]
        upto = partition.visible if request.fields["replica"] < 0 else partition.bytes
        data = partition.take(part.start, upto, min(part.most, budget.left), not budget.has_taken)
        budget.take(len(data))
        return part.index, 0, partition.high, log_start_of(part), data

    def described(self, names):
        if names is None:
            return [(0, topic.name, topic.partitions, topic.followers) for topic in self.topics]
        known = {topic.name: (0, topic.name, topic.partitions, topic.followers) for topic in self.topics}
        return [known.get(name, (3, name, 0, 0)) for name in names]

    def reply(self, number, request, parts):
        self.sessions[number].replies += 1
        self.out.append(b"reply %d %s\n" % (number, self.answer(request, parts).hex().encode()))

    # ---- sessions

    def finish(self, number, end):
        self.sessions[number].end = end
        self.out.append(b"end %d %s\n" % (number, end.encode()))

    def can_act(self, number):
        session = self.sessions[number]
        if session.end is not None or any(waiting.session == number for waiting in self.waiting):
            return False
        return wire.next_frame(session.inbox)[0] != "not yet" or session.is_shut

    def act(self, number):
        session = self.sessions[number]
        kind, what = wire.next_frame(session.inbox)
        if kind == "too long":
            self.finish(number, f"too-long {what}")
        elif kind == "not yet":
            self.finish(number, f"truncated {len(session.inbox)}" if session.inbox else "closed")
        else:
            try:
                request = wire.read_request(what)
            except wire.Refused as refused:
                self.finish(number, f"refused {refused}")
                return
            session.inbox = session.inbox[4 + len(what):]
            session.calls += 1
            self.handle(number, request)

    def handle(self, number, request):
        fields = request.fields
        take = self.append if request.key == 0 else self.look
        parts = [take(request, name, *part) for name, named in fields.get("topics", []) for part in named]
        if self.must_wait(request, parts):
            wait = fields["timeout"] if request.key == 0 else fields["wait"]
            self.waiting.append(Waiting(number, request, parts, self.moment + max(0, wait)))
        elif not (request.key == 0 and fields["acks"] == 0):
            self.reply(number, request, parts)

    # ---- lines

    def scan(self):
        for waiting in sorted(self.waiting, key=lambda waiting: waiting.session):
            if self.is_satisfied(waiting.request, waiting.parts) or waiting.deadline <= self.moment:
                self.waiting.remove(waiting)
                self.reply(waiting.session, waiting.request, waiting.parts)

    def line(self, kind, what):
        if kind == "bytes":
            number, data = what
            session = self.sessions[number]
            session.is_named = True
            if session.end is None:
                session.inbox += data
        elif kind == "close":
            self.sessions[what].is_named = self.sessions[what].is_shut = True
        elif kind == "clock":
            self.tick(what)
        while True:
            self.scan()
            number = next((number for number in range(64) if self.can_act(number)), None)
            if number is None:
                return
            self.act(number)

    def summary(self):
        for number, partition in enumerate(self.partitions):
            self.out.append(b"part %d end %d high %d batches %d bytes %d\n"
                            % (number, partition.log_end, partition.high, len(partition.batches), partition.bytes))
        for number, session in enumerate(self.sessions):
            if session.is_named:
                is_parked = any(waiting.session == number for waiting in self.waiting)
                self.out.append(b"session %d calls %d replies %d parked %d\n" % (number, session.calls, session.replies, is_parked))
        self.out.append(b"done\n")


def log_start_of(part):
    """Nothing is taken off a log, so one that was asked starts at 0."""
    return 0 if part.code == 0 else wire.NO_LOG_START


def limit_of(fields):
    return min(max(0, fields["max"]), REPLY_LIMIT)


def play(lines):
    """All that the replay of these lines prints."""
    broker = Broker([what for kind, what in lines if kind == "topic"])
    for kind, what in lines:
        broker.line(kind, what)
    broker.summary()
    return b"".join(broker.out)
