"""What connections beside each other were answered, held against the logs as they are at the end. A log only grows, so each state that a
partition had is a front of it. A reply has to be that of the model's broker for such states; those of one connection never go back, and
those of a connection never stand before those of another that was over when it began. It is for topics without followers."""

import collections

from model.broker import batches, broker, wire
from model.broker.partition import Appended
from model.traces.talks import is_quiet


class Wrong(Exception):
    pass


def need(holds, what):
    if not holds:
        raise Wrong(what)


def kept_of(data):
    """What stays of a batch when it is stored."""
    return data[8:12] + data[16:]


def told_by(reply, request):
    """What the reply to a produce or to a fetch tells of each partition, in order."""
    reader = wire.Reader(reply[8:])
    if request.key == 1:
        reader.number(">i")
    return [_part(reader, request) for _ in range(reader.number(">i")) for _ in range(_named(reader))]


def _named(reader):
    reader.string()
    return reader.number(">i")


def _part(reader, request):
    """The code, and the base offset or the high watermark."""
    _, code, place, _ = reader.number(">i"), reader.number(">h"), reader.number(">q"), reader.number(">q")
    if request.version >= wire.WITH_LOG_START:
        reader.number(">q")
    if request.key == 1:
        _ = reader.number(">i"), reader.records()
    return code, place


class Seen:
    """The logs at the end, as lists of (base offset, count, bytes)."""

    def __init__(self, topics, port, logs):
        self.topics, self.port, self.logs = topics, port, logs
        # by partition: the base offsets that replies told, and how many batches came without a reply, by their bytes
        self.told = [set() for _ in logs]
        self.quiet = [collections.Counter() for _ in logs]

    def broker_at(self, ends):
        """The broker as it was when the logs had these ends."""
        made = broker.Broker(self.topics, self.port)
        for partition, log, end in zip(made.partitions, self.logs, ends):
            partition.history = [Appended(*batch) for batch in log if batch[0] + batch[1] <= end]
        return made

    def check(self, requests, replies, floors):
        """Checks the replies of a connection that began when the logs had at least these ends. Gives those that they had at its end."""
        floors, left = list(floors), iter(replies)
        for request in requests:
            reply = None if is_quiet(request) else next(left, None)
            need(is_quiet(request) or reply is not None, f"a request of api {request.key} has no reply")
            if request.key == 0:
                self._produce(request, reply, floors)
            elif request.key == 1:
                self._fetch(request, reply, floors)
            else:
                need(reply == self.broker_at(floors).answer(request, []), "a reply that needs no log is another")
        need(next(left, None) is None, "a reply more than there are requests")
        return floors

    def _produce(self, request, reply, floors):
        fresh = broker.Broker(self.topics, self.port)
        named = [(name, *part) for name, parts in request.fields["topics"] for part in parts]
        parts = [fresh.append(request, *each) for each in named]
        told = [(part.code, -1) for part in parts] if reply is None else told_by(reply, request)
        need(len(told) == len(parts), "a produce's reply names other partitions")
        for part, each, (_, base) in zip(parts, named, told):
            if part.code == 0:
                self._appended(part, each[2], None if reply is None else base, floors)
        if reply is not None:
            answer = wire.produced(request.correlation, self._grouped(request, parts), request.version)
            need(reply == answer, f"a produce's reply should be {answer.hex()}")

    def _appended(self, part, data, base, floors):
        if base is None:
            self.quiet[part.number][kept_of(data)] += 1
            floors[part.number] += part.count
            return
        need(base >= floors[part.number], f"base offset {base} of partition {part.number} is one from before")
        need((base, part.count, batches.stamped(data, base)) in self.logs[part.number], f"at base offset {base} stands another batch")
        need(base not in self.told[part.number], f"base offset {base} of partition {part.number} is told twice")
        self.told[part.number].add(base)
        part.base, floors[part.number] = base, base + part.count

    @staticmethod
    def _grouped(request, parts):
        left = iter(parts)
        return [
            (name, [(index, part.code, part.base, broker.log_start_of(part)) for (index, _), part in zip(named, left)])
            for name, named in request.fields["topics"]
        ]

    def _fetch(self, request, reply, floors):
        named = [(name, *part) for name, parts in request.fields["topics"] for part in parts]
        told, ends = told_by(reply, request), list(floors)
        need(len(told) == len(named), "a fetch's reply names other partitions")
        for (name, index, *_), (code, high) in zip(named, told):
            number = broker.Broker(self.topics, self.port).number_of(name, index)
            if number is not None and code == 0:
                need(high >= floors[number], f"high watermark {high} of partition {number} is one from before")
                need(high == 0 or high in [base + count for base, count, _ in self.logs[number]], f"no batch ends at {high}")
                ends[number] = high
        shown = self.broker_at(ends)
        answer = shown.answer(request, [shown.look(request, *each) for each in named])
        need(reply == answer, f"a fetch's reply should be {answer.hex()}")
        floors[:] = ends

    def check_all(self, rude):
        """Each batch in the logs was told, or came without a reply, or from a client that went away. `rude` are the requests of those."""
        maybe = self._sent_by(rude)
        for number, log in enumerate(self.logs):
            rest = collections.Counter(kept_of(data) for base, _, data in log if base not in self.told[number])
            need(not self.quiet[number] - rest, f"a batch without a reply isn't in the log of partition {number}")
            need(not rest - self.quiet[number] - maybe[number], f"a batch that nobody sent is in the log of partition {number}")

    def _sent_by(self, rude):
        sent = [collections.Counter() for _ in self.logs]
        for request in rude:
            for name, parts in request.fields.get("topics", []) if request.key == 0 else []:
                for part in parts:
                    became = broker.Broker(self.topics, self.port).append(request, name, *part)
                    if became.code == 0:
                        sent[became.number][kept_of(part[1])] += 1
        return sent


def logs_in(records):
    """The batches of a log, of which these are the bytes."""
    log, place = [], 0
    while place < len(records):
        size = 12 + int.from_bytes(records[place + 8:place + 12], "big")
        data = records[place:place + size]
        need(batches.fault_code(data) is None, f"what stands at byte {place} of a log is no batch")
        base = int.from_bytes(data[:8], "big")
        need(base == (log[-1][0] + log[-1][1] if log else 0), f"a batch of base offset {base} stands behind one that ends elsewhere")
        log.append((base, batches.count_of(data), data))
        place += size
    return log

