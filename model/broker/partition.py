"""A partition, as the whole history of what happened to it. Whatever is asked of it is reckoned from the first entry on, each time anew."""

from dataclasses import dataclass, field

# For so many milliseconds a follower may lag: from then on it leaves the in-sync set.
MOST_LAG = 30_000


@dataclass(frozen=True)
class Appended:
    base: int
    count: int
    data: bytes


@dataclass(frozen=True)
class Fetched:
    """A follower fetched from an offset, at a moment."""
    replica: int
    offset: int
    moment: int


@dataclass(frozen=True)
class Left:
    """A follower was taken out of the in-sync set, at a moment."""
    replica: int
    moment: int


def end_of(history):
    return sum(entry.count for entry in history if isinstance(entry, Appended))


@dataclass
class Partition:
    followers: int
    history: list = field(default_factory=list)

    # ---- the log

    @property
    def batches(self):
        """Each as (base offset, count, bytes)."""
        return [(entry.base, entry.count, entry.data) for entry in self.history if isinstance(entry, Appended)]

    @property
    def log_end(self):
        return end_of(self.history)

    @property
    def bytes(self):
        return sum(len(data) for _, _, data in self.batches)

    @property
    def visible(self):
        return self.start_of(self.high)

    def start_of(self, offset):
        """The byte place of the first batch whose last offset is at least this one."""
        return sum(len(data) for base, count, data in self.batches if base + count <= offset)

    def take(self, start, upto, limit, force):
        """Whole batches from a byte place on, which end at or before `upto`, as many as fit; at least one where that is forced."""
        taken, place = [], 0
        for _, _, data in self.batches:
            end = place + len(data)
            if place >= start and end <= upto:
                if sum(map(len, taken)) + len(data) > limit and not (force and not taken):
                    break
                taken.append(data)
                if sum(map(len, taken)) > limit:
                    break
            place = end
        return b"".join(taken)

    # ---- the replicas

    @property
    def replicas(self):
        """The followers. The leader is replica 0, and always in sync."""
        return range(1, self.followers + 1)

    def fetches_of(self, replica):
        """Each as (offset, moment, log end as it came)."""
        return [(entry.offset, entry.moment, end_of(self.history[:place]))
                for place, entry in enumerate(self.history) if isinstance(entry, Fetched) and entry.replica == replica]

    def position(self, replica):
        return max((offset for offset, _, _ in self.fetches_of(replica)), default=0)

    def caught_up(self, replica):
        """The moment at which it had fetched all that there was. By a fetch that isn't from the log end it shows that it has what was
        there at the fetch before."""
        moments, fetches = [0], self.fetches_of(replica)
        for place, (offset, moment, log_end) in enumerate(fetches):
            if offset == log_end:
                moments.append(moment)
            elif place and offset >= fetches[place - 1][2]:
                moments.append(fetches[place - 1][1])
        return max(moments)

    def replay(self):
        """The followers in sync, and the high watermark. At first all are in sync. Who left comes back by a fetch from the high watermark,
        as it was before, or above it."""
        inside, positions, log_end = set(self.replicas), dict.fromkeys(self.replicas, 0), 0

        def high():
            return min([log_end] + [positions[replica] for replica in inside])
        for entry in self.history:
            if isinstance(entry, Appended):
                log_end += entry.count
            elif isinstance(entry, Left):
                inside.discard(entry.replica)
            else:
                if entry.offset >= high():
                    inside.add(entry.replica)
                positions[entry.replica] = max(positions[entry.replica], entry.offset)
        return inside, high()

    @property
    def in_sync(self):
        """The followers in sync."""
        return self.replay()[0]

    @property
    def high(self):
        return self.replay()[1]

    @property
    def insync(self):
        """How many replicas are in sync, the leader counted."""
        return 1 + len(self.in_sync)

    def lags(self, replica, moment):
        return replica in self.in_sync and self.position(replica) < self.log_end and self.caught_up(replica) + MOST_LAG <= moment

    def lagging(self, moment):
        """The followers that lag, the least first."""
        return [replica for replica in self.replicas if self.lags(replica, moment)]
