"""Random traces whose followers lag. A broker plays along, so that a clock comes to the millisecond at which one has lagged for too long,
or just beside it, and so that one that left comes back by its fetch, or just doesn't."""

from model.broker import traces
from model.broker.partition import MOST_LAG
from model.traces import requests, waiting

# How often each thing is done, beside the others.
OFTEN = {"ask": 4, "meet": 5, "pass_time": 4, "finish_piece": 1, "close": 0.5}


class Maker(waiting.Maker):
    def topics_declared(self):
        """Each with followers, and mostly with a least number in sync that some of them may fall short of."""
        random_ = self.random
        return [traces.Topic(name, random_.choice([1, 1, 2]), followers, random_.choice([1, 2, 2, followers + 1]))
                for name in random_.sample(requests.NAMES, random_.choice([1, 1, 2])) for followers in [random_.choice([1, 1, 2, 2, 3])]]

    def wait(self):
        """Mostly longer than a follower may lag, or just as long."""
        random_ = self.random
        return random_.choice([super().wait(), 0, 500, MOST_LAG - 1, MOST_LAG, MOST_LAG + 1, 45_000, 100_000, 100_000, 2**31 - 1])

    def offset_of(self, partition, replica):
        """Mostly the log end, or one by which a follower that left just comes back, or just doesn't."""
        near = self.random.choice([partition.log_end, partition.high, partition.high, partition.high - 1, partition.position(replica)])
        return min(partition.log_end, max(0, self.random.choice([super().offset_of(partition, replica), partition.log_end, near])))

    def due(self):
        """The moments at which followers have lagged for too long."""
        return [partition.caught_up(replica) + MOST_LAG for partition in self.broker.partitions for replica in partition.in_sync
                if partition.position(replica) < partition.log_end]

    def pass_time(self):
        random_, due = self.random, [moment for moment in self.due() if moment > self.broker.moment]
        if due and random_.random() < 0.6:
            moment = random_.choice(due) + random_.choice([-1, 0, 0, 0, 1])
        elif random_.random() < 0.4:
            moment = self.broker.moment + random_.choice([MOST_LAG - 1, MOST_LAG, MOST_LAG, MOST_LAG + 1, 15_000, 100_000])
        else:
            super().pass_time()
            return
        self.clock_line(min(traces.MOST_MOMENT, max(self.broker.moment, moment)))

    def made(self):
        random_ = self.random
        if random_.random() < 0.05:
            self.clock_line(traces.MOST_MOMENT - random_.choice([0, 1, MOST_LAG - 1, MOST_LAG, 100_000]))
        for _ in range(random_.randint(6, 30)):
            getattr(self, random_.choices(list(OFTEN), list(OFTEN.values()))[0])()
        return b"\n".join(self.lines + [b"end"]) + b"\n"
