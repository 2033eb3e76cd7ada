"""The definitions of the parts, transcribed line by line: partitions, operations, what becomes of a request and what answers it.

How they are transcribed stands in `play.py`, which goes on from these.
"""

from functools import lru_cache
from typing import Any

from model.broker import batches as records, wire
from model.definitions import replicas
from model.definitions.requests import (
    Fetch, filter_map, flat_map, followers_of, Metadata, min_insync_at, minus, part_of, Produce, record, slice_get,
)

# ==== opcond/specs/Operation.antt


@record
class Need:
    gauge: int
    start: int
    cap: int


@record
class Operation:
    needs: tuple
    least: int
    deadline: int


def IsValid(op):
    return (len(op.needs) <= 64
            and len({need.gauge for need in op.needs}) == len(op.needs)
            and all(need.cap < 2 ** 31 for need in op.needs)
            and op.least < 2 ** 31)


# ==== opcond/specs/Tally.antt


def counted(need, value):
    return min(need.cap, minus(value, need.start))


def tally(needs, values):
    return sum(counted(need, value) for need, value in zip(needs, values))


def IsSatisfied(op, values):
    return op.least <= tally(op.needs, values)


def IsOverdue(op, moment):
    return op.deadline <= moment


def IsAnswerable(op, values, moment):
    return IsSatisfied(op, values) or IsOverdue(op, moment)


# ==== opcond/specs/Rising.antt


def HaveRisen(before, after):
    return len(before) == len(after) and all(a <= b for a, b in zip(before, after))


# ==== partlog/specs/History.antt, and the entries of histories


@record
class Append:
    by: int
    seq: int
    count: int
    len: int


@record
class Follow:
    by: int
    seq: int
    replica: int
    offset: int
    t: int


@record
class Shrink:
    by: int
    replica: int
    t: int


@record
class Look:
    by: int
    seq: int


@record
class Tick:
    t: int


@record
class ClockLook:
    by: int
    seq: int


@record
class History:
    log: bytes
    followers: int
    events: tuple


# ==== partlog/specs/Added.antt


def added_count(event):
    return event.count if isinstance(event, Append) else 0


def added_bytes(event):
    return event.len if isinstance(event, Append) else 0


def log_end_of(events):
    return sum(map(added_count, events))


def bytes_of(events):
    return sum(map(added_bytes, events))


# ==== partlog/specs/Batches.antt


@record
class StoredBatch:
    base: int
    count: int
    bytes: bytes


def next_offset(b):
    return b.base + b.count


def batches_after(before, events, log):
    made = []
    for event in events:
        if isinstance(event, Append):
            made.append(StoredBatch(log_end_of(before), event.count, log[:event.len]))
            log = log[event.len:]
        before += (event,)
    return tuple(made)


def batches_of(events, log):
    return batches_after((), events, log)


# ==== partlog/specs/Replicas.antt


def replica_event(event):
    if isinstance(event, Append):
        return replicas.Appended(event.count)
    if isinstance(event, Follow) and event.replica >= 0:
        return replicas.Fetched(event.replica, event.offset, event.t)
    if isinstance(event, Shrink) and event.replica >= 0:
        return replicas.Left(event.replica, event.t)
    return None


def replica_events(events):
    return filter_map(replica_event, events)


# ==== partlog/specs/State.antt


@record
class State:
    batches: tuple
    log_end: int
    high: int
    insync: int


@lru_cache(maxsize=65536)
def state_of(h):
    events = replica_events(h.events)
    return State(batches_of(h.events, h.log), log_end_of(h.events),
                 replicas.high_watermark_of(h.followers, events), replicas.count_of(h.followers, events))


def front_of(h, place):
    return History(h.log[:bytes_of(h.events[:place])], h.followers, h.events[:place])


def state_before(h, place):
    return state_of(front_of(h, place))


def state_at(h, place):
    return state_before(h, place + 1)


# ==== partlog/specs/Looked.antt


def looked(h, by, seq):
    return History(h.log, h.followers, h.events + (Look(by, seq),))


# ==== partlog/specs/Lagging.antt


def LagsAt(followers, events, t, replica):
    return replica >= 0 and replicas.Lags(followers, replica_events(events), t, replica)


# ==== partlog/specs/Shrunk.antt


def late_at(h, t):
    return tuple(replica for replica in range(1, 1 + h.followers) if replicas.Lags(h.followers, replica_events(h.events), t, replica))


def shrinks_at(h, by, t):
    return tuple(Shrink(by, replica, t) for replica in late_at(h, t))


def all_shrunk(h, by, t):
    return History(h.log, h.followers, h.events + shrinks_at(h, by, t))


# ==== partlog/specs/Gauges.antt


def bytes_in(batches):
    return sum(len(b.bytes) for b in batches)


def batches_below(offset, batches):
    return tuple(b for b in batches if next_offset(b) <= offset)


@record
class Gauges:
    high: int
    visible: int
    bytes: int


def gauges_of(s):
    return Gauges(s.high, bytes_in(batches_below(s.high, s.batches)), bytes_in(s.batches))


@record
class Numbers:
    end: int
    high: int
    visible: int
    bytes: int
    insync: int


def numbers_of(s):
    return Numbers(s.log_end, gauges_of(s).high, gauges_of(s).visible, gauges_of(s).bytes, s.insync)


# ==== partlog/specs/Start.antt


def start_of(offset, state):
    return bytes_in(batches_below(offset, state.batches))


# ==== partlog/specs/Taken.antt


def batches_past(place, batches):
    if not batches or place == 0:
        return batches
    return batches_past(minus(place, len(batches[0].bytes)), batches[1:])


def fitting(limit, batches):
    if batches and len(batches[0].bytes) <= limit:
        return batches[:1] + fitting(limit - len(batches[0].bytes), batches[1:])
    return ()


def batches_upto(place, batches):
    return fitting(place, batches)


def taken(limit, any_, batches):
    if any_:
        return fitting(limit, batches)
    return fitting(limit, batches) if 0 < len(fitting(limit, batches)) else batches[:1]


def joined(batches):
    return b"".join(batch.bytes for batch in batches)


# ==== partlog/specs/Moment.antt


def tick_of(event):
    return event.t if isinstance(event, Tick) else None


def moment_of(events):
    return max((0,) + filter_map(tick_of, events))


# ==== kanswer/specs/Decisions.antt

MOST_LOG_BYTES = 67_108_864
NOT_ENOUGH_REPLICAS = 19
NOT_ENOUGH_REPLICAS_AFTER_APPEND = 20


@record
class Refused:
    code: int


@record
class Appended:
    part: int
    base: int
    count: int


@record
class Seen:
    part: int
    start: int


@record
class Put:
    count: int
    batch: bytes


@record
class Followed:
    replica: int
    offset: int


@record
class Looked:
    pass


@record
class Outcome:
    result: Any
    entry: Any


@record
class Refuse:
    code: int


@record
class AskLog:
    part: int
    outcome: Any


def look(result):
    return Outcome(result, Looked())


def full_code(version):
    return 56 if 4 <= version else 6


def needed_insync(acks, least):
    return least if acks == -1 else 0


def least_insync(config, acks, part):
    return needed_insync(acks, min_insync_at(config.topics, part))


def append_outcome(version, least, part, count, batch, state):
    if state.insync < least:
        return look(Refused(NOT_ENOUGH_REPLICAS))
    if MOST_LOG_BYTES < gauges_of(state).bytes + len(batch):
        return look(Refused(full_code(version)))
    return Outcome(Appended(part, state.log_end, count), Put(count, batch))


def is_acks(acks):
    return acks in (-1, 0, 1)


first_fault = lru_cache(maxsize=4096)(records.fault_code)


def BatchDecides(version, least, part, data):
    code = first_fault(data)
    if code is not None:
        return Refuse(code)
    return AskLog(part, lambda state: append_outcome(version, least, part, records.count_of(data), data, state))


def ProduceDecides(config, version, transactional, acks, named):
    name, asked = named
    if transactional is not None:
        return Refuse(42)
    part = part_of(config, name, asked.index)
    if part is None:
        return Refuse(3)
    if not is_acks(acks):
        return Refuse(21)
    return BatchDecides(version, least_insync(config, acks, part), part, b"" if asked.records is None else asked.records)


def in_range_outcome(part, offset, entry, state):
    if offset < 0:
        return look(Refused(1))
    if state.log_end < offset:
        return look(Refused(1))
    return Outcome(Seen(part, start_of(offset, state)), entry)


def offset_of(offset):
    return max(0, offset)


def fetch_outcome(followers, replica, asked, part, state):
    if replica < 0:
        return in_range_outcome(part, asked.offset, Looked(), state)
    if 0 < replica <= followers:
        return in_range_outcome(part, asked.offset, Followed(replica, offset_of(asked.offset)), state)
    return look(Refused(9))


def fetch_decision(config, replica, named, part):
    if part is None:
        return Refuse(3)
    followers = followers_of(config.topics)[part]
    return AskLog(part, lambda state: fetch_outcome(followers, replica, named[1], part, state))


def produce_parts(topics):
    return flat_map(lambda topic: [(topic.name, part) for part in topic.parts], topics)


def fetch_parts(topics):
    return flat_map(lambda topic: [(topic.name, part) for part in topic.parts], topics)


def Decides(config, ask):
    """The one list of decisions."""
    if isinstance(ask, Produce):
        return tuple(ProduceDecides(config, ask.version, ask.transactional, ask.acks, named) for named in produce_parts(ask.topics))
    if isinstance(ask, Fetch):
        return tuple(fetch_decision(config, ask.replica, named, part_of(config, named[0], named[1].index))
                     for named in fetch_parts(ask.topics))
    return ()


# ==== kanswer/specs/Waiting.antt

MOST_REPLY_BYTES = 52_428_800


@record
class Shown:
    result: Any
    state: State


def at_least_zero(number):
    return max(0, number)


def reply_limit(max_bytes):
    return min(at_least_zero(max_bytes), MOST_REPLY_BYTES)


def produce_need(result):
    return Need(3 * result.part, minus(result.base + result.count, 1), 1) if isinstance(result, Appended) else None


def is_consumer(replica):
    return replica < 0


def fetch_need(replica, asked, result):
    if not isinstance(result, Seen):
        return None
    return Need(3 * result.part + (1 if is_consumer(replica) else 2), result.start, at_least_zero(asked.most))


def needs_by_part(ask, results):
    if isinstance(ask, Produce):
        return tuple(map(produce_need, results))
    if isinstance(ask, Fetch):
        return tuple(fetch_need(ask.replica, asked, result) for (_, asked), result in zip(fetch_parts(ask.topics), results))
    return ()


def gauge_value(gauge, state):
    gauges = gauges_of(state)
    return gauges.high if gauge % 3 == 0 else (gauges.visible if gauge % 3 == 1 else gauges.bytes)


def value_of(need, state):
    return None if need is None else gauge_value(need.gauge, state)


def results_of(shown):
    return tuple(s.result for s in shown)


def states_of(shown):
    return tuple(s.state for s in shown)


def needs_of(ask, results):
    return filter_map(lambda need: need, needs_by_part(ask, results))


def values_of(ask, shown):
    return filter_map(lambda pair: value_of(*pair), zip(needs_by_part(ask, results_of(shown)), states_of(shown)))


def least_of(ask, needs):
    if isinstance(ask, Produce):
        return len(needs)
    return min(at_least_zero(ask.min_bytes), reply_limit(ask.max_bytes)) if isinstance(ask, Fetch) else 0


def wait_of(ask):
    if isinstance(ask, Produce):
        return at_least_zero(ask.timeout)
    return at_least_zero(ask.max_wait) if isinstance(ask, Fetch) else 0


def operation_of(ask, results, moment):
    return Operation(needs_of(ask, results), least_of(ask, needs_of(ask, results)), moment + wait_of(ask))


def is_refused(result):
    return isinstance(result, Refused)


def all_seen(results):
    return 0 < len(results) and not any(map(is_refused, results))


def falls_short(ask, shown):
    needs = needs_of(ask, results_of(shown))
    return tally(needs, values_of(ask, shown)) < least_of(ask, needs)


def becomes_delayed(ask, shown):
    if isinstance(ask, Produce):
        return ask.acks == -1 and 0 < len(needs_of(ask, results_of(shown))) and falls_short(ask, shown)
    if isinstance(ask, Fetch):
        return 0 < at_least_zero(ask.max_wait) and all_seen(results_of(shown)) and falls_short(ask, shown)
    return False


def is_quiet(ask):
    return isinstance(ask, Produce) and ask.acks == 0


# ==== kanswer/specs/Answer.antt. What is told is a tuple of the fields that wire.py spells.


@record
class Budget:
    left: int
    any: bool


@record
class Reply:
    correlation: int
    told: tuple


LOG_START = 0


def produced_code(acks, least, after, state):
    if acks != -1:
        return 0
    if state.high < after:
        return 7
    return NOT_ENOUGH_REPLICAS_AFTER_APPEND if state.insync < least else 0


def produced_as(config, acks, index, result, state):
    if isinstance(result, Refused):
        return index, result.code, -1, -1
    if isinstance(result, Appended):
        least = min_insync_at(config.topics, result.part)
        return index, produced_code(acks, least, result.base + result.count, state), result.base, LOG_START
    return index, 0, -1, -1


def produced_parts(config, acks, parts, shown):
    return tuple(produced_as(config, acks, asked.index, s.result, s.state) for asked, s in zip(parts, shown))


def produced_topics(config, acks, topics, shown):
    if not topics:
        return ()
    topic, here = topics[0], len(topics[0].parts)
    told = topic.name, produced_parts(config, acks, topic.parts, shown[:here])
    return (told,) + produced_topics(config, acks, topics[1:], shown[here:])


def is_readable(replica, state, batch):
    return next_offset(batch) <= state.high if is_consumer(replica) else True


def read_of(replica, asked, start, state, budget):
    readable = tuple(batch for batch in batches_past(start, state.batches) if is_readable(replica, state, batch))
    return taken(min(at_least_zero(asked.most), budget.left), budget.any, readable)


def asked_parts(topics):
    return flat_map(lambda topic: topic.parts, topics)


def read_if(replica, asked, start, state, budget):
    return () if asked is None else read_of(replica, asked, start, state, budget)


def read_at(ask, at, start, state, budget):
    return read_if(ask.replica, slice_get(asked_parts(ask.topics), at), start, state, budget) if isinstance(ask, Fetch) else ()


def budget_after(batches, budget):
    return Budget(minus(budget.left, len(joined(batches))), budget.any or 0 < len(batches))


def batches_as(replica, asked, result, state, budget):
    return read_of(replica, asked, result.start, state, budget) if isinstance(result, Seen) else ()


def fetched_as(asked, result, state, batches):
    if isinstance(result, Refused):
        return asked.index, result.code, -1, -1, b""
    if isinstance(result, Appended):
        return asked.index, 0, -1, -1, b""
    return asked.index, 0, state.high, LOG_START, joined(batches)


def fetched_parts(replica, parts, shown, budget):
    told = []
    for asked, s in zip(parts, shown):
        batches = batches_as(replica, asked, s.result, s.state, budget)
        told.append(fetched_as(asked, s.result, s.state, batches))
        budget = budget_after(batches, budget)
    return tuple(told)


def budget_behind(replica, parts, shown, budget):
    for asked, s in zip(parts, shown):
        budget = budget_after(batches_as(replica, asked, s.result, s.state, budget), budget)
    return budget


def fetched_topics(replica, topics, shown, budget):
    if not topics:
        return ()
    topic, here = topics[0], shown[:len(topics[0].parts)]
    return ((topic.name, fetched_parts(replica, topic.parts, here, budget)),) + fetched_topics(
        replica, topics[1:], shown[len(topic.parts):], budget_behind(replica, topic.parts, here, budget))


def first_budget(max_bytes):
    return Budget(reply_limit(max_bytes), False)


def info_as(name, topic):
    return (3, name, 0, 0) if topic is None else (0, topic.name, topic.partitions, topic.followers)


def info_of(topics, name):
    return info_as(name, next((topic for topic in topics if topic.name == name), None))


def infos_of(topics, names):
    if names is None:
        return tuple(info_as(topic.name, topic) for topic in topics)
    return tuple(info_of(topics, name) for name in names)


def told_to(config, ask, shown):
    if isinstance(ask, Produce):
        return wire.produced, produced_topics(config, ask.acks, ask.topics, shown), ask.version
    if isinstance(ask, Fetch):
        return wire.fetched, ask.isolation, fetched_topics(ask.replica, ask.topics, shown, first_budget(ask.max_bytes)), ask.version
    if isinstance(ask, Metadata):
        return wire.metadata, config.port, infos_of(config.topics, ask.topics)
    return wire.versions, 0 if ask.version == 0 else 35


def answer(config, request, shown):
    return Reply(request.correlation, told_to(config, request.ask, shown))


def spelling(reply):
    spell, *fields = reply.told
    return spell(reply.correlation, *fields)
