"""The definitions of who is in sync, transcribed line by line from the specs of the part `in_sync` of partlog.

How they are transcribed stands in `play.py`. What goes over the entries from the newest to the oldest there goes from the oldest on here,
and keeps what each equation asks of the earlier entries: so no entry is asked for every replica again.
"""

from model.definitions.requests import filter_map, record

# ==== partlog/specs/in_sync/ReplicaEvent.antt


@record
class Appended:
    count: int


@record
class Fetched:
    replica: int
    offset: int
    t: int


@record
class Left:
    replica: int
    t: int


# ==== partlog/specs/in_sync/LogEnd.antt


def added_by(event):
    return event.count if isinstance(event, Appended) else 0


def log_end_of(events):
    return sum(map(added_by, events))


# ==== partlog/specs/in_sync/Position.antt


def offset_by(replica, event):
    return event.offset if isinstance(event, Fetched) and event.replica == replica else None


def position_of(events, replica):
    return max((0,) + filter_map(lambda event: offset_by(replica, event), events))


def followers_among(followers):
    return range(1, 1 + followers)


# ==== partlog/specs/in_sync/InSync.antt


def least_among(test, followers, events):
    return min((log_end_of(events),) + tuple(position_of(events, replica) for replica in followers_among(followers) if test(replica)))


def all_in_sync_of(followers, events):
    """The followers for which `in_sync_of` holds."""
    inside = set(followers_among(followers))
    for place, event in enumerate(events):
        if isinstance(event, Fetched) and least_among(inside.__contains__, followers, events[:place]) <= event.offset:
            inside.add(event.replica)
        if isinstance(event, Left):
            inside.discard(event.replica)
    return inside


def in_sync_of(followers, events, replica):
    """Of a follower."""
    return replica in all_in_sync_of(followers, events)


def high_watermark_of(followers, events):
    return least_among(all_in_sync_of(followers, events).__contains__, followers, events)


def count_of(followers, events):
    inside = all_in_sync_of(followers, events)
    return 1 + sum(replica in inside for replica in followers_among(followers))


# ==== partlog/specs/in_sync/CaughtUp.antt


@record
class Fetch:
    t: int
    log_end: int


def reached_by_last(offset, last):
    return last.t if last is not None and last.log_end <= offset else None


def reached(offset, t, log_end, last):
    return t if log_end <= offset else reached_by_last(offset, last)


def moments_of(events, replica):
    """`moments_after` of the reversed history."""
    moments, last = [], None
    for place, event in enumerate(events):
        if isinstance(event, Fetched) and event.replica == replica:
            log_end = log_end_of(events[:place])
            moments.append(reached(event.offset, event.t, log_end, last))
            last = Fetch(event.t, log_end)
    return tuple(moment for moment in moments if moment is not None)


def caught_up_of(events, replica):
    return max((0,) + moments_of(events, replica))


# ==== partlog/specs/in_sync/Lagging.antt

MOST_LAG = 30_000


def IsFollower(replica, followers):
    return 0 < replica <= followers


def Lags(followers, events, t, replica):
    return (IsFollower(replica, followers) and in_sync_of(followers, events, replica)
            and position_of(events, replica) < log_end_of(events) and caught_up_of(events, replica) + MOST_LAG <= t)
