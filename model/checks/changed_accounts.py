"""Small changes of an account, by kind. Each is (kind, by, changed): `by` is what has to refuse the changed account.

- `lawful`: no lawful account is so;
- `run`: a lawful account may be so, but it isn't one of this trace's run;
- `text`: it may be one of this trace's run, but then it tells otherwise;
- `same`: it means the same, for the reason that stands beside the kind, and has to be called lawful;
- `cut`: it is the lawful account of a broker that ran out of memory there, which isn't one of a trace's run;
- `other`: the same entries in another order, another moment of a follower's fetch, or a leave more or less. It is refused, or is an
  account of threads to which it came so, and tells what they were told.
"""

from dataclasses import replace

from model.definitions.accounts import (
    AtOnce, Cut, Expired, IsAccepted, Parked, Point, Quiet, Satisfied, SessionEnd, Transcript, calls_of, clock_part, is_point, moment_at,
    operation_in, operation_parts, points_of, ticks_of,
)
from model.definitions.parts import Append, ClockLook, Follow, LagsAt, Look, Shrink, Tick, moment_of

# ---- reading and changing


def events_in(account, part):
    return account.clock if part == clock_part else account.parts[part].events


def with_events(account, part, events):
    if part == clock_part:
        return replace(account, clock=events)
    return with_part(account, part, events=events)


def with_part(account, part, **fields):
    parts = account.parts[:part] + (replace(account.parts[part], **fields),) + account.parts[part + 1:]
    return replace(account, parts=parts)


def with_transcripts(account, of):
    return replace(account, passes=tuple(tuple(map(of, transcripts)) for transcripts in account.passes))


def with_points(account, of):
    """Each point is another, or is left out where that is None."""
    def moved(points):
        return tuple(new for new in map(of, points) if new is not None)

    def changed(call):
        return replace(call, accept=moved(call.accept), finish=moved(call.finish))
    return with_transcripts(account, lambda transcript: replace(transcript, calls=tuple(map(changed, transcript.calls))))


def with_calls(account, pass_, calls):
    transcript = replace(account.passes[pass_][0], calls=calls)
    return with_transcript(account, pass_, transcript)


def with_transcript(account, pass_, transcript):
    return replace(account, passes=account.passes[:pass_] + ((transcript,),) + account.passes[pass_ + 1:])


def with_call(account, pass_, seq, **fields):
    calls = account.passes[pass_][0].calls
    return with_calls(account, pass_, calls[:seq] + (replace(calls[seq], **fields),) + calls[seq + 1:])


def without(account, part, place):
    """An entry and its point are left out, and all behind it move up."""
    events = events_in(account, part)
    account = with_events(account, part, events[:place] + events[place + 1:])

    def moved(point):
        if point.part != part or point.place < place:
            return point
        return None if point.place == place else Point(part, point.place - 1)
    return with_points(account, moved)


def with_entry(account, part, place, event):
    """An entry stands before this place, and all behind it move down. It has no point."""
    events = events_in(account, part)
    account = with_events(account, part, events[:place] + (event,) + events[place:])
    return with_points(account, lambda point: Point(part, point.place + 1) if point.part == part and place <= point.place else point)


def moved_back(account, part, place, to):
    """An entry with its point is moved up to an earlier place."""
    events = events_in(account, part)
    account = with_events(account, part, events[:to] + (events[place],) + events[to:place] + events[place + 1:])

    def moved(point):
        if point.part != part or not to <= point.place <= place:
            return point
        return Point(part, to if point.place == place else point.place + 1)
    return with_points(account, moved)


def each_entry(account):
    for part in [*range(len(account.parts)), clock_part]:
        for place, event in enumerate(events_in(account, part)):
            yield part, place, event


def each_call(account):
    for pass_, transcripts in enumerate(account.passes):
        for transcript in transcripts:
            for seq, call in enumerate(transcript.calls):
                yield pass_, seq, call


def is_owned(event):
    """Whether it is an entry of a call."""
    return not isinstance(event, (Tick, Shrink))


def the_call(account, part, place):
    """Whose point this is."""
    return next((pass_, seq, call) for pass_, seq, call in each_call(account) if any(is_point(part, place, p) for p in points_of(call)))


# ---- the entries of histories


def owners(account):
    for part, place, event in each_entry(account):
        if is_owned(event):
            events = events_in(account, part)
            put = lambda new: with_events(account, part, events[:place] + (new,) + events[place + 1:])
            yield "an entry of another session", "lawful", put(replace(event, by=event.by + 1))
            yield "an entry of a later call", "lawful", put(replace(event, seq=event.seq + 1))
            if event.seq:
                yield "an entry of an earlier call", "lawful", put(replace(event, seq=event.seq - 1))


def entries_lost_or_doubled(account):
    for part, place, event in each_entry(account):
        events = events_in(account, part)
        if isinstance(event, Tick):
            yield "a tick left out", "run", without(account, part, place)
            yield "a tick doubled", "lawful", with_entry(account, part, place, event)
        if not is_owned(event):
            continue
        what = {Append: "an append", Follow: "a follower's fetch", Look: "a look", ClockLook: "a look at the clock"}[type(event)]
        yield f"{what} left out, its point left", "lawful", with_events(account, part, events[:place] + events[place + 1:])
        yield f"{what} left out with its point", "lawful", without(account, part, place)
        yield f"{what} doubled", "lawful", with_entry(account, part, place, event)
        pass_, seq, call = the_call(account, part, place)
        doubled = with_entry(account, part, place + 1, event)
        call = doubled.passes[pass_][0].calls[seq]
        yield f"{what} doubled with its point", "lawful", with_call(doubled, pass_, seq, **{
            list_: tuple(p for point in getattr(call, list_)
                         for p in ([point, Point(part, place + 1)] if point == Point(part, place) else [point]))
            for list_ in ("accept", "finish")})


def entries_of_another_kind(account):
    for part, place, event in each_entry(account):
        events = events_in(account, part)
        put = lambda new: with_events(account, part, events[:place] + (new,) + events[place + 1:])
        if isinstance(event, Append):
            yield "an append of a record more", "lawful", put(replace(event, count=event.count + 1))
            yield "an append of a byte more", "lawful", put(replace(event, len=event.len + 1))
            yield "an append that is a look", "lawful", put(Look(event.by, event.seq))
        if isinstance(event, Follow):
            yield "a follower's fetch of the next offset", "lawful", put(replace(event, offset=event.offset + 1))
            yield "another follower's fetch", "lawful", put(replace(event, replica=event.replica + 1))
            yield "a follower's fetch that is a look", "lawful", put(Look(event.by, event.seq))
            yield "a follower's fetch that is its leave", "lawful", put(Shrink(event.by, event.replica, event.t))
        if isinstance(event, Look):
            yield "a look that is a follower's fetch", "lawful", put(Follow(event.by, event.seq, 1, 0, 0))
        if isinstance(event, ClockLook):
            yield "a look at the clock that is a tick", "lawful", put(Tick(moment_of(account.clock) + 1))
        if isinstance(event, Tick):
            yield "a tick a millisecond later", "run", put(Tick(event.t + 1))
            yield "a tick a millisecond earlier", "run", put(Tick(event.t - 1))


def entries_of_nobody(account):
    for part in range(len(account.parts)):
        end = len(account.parts[part].events)
        yield "a look of a call that isn't there", "lawful", with_entry(account, part, end, Look(63, 99))
        yield "a look of a call that has no such point", "lawful", with_entry(account, part, 0, Look(0, 0))
    yield "a tick of moment 0", "lawful", with_entry(account, clock_part, 0, Tick(0))
    yield "a look at the clock of nobody", "lawful", with_entry(account, clock_part, len(account.clock), ClockLook(63, 99))


def with_t(account, part, place, t):
    """An entry has another moment."""
    events = events_in(account, part)
    return with_events(account, part, events[:place] + (replace(events[place], t=t),) + events[place + 1:])


def leaves(account):
    """The entries by which followers left."""
    ticks = ticks_of(account.clock)
    for part, place, event in each_entry(account):
        if not isinstance(event, Shrink):
            continue
        events = events_in(account, part)
        put = lambda new: with_events(account, part, events[:place] + (new,) + events[place + 1:])
        # Which pass took a follower out is nobody's concern.
        yield "a leave by another pass", "same", put(replace(event, by=event.by + 1))
        yield "a leave left out", "other", without(account, part, place)
        yield "a leave doubled", "lawful", with_entry(account, part, place, event)
        yield "a leave that is a look of nobody", "lawful", put(Look(63, 99))
        for t in {event.t - 1, event.t + 1} - set(ticks):
            yield "a leave at a moment that is no tick", "lawful", put(replace(event, t=t))
        for t in set(ticks) - {event.t}:
            has_lagged = LagsAt(account.parts[part].followers, events[:place], t, event.replica)
            # When it left is nobody's concern either, as long as it lagged then.
            kind = ("a leave at another tick", "same") if has_lagged else ("a leave at a tick too early", "lawful")
            yield *kind, put(replace(event, t=t))


def leaves_more(account):
    """A follower leaves where none left: at each tick, in each state."""
    for part, kept in enumerate(account.parts):
        for place in range(len(kept.events) + 1):
            for t in ticks_of(account.clock):
                for replica in range(-1, kept.followers + 2):
                    has_lagged = LagsAt(kept.followers, kept.events[:place], t, replica)
                    kind = ("a leave more, of one who lagged", "other") if has_lagged else ("a leave of one who didn't lag", "lawful")
                    yield *kind, with_entry(account, part, place, Shrink(0, replica, t))


def moments_of_fetches(account):
    """A follower's fetch at another moment."""
    told = {0, *ticks_of(account.clock)}
    for part, place, event in each_entry(account):
        if not isinstance(event, Follow):
            continue
        events = events_in(account, part)
        put = lambda t: with_events(account, part, events[:place] + (replace(event, t=t),) + events[place + 1:])
        seen = max((moment_at(account, point) for call in calls_of(account, event.by)[:event.seq] for point in points_of(call)
                    if point.part == clock_part), default=0)
        for t in {max(0, event.t - 1), event.t + 1} - told:
            yield "a follower's fetch at a moment that wasn't told", "lawful", put(t)
        for t in told - {event.t}:
            kind = ("a follower's fetch at another moment", "other") if seen <= t else ("a follower's fetch before what its pass saw", "lawful")
            yield *kind, put(t)


def swapped(account):
    for part, place, event in each_entry(account):
        before = events_in(account, part)[place - 1] if place else Tick(0)
        if not is_owned(event) or not is_owned(before) or event.by != before.by:
            if place and event != before:
                yield "two neighbours in a history swapped", "other", moved_back(account, part, place, place - 1)
        else:
            yield "two entries of one session swapped", "lawful", moved_back(account, part, place, place - 1)


def shared(account):
    """An entry is left out, and its point is that of its neighbour, which is another call's."""
    for part, place, event in each_entry(account):
        if not place or not isinstance(event, (Look, ClockLook)):
            continue
        before = events_in(account, part)[place - 1]
        if type(before) is type(event) and before != event:
            pass_, seq, call = the_call(account, part, place)
            events = events_in(account, part)
            changed = with_events(account, part, events[:place] + events[place + 1:])
            yield "a look shared with another call", "lawful", with_points(
                changed, lambda point: Point(part, point.place - 1) if point.part == part and point.place >= place else point)


def in_another_history(account):
    """A look of a completion stands in the history of another partition."""
    for pass_, seq, call in each_call(account):
        for at, point in enumerate(call.finish):
            other = (point.part + 1) % len(account.parts)
            if point.part not in (clock_part, other):
                changed = without(account, point.part, point.place)
                changed = with_entry(changed, other, len(account.parts[other].events), Look(pass_, seq))
                kept = changed.passes[pass_][0].calls[seq].finish
                place = len(account.parts[other].events)
                yield "a look at another partition", "lawful", with_call(
                    changed, pass_, seq, finish=kept[:at] + (Point(other, place),) + kept[at:])


def looks_more(account):
    """A call looks once more, as if it were completed by that."""
    for pass_, seq, call in each_call(account):
        for part in range(len(account.parts)):
            place = len(account.parts[part].events)
            changed = with_entry(account, part, place, Look(pass_, seq))
            yield "a look more in the completion", "lawful", with_call(changed, pass_, seq, finish=call.finish + (Point(part, place),))
            yield "a look more in the acceptance", "lawful", with_call(changed, pass_, seq, accept=call.accept + (Point(part, place),))


# ---- the logs


def logs(account):
    for part, kept in enumerate(account.parts):
        place = 0
        for event in kept.events:
            if isinstance(event, Append):
                for what, at in (("a base offset that is another", 7), ("a leader epoch that isn't 0", 15), ("a checksum that is another", 20),
                                 ("a producer id that is another", 50), ("a record's last byte that is another", event.len - 1)):
                    log = bytearray(kept.log)
                    log[place + at] ^= 1
                    yield what, "lawful", with_part(account, part, log=bytes(log))
                place += event.len
        yield "a log with a byte behind its batches", "lawful", with_part(account, part, log=kept.log + b"\0")
        if kept.log:
            yield "a log that lacks its last byte", "lawful", with_part(account, part, log=kept.log[:-1])
        yield "a follower more", "lawful", with_part(account, part, followers=kept.followers + 1)


# ---- the calls


HOWS = [Quiet(), AtOnce(), Satisfied(0), Expired(0), Parked(), Cut(None), Cut(0)]


def hows(account):
    for pass_, seq, call in each_call(account):
        for how in HOWS:
            if how != call.how:
                name = lambda how: type(how).__name__.lower().replace("atonce", "answered at once")
                changed = with_call(account, pass_, seq, how=how)
                yield f"{name(call.how)} told as {name(how)}", "lawful", changed
                won = (Satisfied(0), Expired(0), Cut(0))
                if (how in won) != (call.how in won):
                    wins = (account.wins[0] + (1 if how in won else -1),)
                    yield f"{name(call.how)} told as {name(how)}, and counted so", "lawful", replace(changed, wins=wins)
        if call.how in (Satisfied(0), Expired(0)):
            yield "another winner", "lawful", with_call(account, pass_, seq, how=replace(call.how, by=1))
            other = replace(with_call(account, pass_, seq, how=replace(call.how, by=1)), wins=(account.wins[0] - 1, 1))
            # Winners are numbers: the definition of an account says nothing of how many there are.
            yield "another winner that is counted", "same", other


def wins(account):
    yield "a win more", "lawful", replace(account, wins=(account.wins[0] + 1,))
    if account.wins[0]:
        yield "a win less", "lawful", replace(account, wins=(account.wins[0] - 1,))
        yield "no wins told", "lawful", replace(account, wins=())
    else:
        # A winner that isn't listed won nothing.
        yield "no wins told where there are none", "same", replace(account, wins=())
    yield "a second winner that won nothing", "same", replace(account, wins=account.wins + (0,))
    yield "a second winner that won", "lawful", replace(account, wins=account.wins + (1,))


def points(account):
    for pass_, seq, call in each_call(account):
        for list_ in ("accept", "finish"):
            kept = getattr(call, list_)
            put = lambda new: with_call(account, pass_, seq, **{list_: new})
            for at, point in enumerate(kept):
                at_it = lambda *new: put(kept[:at] + new + kept[at + 1:])
                yield f"a point of the {list_} left out", "lawful", at_it()
                yield f"a point of the {list_} doubled", "lawful", at_it(point, point)
                yield f"a point of the {list_} one place on", "lawful", at_it(replace(point, place=point.place + 1))
                if point.place:
                    yield f"a point of the {list_} one place back", "lawful", at_it(replace(point, place=point.place - 1))
                yield f"a point of the {list_} in another history", "lawful", at_it(replace(point, part=(point.part + 1) % 65))
            if len(kept) > 1:
                yield f"the {list_} in another order", "lawful", put(kept[::-1])
        if call.accept:
            yield "the last entry of the acceptance counted to the completion", "lawful", with_call(
                account, pass_, seq, accept=call.accept[:-1], finish=call.accept[-1:] + call.finish)
        if call.finish:
            yield "the first entry of the completion counted to the acceptance", "lawful", with_call(
                account, pass_, seq, accept=call.accept + call.finish[:1], finish=call.finish[1:])


def frames(account):
    for pass_, seq, call in each_call(account):
        frame = call.frame
        yield "another correlation id", "run", with_call(account, pass_, seq, frame=frame[:7] + bytes([frame[7] ^ 1]) + frame[8:])
        yield "a frame of a byte more", "run", with_call(account, pass_, seq, frame=frame + b"\0")
        calls = account.passes[pass_][0].calls
        yield "a call left out", "run", with_calls(account, pass_, calls[:seq] + calls[seq + 1:])
        yield "a call doubled", "run", with_calls(account, pass_, calls[:seq] + (call,) + calls[seq:])
        if seq and calls[seq - 1] != call:
            changed = with_calls(account, pass_, calls[:seq - 1] + (call, calls[seq - 1]) + calls[seq + 1:])
            yield "two calls swapped", "run", changed
            by = "lawful" if call.how == Parked() else "run"
            yield "two calls swapped with their entries", by, owned_in_turn(changed, pass_, seq)


def owned_in_turn(account, pass_, seq):
    """The entries of a call are those of the one before it, and the other way round."""
    turned = {seq - 1: seq, seq: seq - 1}
    for part, place, event in each_entry(account):
        if is_owned(event) and event.by == pass_ and event.seq in turned:
            events = events_in(account, part)
            account = with_events(account, part, events[:place] + (replace(event, seq=turned[event.seq]),) + events[place + 1:])
    return account


# ---- the completion


def undone(account):
    """A request that was completed waits still, and nothing of its completion is there."""
    for pass_, seq, call in each_call(account):
        if call.finish:
            changed = replace(account, wins=(account.wins[0] - 1,))
            while changed.passes[pass_][0].calls[seq].finish:
                point = changed.passes[pass_][0].calls[seq].finish[-1]
                changed = without(changed, point.part, point.place)
            yield f"{type(call.how).__name__.lower()}, but left waiting", "lawful", with_call(changed, pass_, seq, how=Parked())


def done(account):
    """A request that waits is completed at the end, of which nothing says that it may be."""
    for pass_, seq, call in each_call(account):
        if call.how != Parked():
            continue
        request, steps, looks = IsAccepted(account, call)
        parts = operation_parts(steps)
        for how, at in ((Satisfied(0), parts), (Expired(0), (clock_part,) + parts)):
            changed, finish = replace(account, wins=(account.wins[0] + 1,)), ()
            for part in at:
                place = len(events_in(changed, part))
                event = (ClockLook if part == clock_part else Look)(pass_, seq)
                changed, finish = with_entry(changed, part, place, event), finish + (Point(part, place),)
            yield f"a parked call told as {type(how).__name__.lower()} with its looks", "lawful", with_call(
                changed, pass_, seq, how=how, finish=finish)
        deadline = operation_in(account, request, steps, looks).deadline
        yield "a parked call that is overdue", "lawful", with_entry(account, clock_part, len(account.clock), Tick(deadline))
        if moment_of(account.clock) < deadline - 1:
            yield "a parked call that nearly is overdue", "run", with_entry(account, clock_part, len(account.clock), Tick(deadline - 1))


def too_early(account):
    """The states of a completion are those that its acceptance had found."""
    for pass_, seq, call in each_call(account):
        if not call.finish:
            continue
        request, steps, looks = IsAccepted(account, call)
        changed = account
        for point in call.finish:
            now = changed.passes[pass_][0].calls[seq]
            accepted = next(p for p in now.accept if p.part == point.part)
            at = next(p for p in now.finish if p.part == point.part)
            if point.part != clock_part:
                changed = moved_back(changed, at.part, at.place, accepted.place + 1)
        if isinstance(call.how, Satisfied):
            yield "satisfied by the states of its acceptance", "lawful", changed
        else:
            yield "expired with the states of its acceptance", "other", changed
            yield from clock_too_early(account, pass_, seq, call, operation_in(account, request, steps, looks).deadline)


def clock_too_early(account, pass_, seq, call, deadline):
    accepted, late = call.accept[-1], call.finish[0]
    changed = moved_back(account, clock_part, late.place, accepted.place + 1)
    if deadline <= moment_at(account, accepted):
        # A request that has no time at all is overdue as soon as it is accepted.
        yield "expired at once, where it has no time", "same", changed
        return
    yield "expired at the moment of its acceptance", "lawful", changed
    ticks = [place for place in range(accepted.place + 1, late.place) if isinstance(account.clock[place], Tick)]
    early = account.clock
    for place in ticks:
        if early[place].t >= deadline:
            early = early[:place] + (Tick(deadline - 1),) + early[place + 1:]
    yield "expired a millisecond early", "lawful", replace(account, clock=early)


# ---- out of memory


def ended_by_memory(account, pass_, seq, **fields):
    changed = with_call(account, pass_, seq, **fields)
    return with_transcript(changed, pass_, replace(changed.passes[pass_][0], end=SessionEnd("no-memory")))


def cuts(account):
    """The last call of a session is cut because memory ran out."""
    for pass_, seq, call in each_call(account):
        if call is not account.passes[pass_][0].calls[-1]:
            continue
        by = "lawful" if call.finish else "cut"
        changed = ended_by_memory(account, pass_, seq, how=Cut(None))
        yield "cut before it was won", by, replace(changed, wins=(account.wins[0] - bool(call.finish),))
        if call.finish:
            yield "cut behind its completion", "cut", ended_by_memory(account, pass_, seq, how=Cut(0))
            yield "cut amid its looks", "cut" if call.finish[-1].part != clock_part else "lawful", last_left_out(account, pass_, seq, Cut(0))
        elif call.accept and is_look(account, call.accept[-1]):
            yield "cut amid its acceptance", "cut", last_left_out(account, pass_, seq, Cut(None))


def is_look(account, point):
    return isinstance(events_in(account, point.part)[point.place], (Look, ClockLook))


def last_left_out(account, pass_, seq, how):
    call = account.passes[pass_][0].calls[seq]
    last = (call.finish or call.accept)[-1]
    return ended_by_memory(without(account, last.part, last.place), pass_, seq, how=how)


# ---- transcripts and the trace

ENDS = [None, SessionEnd("closed"), SessionEnd("truncated", 1), SessionEnd("too-long", -1), SessionEnd("refused", "bad-request 0"),
        SessionEnd("calls-full"), SessionEnd("read-fault"), SessionEnd("write-fault"), SessionEnd("no-memory")]


def transcripts(account):
    for pass_, held in enumerate(account.passes):
        for transcript in held:
            put = lambda **fields: with_transcript(account, pass_, replace(transcript, **fields))
            yield "calls numbered from 1", "lawful", put(first=1)
            yield "a transcript of another number", "run", put(number=transcript.number + 1)
            yield "a transcript left out", "run", replace(account, passes=account.passes[:pass_] + ((),) + account.passes[pass_ + 1:])
            for end in ENDS:
                if end != transcript.end:
                    told = "no end" if end is None else end.kind
                    was = "no end" if transcript.end is None else transcript.end.kind
                    by = "lawful" if transcript.calls and transcript.calls[-1].how == Parked() else "run"
                    yield f"{was} told as {told}", by, put(end=end)
        if not held:
            empty = (Transcript(pass_, 0, (), None),)
            yield "a transcript of a session that no line names", "run", replace(
                account, passes=account.passes[:pass_] + (empty,) + account.passes[pass_ + 1:])
    yield "a pass more", "run", replace(account, passes=account.passes + ((),))


def configuration(account):
    config = account.config
    yield "another port", "run", replace(account, config=replace(config, port=config.port + 1))
    for at, topic in enumerate(config.topics):
        put = lambda new: replace(account, config=replace(config, topics=config.topics[:at] + (new,) + config.topics[at + 1:]))
        yield "a topic of another name", "run", put(replace(topic, name=topic.name + b"x"))
        yield "a topic with a partition more", "lawful", put(replace(topic, partitions=topic.partitions + 1))
        yield "a topic with a follower more", "lawful", put(replace(topic, followers=topic.followers + 1))
        yield "a topic with another least number in sync", "run", put(replace(topic, min_insync=topic.min_insync + 1))


KINDS = [owners, entries_lost_or_doubled, entries_of_another_kind, entries_of_nobody, leaves, leaves_more, moments_of_fetches, swapped,
         shared, in_another_history, looks_more, logs, hows, wins, points, frames, undone, done, too_early, cuts, transcripts, configuration]


def changes(account):
    for kind in KINDS:
        yield from kind(account)
