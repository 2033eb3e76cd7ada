"""The definitions of the account of a run, transcribed line by line: what a lawful account is, how it fits its trace, and its print.

How they are transcribed stands in `play.py`, which goes on from these.
"""

from typing import Any

from model.broker import batches as records
from model.definitions.parts import (
    answer, becomes_delayed, bytes_of, ClockLook, Decides, Follow, Followed, History, is_quiet, IsAnswerable, IsOverdue,
    IsSatisfied, LagsAt, Look, moment_of, operation_of, Put, Refuse, Refused, results_of, Shown, Shrink, spelling, State, state_at,
    state_before, state_of, StoredBatch, Tick, values_of,
)
from model.definitions.requests import (
    AllZip, Configuration, filter_map, flat_map, followers_of, framed, IsFrameBody, IsRefused, IsRequest,
    IsStrictlyIncreasing, next_frame_of, record, slice_get, Topic,
)

# ==== audit/src/account.rt: what an account is made of

CLOCK_PART = 64
MOST_CALLS = 4_294_967_295


@record
class Point:
    part: int
    place: int


@record
class Quiet:
    pass


@record
class AtOnce:
    pass


@record
class Satisfied:
    by: int


@record
class Expired:
    by: int


@record
class Parked:
    pass


@record
class Cut:
    won: Any


@record
class Call:
    frame: bytes
    accept: tuple
    finish: tuple
    how: Any


@record
class SessionEnd:
    """`kind` is closed, truncated, too-long, refused, calls-full, read-fault, write-fault or no-memory; `what` is what it tells."""
    kind: str
    what: Any = None


@record
class Transcript:
    number: int
    first: int
    calls: tuple
    end: Any


@record
class PartAccount:
    followers: int
    log: bytes
    events: tuple


@record
class Account:
    config: Configuration
    parts: tuple
    clock: tuple
    passes: tuple
    wins: tuple


# ==== audit/specs/Histories.antt


@record
class Owner:
    by: int
    seq: int


def owner_of(event):
    return None if isinstance(event, Shrink) else Owner(event.by, event.seq)


def clock_owner_of(event):
    return None if isinstance(event, Tick) else Owner(event.by, event.seq)


def ticks_of(events):
    return tuple(event.t for event in events if isinstance(event, Tick))


clock_part = CLOCK_PART


def owners_in(part):
    return () if part is None else tuple(map(owner_of, part.events))


def owners_of(account, part):
    return tuple(map(clock_owner_of, account.clock)) if part == clock_part else owners_in(slice_get(account.parts, part))


def calls_in(transcripts):
    return flat_map(lambda transcript: transcript.calls, transcripts)


def calls_of(account, pass_):
    return calls_in(slice_get(account.passes, pass_) or ())


def call_of(account, pass_, seq):
    return slice_get(calls_of(account, pass_), seq)


def all_calls(account):
    return flat_map(calls_in, account.passes)


def points_of(call):
    return call.accept + call.finish


no_state = State((), 0, 0, 0)


def history_of(part):
    return History(part.log, part.followers, part.events)


def before_in(part, place):
    return no_state if part is None else state_before(history_of(part), place)


def at_in(part, place):
    return no_state if part is None else state_at(history_of(part), place)


def final_in(part):
    return no_state if part is None else state_of(history_of(part))


def before_point(account, point):
    return before_in(slice_get(account.parts, point.part), point.place)


def at_point(account, point):
    return at_in(slice_get(account.parts, point.part), point.place)


def final_state(account, part):
    return final_in(slice_get(account.parts, part))


def event_in(part, place):
    return None if part is None else slice_get(part.events, place)


def event_at(account, point):
    return event_in(slice_get(account.parts, point.part), point.place)


def moment_at(account, point):
    return moment_of(account.clock[:point.place + 1])


def IsToldMoment(clock, t):
    return t == 0 or t in ticks_of(clock)


def AreNotLater(clock, t, points):
    return all(moment_of(clock[:point.place + 1]) <= t for point in points if point.part == clock_part)


def HadLagged(part, place, t, replica):
    return part is not None and LagsAt(part.followers, part.events[:place], t, replica)


# ==== audit/specs/LawfulCall.antt


@record
class Step:
    result: Any
    point: Any


def IsEntry(account, point, entry):
    if isinstance(entry, Put):
        before = before_point(account, point)
        stored = StoredBatch(before.log_end, entry.count, records.stamped(entry.batch, before.log_end))
        return at_point(account, point).batches == before.batches + (stored,)
    event = event_at(account, point)
    if isinstance(entry, Followed):
        return isinstance(event, Follow) and (event.replica, event.offset) == (entry.replica, entry.offset)
    return isinstance(event, Look)


def AsksLog(account, part, outcome, step):
    if step.point is None:
        return False
    came = outcome(before_point(account, step.point))
    return step.point.part == part and step.result == came.result and IsEntry(account, step.point, came.entry)


def IsStep(account, decision, step):
    if isinstance(decision, Refuse):
        return step == Step(Refused(decision.code), None)
    return AsksLog(account, decision.part, decision.outcome, step)


def step_points(steps):
    return filter_map(lambda step: step.point, steps)


def shown_at(account, point):
    return no_state if point is None else at_point(account, point)


def shown_as_accepted(account, steps):
    return tuple(Shown(step.result, shown_at(account, step.point)) for step in steps)


def IsLook(account, part, point):
    return point.part == part and isinstance(event_at(account, point), Look)


def IsClockLook(account, point):
    return point.part == clock_part and isinstance(slice_get(account.clock, point.place), ClockLook)


def LooksAtClock(account, is_delayed_, looks):
    return len(looks) == 1 and IsClockLook(account, looks[0]) if is_delayed_ else looks == ()


def moment_among(account, points):
    return moment_at(account, points[0]) if points else 0


def steps_made(account, decisions, points):
    """The one list of steps that these decisions may have come to at the first of these points, or None where there are too few."""
    steps = []
    for decision in decisions:
        if isinstance(decision, Refuse):
            steps.append(Step(Refused(decision.code), None))
        elif not points:
            return None
        else:
            steps.append(Step(decision.outcome(before_point(account, points[0])).result, points[0]))
            points = points[1:]
    return tuple(steps)


def IsAcceptance(account, frame, request, steps):
    return (request is not None and IsRequest(frame) == request
            and AllZip(lambda decision, step: IsStep(account, decision, step), Decides(account.config, request.ask), steps))


def HasAccepted(account, request, steps, accept, looks):
    return (accept == step_points(steps) + looks
            and LooksAtClock(account, becomes_delayed(request.ask, shown_as_accepted(account, steps)), looks))


def operation_in(account, request, steps, looks):
    return operation_of(request.ask, results_of(shown_as_accepted(account, steps)), moment_among(account, looks))


def part_in(result):
    return None if isinstance(result, Refused) else result.part


def operation_parts(steps):
    return filter_map(lambda step: part_in(step.result), steps)


def shown_as_completed(account, steps, points):
    """With `by_part`: a step of a refused partition takes no point."""
    shown = []
    for step in steps:
        if part_in(step.result) is None or not points:
            shown.append(Shown(step.result, no_state))
        else:
            shown.append(Shown(step.result, at_point(account, points[0])))
            points = points[1:]
    return tuple(shown)


def final_of(account, part):
    return no_state if part is None else final_state(account, part)


def shown_at_last(account, steps):
    return tuple(Shown(step.result, final_of(account, part_in(step.result))) for step in steps)


def AreLooks(account, steps, points):
    return AllZip(lambda part, point: IsLook(account, part, point), operation_parts(steps), points)


def AreLooksAfterClock(account, steps, points):
    return points != () and IsClockLook(account, points[0]) and AreLooks(account, steps, points[1:])


def AreFirstLooks(account, steps, points):
    """As many as there are points were reached."""
    return AllZip(lambda part, point: IsLook(account, part, point), operation_parts(steps)[:len(points)], points)


def AreFirstLooksAfterClock(account, steps, points):
    return points != () and IsClockLook(account, points[0]) and AreFirstLooks(account, steps, points[1:])


def is_delayed(account, request, steps):
    return becomes_delayed(request.ask, shown_as_accepted(account, steps))


def IsSatisfiedAt(account, request, steps, looks, finish):
    return IsSatisfied(operation_in(account, request, steps, looks), values_of(request.ask, shown_as_completed(account, steps, finish)))


def IsOverdueAt(account, request, steps, looks, finish):
    return IsOverdue(operation_in(account, request, steps, looks), moment_among(account, finish))


def IsCutAsSatisfied(account, request, steps, looks, finish):
    return (AreFirstLooks(account, steps, finish)
            and (not AreLooks(account, steps, finish) or IsSatisfiedAt(account, request, steps, looks, finish)))


def IsCutAsExpired(account, request, steps, looks, finish):
    return AreFirstLooksAfterClock(account, steps, finish) and IsOverdueAt(account, request, steps, looks, finish)


def Completes(account, request, steps, looks, finish, how):
    if how == Quiet():
        return is_quiet(request.ask) and finish == ()
    if how == AtOnce():
        return not is_quiet(request.ask) and not is_delayed(account, request, steps) and finish == ()
    if isinstance(how, Satisfied):
        return (is_delayed(account, request, steps) and AreLooks(account, steps, finish)
                and IsSatisfiedAt(account, request, steps, looks, finish))
    if isinstance(how, Expired):
        return (is_delayed(account, request, steps) and AreLooksAfterClock(account, steps, finish)
                and IsOverdueAt(account, request, steps, looks, finish))
    if how == Parked():
        return (is_delayed(account, request, steps) and finish == ()
                and not IsAnswerable(operation_in(account, request, steps, looks),
                                     values_of(request.ask, shown_at_last(account, steps)), moment_of(account.clock)))
    if how == Cut(None):
        return finish == ()
    return (is_delayed(account, request, steps)
            and (IsCutAsSatisfied(account, request, steps, looks, finish) or IsCutAsExpired(account, request, steps, looks, finish)))


def IsAccepted(account, call):
    """The one (request, steps, looks) of a call that was accepted whole, or None."""
    request = IsRequest(call.frame)
    steps = request and steps_made(account, Decides(account.config, request.ask), call.accept)
    if steps is None:
        return None
    looks = call.accept[len(step_points(steps)):]
    is_so = IsAcceptance(account, call.frame, request, steps) and HasAccepted(account, request, steps, call.accept, looks)
    return (request, steps, looks) if is_so else None


def IsWholeCall(account, call):
    whole = IsAccepted(account, call)
    return whole is not None and Completes(account, *whole, call.finish, call.how)


def IsCutShort(account, call):
    request = IsRequest(call.frame)
    if request is None or call.finish != () or call.how != Cut(None):
        return False
    decisions = Decides(account.config, request.ask)
    for reached in range(len(decisions) + 1):
        steps = steps_made(account, decisions[:reached], call.accept)
        if (steps is not None and AllZip(lambda decision, step: IsStep(account, decision, step), decisions[:reached], steps)
                and call.accept == step_points(steps)):
            return True
    return False


def IsLawfulCall(account, call):
    return IsWholeCall(account, call) or IsCutShort(account, call)


# ==== audit/specs/IsLawful.antt


def is_point(part, place, point):
    return point.part == part and point.place == place


def places_in(part, points):
    return tuple(point.place for point in points if point.part == part)


def IsWholeLog(part):
    return len(part.log) == bytes_of(part.events)


def is_won_as(winner, how):
    if isinstance(how, Cut):
        return how.won is not None and how.won == winner
    return isinstance(how, (Satisfied, Expired)) and how.by == winner


def is_won_by(winner, call):
    return is_won_as(winner, call.how)


def EndsAs(how, later, end):
    if how == Parked():
        return later == () and end is None
    if isinstance(how, Cut):
        return later == () and end == SessionEnd("no-memory")
    return True


def EndWell(calls, end):
    return all(EndsAs(call.how, calls[place + 1:], end) for place, call in enumerate(calls))


def FollowOn(before, transcripts):
    for transcript in transcripts:
        if transcript.first != before or not EndWell(transcript.calls, transcript.end):
            return False
        before += len(transcript.calls)
    return True


def each_call(account):
    return [(pass_, seq, call) for pass_ in range(len(account.passes)) for seq, call in enumerate(calls_of(account, pass_))]


def each_history(account):
    return [*range(len(account.parts)), clock_part]


def each_event(account):
    return [(part, place, event) for part, kept in enumerate(account.parts) for place, event in enumerate(kept.events)]


def HasShrinks(account):
    """The field `shrinks`."""
    return all(HadLagged(slice_get(account.parts, part), place, event.t, event.replica) and event.t in ticks_of(account.clock)
               for part, place, event in each_event(account) if isinstance(event, Shrink))


def HasFollows(account):
    """The fields `follows` and `earlier`."""
    return all(IsToldMoment(account.clock, event.t)
               and all(AreNotLater(account.clock, event.t, points_of(call)) for call in calls_of(account, event.by)[:event.seq])
               for _, _, event in each_event(account) if isinstance(event, Follow))


def HasEntries(account):
    if not HasShrinks(account) or not HasFollows(account):
        return False
    for part in each_history(account):
        for place, owner in enumerate(owners_of(account, part)):
            call = owner and call_of(account, owner.by, owner.seq)
            if owner and (call is None or sum(is_point(part, place, point) for point in points_of(call)) != 1):
                return False
    for pass_, seq, call in each_call(account):
        if any(slice_get(owners_of(account, point.part), point.place) != Owner(pass_, seq) for point in points_of(call)):
            return False
    return IsStrictlyIncreasing((0,) + ticks_of(account.clock))


def HasLogs(account):
    return (tuple(part.followers for part in account.parts) == followers_of(account.config.topics)
            and all(map(IsWholeLog, account.parts)))


def HasOrder(account):
    """The field `order`."""
    points = [flat_map(points_of, calls_of(account, pass_)) for pass_ in range(len(account.passes))]
    return all(IsStrictlyIncreasing(places_in(part, of_pass)) for of_pass in points for part in {point.part for point in of_pass})


def HasWins(account):
    """The field `wins`. A winner that isn't listed won nothing."""
    named = {call.how.by for call in all_calls(account) if isinstance(call.how, (Satisfied, Expired))}
    named |= {call.how.won for call in all_calls(account) if isinstance(call.how, Cut) and call.how.won is not None}
    return all((slice_get(account.wins, winner) or 0) == sum(is_won_by(winner, call) for call in all_calls(account))
               for winner in named | set(range(len(account.wins))))


def IsLawful(account):
    return (HasEntries(account) and HasOrder(account) and HasLogs(account)
            and all(IsLawfulCall(account, call) for _, _, call in each_call(account))
            and HasWins(account) and all(FollowOn(0, transcripts) for transcripts in account.passes))


# ==== audit/specs/Fits.antt


def IsUnfinished(rest):
    return next_frame_of(rest)[0] == "not yet"


def LastIsParked(calls):
    return calls != () and calls[-1].how == Parked()


def BeginsRefused(rest, why):
    kind, end = next_frame_of(rest)
    return kind == "whole" and IsFrameBody(rest[4:end]) and IsRefused(rest[4:end]) == why


def EndFits(rest, ended, transcript, end):
    if end is None:
        return LastIsParked(transcript.calls) or (IsUnfinished(rest) and not ended)
    if end.kind == "closed":
        return ended and rest == b""
    if end.kind == "truncated":
        return ended and len(rest) == end.what and 0 < end.what and IsUnfinished(rest)
    if end.kind == "too-long":
        return next_frame_of(rest) == ("too long", end.what)
    if end.kind == "refused":
        return BeginsRefused(rest, end.what)
    if end.kind == "calls-full":
        return next_frame_of(rest)[0] == "whole" and transcript.first + len(transcript.calls) == MOST_CALLS
    return IsUnfinished(rest) if end.kind == "read-fault" else True


def Fits(input_, ended, transcript):
    frames = b"".join(framed(call.frame) for call in transcript.calls)
    return (input_.startswith(frames) and all(IsFrameBody(call.frame) for call in transcript.calls)
            and EndFits(input_[len(frames):], ended, transcript, transcript.end))


def ShowsFor(account, steps, finish, how):
    """The one list of what is shown for the reply, or None."""
    if how == AtOnce():
        return shown_as_accepted(account, steps)
    if isinstance(how, Satisfied):
        return shown_as_completed(account, steps, finish)
    if isinstance(how, Expired) and finish != ():
        return shown_as_completed(account, steps, finish[1:])
    return None


def IsReplyOf(account, call):
    """The one reply of a call that was accepted whole."""
    request, steps, _ = IsAccepted(account, call)
    return answer(account.config, request, ShowsFor(account, steps, call.finish, call.how))


def is_answered(how):
    return isinstance(how, (AtOnce, Satisfied, Expired))


def answered_of(calls):
    return tuple(call for call in calls if is_answered(call.how))


def HasReplies(account, calls):
    """The one list of the calls' replies."""
    return tuple(IsReplyOf(account, call) for call in answered_of(calls))


def sent(replies):
    return b"".join(map(spelling, replies))


# ==== trace_file/specs/Contents.antt: lines are those of traces.py, a kind and what stands behind it

MOST_SESSIONS = 64


def configuration_of(port, lines):
    topics = (what for kind, what in lines if kind == "topic")
    return Configuration(port, tuple(Topic(topic.name, topic.partitions, topic.followers, topic.min_insync) for topic in topics))


def input_of(session, lines):
    return b"".join(what[1] for kind, what in lines if kind == "bytes" and what[0] == session)


def is_shut(session, lines):
    return any(kind == "close" and what == session for kind, what in lines)


def is_named(session, lines):
    return is_shut(session, lines) or any(kind == "bytes" and what[0] == session for kind, what in lines)


def sessions_of(lines):
    return max((session + 1 for session in range(MOST_SESSIONS) if is_named(session, lines)), default=0)


def rising_from(moment, lines):
    ticks = []
    for kind, what in lines:
        if kind == "clock" and moment < what:
            ticks.append(what)
            moment = what
    return tuple(ticks)


# ==== audit/specs/RunOf.antt


def IsTraceEnd(end):
    return end is None or end.kind not in ("read-fault", "write-fault", "no-memory")


def IsNotCut(call):
    return not isinstance(call.how, Cut)


def IsSessionOf(lines, account, session):
    transcripts = slice_get(account.passes, session)
    return (len(transcripts) == 1 and transcripts[0].number == session
            and Fits(input_of(session, lines), is_shut(session, lines), transcripts[0]) and IsTraceEnd(transcripts[0].end))


def IsRunOf(lines, port, further, added, account):
    sessions = sessions_of(lines)
    return (account.config == configuration_of(port, lines)
            and len(account.passes) == sessions + len(further)
            and account.passes[sessions:] == further
            and all(IsSessionOf(lines, account, session) if is_named(session, lines) else account.passes[session] == ()
                    for session in range(sessions))
            and all(map(IsNotCut, all_calls(account)))
            and ticks_of(account.clock) == rising_from(0, lines) + added)


# ==== audit/specs/Printed.antt


def line_of(*words):
    return " ".join(map(str, words)).encode() + b"\n"


def reply_line(session, reply):
    return line_of("reply", session, spelling(reply).hex())


def end_words(end):
    return (end.kind,) if end.what is None else (end.kind, end.what)


def end_line(session, end):
    return b"" if end is None else line_of("end", session, *end_words(end))


def last_state_of(part):
    return state_of(history_of(part))


def part_line(number, part):
    state = last_state_of(part)
    return line_of("part", number, "end", state.log_end, "high", state.high, "batches", len(state.batches), "bytes", len(part.log))


def short_part_line(number, part):
    state = last_state_of(part)
    return line_of("part", number, "end", state.log_end, "batches", len(state.batches), "bytes", len(part.log))


def is_parked(how):
    return how == Parked()


def parked_of(calls):
    return 1 if calls and is_parked(calls[-1].how) else 0


def replies_in(transcript):
    return len(answered_of(transcript.calls))


def session_line(transcript):
    return line_of("session", transcript.number, "calls", len(transcript.calls), "replies", replies_in(transcript),
                   "parked", parked_of(transcript.calls))


def link_end(end):
    return () if end is None else end_words(end)


def link_line(transcript):
    return line_of("link", transcript.number, "calls", len(transcript.calls), "replies", replies_in(transcript), *link_end(transcript.end))


done_line = line_of("done")


def numbered(n, parts):
    return tuple(enumerate(parts, n))


def transcripts_of(account):
    return flat_map(lambda transcripts: transcripts, account.passes)


def summary_of(account):
    return (b"".join(part_line(*part) for part in numbered(0, account.parts))
            + b"".join(map(session_line, transcripts_of(account))) + done_line)


def sessions_line(transcripts):
    return line_of("sessions", len(transcripts), "calls", sum(len(t.calls) for t in transcripts),
                   "replies", sum(map(replies_in, transcripts)), "parked", sum(parked_of(t.calls) for t in transcripts))


def storm_summary_of(account):
    return b"".join(short_part_line(*part) for part in numbered(0, account.parts)) + sessions_line(transcripts_of(account)) + done_line


def session_text(transcript, replies):
    return b"".join(reply_line(transcript.number, reply) for reply in replies) + end_line(transcript.number, transcript.end)


def IsPrintOf(account):
    """The one print of a lawful account, session by session."""
    return b"".join(session_text(t, HasReplies(account, t.calls)) for t in transcripts_of(account)) + summary_of(account)


# ==== audit/specs/ServePrint.antt


def IsServePrintOf(account):
    """The one print of the account of links, or None where two of them have one number."""
    links = sorted(transcripts_of(account), key=lambda transcript: transcript.number)
    if any(later.number <= before.number for before, later in zip(links, links[1:])):
        return None
    return b"".join(map(link_line, links)) + b"".join(part_line(*part) for part in numbered(0, account.parts)) + done_line
