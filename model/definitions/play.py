"""The definitions of the crates' `specs`, transcribed line by line, so that the two can be laid side by side: here the play of the
one-thread broker, in `accounts.py` the account of a run and when it is lawful, in `parts.py` partitions,
operations, decisions and answers, in `replicas.py` who is in sync, and in `requests.py` requests and the words of lists.

Each heading names the file, and each function has the name that it has there. A list is a tuple, a list of bytes is `bytes`, an
option is None or the value, and `minus` is the difference of naturals, which is never below 0. What is a relation there is a
check here, or gives the one thing that stands in the relation; what there is said to exist is made here. Requests are read, and
fields spelled and checked, by `wire.py` and `batches.py`.
"""

from dataclasses import replace
from typing import Any

from model.broker import batches as records
from model.definitions.accounts import (
    Account, AtOnce, Call, calls_in, clock_part, end_line, Expired, is_shut, is_won_by, MOST_CALLS, MOST_SESSIONS, no_state,
    operation_parts, Parked, part_in, PartAccount, Point, Quiet, reply_line, Satisfied, SessionEnd, Step, step_points,
    summary_of, Transcript,
)
from model.definitions.parts import (
    all_shrunk, answer, Append, becomes_delayed, ClockLook, Decides, Follow, Followed, History, is_quiet, log_end_of, Look,
    looked, moment_of, operation_of, Put, Refuse, Refused, results_of, Shown, State, state_of, tally, Tick, values_of,
)
from model.definitions.requests import (
    Configuration, flat_map, followers_of, IsRefused, IsRequest, minus, next_frame_of, record, slice_get, slice_set,
)

# ==== audit/specs/broker/Board.antt


@record
class Seat:
    inbox: bytes
    is_shut: bool
    transcript: Any


@record
class Waiting:
    session: int
    request: Any
    steps: tuple
    operation: Any


@record
class Board:
    config: Configuration
    parts: tuple
    clock: tuple
    seats: tuple
    waiting: tuple


most_sessions = MOST_SESSIONS
empty_seat = Seat(b"", False, None)


def empty_history(followers):
    return History(b"", followers, ())


def opening(config):
    return Board(config, tuple(map(empty_history, followers_of(config.topics))), (), (empty_seat,) * most_sessions, ())


def history_at(parts, part):
    return slice_get(parts, part) or empty_history(0)


def seat_at(board, session):
    return slice_get(board.seats, session) or empty_seat


def new_transcript(session):
    return Transcript(session, 0, (), None)


def transcript_at(board, session):
    return seat_at(board, session).transcript or new_transcript(session)


def next_call(board, session):
    return transcript_at(board, session).first + len(transcript_at(board, session).calls)


def put_before(transcripts, passes):
    return () if transcripts == () and passes == () else (transcripts,) + passes


def passes_of(seats):
    if not seats:
        return ()
    return put_before(() if seats[0].transcript is None else (seats[0].transcript,), passes_of(seats[1:]))


def part_account(h):
    return PartAccount(h.followers, h.log, h.events)


def account_of(board):
    passes = passes_of(board.seats)
    return Account(board.config, tuple(map(part_account, board.parts)), board.clock, passes,
                   (sum(is_won_by(0, call) for call in flat_map(calls_in, passes)),))


# ==== audit/specs/broker/Entering.antt


def entered(h, by, seq, t, entry):
    if isinstance(entry, Put):
        return replace(h, log=h.log + records.stamped(entry.batch, log_end_of(h.events)),
                       events=h.events + (Append(by, seq, entry.count, len(entry.batch)),))
    if isinstance(entry, Followed):
        return replace(h, events=h.events + (Follow(by, seq, entry.replica, entry.offset, t),))
    return replace(h, events=h.events + (Look(by, seq),))


@record
class Noted:
    step: Step
    state: State


def accept_all(by, seq, t, decisions, parts):
    noted = []
    for decision in decisions:
        if isinstance(decision, Refuse):
            noted.append(Noted(Step(Refused(decision.code), None), no_state))
            continue
        found = history_at(parts, decision.part)
        came = decision.outcome(state_of(found))
        left = entered(found, by, seq, t, came.entry)
        parts = slice_set(parts, decision.part, left)
        noted.append(Noted(Step(came.result, Point(decision.part, len(found.events))), state_of(left)))
    return tuple(noted), parts


def steps_of(noted):
    return tuple(n.step for n in noted)


def shown_of(noted):
    return tuple(Shown(n.step.result, n.state) for n in noted)


# ==== audit/specs/broker/Turns.antt


@record
class Turned:
    board: Board
    text: bytes


def seat_with(board, session, body, call):
    transcript = transcript_at(board, session)
    return replace(seat_at(board, session), inbox=seat_at(board, session).inbox[4 + len(body):],
                   transcript=replace(transcript, calls=transcript.calls + (call,)))


def with_call(board, parts, session, body, call):
    return replace(board, parts=parts, seats=slice_set(board.seats, session, seat_with(board, session, body, call)))


def how_at_once(ask):
    return Quiet() if is_quiet(ask) else AtOnce()


def text_at_once(config, session, request, shown):
    return b"" if is_quiet(request.ask) else reply_line(session, answer(config, request, shown))


def answered_at_once(board, session, body, request, came):
    noted, parts = came
    call = Call(body, step_points(steps_of(noted)), (), how_at_once(request.ask))
    return Turned(with_call(board, parts, session, body, call), text_at_once(board.config, session, request, shown_of(noted)))


def left_waiting(board, session, body, request, came):
    noted, parts = came
    clock = board.clock + (ClockLook(session, next_call(board, session)),)
    call = Call(body, step_points(steps_of(noted)) + (Point(clock_part, len(board.clock)),), (), Parked())
    operation = operation_of(request.ask, results_of(shown_of(noted)), moment_of(clock))
    return Turned(replace(with_call(board, parts, session, body, call), clock=clock,
                          waiting=board.waiting + (Waiting(session, request, steps_of(noted), operation),)), b"")


def handled(board, session, body, request, decisions):
    came = accept_all(session, next_call(board, session), moment_of(board.clock), decisions, board.parts)
    if becomes_delayed(request.ask, shown_of(came[0])):
        return left_waiting(board, session, body, request, came)
    return answered_at_once(board, session, body, request, came)


def ended(board, session, end):
    seat = replace(seat_at(board, session), transcript=replace(transcript_at(board, session), end=end))
    return Turned(replace(board, seats=slice_set(board.seats, session, seat)), end_line(session, end))


# ==== audit/specs/broker/Completing.antt


def present(parts, part):
    return no_state if part is None else state_of(history_at(parts, part))


def shown_now(board, steps):
    return tuple(Shown(step.result, present(board.parts, part_in(step.result))) for step in steps)


def is_satisfied_now(board, w):
    return w.operation.least <= tally(w.operation.needs, values_of(w.request.ask, shown_now(board, w.steps)))


def is_overdue_now(board, w):
    return w.operation.deadline <= moment_of(board.clock)


def is_answerable_now(board, w):
    return is_satisfied_now(board, w) or is_overdue_now(board, w)


def look_all(by, seq, looked_at, parts):
    points = []
    for part in looked_at:
        found = history_at(parts, part)
        points.append(Point(part, len(found.events)))
        parts = slice_set(parts, part, looked(found, by, seq))
    return tuple(points), parts


def finish_last(finish, how, calls):
    return calls and calls[:-1] + (replace(calls[-1], finish=finish, how=how),)


def last_call(board, session):
    return minus(next_call(board, session), 1)


def completed_as(board, w, clock, finish, how, parts):
    transcript = transcript_at(board, w.session)
    seat = replace(seat_at(board, w.session), transcript=replace(transcript, calls=finish_last(finish, how, transcript.calls)))
    return replace(board, parts=parts, clock=clock, seats=slice_set(board.seats, w.session, seat),
                   waiting=tuple(other for other in board.waiting if other.session != w.session))


def completed(board, w):
    seq = last_call(board, w.session)
    looks, parts = look_all(w.session, seq, operation_parts(w.steps), board.parts)
    late = (Point(clock_part, len(board.clock)),) + looks
    text = reply_line(w.session, answer(board.config, w.request, shown_now(board, w.steps)))
    if is_satisfied_now(board, w):
        return Turned(completed_as(board, w, board.clock, looks, Satisfied(0), parts), text)
    return Turned(completed_as(board, w, board.clock + (ClockLook(w.session, seq),), late, Expired(0), parts), text)


def unless_none(board, w):
    return completed(board, w) if w is not None and is_answerable_now(board, w) else Turned(board, b"")


def answered_in(board, session):
    return unless_none(board, next((w for w in board.waiting if w.session == session), None))


def scan_sessions(sessions, board):
    text = b""
    for session in sessions:
        here = answered_in(board, session)
        board, text = here.board, text + here.text
    return Turned(board, text)


def scanned(board):
    return scan_sessions(range(most_sessions), board)


# ==== audit/specs/broker/Acting.antt


def is_there(end):
    return end is not None


def shows_work(is_shut_, frame):
    return {"whole": True, "not yet": is_shut_, "too long": True}[frame[0]]


def has_ended(transcript):
    return transcript is not None and is_there(transcript.end)


def has_work(seat):
    return not has_ended(seat.transcript) and shows_work(seat.is_shut, next_frame_of(seat.inbox))


def can_act(board, session):
    seat = seat_at(board, session)
    return (not is_there(transcript_at(board, session).end) and not any(w.session == session for w in board.waiting)
            and shows_work(seat.is_shut, next_frame_of(seat.inbox)))


def next_to_act(board):
    return next((session for session in range(most_sessions) if can_act(board, session)), None)


def HandlesFrame(board, session, body):
    request = IsRequest(body)
    if request is not None:
        return handled(board, session, body, request, Decides(board.config, request.ask))
    return ended(board, session, SessionEnd("refused", IsRefused(body)))


def end_of_input(got):
    return SessionEnd("closed") if got == 0 else SessionEnd("truncated", got)


def ActsOn(board, session, frame):
    kind, what = frame
    inbox = seat_at(board, session).inbox
    if kind == "whole":
        if next_call(board, session) == MOST_CALLS:
            return ended(board, session, SessionEnd("calls-full"))
        return HandlesFrame(board, session, inbox[4:what])
    return ended(board, session, end_of_input(len(inbox)) if kind == "not yet" else SessionEnd("too-long", what))


def Acts(board, session):
    return ActsOn(board, session, next_frame_of(seat_at(board, session).inbox))


# ==== audit/specs/broker/Play.antt


def with_seat(board, session, inbox, is_shut_):
    return replace(board, seats=slice_set(board.seats, session, Seat(inbox, is_shut_, transcript_at(board, session))))


def ticked(board, t):
    return replace(board, clock=board.clock + (Tick(t),), parts=tuple(all_shrunk(h, 0, t) for h in board.parts))


def brought(board, kind, what):
    if kind == "bytes":
        session, data = what
        seat = seat_at(board, session)
        has_ended = is_there(transcript_at(board, session).end)
        return with_seat(board, session, seat.inbox if has_ended else seat.inbox + data, seat.is_shut)
    if kind == "close":
        return with_seat(board, what, seat_at(board, what).inbox, True)
    if kind == "clock" and moment_of(board.clock) < what:
        return ticked(board, what)
    return board


def Rests(board):
    text = b""
    while True:
        swept = scanned(board)
        board, text = swept.board, text + swept.text
        session = next_to_act(board)
        if session is None:
            return Turned(board, text)
        act = Acts(board, session)
        board, text = act.board, text + act.text


def PlaysLine(board, kind, what):
    return Rests(brought(board, kind, what))


def Plays(board, lines):
    text = b""
    for kind, what in lines:
        here = PlaysLine(board, kind, what)
        board, text = here.board, text + here.text
    return Turned(board, text)


def IsPlay(config, lines):
    """The one account and text of a trace."""
    last = Plays(opening(config), lines)
    return account_of(last.board), last.text + summary_of(account_of(last.board))
