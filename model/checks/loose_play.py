"""A trace played as threads might: a session goes on by one entry of one history at a time, and between two of them anything of the
other sessions may come. A request that waits is completed at any time from when it is answerable on, as satisfied or as expired where
it is both, and by any winner. A follower's fetch has any moment that the clock was told and that isn't below those that its session has
seen. Of the followers that lag some leave, some time after the tick. The account of each such play has to be lawful, and to tell the
replies that were given.
"""

from dataclasses import replace

from model.definitions import accounts, parts, play, requests
from model.definitions.accounts import Account, Call, Expired, Parked, Point, Quiet, Satisfied, SessionEnd, Step, Transcript, clock_part
from model.definitions.parts import AskLog, ClockLook, Refused, Shown, moment_of

# How many passes there may be, of which any may have the clock.
PASSES = 5


class LoosePlay:
    def __init__(self, config, random_, winners):
        self.config, self.random, self.winners = config, random_, winners
        self.parts = [play.empty_history(followers) for followers in requests.followers_of(config.topics)]
        self.clock = ()
        # by session: what it received and nobody has handled yet, with whether its input ended; and what it still has to do, as what
        # has to be done after a tick
        self.seats, self.steps = {}, {}
        self.calls, self.parked, self.ends, self.replies = {}, {}, {}, {}
        self.wins = [0] * winners
        # by session: the moment at which it has seen the clock last
        self.seen = {}

    # ---- one step on one history, and what it shows

    def enter(self, part, session, entry):
        """An entry in a partition's history: its point, and the state just after it."""
        found = self.parts[part]
        self.parts[part] = play.entered(found, session, len(self.calls[session]), self.moment_for(session), entry)
        return Point(part, len(found.events)), parts.state_of(self.parts[part])

    def moment_for(self, session):
        told = (0,) + accounts.ticks_of(self.clock)
        return self.random.choice([moment for moment in told if self.seen.get(session, 0) <= moment])

    def look_at_clock(self, session):
        self.clock += (ClockLook(session, len(self.calls[session])),)
        self.seen[session] = moment_of(self.clock)
        return Point(clock_part, len(self.clock) - 1)

    def shrink(self, t, by):
        """What follows a tick: of each partition those who lag leave, in any order, but for some now and then."""
        for part in range(len(self.parts)):
            yield True
            while (leaves := parts.shrinks_at(self.parts[part], by, t)) and self.random.random() < 0.9:
                found = self.parts[part]
                self.parts[part] = replace(found, events=found.events + (self.random.choice(leaves),))
                yield True

    # ---- a session, which stops before each step

    def serve(self, session):
        while True:
            inbox, is_shut = self.seats[session]
            kind, what = requests.next_frame_of(inbox)
            if kind == "not yet" and not is_shut:
                yield False
                continue
            if kind != "whole":
                end = play.end_of_input(len(inbox)) if kind == "not yet" else SessionEnd("too-long", what)
            else:
                body = inbox[4:what]
                request = requests.IsRequest(body)
                end = None if request else SessionEnd("refused", requests.IsRefused(body))
            if end is not None:
                self.ends[session] = end
                return
            self.seats[session] = inbox[what:], is_shut
            yield from self.handle(session, body, request)

    def handle(self, session, body, request):
        noted = []
        for decision in parts.Decides(self.config, request.ask):
            if not isinstance(decision, AskLog):
                noted.append((Step(Refused(decision.code), None), accounts.no_state))
                continue
            yield True
            came = decision.outcome(parts.state_of(self.parts[decision.part]))
            point, state = self.enter(decision.part, session, came.entry)
            noted.append((Step(came.result, point), state))
        steps = tuple(step for step, _ in noted)
        shown = tuple(Shown(step.result, state) for step, state in noted)
        accept = accounts.step_points(steps)
        if not parts.becomes_delayed(request.ask, shown):
            self.finish(session, Call(body, accept, (), play.how_at_once(request.ask)), request, shown)
            return
        yield True
        accept += (self.look_at_clock(session),)
        operation = parts.operation_of(request.ask, parts.results_of(shown), moment_of(self.clock))
        waiting = play.Waiting(session, request, steps, operation)
        self.parked[session] = Call(body, accept, (), Parked())
        while True:
            hows = self.hows_of(waiting)
            if hows:
                break
            yield False
        yield True
        how = self.random.choice(hows)(self.random.randrange(self.winners))
        self.wins[how.by] += 1
        yield from self.complete(session, waiting, how)

    def hows_of(self, waiting):
        """How it may be completed now."""
        board = play.Board(self.config, tuple(self.parts), self.clock, (), ())
        return ([Satisfied] if play.is_satisfied_now(board, waiting) else []) + ([Expired] if play.is_overdue_now(board, waiting) else [])

    def complete(self, session, waiting, how):
        call, finish, shown = self.parked[session], (), []
        if isinstance(how, Expired):
            finish += (self.look_at_clock(session),)
            yield True
        for step in waiting.steps:
            part, state = accounts.part_in(step.result), accounts.no_state
            if part is not None:
                point, state = self.enter(part, session, parts.Looked())
                finish += (point,)
                yield True
            shown.append(Shown(step.result, state))
        del self.parked[session]
        self.finish(session, Call(call.frame, call.accept, finish, how), waiting.request, tuple(shown))

    def finish(self, session, call, request, shown):
        self.calls[session].append(call)
        if call.how != Quiet():
            self.replies[session].append(parts.answer(self.config, request, shown))

    # ---- the whole

    def bring(self, kind, what):
        if kind == "clock" and moment_of(self.clock) < what:
            self.clock += (parts.Tick(what),)
            self.steps[f"tick {what}"] = self.shrink(what, self.random.randrange(PASSES))
        if kind not in ("bytes", "close"):
            return
        session = what[0] if kind == "bytes" else what
        if session not in self.seats:
            self.seats[session] = b"", False
            self.calls[session], self.replies[session] = [], []
            self.steps[session] = self.serve(session)
        inbox, is_shut = self.seats[session]
        if session not in self.ends:
            self.seats[session] = (inbox + what[1], is_shut) if kind == "bytes" else (inbox, True)

    def go_on(self, session):
        """One step of a session. False where it can't go on now."""
        try:
            return next(self.steps[session])
        except StopIteration:
            del self.steps[session]
            return True

    def run(self, lines):
        for kind, what in lines:
            self.bring(kind, what)
            for _ in range(self.random.choice([0, 1, 2, 5, 20, 100])):
                if self.steps:
                    self.go_on(self.random.choice(list(self.steps)))
        before = None
        while before != (self.parts, self.steps.keys()):
            before = list(self.parts), set(self.steps)
            sessions = list(self.steps)
            self.random.shuffle(sessions)
            while any([self.go_on(session) for session in sessions if session in self.steps]):
                pass
        return self.account()

    def account(self):
        passes = []
        for session in range(max(self.seats, default=-1) + 1):
            if session not in self.seats:
                passes.append(())
                continue
            calls = tuple(self.calls[session]) + ((self.parked[session],) if session in self.parked else ())
            passes.append((Transcript(session, 0, calls, self.ends.get(session)),))
        return Account(self.config, tuple(map(play.part_account, self.parts)), self.clock, tuple(passes), tuple(self.wins))
