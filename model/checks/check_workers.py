#!/usr/bin/env python3
"""Plays the traces of the rows and examples, and random ones, on workers, by `tell_account`, and checks the account that it tells and
what is printed of it.

The account has to be lawful, that of a run of the trace, and to tell what is printed, by the definitions as they are transcribed. And
apart from these a slow broker does each partition's history again, entry by entry, gives each call's reply from what it sees at the
call's points, and looks whether anything that still waits could have been answered. It stops at the first trace that fails, and leaves
it in the folder that is named, with what was told of it. Run it at the top of the repository: `python3 -B -m model.checks.check_workers`.
"""

import argparse
import collections
import dataclasses
import pathlib
import subprocess
import sys
import tempfile
import time

from model.broker import broker, traces, wire
from model.checks import compare, repository, slow_reading, told_account, unproved
from model.definitions import accounts
from model.definitions.parts import Shrink
from model.traces import generate

CRATE = "tell_account"
KINDS = ["waiting", "mixed", "lagging", "mixed", "crowded", "changed"]
WORKERS = [1, 2, 3, 16]
DRAIN_STEP = 1000
# How long a request may wait in a trace that is drained, in milliseconds.
MOST_DRAINED = 100_000
# How often a trace is played again to see whether it fails without one of its lines.
TRIES = 10


class Wrong(Exception):
    pass


WRONG = (Wrong, slow_reading.Wrong, told_account.Unreadable)


def need(holds, what):
    if not holds:
        raise Wrong(what)


# ---- runs


@dataclasses.dataclass(frozen=True)
class Case:
    """A run: a trace, on so many workers."""
    trace: str
    workers: int
    drain: bool
    text: bytes

    @property
    def words(self):
        return [str(self.workers), *["drain"] * self.drain]

    @property
    def name(self):
        return "_".join([self.trace, *self.words])


def finished(run):
    """What a run told, or what is wrong with it."""
    if run is None:
        return Wrong("the run comes to no end")
    code, told, errors = run
    return Wrong(f"the run ends with {code}: {errors.decode(errors='replace').strip()}") if code != 0 or errors else told


def ran(program, case):
    """What is told of a run, as bytes, or what is wrong with it."""
    try:
        done = subprocess.run([program, *case.words], input=case.text, capture_output=True, timeout=60)
    except subprocess.TimeoutExpired:
        return finished(None)
    return finished((done.returncode, done.stdout, done.stderr))


def ran_unproved(cases):
    """The same of each run, by a build that `rt try` makes for all of them without a proof."""
    told = unproved.ran(CRATE, [(case.name, case.words, case.text) for case in cases])
    return (finished(told[case.name]) for case in cases)


# ---- what has to hold


def inputs_of(lines):
    """By session that a line names: what it received, and whether its input ended."""
    return {session: (accounts.input_of(session, lines), accounts.is_shut(session, lines))
            for session in range(accounts.MOST_SESSIONS) if accounts.is_named(session, lines)}


def check_drained(lines, account, added):
    moments = (max(accounts.rising_from(0, lines), default=0),) + added
    need(all(later == before + DRAIN_STEP for before, later in zip(moments, moments[1:])), "the clock doesn't go on by the second")
    need(not any(call.how == accounts.Parked() for call in accounts.all_calls(account)), "a request waits where the run is drained")


def check(case, told):
    """Checks what was told of a run, and answers the account."""
    if isinstance(told, Wrong):
        raise told
    lines, (account, printed) = traces.read(case.text), told_account.read(told)
    added = accounts.ticks_of(account.clock)[len(accounts.rising_from(0, lines)):]
    need(case.drain or added == (), "the clock goes on behind the lines")
    # Behind the passes of the sessions stands that of the clock, without a transcript.
    need(accounts.IsRunOf(lines, broker.PORT, ((),), added, account), "the account isn't that of a run of the trace")
    need(accounts.IsLawful(account), "the account isn't lawful")
    need(accounts.IsPrintOf(account) == printed, "the account tells something else than what is printed")
    need(slow_reading.SlowReading(account).told(inputs_of(lines)) == printed, "the slow broker prints something else")
    if case.drain:
        check_drained(lines, account, added)
    return account


# ---- traces


def requests_in(data):
    """The requests at the front of what a session receives."""
    while True:
        kind, body = wire.next_frame(data)
        if kind != "whole":
            return
        try:
            yield wire.read_request(body)
        except wire.Refused:
            return
        data = data[4 + len(body):]


def is_drainable(lines):
    """Whether a drained run of these lines ends soon. Past the last moment a clock has nowhere to go."""
    waits = [request.fields.get("timeout", request.fields.get("wait", 0))
             for data, _ in inputs_of(lines).values() for request in requests_in(data)]
    last = max(accounts.rising_from(0, lines), default=0)
    return max(waits, default=0) <= MOST_DRAINED and last + 2 * MOST_DRAINED * (1 + len(waits)) <= traces.MOST_MOMENT


def files():
    """Each trace that stands in the repository, by its name."""
    for trace in repository.played():
        yield f"{trace.parent.name}_{trace.stem}", trace.read_bytes()


def made(first, count):
    """Random traces, by their names."""
    for seed in range(first, first + count):
        kind = KINDS[seed % len(KINDS)]
        yield f"{kind}_{seed}", generate.made(kind, seed)


def cases_of(named, workers):
    return [Case(name, each, drain, text) for name, text in named
            for drain in ([False, True] if is_drainable(traces.read(text)) else [False]) for each in workers]


# ---- what fails


def fails(program, case, text):
    """Whether one of some runs on this text fails too."""
    try:
        traces.read(text)
    except traces.Bad:
        return False
    case = dataclasses.replace(case, text=text)
    for _ in range(TRIES):
        try:
            check(case, ran(program, case))
        except WRONG:
            return True
    return False


def tell_failure(chosen, case, told, wrong):
    left = chosen.folder / f"{case.name}.trace"
    left.write_bytes(case.text)
    if isinstance(told, bytes):
        left.with_suffix(".told").write_bytes(told)
    print(f"{left} fails on {case.workers} workers{', drained' * case.drain}: {wrong}")
    if chosen.unproved:
        return
    small = compare.shrunk(case.text, lambda fewer: fails(chosen.program, case, fewer))
    left.with_suffix(".small.trace").write_bytes(small)
    print(f"Of its lines these do, left in {left.with_suffix('.small.trace')}:")
    compare.show_text(small)


# ---- the whole


def names(counts):
    return ", ".join(f"{count} {name}" for name, count in sorted(counts.items()))


class Counted:
    """What was met in all runs."""

    def __init__(self):
        self.runs, self.drained, self.leaves = 0, 0, 0
        self.hows, self.ends = collections.Counter(), collections.Counter()
        # by trace, what its runs came to, but for the winners
        self.came = {}

    def add(self, case, account):
        self.runs += 1
        self.drained += case.drain
        self.leaves += sum(isinstance(event, Shrink) for part in account.parts for event in part.events)
        self.hows.update(type(call.how).__name__ for _, _, call in accounts.each_call(account))
        self.ends.update(transcript.end.kind if transcript.end else "none" for transcript in accounts.transcripts_of(account))
        if not case.drain:
            self.came.setdefault(case.trace, set()).add(hash((account.parts, account.clock)))

    def told(self):
        unlike = sum(len(histories) > 1 for histories in self.came.values())
        return (f"{self.runs} runs, {self.drained} of them drained, with {sum(self.hows.values())} calls ({names(self.hows)}) and "
                f"{sum(self.ends.values())} sessions ({names(self.ends)}); {self.leaves} times a follower left: each account is lawful, is "
                f"that of its trace, and is printed as the slow broker prints it. The runs of {unlike} traces came to other histories than one another")


def main():
    options = argparse.ArgumentParser(description=__doc__)
    options.add_argument("program", nargs="?", type=pathlib.Path, default=repository.program(CRATE))
    options.add_argument("--count", type=int, default=200, metavar="N", help="random traces")
    options.add_argument("--first", type=int, default=0, metavar="SEED", help="the seed of the first")
    options.add_argument("--workers", type=int, action="append", metavar="W", help=f"only on so many workers; else on each of {WORKERS}")
    options.add_argument("--unproved", action="store_true", help="plays all by one build of `rt try`, which proves nothing")
    options.add_argument("--folder", type=pathlib.Path, default=pathlib.Path(tempfile.gettempdir()), help="where a trace that fails is left")
    chosen = options.parse_args()
    if not chosen.unproved and not chosen.program.is_file():
        print(f"{chosen.program} isn't there: `rt run -- 1` in crates/tell_account makes it", file=sys.stderr)
        return 2
    counted, began = Counted(), time.time()
    cases = cases_of([*files(), *made(chosen.first, chosen.count)], chosen.workers or WORKERS)
    try:
        runs = ran_unproved(cases) if chosen.unproved else (ran(chosen.program, case) for case in cases)
    except unproved.Failed as failed:
        print(failed, file=sys.stderr)
        return 2
    for case, told in zip(cases, runs):
        try:
            counted.add(case, check(case, told))
        except WRONG as wrong:
            tell_failure(chosen, case, told, wrong)
            return 1
    print(f"{len(counted.came)} traces in {time.time() - began:.0f} s: {counted.told()}")
    return 0


if __name__ == "__main__":
    sys.exit(main())
