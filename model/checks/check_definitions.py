#!/usr/bin/env python3
"""Runs the definitions on random traces. Their play prints what the model's broker prints, its account is lawful, is that of a run of
the trace and tells what was printed. So is the account of each play in which sessions go on beside each other, as threads would. And
after each of some hundred small changes an account is refused, but for those that mean the same. Run it at the top of the repository:
`python3 -B -m model.checks.check_definitions`.
"""

import argparse
import random
import sys
import time

from model.broker import broker, traces
from model.checks import changed_accounts, loose_play, repository
from model.definitions import accounts, parts, play
from model.traces import generate

PORT = broker.PORT
KINDS = ["waiting", "lagging", "mixed", "plain"]
# No trace is long enough to fill a log; so in each fifth one a log takes no more than so many bytes.
MOST_LOG_BYTES, FEW_LOG_BYTES = broker.LOG_LIMIT, 200


class Wrong(Exception):
    pass


def need(holds, what):
    if not holds:
        raise Wrong(what)


def refused_by(account, lines, told):
    """The first check that refuses an account, or "same"."""
    if not accounts.IsLawful(account):
        return "lawful"
    if not accounts.IsRunOf(lines, PORT, (), (), account):
        return "run"
    return "same" if accounts.IsPrintOf(account) == told else "text"


ORDER = ["lawful", "run", "text", "same"]


def is_as_wanted(wanted, came):
    """What must be refused by one check may be refused by an earlier one. What means the same is lawful, and so is what was cut."""
    if wanted == "other":
        return True
    if wanted in ("same", "cut"):
        return came == {"same": "same", "cut": "run"}[wanted]
    return ORDER.index(came) <= ORDER.index(wanted)


def session_lines(out):
    """The lines of an output, gathered by session: what each session was told, and how it ended, in order."""
    told = {}
    for line in out.split(b"\n"):
        if line.startswith((b"reply", b"end")):
            told.setdefault(line.split(b" ")[1], []).append(line)
    return told


def check_operations(account):
    """Each operation is within its bounds, and what it needs only rises."""
    for _, _, call in accounts.each_call(account):
        request, steps, looks = accounts.IsAccepted(account, call)
        operation = accounts.operation_in(account, request, steps, looks)
        need(parts.IsValid(operation), "an operation is out of its bounds")
        before = parts.values_of(request.ask, accounts.shown_as_accepted(account, steps))
        after = parts.values_of(request.ask, accounts.shown_at_last(account, steps))
        need(parts.HaveRisen(before, after), "a gauge fell")


def check_play(lines, config):
    """The account of the one-thread broker."""
    account, printed = play.IsPlay(config, lines)
    need(printed == broker.play(lines), "the play prints something else than the model")
    check_account(account, lines, "of the play")
    need(session_lines(accounts.IsPrintOf(account)) == session_lines(printed), "the account tells other replies than were printed")
    need(printed.endswith(accounts.summary_of(account)), "the account has another summary than was printed")
    return account


def check_loose_play(lines, config, random_, winners):
    """An account of sessions that go on beside each other."""
    loose = loose_play.LoosePlay(config, random_, winners)
    account = loose.run(lines)
    check_account(account, lines, "of a loose play")
    for transcript in accounts.transcripts_of(account):
        need(accounts.HasReplies(account, transcript.calls) == tuple(loose.replies[transcript.number]), "other replies than were given")
    return account


def check_account(account, lines, whose):
    need(accounts.IsLawful(account), f"the account {whose} isn't lawful")
    need(accounts.IsRunOf(lines, PORT, (), (), account), f"the account {whose} isn't one of the trace's run")
    check_operations(account)


def check_files():
    """Each trace that stands in the repository with what it prints. How many they are."""
    for trace in repository.played():
        lines = traces.read(trace.read_bytes())
        account, printed = play.IsPlay(accounts.configuration_of(PORT, lines), lines)
        if trace.with_suffix(".args").exists():  # on workers, which print session by session
            printed = accounts.IsPrintOf(account)
        need(printed == trace.with_suffix(".out").read_bytes(), f"{trace} prints something else")
        check_account(account, lines, f"of {trace}")
    return len(repository.played())


def check_changes(account, lines, changes_of_a_kind, random_, counted):
    told = accounts.IsPrintOf(account)
    by_kind = {}
    for kind, wanted, changed in changed_accounts.changes(account):
        by_kind.setdefault((kind, wanted), []).append(changed)
    for (kind, wanted), found in by_kind.items():
        for changed in found if changes_of_a_kind is None else random_.sample(found, min(changes_of_a_kind, len(found))):
            came = refused_by(changed, lines, told)
            need(is_as_wanted(wanted, came), f"{kind}: wanted {wanted}, but it is {came}")
            counts = counted.setdefault((kind, wanted), dict.fromkeys(ORDER, 0))
            counts[came] += 1


def check_trace(text, changes_of_a_kind, random_, counted):
    lines = traces.read(text)
    config = accounts.configuration_of(PORT, lines)
    account = check_play(lines, config)
    check_changes(account, lines, changes_of_a_kind, random_, counted)
    check_loose_play(lines, config, random_, winners=3)
    check_changes(check_loose_play(lines, config, random_, winners=1), lines, changes_of_a_kind, random_, counted)
    for _, _, call in accounts.each_call(account):
        name = type(call.how).__name__
        counted["calls"][name] = counted["calls"].get(name, 0) + 1


def table(counted):
    print(f"{'change':64} {'wanted':>7} {'lawful':>7} {'run':>6} {'text':>6} {'same':>6}")
    for (kind, wanted), counts in sorted(counted.items()):
        print(f"{kind:64} {wanted:>7} {counts['lawful']:7} {counts['run']:6} {counts['text']:6} {counts['same']:6}")


def let_logs_take(most):
    """The most bytes of a log, in the broker and in the definitions."""
    broker.LOG_LIMIT = parts.MOST_LOG_BYTES = most


def main():
    options = argparse.ArgumentParser(description=__doc__)
    options.add_argument("count", nargs="?", type=int, default=100, metavar="COUNT", help="traces")
    options.add_argument("--first", type=int, default=0, metavar="SEED", help="the seed of the first")
    options.add_argument("--each", type=int, default=2, metavar="N", help="changes of each kind in an account, 0 for all")
    options.add_argument("--table", action="store_true", help="tells each kind of change, and what refused it")
    chosen = options.parse_args()
    counted, began = {"calls": {}}, time.time()
    try:
        print(f"{check_files()} traces of the rows and examples: the definitions print what stands beside them", flush=True)
    except Wrong as wrong:
        print(wrong)
        return 1
    for seed in range(chosen.first, chosen.first + chosen.count):
        kind = KINDS[seed % len(KINDS)]
        text = generate.made(kind, seed)
        let_logs_take(FEW_LOG_BYTES if seed % 5 == 4 else MOST_LOG_BYTES)
        try:
            check_trace(text, chosen.each or None, random.Random(seed), counted)
        except Wrong as wrong:
            print(f"the trace {kind} {seed}: {wrong}")
            return 1
        let_logs_take(MOST_LOG_BYTES)
    calls = counted.pop("calls")
    if chosen.table:
        table(counted)
    total = {by: sum(counts[by] for counts in counted.values()) for by in ORDER}
    print(f"{chosen.count} traces with {sum(calls.values())} calls "
          f"({', '.join(f'{count} {name}' for name, count in sorted(calls.items()))}): the definitions print what the model prints, "
          f"and {2 * chosen.count} loose plays are lawful")
    print(f"{sum(total.values())} changes of {len(counted)} kinds: {total['lawful']} unlawful, {total['run']} of another run, "
          f"{total['text']} telling otherwise, {total['same']} meaning the same, in {time.time() - began:.0f} s")
    return 0


if __name__ == "__main__":
    sys.exit(main())
