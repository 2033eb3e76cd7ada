#!/usr/bin/env python3
"""Serves random links on lanes, by `tell_account lanes`, and checks the account that it tells and what is printed of it.

The account has to be lawful, each link's transcript has to fit what the link brought, and the account has to tell what is printed, by
the definitions as they are transcribed. And apart from these a slow broker does each partition's history again, as check_workers.py has
it. It stops at the first run that fails, and leaves its text in the folder that is named, with what was told of it. Run it at the top of
the repository: `python3 -B -m model.checks.check_lanes`.
"""

import argparse
import collections
import itertools
import pathlib
import random
import sys
import tempfile
import time
from dataclasses import dataclass

from model.broker import broker, traces
from model.checks import check_workers, repository, slow_reading, told_account
from model.checks.check_workers import WRONG, Wrong, need
from model.definitions import accounts
from model.traces import crowded, talks

LANES = [1, 2, 3, 16]
MOST_LINKS = 12
# The most milliseconds for which a request waits.
MOST_WAIT = 60


@dataclass(frozen=True)
class Case:
    """A run: links, one for each line of a text that brings bytes, on so many lanes."""
    name: str
    lanes: int
    text: bytes

    @property
    def words(self):
        return ["lanes", str(self.lanes)]

    @property
    def inputs(self):
        return [what[1] for kind, what in traces.read(self.text) if kind == "bytes"]


def check_lawful(case, told):
    """Checks by the definitions what was told of a run, in which sessions may have run out of memory. Gives the account, and the print."""
    account, printed = told_account.read(told)
    need(account.config == accounts.configuration_of(broker.PORT, traces.read(case.text)), "the account has other topics")
    need(accounts.IsLawful(account), "the account isn't lawful")
    need(accounts.IsServePrintOf(account) == printed, "the account tells something else than what is printed")
    inputs, links = case.inputs, accounts.transcripts_of(account)
    need(sorted(link.number for link in links) == list(range(len(inputs))), "not every link has one transcript")
    for link in links:
        fits = link.end is not None and accounts.Fits(inputs[link.number], True, link)
        need(fits, f"the transcript of link {link.number} doesn't fit what it brought")
    return account, printed


def check(case, told):
    if isinstance(told, Wrong):
        raise told
    account, printed = check_lawful(case, told)
    need(slow_reading.SlowReading(account).told_links(case.inputs) == printed, "the slow broker prints something else")
    return account


def text_of(topics, streams):
    lines = [b"topic " + topic.words for topic in topics] + [b"bytes 0 " + stream.hex().encode() for stream in streams]
    return b"\n".join([*lines, b"end", b""])


def hostile(random_):
    """Links that mostly bring something changed."""
    topics = random_.choice([talks.TOPICS, talks.WITH_FOLLOWERS])
    streams = [talks.stream(random_, topics) for _ in range(random_.randint(1, MOST_LINKS))]
    return text_of(topics, streams)


def crowd(random_):
    """Links whose requests mostly wait for one another."""
    made = crowded.Crowd(random_)
    short = (request for request in iter(made.request, None) if talks.is_short(request, MOST_WAIT))
    streams = [b"".join(itertools.islice(short, random_.randint(1, 4))) for _ in range(random_.randint(2, MOST_LINKS))]
    return text_of(made.declared, streams)


def made(seed):
    """The text of a run."""
    return (crowd if seed % 2 else hostile)(random.Random(f"lanes {seed}"))


def cases(chosen):
    for seed in range(chosen.first, chosen.first + chosen.count):
        text = made(seed)
        for lanes in LANES:
            yield Case(f"lanes_{seed}_{lanes}", lanes, text)


def tell_failure(chosen, case, told, wrong):
    left = chosen.folder / f"{case.name}.trace"
    left.write_bytes(case.text)
    if isinstance(told, bytes):
        left.with_suffix(".told").write_bytes(told)
    print(f"{left} fails on {case.lanes} lanes: {wrong}")


def main():
    options = argparse.ArgumentParser(description=__doc__)
    options.add_argument("program", nargs="?", type=pathlib.Path, default=repository.program(check_workers.CRATE))
    options.add_argument("--count", type=int, default=50, metavar="N", help=f"texts, each on each of {LANES} lanes")
    options.add_argument("--first", type=int, default=0, metavar="SEED", help="the seed of the first")
    options.add_argument("--folder", type=pathlib.Path, default=pathlib.Path(tempfile.gettempdir()), help="where a text that fails is left")
    chosen = options.parse_args()
    if not chosen.program.is_file():
        print(f"{chosen.program} isn't there: `rt run -- 1` in crates/tell_account makes it", file=sys.stderr)
        return 2
    began, runs, hows, ends = time.monotonic(), 0, collections.Counter(), collections.Counter()
    for case in cases(chosen):
        told = check_workers.ran(chosen.program, case)
        try:
            account = check(case, told)
        except WRONG as wrong:
            tell_failure(chosen, case, told, wrong)
            return 1
        runs += 1
        hows.update(type(call.how).__name__ for _, _, call in accounts.each_call(account))
        ends.update(link.end.kind for link in accounts.transcripts_of(account))
    print(f"{runs} runs in {time.monotonic() - began:.0f} s, with {sum(hows.values())} calls ({check_workers.names(hows)}) and "
          f"{sum(ends.values())} links ({check_workers.names(ends)}): each account is lawful, fits what its links brought, and is printed as "
          f"the slow broker prints it")
    return 0


if __name__ == "__main__":
    sys.exit(main())
