#!/usr/bin/env python3
"""Times `kafka_room serve` under the load of a load generator, beside another program that has the same command line.
README.md says what is run, what is printed, and what the load generator has to be. Run it at the top of the repository:
`python3 -B -m bench.serve --loadgen PATH --beside PATH`."""

import argparse
import json
import os
import pathlib
import statistics
import subprocess
import sys
import time
from dataclasses import dataclass

from clients import frames
from clients.served import Failed, Program, Serving, expect
from model.checks import repository

# What is shown of each scenario: the names that the load generator gives its numbers, and what they are.
RATE = [("req_s", "requests a second"), ("p99_us", "microseconds of a request, 99th percentile")]
MEASURES = {
    "produce": RATE,
    "pipelined": RATE[:1],
    "replicated": RATE,
    "wake": [("from_send_p50_us", "microseconds from the produce to the consumer's reply"),
             ("from_send_p99_us", "the same, 99th percentile")],
    "expire": [("late_p50_us", "microseconds from the deadline to the reply"), ("late_p99_us", "the same, 99th percentile")],
    "churn": [("conn_s", "connections a second")],
    "mixed": [("req_s", "requests a second")],
}
# What may differ where a load ran out of time, and is shown then.
DONE = "requests done"
PROCESSOR = "processor seconds of the server"
# The least lanes of a server, and the most seconds of one load.
LANES = 4
PATIENCE = 120


@dataclass
class Load:
    """A scenario of the load generator."""
    title: str
    scenario: str
    options: dict

    def words(self):
        return [word for name, value in self.options.items() for word in (f"--{name}", str(value))]

    def needs(self, loadgen):
        """How many connections it makes, how many of them at once, and the topics."""
        told = subprocess.run([loadgen, "needs", self.scenario, *self.words()], capture_output=True, text=True, check=True).stdout
        numbers, *lines = told.splitlines()
        topics = [line.partition(" ")[2] for line in lines if line.startswith("topic ")]
        return (*map(int, numbers.split()), topics)

    def measured(self, program, chosen):
        """By name the numbers of one run. One connection more than the load makes keeps the server there until it is asked."""
        connections, lanes, topics = self.needs(chosen.loadgen)
        with Serving(program, topics, connections + 1, max(lanes, LANES)) as serving:
            words = [chosen.loadgen, self.scenario, "--port", str(serving.port), *self.words()]
            load = subprocess.run(words, capture_output=True, text=True, timeout=PATIENCE)
            expect(load.returncode == 0, f"the load ended with {load.returncode}: {load.stderr.strip()} {load.stdout.strip()}")
            processor = serving.processor_seconds()
            ended(serving)
        told = json.loads(load.stdout)
        return {**{name: told[key] for key, name in MEASURES[self.scenario]}, PROCESSOR: processor, DONE: told.get("requests", 0)}


@dataclass
class Idle:
    """64 lanes to which nobody connects."""
    title: str
    seconds: int

    def measured(self, program, _):
        with Serving(program, ["bench 1 0"], 1, lanes=64) as serving:
            used = used_over(serving, self.seconds)
            ended(serving)
        return {PROCESSOR: used}


@dataclass
class Parked:
    """Sessions whose fetches wait for a record, until one comes."""
    title: str
    seconds: int
    sessions: int = 60

    def measured(self, program, _):
        with Serving(program, ["bench 1 0"], self.sessions + 1, lanes=64) as serving:
            links = [frames.Link(serving.port) for _ in range(self.sessions + 1)]
            try:
                for link in links[1:]:
                    link.send(frames.fetch(1, b"bench", 0, wait=60_000))
                used = used_over(serving, self.seconds)
                links[0].asks(frames.produce(1, b"bench", frames.batch(b"go")), frames.produced(1, b"bench", 0))
                for link in links[1:]:
                    frames.high_and_records(link.reply())
            finally:
                for link in links:
                    link.socket.close()
            ended(serving)
        return {PROCESSOR: used}


def used_over(serving, seconds):
    """The processor seconds of so many seconds, once the start is over."""
    time.sleep(0.5)
    before = serving.processor_seconds()
    time.sleep(seconds)
    return serving.processor_seconds() - before


def ended(serving):
    served = serving.end()
    how = f"{served.status}, {served.lines[-1:]}: {served.errors}"
    expect(served.status == 0 and served.lines[-1:] == ["done"], f"serve should end with 0 and done, and ended with {how}")


def count(number, what):
    return f"{number} {what}{'s' * (number != 1)}"


def runs(part, seconds):
    """All that is run, with so large a part of the requests, and so many seconds of doing nothing."""
    def of(requests):
        return max(1, int(requests * part))

    for c in (1, 4, 16):
        yield Load(f"produce, {count(c, 'connection')}", "produce", {"c": c, "n": of(60_000 if c == 1 else 100_000)})
    yield Load("produce, 4 connections beside 59 that wait", "produce", {"c": 4, "n": of(100_000), "m": 59})
    yield Load("pipelined, 4 connections with 16 requests in flight", "pipelined", {"c": 4, "n": of(300_000), "k": 16, "b": 256})
    yield Load("wake, 4 consumers in turn", "wake", {"w": 4, "n": of(300)})
    yield Load("wake, 4 consumers in turn beside 59 that wait", "wake", {"w": 4, "n": of(300), "m": 59})
    yield Load("expire, 16 consumers", "expire", {"c": 16, "n": of(10)})
    yield Load("replicated, 3 producers and a follower", "replicated", {"c": 3, "n": of(30_000)})
    yield Load("churn, 4 clients", "churn", {"c": 4, "n": of(5_000)})
    for seed in (1, 2, 3):
        yield Load(f"mixed, seed {seed}", "mixed", {"n": of(2_000), "seed": seed, "seconds": 60})
    yield Idle(f"64 lanes without a client, {seconds} s", seconds)
    yield Parked(f"60 sessions that wait, {seconds} s", seconds)


def shown(number):
    return f"{number:,.0f}" if number >= 100 else f"{number:.2f}"


def show(name, ours, theirs):
    """The medians of the rounds, and the median and the range of their ratios."""
    line = f"  {name}: {shown(statistics.median(ours))}"
    if theirs:
        line += f" beside {shown(statistics.median(theirs))}"
        ratios = [one / other for one, other in zip(ours, theirs) if other > 0]
        line += f", {statistics.median(ratios):.2f} times" if ratios else ""
        line += f" ({min(ratios):.2f} to {max(ratios):.2f})" if len(ratios) > 1 else ""
    print(line, flush=True)


def is_run(run, programs, chosen):
    """Runs it for all programs in turns, in each round beginning with another; whether none failed."""
    print(run.title, flush=True)
    told = [[] for _ in programs]
    for number in range(chosen.rounds):
        for at in range(len(programs))[::-1 if number % 2 else 1]:
            try:
                told[at].append(run.measured(programs[at], chosen))
            except (Failed, OSError, KeyError, ValueError, subprocess.SubprocessError) as failed:
                print(f"  {programs[at].path.name} failed: {str(failed)[:600]}", flush=True)
                return False
    for name in told[0][0]:
        ours, *theirs = ([numbers[name] for numbers in rounds] for rounds in told)
        if name != DONE or (theirs and ours != theirs[0]):
            show(name, ours, theirs[0] if theirs else [])
    return True


def main():
    options = argparse.ArgumentParser(description=__doc__)
    options.add_argument("program", nargs="?", type=pathlib.Path, default=repository.program("kafka_room"))
    options.add_argument("--loadgen", type=pathlib.Path, required=True, metavar="PATH", help="the load generator")
    options.add_argument("--beside", type=pathlib.Path, metavar="PATH", help="another program with the command serve")
    options.add_argument("--rounds", type=int, metavar="N", help="how often all is run, 3 where it isn't said, or 1 with --quick")
    options.add_argument("--quick", action="store_true", help="half of the requests, and 3 s in place of 10: half a minute")
    options.add_argument("--only", default="", metavar="TEXT", help="only what has this text in its title")
    chosen = options.parse_args()
    paths = [chosen.program] + [chosen.beside] * (chosen.beside is not None)
    for path in [*paths, chosen.loadgen]:
        if not os.access(path, os.X_OK) or not path.is_file():
            print(f"{path} isn't there", file=sys.stderr)
            return 2
    chosen.loadgen = chosen.loadgen.resolve()
    chosen.rounds = max(1, chosen.rounds or (1 if chosen.quick else 3))
    print(f"load of the machine: {os.getloadavg()[0]:.1f}, on {os.cpu_count()} processors; {count(chosen.rounds, 'round')}", flush=True)
    programs = [Program(path.resolve()) for path in paths]
    wanted = [run for run in runs(*((0.5, 3) if chosen.quick else (1, 10))) if chosen.only in run.title]
    return 0 if all([is_run(run, programs, chosen) for run in wanted]) else 1


if __name__ == "__main__":
    sys.exit(main())
