#!/usr/bin/env python3
"""Refuses each allocation of a run in turn, one in each run: for some replays, on one thread and on workers, for a storm, and for `serve`
with two connections.

Each run has to end with what it comes to else, or with code 6; on one thread a front of the output may have been written by then, and
else nothing. A `serve` may also end with 0, where links end as `no-memory`; what its clients were told before is right. With `--teller`
the accounts of runs on workers and lanes are told too (`tell_account`): each that is there has to be lawful, as check_workers.py and
check_lanes.py have it.

It takes a C compiler, and a program that takes its memory from the C library by `malloc` and `realloc`. Run it at the top of the
repository: `python3 -B -m model.checks.refused_memory`.
"""

import argparse
import collections
import os
import pathlib
import subprocess
import sys
import tempfile
import threading
from dataclasses import dataclass

from clients import frames
from clients.served import HOST, PATIENCE, Failed, expect, free_port, is_listening, text_of, until
from model.broker import batches, traces
from model.checks import check_lanes, check_workers, repository

SHIM = r"""
#define _GNU_SOURCE
#include <dlfcn.h>
#include <errno.h>
#include <fcntl.h>
#include <stdatomic.h>
#include <stdlib.h>
#include <unistd.h>

static atomic_ulong asked;

static int is_refused(void) {
    static unsigned long which;
    if (which == 0) {
        const char *number = getenv("REFUSED_ALLOCATION");
        which = number ? strtoul(number, 0, 10) : -1UL;
    }
    if (atomic_fetch_add(&asked, 1) + 1 != which) return 0;
    close(open(getenv("REFUSED_MARK"), O_CREAT | O_WRONLY, 0600));
    errno = ENOMEM;
    return 1;
}

void *malloc(size_t size) {
    static void *(*real)(size_t);
    if (!real) real = dlsym(RTLD_NEXT, "malloc");
    return is_refused() ? 0 : real(size);
}

void *realloc(void *place, size_t size) {
    static void *(*real)(void *, size_t);
    if (!real) real = dlsym(RTLD_NEXT, "realloc");
    return is_refused() ? 0 : real(place, size);
}
"""
# How many runs, one after the other, refuse nothing before all numbers count as tried: with threads the last one varies.
ENOUGH = 5
OUT_OF_MEMORY = b"out of memory"


class Refusing:
    """A folder with the shim, and runs in which one allocation is refused."""

    def __init__(self, folder):
        self.shim, self.mark = folder / "refuse.so", folder / "refused"
        source = folder / "refuse.c"
        source.write_text(SHIM)
        subprocess.run(["cc", "-shared", "-fPIC", "-O1", "-o", self.shim, source, "-ldl"], check=True)

    def starts(self, number, words, **streams):
        self.mark.unlink(missing_ok=True)
        told = {**os.environ, "LD_PRELOAD": str(self.shim), "REFUSED_ALLOCATION": str(number), "REFUSED_MARK": str(self.mark)}
        return subprocess.Popen([str(word) for word in words], env=told, stdin=subprocess.PIPE, stdout=subprocess.PIPE,
                                stderr=subprocess.PIPE, **streams)

    def has_refused(self):
        return self.mark.exists()

    def all_numbers(self):
        """The numbers from 1 on, until some runs refuse nothing."""
        number, without = 0, 0
        while without < ENOUGH:
            number += 1
            yield number
            without = 0 if self.has_refused() else without + 1


def came_to_an_end(process, text=None):
    try:
        output, errors = process.communicate(text, timeout=60)
    except subprocess.TimeoutExpired:
        process.kill()
        process.communicate()
        raise Failed("the run comes to no end") from None
    return process.returncode, output, errors


# ---- runs that read and write


@dataclass
class Run:
    """A run: its words, its text, what it prints, and whether that comes piece by piece."""
    title: str
    words: list
    text: bytes
    output: bytes
    is_written_in_pieces: bool = False

    def check(self, code, output, errors):
        if code == 0:
            expect(output == self.output and errors == b"", f"with code 0 it printed {output!r}, {errors!r}")
            return
        expect(code == 6, f"it ended with {code}: {errors!r}")
        expect(OUT_OF_MEMORY in errors or errors == b"", f"with code 6 it said {errors!r}")
        written = self.output if self.is_written_in_pieces else b""
        expect(written.startswith(output), f"with code 6 it printed {output!r}")


def in_turn(refusing, program, run):
    """How many runs ended with each code."""
    codes = collections.Counter()
    for number in refusing.all_numbers():
        ended = came_to_an_end(refusing.starts(number, [program, *run.words]), run.text)
        if refusing.has_refused():
            try:
                run.check(*ended)
            except Failed as failed:
                raise Failed(f"{run.title}, allocation {number}: {failed}") from None
            codes[ended[0]] += 1
    return codes


def row(name):
    folder = repository.crate("kafka_room") / "rows"
    return (folder / f"{name}.trace").read_bytes(), (folder / f"{name}.out").read_bytes()


def runs():
    crate = repository.crate("kafka_room")
    yield Run("the stored run", ["replay"], (crate / "stdin").read_bytes(), (crate / "stdout").read_bytes(), True)
    yield Run("a produce and its follower", ["replay"], *row("produce_waits_for_its_follower"), True)
    yield Run("followers that leave", ["replay"], *row("followers_leave_in_several_partitions"), True)
    yield Run("one worker", ["replay", "--workers", "1"], *row("one_worker"))
    yield Run("a follower that leaves, on one worker", ["replay", "--workers", "1"], *row("follower_leaves_and_comes_back_on_1_worker"))
    yield Run("edges on 3 workers", ["replay", "--workers", "3"], *row("edges_of_numbers_on_3_workers"))
    summary = "".join(f"part {number} end 4 batches 4 bytes 336\n" for number in range(8)) + "sessions 16 calls 64 replies 64 parked 0\ndone\n"
    yield Run("storm 7 64 2", ["storm", "7", "64", "2"], b"", summary.encode())


# ---- serve

BATCH = frames.batch(b"a")
PRODUCED = frames.produced(2, b"t", 0)
FETCHED = [frames.fetched(1, b"t", 1, batches.stamped(BATCH, 0)), frames.fetched(1, b"t", 0)]
ENDS = ("closed", "no-memory", "write-fault", "read-fault")


def talk(port, data, heard):
    """Sends this and no more, and keeps what comes back."""
    try:
        with frames.Link(port) as link:
            link.send(data)
            link.sends_no_more()
            while piece := link.socket.recv(4096):
                heard.append(piece)
    except OSError:
        # it ended, or never listened
        pass


def serves(refusing, program, number):
    """Two clients: a fetch that waits for 300 ms, and beside it a produce. Gives the code."""
    port = free_port()
    process = refusing.starts(number, [program, "serve", "--port", port, "--lanes", 2, "--connections", 2])
    try:
        process.stdin.write(text_of(["t 1 0"]).encode())
        process.stdin.close()
    except OSError:
        pass
    process.stdin = None
    until(lambda: is_listening(port) or process.poll() is not None, "serve listens or ends")
    heard = [], []
    sent = frames.fetch(1, b"t", 0, wait=300), frames.produce(2, b"t", BATCH)
    clients = [threading.Thread(target=talk, args=(port, *each)) for each in zip(sent, heard)]
    for client in clients:
        client.start()
    for client in clients:
        client.join(PATIENCE)
    code, output, errors = came_to_an_end(process)
    check_serve(code, output.decode(), errors, *map(b"".join, heard))
    return code


def check_serve(code, output, errors, fetched, produced):
    expect(any(reply.startswith(fetched) for reply in FETCHED), f"the fetch was told {fetched.hex()}")
    expect(PRODUCED.startswith(produced), f"the produce was told {produced.hex()}")
    if code == 6:
        expect(output == "" and OUT_OF_MEMORY in errors, f"with code 6 it printed {output!r}, {errors!r}")
        return
    expect(code == 0, f"it ended with {code}: {errors!r}")
    *links, part, done = output.splitlines()
    expect(len(links) == 2 and done == "done", f"it printed {output!r}")
    ends = [line.split(" ", 6)[6] for line in links]
    expect(all(end in ENDS for end in ends), f"its links ended as {ends}")
    appended = int(part.split()[3])
    expect(appended == 1 or produced == b"" and fetched != FETCHED[0], f"{appended} records were appended, and a client was told otherwise")
    # Where a lane couldn't be started, the fetch may have waited alone.
    expect("no-memory" in ends or fetched in FETCHED and produced == PRODUCED, "no link ran out of memory, and a client wasn't answered")


def serve_in_turn(refusing, program):
    codes = collections.Counter()
    for number in refusing.all_numbers():
        try:
            code = serves(refusing, program, number)
        except Failed as failed:
            raise Failed(f"serve, allocation {number}: {failed}") from None
        codes[code] += refusing.has_refused()
    return codes


# ---- accounts


def tell_in_turn(refusing, teller, case, check):
    """How many runs ended with each code. Where one has an account, that is looked at. With the codes, in how many of these a link ran out
    of memory."""
    codes, without = collections.Counter(), 0
    for number in refusing.all_numbers():
        code, told, errors = came_to_an_end(refusing.starts(number, [teller, *case.words]), case.text)
        if code == 0:
            try:
                check(case, told)
            except check_workers.WRONG as wrong:
                raise Failed(f"{case.name}, allocation {number}: {wrong}") from None
        else:
            expect(told == b"" and errors.count(b"\n") <= 1, f"{case.name}, allocation {number}: it told {told!r}, {errors!r}")
        codes[code] += refusing.has_refused()
        without += b"end no-memory\n" in told
    return codes, without


def cases():
    """Runs that are told, and what looks at their accounts. On lanes they have the two connections of `serve`, and one that is cut."""
    for name in ("produce_waits_for_its_follower", "edges_of_numbers_on_3_workers", "followers_leave_in_several_partitions"):
        for workers in (1, 3):
            yield check_workers.Case(name, workers, False, row(name)[0]), check_workers.check
    text = check_lanes.text_of([traces.Topic(b"t", 1, 0)], [frames.fetch(1, b"t", 0, wait=20), frames.produce(2, b"t", BATCH), BATCH[:7]])
    for lanes in (1, 2):
        yield check_lanes.Case(f"two connections on {lanes} lanes", lanes, text), check_lanes.check_lawful


# ---- the whole


def show(title, codes, without=None):
    told = ", ".join(f"{count} with code {code}" for code, count in sorted(codes.items()))
    links = f"; links ran out of memory in {without}" if without else ""
    print(f"{title}: {sum(codes.values())} allocations refused in turn, {told}{links}", flush=True)


def main():
    options = argparse.ArgumentParser(description=__doc__)
    options.add_argument("program", nargs="?", type=pathlib.Path, default=repository.program("kafka_room"))
    options.add_argument("--teller", type=pathlib.Path, help="a build of tell_account")
    chosen = options.parse_args()
    for program in [chosen.program, *[chosen.teller] * (chosen.teller is not None)]:
        if not os.access(program, os.X_OK):
            print(f"{program} isn't there: `make build` makes that of kafka_room", file=sys.stderr)
            return 2
    with tempfile.TemporaryDirectory() as name:
        refusing, program = Refusing(pathlib.Path(name)), chosen.program.resolve()
        try:
            for run in runs():
                show(run.title, in_turn(refusing, program, run))
            show("serve with two connections", serve_in_turn(refusing, program))
            for case, check in cases() if chosen.teller else []:
                show(f"the account of {case.name}", *tell_in_turn(refusing, chosen.teller.resolve(), case, check))
        except Failed as failed:
            print(failed, file=sys.stderr)
            return 1
    return 0


if __name__ == "__main__":
    sys.exit(main())
