"""Checks with followers of our own program: the second copy of a log, without which a produce with acks all doesn't return."""

import os
import subprocess
import time

from clients import frames, kcat
from clients.frames import Link
from clients.served import PATIENCE, Serving, expect, soon
from model.checks import repository

PROGRAM = repository.program("kafka_follower")
MANY = 2_000


def missing_program():
    return None if os.access(PROGRAM, os.X_OK) else f"{PROGRAM} isn't there"


def missing():
    return kcat.missing() or missing_program()


def version():
    return subprocess.run([PROGRAM, "--version"], capture_output=True, text=True).stdout.strip()


def started(serving, topic, rounds):
    words = [PROGRAM, str(serving.port), topic, "0", "1", str(rounds)]
    return subprocess.Popen(words, stdout=subprocess.PIPE, stderr=subprocess.PIPE, text=True)


def ended(follower):
    printed, told = follower.communicate(timeout=PATIENCE)
    expect(follower.returncode == 0, f"the follower should end with 0, and ended with {follower.returncode}: {told}")
    return printed


def returns_with_a_follower(program):
    """`kcat -P -X acks=all` to a topic with one follower doesn't return while no follower runs, and does once one does. That one is
    stopped, and a second one, which begins with nothing, copies what came before and after it: its end and its bytes are the log's."""
    with Serving(program, ["copies 1 1"], connections=16) as serving:
        with kcat.Running(serving, "-P", "-t", "copies", "-p", "0", "-X", "acks=all", text="first\n") as producer:
            time.sleep(0.4)
            expect(producer.process.poll() is None, "kcat should wait while no follower has its record")
            began = time.monotonic()
            first = started(serving, "copies", 2**31 - 1)
            producer.ends()
            took = soon(began, "kcat returns")
        first.kill()
        first.communicate()
        second = started(serving, "copies", 14)
        kcat.ran(serving, "-P", "-t", "copies", "-p", "0", "-X", "acks=all", text="".join(f"record {n}\n" for n in range(MANY)))
        printed = ended(second)
        with Link(serving.port) as link:
            link.send(frames.fetch(9, b"copies", 0))
            high, records = frames.high_and_records(link.reply())
        wanted = f"follower end {MANY + 1} bytes {len(records)}\n"
        expect((high, printed) == (MANY + 1, wanted), f"the second follower should print {wanted!r}, and printed {printed!r}, with {high} visible")
        serving.ends(MANY + 1)
    return f"kcat returned {took:.1f} ms after a follower was started; the second copy has {len(records)} bytes, as the log has"


CHECKS = {"followers": returns_with_a_follower}
