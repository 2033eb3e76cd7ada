"""Checks by kafka-python, a client that is written in Python alone. `python_client.py` is what it does; it is run by an interpreter
that has the package, which may be another than ours."""

import functools
import pathlib
import shutil
import subprocess
import sys

from clients.served import PATIENCE, Failed, Serving, expect, expect_same

SCRIPT = pathlib.Path(__file__).with_name("python_client.py")
COUNT = 5
# The releases of which the broker is told to be. They send Produce in the versions 3, 4 and 5, and all of them Fetch in version 4. Where
# the log starts only version 5 tells.
RELEASES = {"0.11.0": None, "1.0.0": None, "1.1.0": 0}


@functools.lru_cache(maxsize=None)
def interpreter():
    """An interpreter that has the package, and the package's version."""
    for python in dict.fromkeys((sys.executable, shutil.which("python3"), "/usr/bin/python3")):
        if python and pathlib.Path(python).exists():
            told = subprocess.run([python, "-B", "-c", "import kafka; print(kafka.__version__)"], capture_output=True, text=True)
            if told.returncode == 0:
                return python, told.stdout.strip()
    return None


def missing():
    return None if interpreter() else "kafka-python isn't installed (apt-get install python3-kafka)"


def version():
    return "kafka-python {1} of {0}".format(*interpreter())


def ran(*words):
    """The lines that the client printed."""
    words = [str(word) for word in words]
    command = [interpreter()[0], "-B", str(SCRIPT), *words]
    try:
        done = subprocess.run(command, capture_output=True, text=True, timeout=2 * PATIENCE)
    except subprocess.TimeoutExpired:
        raise Failed(f"not within {2 * PATIENCE} s: kafka-python ends, asked to {' '.join(words)}") from None
    expect(done.returncode == 0, f"kafka-python, asked to {' '.join(words)}, failed: {done.stderr.strip().splitlines()[-1:]}")
    return done.stdout.splitlines()


def produces_and_consumes(program):
    """For each release a producer with acks 1, and then one with acks all, is told the offsets that come next, and where the log starts
    where it sends version 5. A consumer that is assigned the partition and seeks to offset 3 gets the records from there on, with key,
    value and headers, and no more."""
    with Serving(program, ["orders 2 0"], connections=32) as serving:
        first = 0
        for release, start in RELEASES.items():
            for acks in (1, "all"):
                told = ran("produce", release, serving.address, acks, "orders", 1, first, COUNT)
                wanted = [f"{offset} {start}" for offset in range(first, first + COUNT)]
                expect_same(told, wanted, f"what a producer of {release} is told with acks {acks}")
                first += COUNT
        found = ran("consume", release, serving.address, "orders", 1, 3, first - 3)
        serving.ends(0, first)
    wanted = [f"{n} b'key {n}' b'value {n}' [('number', b'{n}')]" for n in range(3, first)]
    expect_same(found, wanted, "what is consumed")
    return f"{first} records produced as of {', '.join(RELEASES)}, {len(found)} consumed"


CHECKS = {"kafka-python": produces_and_consumes}
