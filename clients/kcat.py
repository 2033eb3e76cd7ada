"""Checks by kcat, which stands on librdkafka: it lists, produces and consumes as a user does."""

import functools
import os
import re
import shutil
import subprocess
import tempfile
import time

from clients import frames
from clients.frames import Link
from clients.served import PATIENCE, Failed, Serving, expect, expect_same, soon, until
from model.broker import wire

# Without the user's own settings.
ENVIRONMENT = {name: value for name, value in os.environ.items() if name not in ("HOME", "KCAT_CONFIG")}
# A consumer leaves its last poll behind when it goes away, and `serve` ends only after that: so a poll is short where it can be.
SHORT_POLLS = ["-X", "fetch.wait.max.ms=100"]
LONG_POLLS = ["-X", "fetch.wait.max.ms=20000"]
MANY = 10_000


def missing():
    return None if shutil.which("kcat") else "kcat isn't installed (apt-get install kcat)"


def version():
    told = subprocess.run(["kcat", "-V"], capture_output=True, text=True, env=ENVIRONMENT).stdout
    found = re.search(r"Version (\S+) .*librdkafka (\S+)", told)
    return "kcat {}, librdkafka {}".format(*found.groups()) if found else f"kcat, {told.strip()}"


def words(serving, more):
    return ["kcat", "-b", serving.address, "-X", "broker.address.family=v4", *more]


def ran(serving, *more, text="", status=0):
    """What it printed, or what it said on standard error where it has to fail."""
    try:
        done = subprocess.run(words(serving, more), input=text, capture_output=True, text=True, timeout=PATIENCE, env=ENVIRONMENT)
    except subprocess.TimeoutExpired as late:
        raise Failed(f"not within {PATIENCE} s: kcat {' '.join(more)} ends; it has said {late.stderr!r}") from None
    expect(done.returncode == status, f"kcat {' '.join(more)} should end with {status}, and ended with {done.returncode}: {done.stderr}")
    return done.stderr if status else done.stdout


class Running:
    """A kcat that runs beside us, for a `with`, which stops it."""

    def __init__(self, serving, *more, text=""):
        self.words, self.text = words(serving, more), text

    def __enter__(self):
        self.streams = self.given, self.printed, self.said = tuple(tempfile.TemporaryFile() for _ in range(3))
        self.given.write(self.text.encode())
        self.given.seek(0)
        self.process = subprocess.Popen(self.words, stdin=self.given, stdout=self.printed, stderr=self.said, env=ENVIRONMENT)
        return self

    def __exit__(self, *_):
        self.process.kill()
        self.process.wait()
        for stream in self.streams:
            stream.close()

    @staticmethod
    def _text(stream):
        """What stands in the file; its place is the child's too, and is left alone."""
        return os.pread(stream.fileno(), 1 << 20, 0).decode(errors="replace")

    def prints(self, text):
        """Waits until this is all that it has printed."""
        until(lambda: self._text(self.printed) == text, f"kcat prints {text!r}")

    def says(self, text):
        """Waits until this stands in what it said on standard error. Gives all of that."""
        until(lambda: text in self._text(self.said), f"kcat says {text!r}")
        return self._text(self.said)

    def ends(self, status=0):
        until(lambda: self.process.poll() is not None, "kcat ends")
        expect(self.process.returncode == status, f"kcat should end with {status}, and ended with {self.process.returncode}")


def place(topic, partition):
    return ["-t", topic, "-p", str(partition)]


def produce(serving, topic, partition, records, *more, status=0):
    return ran(serving, "-P", *place(topic, partition), *more, text="".join(f"{record}\n" for record in records), status=status)


def consume(serving, topic, partition, offset, *more, form="%o %s\n"):
    return ran(serving, "-C", "-q", *place(topic, partition), "-o", str(offset), "-f", form, *SHORT_POLLS, *more).splitlines()


def over(links):
    return f", over {len(links)} connection{'s' * (len(links) > 1)}"


def lists(program):
    """`kcat -L` shows one broker at the port that is served, and each topic with its partitions, leaders and replicas."""
    with Serving(program, ["orders 3 0", "copies 1 1"], connections=8) as serving:
        found = ran(serving, "-L").splitlines()[1:]
        links = serving.ends(0, 0, 0, 0, ways=["closed"])
    wanted = [" 1 brokers:", f"  broker 0 at localhost:{serving.port} (controller)", " 2 topics:", '  topic "orders" with 3 partitions:']
    wanted += [f"    partition {number}, leader 0, replicas: 0, isrs: 0" for number in range(3)]
    wanted += ['  topic "copies" with 1 partitions:', "    partition 0, leader 0, replicas: 0,1, isrs: 0,1"]
    expect_same(found, wanted, "what kcat lists")
    return f"one broker and two topics{over(links)}"


def produces(program, acks):
    """`kcat -P` ends with 0 after one record and after 10,000, with acks 1, 0 or all of a topic without followers. What is then
    consumed from offset 0 is what was sent, in its order."""
    with Serving(program, ["orders 2 0"], connections=16) as serving:
        for partition, records in enumerate((["one record"], [f"record {number}" for number in range(MANY)])):
            produce(serving, "orders", partition, records, "-X", f"acks={acks}")
            found = consume(serving, "orders", partition, 0, "-c", str(len(records)))
            expect_same(found, [f"{offset} {record}" for offset, record in enumerate(records)], "what is consumed")
        links = serving.ends(1, MANY)
    return f"1 and {MANY} records{over(links)}"


def consumes_from(program):
    """`kcat -C -o N -e` gives every record from offset N on, with key, value and headers, also where N is within a batch, and no
    record from the log end."""
    with Serving(program, ["orders 1 0"], connections=24) as serving:
        for name, numbers in (("one", range(7)), ("two", range(7, 10))):
            produce(serving, "orders", 0, [f"key {n}:value {n}" for n in numbers], "-K", ":", "-H", f"from={name}")
        lines = [f"{n}|key {n}|value {n}|from={'one' if n < 7 else 'two'}" for n in range(10)]
        for offset in (0, 3, 9, 10):
            found = consume(serving, "orders", 0, offset, "-e", form="%o|%k|%s|%h\n")
            expect_same(found, lines[offset:], f"what is consumed from offset {offset}")
        links = serving.ends(10)
    return f"from offsets 0, 3, 9 and 10{over(links)}"


def chooses_the_newest(program):
    """Of the versions that are offered `kcat` sends the newest, of Produce and of Fetch, and it gets what it sent."""
    with Serving(program, ["orders 1 0"], connections=12) as serving:
        with Running(serving, "-P", *place("orders", 0), "-d", "protocol", text="book\n") as producer:
            producer.ends()
            said = producer.says("Sent ProduceRequest")
        with Running(serving, "-C", "-q", "-u", *place("orders", 0), "-o", "0", "-c", "1", "-d", "protocol", *SHORT_POLLS) as consumer:
            consumer.ends()
            consumer.prints("book\n")
            said += consumer.says("Sent FetchRequest")
        links = serving.ends(1)
    sent = {name: {int(version) for version in re.findall(rf"Sent {name}Request \(v(\d+)", said)} for name in ("Produce", "Fetch")}
    wanted = {"Produce": {wire.PRODUCE[-1]}, "Fetch": {wire.FETCH[-1]}}
    expect(sent == wanted, f"kcat should send the versions {wanted}, and sends {sent}")
    return f"Produce in version {wire.PRODUCE[-1]}, Fetch in version {wire.FETCH[-1]}{over(links)}"


def wakes_two(program):
    """Two consumers wait in long polls of 20 s. A producer's record reaches both long before these end, within 3 s of its start."""
    consumer = ["-C", "-q", "-u", *place("orders", 0), "-o", "0", "-c", "1", "-f", "%o %s\n", "-d", "protocol", *LONG_POLLS]
    with Serving(program, ["orders 1 0"], connections=12) as serving:
        with Running(serving, *consumer) as one, Running(serving, *consumer) as two:
            for waiting in (one, two):
                waiting.says("Sent FetchRequest")
            time.sleep(0.3)
            began = time.monotonic()
            produce(serving, "orders", 0, ["wake up"])
            took = []
            for waiting in (one, two):
                waiting.prints("0 wake up\n")
                took.append(soon(began, "the record reaches a consumer"))
            for waiting in (one, two):
                polled = float(re.search(r"Received FetchResponse .* rtt ([\d.]+)ms", waiting.says("Received FetchResponse"))[1])
                expect(polled > 290, f"the poll should have waited for the record, and was answered after {polled} ms")
                waiting.ends()
        # The consumers may have begun another poll before they went.
        produce(serving, "orders", 0, ["so that none is left"])
        serving.ends(2)
    return "had the record {:.0f} and {:.0f} ms after the producer's start, in polls of 20 s".format(*took)


def waits_for_follower(program):
    """`kcat -P` with acks all, to a topic with one follower, ends only once that follower has asked for what comes behind the
    record, and then with 0."""
    with Serving(program, ["copies 1 1"], connections=8) as serving:
        producing = Running(serving, "-P", *place("copies", 0), "-X", "acks=all", text="book\n")
        with producing as producer, Link(serving.port) as follower:
            follower.send(frames.fetch(1, b"copies", 0, replica=1, wait=5000))
            high, records = frames.high_and_records(follower.reply())
            expect(b"book" in records and high == 0, f"the follower should get the record, with high watermark 0, and got {high}, {records}")
            time.sleep(0.3)
            expect(producer.process.poll() is None, "kcat should wait for the follower")
            began = time.monotonic()
            follower.asks(frames.fetch(2, b"copies", 1, replica=1), frames.fetched(2, b"copies", 1))
            producer.ends()
            took = soon(began, "kcat ends")
        serving.ends(1, ways=["closed"])
    return f"ended {took:.0f} ms after the follower asked for offset 1"


def has_no_follower(program):
    """`kcat -P` with acks all, to a topic whose follower never fetches, says that the request timed out and ends with 1. The record
    stays in the log, above the high watermark."""
    with Serving(program, ["copies 1 1"], connections=8) as serving:
        once = ["-X", "acks=all", "-X", "request.timeout.ms=400", "-X", "retries=0"]
        told = produce(serving, "copies", 0, ["nobody follows"], *once, status=1)
        expect("Broker: Request timed out" in told, f"kcat should say that the request timed out, and says {told!r}")
        serving.ends((1, 0), ways=["closed"])
    return told.strip()


def does_without(program):
    """What isn't offered kcat doesn't ask for. To begin at the first offset it would have to ask which that is, and it ends with 1; a
    producer that should compress sends its records as they are, and ends with 0."""
    lacks = "Required feature not supported by broker"
    with Serving(program, ["orders 1 0"], connections=12) as serving:
        told = ran(serving, "-C", *place("orders", 0), "-o", "beginning", "-e", status=1)
        expect(lacks in told, f"of -o beginning kcat should say {lacks!r}, and says {told!r}")
        produce(serving, "orders", 0, ["a" * 1000], "-z", "gzip")
        expect_same(consume(serving, "orders", 0, 0, "-c", "1"), ["0 " + "a" * 1000], "what is consumed")
        links = serving.ends(1)
    return f"-o beginning refused, -z gzip sent as it is{over(links)}"


CHECKS = {
    "kcat-list": lists,
    "kcat-acks-1": functools.partial(produces, acks="1"),
    "kcat-acks-0": functools.partial(produces, acks="0"),
    "kcat-acks-all": functools.partial(produces, acks="all"),
    "kcat-offsets": consumes_from,
    "kcat-versions": chooses_the_newest,
    "kcat-long-polls": wakes_two,
    "kcat-follower": waits_for_follower,
    "kcat-no-follower": has_no_follower,
    "kcat-not-offered": does_without,
}
