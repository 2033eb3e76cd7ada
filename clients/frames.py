"""A connection that sends frames of our own, and knows to the byte what has to come back."""

import select
import socket
import time

from clients.served import HOST, PATIENCE, Failed, expect
from model.broker import batches, wire


class Link:
    """A connection, for a `with`."""

    def __init__(self, port):
        self.socket = socket.create_connection((HOST, port), PATIENCE)

    def __enter__(self):
        return self

    def __exit__(self, *_):
        self.socket.close()

    def send(self, frame):
        self.socket.sendall(frame)

    def _take(self, count):
        """So many bytes, or fewer where the link ends before."""
        data = b""
        while len(data) < count:
            try:
                piece = self.socket.recv(count - len(data))
            except socket.timeout:
                raise Failed(f"{count} bytes should come within {PATIENCE} s, and there came {len(data)}: {data.hex()}") from None
            if not piece:
                break
            data += piece
        return data

    def gets(self, frame):
        """The next that comes has to be this frame."""
        came = self._take(len(frame))
        expect(came == frame, f"the reply should be {frame.hex()}, and is {came.hex()}")

    def reply(self):
        """The next reply, without its size."""
        size = int.from_bytes(self._take(4), "big")
        body = self._take(size)
        expect(len(body) == size, f"a reply of {size} bytes should come, and there came {len(body)}")
        return body

    def asks(self, request, reply):
        self.send(request)
        self.gets(reply)

    def hears(self, seconds):
        """Whether something comes within so many seconds; it stays to be read."""
        return bool(select.select([self.socket], [], [], seconds)[0])

    def gets_after(self, since, milliseconds, frame):
        """This frame has to come, and not before so many milliseconds have passed since a moment. The broker counts in whole
        milliseconds from the last one that began, so up to one may be missing. Gives the milliseconds."""
        self.gets(frame)
        took = (time.monotonic() - since) * 1000
        expect(took > milliseconds - 1, f"the reply should not come before {milliseconds} ms, and came after {took:.1f} ms")
        return took

    def sends_no_more(self):
        try:
            self.socket.shutdown(socket.SHUT_WR)
        except OSError:
            # The broker closed it before us.
            pass

    def has_to_end(self):
        """We send no more, and the broker ends the link without another byte."""
        self.sends_no_more()
        left = self._take(1)
        expect(left == b"", f"the link should end, and there came {left.hex()}")


def batch(*values):
    """A batch with these values and no keys."""
    return batches.batch([batches.record(offset, value) for offset, value in enumerate(values)])


def produce(correlation, topic, records, partition=0, acks=1, timeout=1000, version=wire.PRODUCE[0]):
    return wire.produce_request(correlation, [(topic, [(partition, records)])], acks=acks, timeout=timeout, version=version)


def produced(correlation, topic, base, partition=0, code=0, version=wire.PRODUCE[0]):
    start = wire.NO_LOG_START if base < 0 else 0
    return wire.produced(correlation, [(topic, [(partition, code, base, start)])], version)


def fetch(correlation, topic, offset, partition=0, replica=-1, wait=0, version=wire.FETCH[0], start=wire.NO_LOG_START):
    part = partition, offset, 1_048_576, start
    return wire.fetch_request(correlation, [(topic, [part])], replica=replica, wait=wait, version=version)


def fetched(correlation, topic, high, records=b"", partition=0, version=wire.FETCH[0]):
    return wire.fetched(correlation, 0, [(topic, [(partition, 0, high, 0, records)])], version)


def high_and_records(reply):
    """What a reply says of the one partition of which a fetch asked."""
    reader = wire.Reader(reply)
    reader.take(12)
    reader.string()
    reader.take(8)
    code, high, _ = (reader.number(form) for form in (">h", ">q", ">q"))
    expect(code == 0, f"the fetch should have code 0, and has {code}")
    reader.take(4)
    return high, reader.records()
