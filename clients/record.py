"""Stands between clients and a broker, and writes what the clients send as a trace, which `kafka_room replay` plays.

    python3 -B -m clients.record BROKER_PORT LISTEN_PORT CONNECTIONS TOPIC.. > what_they_sent.trace

Clients connect to LISTEN_PORT of this machine; each connection is passed on to BROKER_PORT and is a session of the trace, numbered as they
come, at most 64. A TOPIC is written as in a trace, `"orders 3 0"`. Where the broker names its own port in a reply to Metadata, the clients
are told LISTEN_PORT, so that they come back here. It ends once so many connections have come and gone.
"""

import socket
import struct
import sys
import threading
import time

HOST = "127.0.0.1"
MOST_SESSIONS = 64


class Recorder:
    """The lines of the trace, in the order in which the bytes came, with the clock in milliseconds since the start."""

    def __init__(self, topics, out):
        self.out, self.lock = out, threading.Lock()
        self.began, self.moment = time.monotonic(), 0
        for topic in topics:
            self.put(f"topic {topic}")

    def put(self, line):
        self.out.write(line + "\n")
        self.out.flush()

    def note(self, line):
        with self.lock:
            now = int((time.monotonic() - self.began) * 1000)
            if now > self.moment:
                self.moment = now
                self.put(f"clock {now}")
            self.put(line)


def shut(link, how):
    try:
        link.shutdown(how)
    except OSError:
        pass


def pass_requests(recorder, session, client, broker):
    while True:
        try:
            piece = client.recv(65_536)
        except OSError:
            piece = b""
        if not piece:
            break
        recorder.note(f"bytes {session} {piece.hex()}")
        broker.sendall(piece)
    recorder.note(f"close {session}")
    shut(broker, socket.SHUT_WR)


def pass_replies(names, broker, client):
    """Passes whole frames on, so that an address in them is never cut."""
    data = b""
    while True:
        try:
            piece = broker.recv(65_536)
        except OSError:
            piece = b""
        if not piece:
            break
        data += piece
        while len(data) >= 4 and len(data) >= 4 + struct.unpack(">i", data[:4])[0]:
            size = 4 + struct.unpack(">i", data[:4])[0]
            try:
                client.sendall(data[:size].replace(*names))
            except OSError:
                return
            data = data[size:]
    shut(client, socket.SHUT_RDWR)


def serve_one(recorder, session, client, broker_port, names):
    with client, socket.create_connection((HOST, broker_port)) as broker:
        replies = threading.Thread(target=pass_replies, args=(names, broker, client))
        replies.start()
        pass_requests(recorder, session, client, broker)
        replies.join()


def main():
    if len(sys.argv) < 5:
        sys.exit(__doc__)
    broker_port, port, connections = (int(word) for word in sys.argv[1:4])
    if not 1 <= connections <= MOST_SESSIONS:
        sys.exit(f"a trace has at most {MOST_SESSIONS} sessions")
    address = struct.pack(">h", 9) + b"localhost"
    names = (address + struct.pack(">i", broker_port), address + struct.pack(">i", port))
    recorder, threads = Recorder(sys.argv[4:], sys.stdout), []
    with socket.create_server((HOST, port)) as listener:
        for session in range(connections):
            client, _ = listener.accept()
            threads.append(threading.Thread(target=serve_one, args=(recorder, session, client, broker_port, names)))
            threads[-1].start()
    for thread in threads:
        thread.join()
    recorder.put("end")


if __name__ == "__main__":
    main()
