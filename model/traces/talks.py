"""What hostile clients send over a connection, and how: streams of requests with changes, whole, in pieces, slowly, and with a reset in
mid-frame. No request of them waits for long."""

from dataclasses import dataclass

from model.broker import traces, wire
from model.traces import mutated, requests

# The most milliseconds for which a request of a talk waits, and the most requests of one before they are changed.
MOST_WAIT = 12
MOST_REQUESTS = 5
TOPICS = [traces.Topic(b"t", 2, 0), traces.Topic(b"orders", 1, 0)]
# With followers, whose produces for all replicas wait.
WITH_FOLLOWERS = [traces.Topic(b"t", 2, 1), traces.Topic(b"u", 1, 0), traces.Topic(b"orders", 1, 2, min_insync=2)]


@dataclass
class Talk:
    """A connection. All that is sent before `tail` is handled before that is sent."""
    pieces: list
    # seconds between two pieces
    pause: float = 0.0
    # With these bytes, the beginning of a frame, comes a reset.
    tail: bytes = None
    # It is reset without a look at what is answered.
    is_rude: bool = False

    @property
    def data(self):
        return b"".join(self.pieces)

    @property
    def reading(self):
        return Reading(self.data)


class Reading:
    """The requests at the front of what a connection sends, and how its link ends where its client sends no more."""

    def __init__(self, data):
        self.requests, self.end, self.is_over = [], None, False
        while self.end is None:
            kind, what = wire.next_frame(data)
            if kind == "too long":
                self.end, self.is_over = f"too-long {what}", True
            elif kind == "not yet":
                self.end = f"truncated {len(data)}" if data else "closed"
            else:
                self._whole(what)
                data = data[4 + len(what):]

    def _whole(self, body):
        try:
            self.requests.append(wire.read_request(body))
        except wire.Refused as refused:
            self.end, self.is_over = f"refused {refused}", True

    @property
    def answered(self):
        return [request for request in self.requests if not is_quiet(request)]


def is_quiet(request):
    return request.key == 0 and request.fields["acks"] == 0


def wait_of(request):
    """The milliseconds for which it may wait."""
    if request.key == 0:
        return request.fields["timeout"] if request.fields["acks"] == -1 else 0
    return request.fields.get("wait", 0)


def is_short(data, most=MOST_WAIT):
    return all(wait_of(request) <= most for request in Reading(data).requests)


def stream(random_, topics):
    """Requests, mostly with a change, none of which waits for long."""
    while True:
        data = b"".join(request(random_, topics) for _ in range(random_.randint(1, MOST_REQUESTS)))
        if random_.random() < 0.6:
            data = mutated.stream(random_, data)
        if data and is_short(data):
            return data


def request(random_, declared):
    if random_.random() < 0.1:
        return requests.other(random_, declared)
    return random_.choice([requests.produce, requests.fetch])(random_, declared, waits=random_.random() < 0.5)


def in_pieces(random_, data):
    """The pieces in which it is sent, and the seconds between two of them."""
    kind = random_.random()
    if kind < 0.5:
        return [data], 0.0
    if kind < 0.6 and len(data) < 400:
        return [data[place:place + 1] for place in range(len(data))], 0.0
    pieces = list(requests.cut(random_, data))[:20]
    pieces.append(data[sum(map(len, pieces)):])
    return pieces, random_.choice([0.0, 0.001, 0.003])


def made(random_, topics, may_be_rude):
    data = stream(random_, topics)
    kind, reading = random_.random(), Reading(data)
    if may_be_rude and kind < 0.1:
        return Talk([data], is_rude=True)
    if kind < 0.25 and not reading.is_over:
        # The reply to the last request shows that all before it were handled.
        frames, _ = mutated.split(data)
        data = b"".join(frames) + wire.versions_request(9)
        return Talk(*in_pieces(random_, data), tail=mutated.cut_short(random_, wire.metadata_request(10, [b"t"])))
    return Talk(*in_pieces(random_, data))
