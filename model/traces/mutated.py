"""What hostile clients and writers of traces send: valid streams of frames, and valid texts, with changes. A bit or a number is
another, bytes are lost, doubled or put in, a frame is cut, joined with the next, lost, doubled or moved, a batch is changed below a
right checksum; and of a text a line is lost, doubled, moved, cut, or joined with the next."""

import struct

from model.broker import batches, traces, wire

# The numbers at the edges of what a field of so many bytes may hold, and of what the broker takes.
EDGES = [0, 1, 2, 62, 63, 64, 65, 127, 8_388_608, 8_388_609, 1_048_588, 1_048_589]
SIZES = [1, 2, 4, 4, 8]


# ---- bytes


def edge(random_, size):
    top = 1 << 8 * size - 1
    number = random_.choice([random_.choice(EDGES), -1, -2, top - 1, top - 2, -top, random_.randrange(-top, top)])
    return (number % (2 * top)).to_bytes(size, "big")


def with_bit(random_, data):
    place = random_.randrange(len(data))
    return data[:place] + bytes([data[place] ^ 1 << random_.randrange(8)]) + data[place + 1:]


def with_edge(random_, data):
    size = random_.choice(SIZES)
    place = random_.randrange(len(data))
    return data[:place] + edge(random_, size) + data[place + size:]


def with_nearly(random_, data):
    """A number that stands in the bytes is one more or less."""
    size = random_.choice(SIZES)
    place = random_.randrange(len(data))
    number = int.from_bytes(data[place:place + size], "big") + random_.choice([-1, 1])
    return data[:place] + (number % (1 << 8 * size)).to_bytes(size, "big") + data[place + size:]


def with_loss(random_, data):
    place = random_.randrange(len(data))
    return data[:place] + data[place + random_.choice([1, 1, 2, 4, 8, random_.randint(1, len(data))]):]


def with_more(random_, data):
    """Some of the bytes come twice, or others between them."""
    place = random_.randrange(len(data) + 1)
    upto = min(len(data), place + random_.choice([1, 2, 4, 8, 69]))
    more = random_.choice([data[place:upto], bytes(random_.randrange(256) for _ in range(random_.randint(1, 8))), bytes(random_.randint(1, 70))])
    return data[:place] + more + data[place:]


def cut_short(random_, data):
    return data[:random_.randrange(len(data))]


CHANGES = [with_bit, with_bit, with_edge, with_edge, with_nearly, with_loss, with_more, cut_short]


def changed(random_, data):
    return random_.choice(CHANGES)(random_, data) if data else edge(random_, 4)


# ---- frames


def split(data):
    """The whole frames at the front of these bytes, and the rest behind them."""
    frames = []
    while True:
        kind, body = wire.next_frame(data)
        if kind != "whole":
            return frames, data
        frames.append(data[:4 + len(body)])
        data = data[4 + len(body):]


def mended(batch):
    """The same with the length and the checksum that a batch of these bytes has."""
    if len(batch) < batches.HEADER:
        return batch
    return batch[:8] + struct.pack(">i", len(batch) - 12) + batch[12:17] + struct.pack(">I", batches.crc32c(batch[21:])) + batch[21:]


def with_longer_number(random_, batch):
    """A byte of the first record that may be a number is spelled in two bytes, and the record's length counts them both."""
    place = random_.randrange(batches.HEADER, min(len(batch), batches.HEADER + 12))
    longer = batch[:place] + bytes([batch[place] | 0x80, 0]) + batch[place + 1:]
    if place == batches.HEADER:
        return longer
    return longer[:batches.HEADER] + bytes([(batch[batches.HEADER] + 2) % 256]) + longer[batches.HEADER + 1:]


def batches_in(frame):
    """The places and the bytes of the records that a frame brings, where it is a produce."""
    try:
        request = wire.read_request(frame[4:])
    except wire.Refused:
        return []
    if request.key != 0:
        return []
    return [(frame.index(data), data) for _, parts in request.fields["topics"] for _, data in parts if data]


def with_batch(random_, frame):
    """A batch of the frame is changed, and what tells its length is right again, and mostly its checksum."""
    found = batches_in(frame)
    if not found:
        return with_body(random_, frame)
    place, batch = random_.choice(found)
    if len(batch) > batches.HEADER and random_.random() < 0.1:
        new = with_longer_number(random_, batch)
    else:
        new = batch[:21] + changed(random_, batch[21:])
    if random_.random() < 0.8:
        new = mended(new)
    body = frame[4:place - 4] + struct.pack(">i", len(new)) + new + frame[place + len(batch):]
    return wire.frame(body)


def with_body(random_, frame):
    """The body is changed, and the size that stands before it is mostly right."""
    body = changed(random_, frame[4:])
    return wire.frame(body) if random_.random() < 0.7 else frame[:4] + body


def with_version(random_, frame):
    """Another version stands in the frame's header, mostly one that is near."""
    version = struct.pack(">h", random_.randint(-1, 7)) if random_.random() < 0.9 else edge(random_, 2)
    return frame[:6] + version + frame[8:]


def with_size(random_, frame):
    size = random_.choice([edge(random_, 4), struct.pack(">i", len(frame) - 4 + random_.choice([-4, -1, 1, 4]))])
    return size + frame[4:]


OF_A_FRAME = [with_batch, with_batch, with_batch, with_body, with_body, with_body, with_size, with_version]


def of_frames(random_, frames):
    """The frames with one of them lost, doubled or moved, or two in the size of one."""
    place, kind = random_.randrange(len(frames)), random_.randrange(4)
    if kind == 0:
        return frames[:place] + frames[place + 1:]
    if kind == 1:
        return frames[:place] + frames[place:place + 1] + frames[place:]
    if kind == 2:
        rest = frames[:place] + frames[place + 1:]
        to = random_.randrange(len(frames))
        return rest[:to] + [frames[place]] + rest[to:]
    return frames[:place] + [wire.frame(b"".join(frames[place:place + 2]))] + frames[place + 2:]


def stream(random_, data):
    """What a session sends, with one change or two."""
    for _ in range(random_.choice([1, 1, 1, 2])):
        frames, rest = split(data)
        kind = random_.random()
        if not frames or kind < 0.1:
            data = changed(random_, data)
        elif kind < 0.25:
            data = b"".join(of_frames(random_, frames)) + rest
        else:
            place = random_.randrange(len(frames))
            frames[place] = random_.choice(OF_A_FRAME)(random_, frames[place])
            data = b"".join(frames) + rest
    return data


# ---- lines


def feed_of(line):
    """The session and the bytes of a line that brings some, or None."""
    words = line.split(b" ")
    if len(words) != 3 or words[0] != b"bytes":
        return None
    try:
        return int(words[1]), bytes.fromhex(words[2].decode())
    except ValueError:
        return None


def feed(session, data):
    return b"bytes %d %s" % (session, data.hex().encode())


def with_stream(random_, lines, place):
    """The bytes of a line are changed as those of a session are."""
    found = feed_of(lines[place])
    if found is None:
        return with_words(random_, lines, place)
    return lines[:place] + [feed(found[0], stream(random_, found[1]))] + lines[place + 1:]


def with_pieces(random_, lines, place):
    """The bytes of a line come in pieces, of which the later ones stand anywhere behind it."""
    found = feed_of(lines[place])
    if found is None or len(found[1]) < 2:
        return of_lines(random_, lines, place)
    session, data = found
    at = random_.randrange(1, len(data))
    later = random_.randint(place, len(lines) - 1)
    return lines[:place] + [feed(session, data[:at])] + lines[place + 1:later + 1] + [feed(session, data[at:])] + lines[later + 1:]


def with_next(random_, lines, place):
    """The bytes of two lines of a session come in one."""
    found = feed_of(lines[place])
    for later in range(place + 1, len(lines)):
        other = found and feed_of(lines[later])
        if other and other[0] == found[0]:
            return lines[:place] + [feed(found[0], found[1] + other[1])] + lines[place + 1:later] + lines[later + 1:]
    return of_lines(random_, lines, place)


def of_lines(random_, lines, place):
    """A line is lost, doubled, moved, cut in two, or joined with the next."""
    line, rest, kind = lines[place], lines[:place] + lines[place + 1:], random_.randrange(5)
    if kind == 0:
        return rest
    if kind in (1, 2):
        to = random_.randrange(len(lines))
        kept = rest if kind == 1 else lines
        return kept[:to] + [line] + kept[to:]
    if kind == 3:
        at = random_.randrange(len(line) + 1)
        return lines[:place] + [line[:at], line[at:]] + lines[place + 1:]
    return lines[:place] + [b"".join(lines[place:place + 2])] + lines[place + 2:]


def with_words(random_, lines, place):
    """A number of a line is another, or a word is lost, doubled, or one of another line."""
    words = lines[place].split(b" ")
    at, kind = random_.randrange(len(words)), random_.randrange(5)
    if kind < 2:
        number = random_.choice([0, 1, 2, 3, 63, 64, 65, traces.MOST_MOMENT, traces.MOST_MOMENT + 1, traces.MOST_COUNT, 2**31 - 1, 2**64, 8, 9])
        words[at] = b"%d" % number
    elif kind == 2:
        del words[at]
    elif kind == 3:
        words.insert(at, random_.choice([words[at], b"", b"0"]))
    else:
        words[at] = random_.choice(random_.choice(lines).split(b" "))
    return lines[:place] + [b" ".join(words)] + lines[place + 1:]


def with_characters(random_, lines, place):
    """A bit of the text is another, or characters are lost or put in, line feeds among them."""
    text = random_.choice([with_bit, with_bit, with_loss, with_more, cut_short])(random_, lines[place] + b"\n")
    return lines[:place] + text.split(b"\n")[:-1] + lines[place + 1:]


# What mostly leaves a text a trace, and what mostly doesn't.
OF_FEEDS = [with_stream, with_stream, with_stream, with_stream, with_pieces, with_next]
OF_TEXTS = [of_lines, of_lines, with_words, with_characters]


def text(random_, whole):
    """A text with one change or some."""
    lines, of = whole.split(b"\n"), OF_FEEDS if random_.random() < 0.75 else OF_TEXTS
    for _ in range(random_.choice([1, 1, 2, 3])):
        places = [place for place, line in enumerate(lines) if of is OF_TEXTS or line.startswith(b"bytes ")]
        if places:
            lines = random_.choice(of)(random_, lines, random_.choice(places))
    return b"\n".join(lines)
