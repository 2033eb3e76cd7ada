"""Record batches, version 2, as docs/protocol.md lays them out: reading, writing, and the first fault of bytes that are none."""

import struct

MOST_BYTES = 1_048_588
HEADER = 61


def _table():
    rows = []
    for value in range(256):
        for _ in range(8):
            value = (value >> 1) ^ (0x82F63B78 if value & 1 else 0)
        rows.append(value)
    return rows


_ROWS = _table()


def crc32c(data):
    kept = 0xFFFFFFFF
    for byte in data:
        kept = _ROWS[(kept ^ byte) & 0xFF] ^ (kept >> 8)
    return kept ^ 0xFFFFFFFF


class Unreadable(Exception):
    """A record that doesn't read."""


class Bytes:
    """Bytes that are read from the left."""

    def __init__(self, data):
        self.data, self.at = data, 0

    def take(self, count):
        if count < 0 or self.at + count > len(self.data):
            raise Unreadable
        piece = self.data[self.at:self.at + count]
        self.at += count
        return piece

    def varint(self, bits):
        """A zigzag number in groups of seven bits, the lowest first, in its shortest form."""
        number, shift = 0, 0
        while True:
            byte = self.take(1)[0]
            number |= (byte & 0x7F) << shift
            shift += 7
            if byte < 0x80:
                break
            if shift >= bits + 6:
                raise Unreadable
        if number >= 1 << bits or (byte == 0 and shift > 7):
            raise Unreadable
        return (number >> 1) ^ -(number & 1)

    def sized(self, least):
        """A length of at least this, where -1 stands for null, and so many bytes."""
        length = self.varint(32)
        if length < least:
            raise Unreadable
        return None if length == -1 else self.take(length)


def _record(data, offset):
    """The bytes of one record, at this offset from the base, and how many there are."""
    reader = Bytes(data)
    length = reader.varint(32)
    body = Bytes(reader.take(length))
    body.take(1)
    body.varint(64)
    if body.varint(32) != offset:
        raise Unreadable
    body.sized(-1)
    body.sized(-1)
    headers = body.varint(32)
    if headers < 0:
        raise Unreadable
    for _ in range(headers):
        body.sized(0)
        body.sized(-1)
    if body.at != length:
        raise Unreadable
    return reader.at


def fault_code(data):
    """The error code of the first fault of these bytes, or None where they are a batch."""
    if len(data) > MOST_BYTES:
        return 10
    if len(data) < HEADER:
        return 87
    (_, length, _, magic, crc, attributes, last) = struct.unpack(">qiibIhi", data[:27])
    (count,) = struct.unpack(">i", data[57:61])
    if length + 12 != len(data) or magic != 2:
        return 87
    if crc != crc32c(data[21:]):
        return 2
    if attributes & 7:
        return 76
    if attributes & 0x30 or count < 1 or last != count - 1:
        return 87
    at = HEADER
    try:
        for offset in range(count):
            at += _record(data[at:], offset)
    except Unreadable:
        return 87
    return None if at == len(data) else 87


def count_of(data):
    return struct.unpack(">i", data[57:61])[0]


def stamped(data, base):
    """The batch with this base offset and the leader epoch 0."""
    return struct.pack(">qii", base, len(data) - 12, 0) + data[16:]


def varint(number):
    rest = number * 2 if number >= 0 else -number * 2 - 1
    out = bytearray()
    while rest > 0x7F:
        out.append(rest & 0x7F | 0x80)
        rest >>= 7
    out.append(rest)
    return bytes(out)


def _sized(part):
    return varint(-1) if part is None else varint(len(part)) + part


def record(offset, value, key=None, headers=(), time=0):
    body = b"\0" + varint(time) + varint(offset) + _sized(key) + _sized(value) + varint(len(headers))
    for name, text in headers:
        body += _sized(name) + _sized(text)
    return varint(len(body)) + body


def batch(records, attributes=0, base=0, magic=2, last=None, count=None, producer=-1):
    """A batch of these records' bytes, with its right length and checksum."""
    count = len(records) if count is None else count
    last = count - 1 if last is None else last
    checked = struct.pack(">hiqqqhii", attributes, last, 0, 0, producer, -1, -1, count) + b"".join(records)
    return struct.pack(">qiibI", base, len(checked) + 9, 0, magic, crc32c(checked)) + checked
