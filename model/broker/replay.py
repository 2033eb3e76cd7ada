#!/usr/bin/env python3
"""Replays the trace on standard input by the model alone: `python3 -B -m model.broker.replay < TRACE`, at the top of the repository."""

import sys

from model.broker import broker, traces


def main():
    try:
        lines = traces.read(sys.stdin.buffer.read())
    except traces.Bad as bad:
        print(f"kafka_room: {bad.told()}", file=sys.stderr)
        return 2
    sys.stdout.buffer.write(broker.play(lines))
    return 0


if __name__ == "__main__":
    sys.exit(main())
