#!/usr/bin/env python3
"""Says in words what a trace sends and what comes of it, builds a trace from such words, and draws a run as a timeline. Run it at the
top of the repository, as `python3 -B -m model.words.explain`:

    explain examples/fetch.trace                  what is sent, and indented below it what comes of it
    explain --printed FILE examples/fetch.trace   what a program printed, as it stands in FILE (- is the standard input), and then in words
    explain --build words.txt > my.trace          a trace from words; - is the standard input. What is told can be built again
    explain --svg run.svg examples/fetch.trace    a row for each session, a bar where a request waits, and what ended it
    explain --language                            the words of which a trace is built

What comes of a line is the model's play. Where NAME.out stands beside NAME.trace and is something else, the last line says so. Where a
program printed something else than the model, as it may on workers, what it printed is told line by line.
"""

import argparse
import os
import pathlib
import sys

from model.broker import traces
from model.words import telling, timeline, words


def read(name):
    return sys.stdin.buffer.read() if name == "-" else pathlib.Path(name).read_bytes()


def tell(teller):
    for line in teller.lines:
        print(line.words)
        for about in line.about:
            print(f"    ({about})")
        for told in filter(None, map(telling.event_words, line.events)):
            print(f"    {told}")
    for told in telling.summary_words(teller.printed()):
        print(f"    {told}")


def tell_printed(teller, printed):
    """What was sent, and below it what a program printed, line by line."""
    for line in teller.lines:
        print(line.words)
    print("    (on one thread something else is printed; this, session by session:)")
    for told in telling.printed_words([(line.kind, line.what) for line in teller.lines], printed):
        print(f"    {told}")


def show(teller, printed):
    """The bytes that a program printed, and then their words."""
    sys.stdout.write(printed.decode(errors="replace") + "\nIn words:\n\n")
    if printed == teller.printed():
        tell(teller)
    else:
        tell_printed(teller, printed)


def is_printed_so(name, teller):
    """Whether the output beside the trace, where there is one, is what the model prints. It prints that of `replay` alone."""
    beside = pathlib.Path(name).with_suffix(".out")
    if name == "-" or not beside.is_file() or beside.with_suffix(".args").is_file():
        return True
    return beside.read_bytes() == teller.printed()


def build(name):
    try:
        sys.stdout.write(words.built(read(name).decode()))
    except words.Unclear as unclear:
        print(unclear, file=sys.stderr)
        return 2
    return 0


def main():
    options = argparse.ArgumentParser(description=__doc__, formatter_class=argparse.RawDescriptionHelpFormatter)
    options.add_argument("trace", nargs="?", default="-", help="a trace, or - for the standard input")
    options.add_argument("--printed", metavar="FILE", help="show what a program printed of the trace, and then its words")
    options.add_argument("--build", metavar="WORDS", help="build a trace from a text of words")
    options.add_argument("--svg", metavar="FILE", type=pathlib.Path, help="draw the run")
    options.add_argument("--language", action="store_true", help="tell the language")
    chosen = options.parse_args()
    if chosen.language:
        print(words.__doc__.strip())
        return 0
    try:
        if chosen.build:
            return build(chosen.build)
        teller = telling.Teller(traces.read(read(chosen.trace)))
        printed = read(chosen.printed) if chosen.printed else None
    except traces.Bad as bad:
        print(f"{chosen.trace}: {bad.told()}", file=sys.stderr)
        return 2
    except OSError as failed:
        print(failed, file=sys.stderr)
        return 2
    if chosen.svg:
        chosen.svg.write_text(timeline.drawn(teller))
        return 0
    if printed is not None:
        show(teller, printed)
        return 0
    tell(teller)
    if not is_printed_so(chosen.trace, teller):
        print(f"What stands in {pathlib.Path(chosen.trace).with_suffix('.out')} is something else.")
        return 1
    return 0


if __name__ == "__main__":
    try:
        code = main()
        sys.stdout.flush()
    except BrokenPipeError:
        # Whoever read has read enough.
        os.dup2(os.open(os.devnull, os.O_WRONLY), sys.stdout.fileno())
        code = 0
    sys.exit(code)
