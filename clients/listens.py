"""Says whether somebody listens at a port of this machine: ends with 0 where it is so, and with 1 where it isn't.

    python3 -B -m clients.listens PORT [--wait]

With --wait it waits until somebody does, as long as the process that started it is there, and says it: for who starts a broker whose
own words come only at its end.
"""

import os
import sys
import time

from clients.served import HOST, is_listening


def main():
    words = sys.argv[1:]
    if len(words) not in (1, 2) or words[1:] not in ([], ["--wait"]) or not words[0].isdecimal():
        sys.exit(__doc__)
    port, waits, parent = int(words[0]), words[1:] == ["--wait"], os.getppid()
    while waits and not is_listening(port) and os.getppid() == parent:
        time.sleep(0.2)
    if waits and is_listening(port):
        print(f"It listens on {HOST}:{port}.", flush=True)
    return 0 if is_listening(port) else 1


if __name__ == "__main__":
    sys.exit(main())
