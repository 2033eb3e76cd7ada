"""Where the repository has its programs, and the traces that stand in it with what they print."""

import pathlib

ROOT = pathlib.Path(__file__).resolve().parents[2]
FOLDERS = ["crates/kafka_room/rows", "examples"]


def crate(name):
    return ROOT / "crates" / name


def program(name):
    """The proved program that a build of this crate leaves."""
    return crate(name) / "out" / name


def is_replayed(trace):
    """Whether the program replays it to the end: no other code stands beside it, and no other words."""
    words = trace.with_suffix(".args")
    return not trace.with_suffix(".status").exists() and (not words.exists() or words.read_text().startswith("replay\n"))


def played():
    """The files of the traces whose replay ends with code 0. With .args beside it a trace is played on workers."""
    return [trace for folder in FOLDERS for trace in sorted((ROOT / folder).glob("*.trace")) if is_replayed(trace)]
