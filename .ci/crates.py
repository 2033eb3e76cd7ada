#!/usr/bin/env python3
"""Whether each line of crates.txt names just the crates that the crate's own files name, and whether its comments are a few headings.

Prints each line that differs as it should be, and with --fix writes it so. Comments and texts between quotes name nothing. std and
core are always there, and are never listed. Ends with 1 where something differs, with --fix only where a heading does.
"""

import argparse
import pathlib
import re
import shutil
import sys

ROOT = pathlib.Path(__file__).resolve().parent.parent
LIST = ROOT / "crates.txt"
PARTS = ("src", "specs", "proofs")
ALWAYS = {"std", "core"}
MOST_HEADINGS = 10

CODE_SKIPPED = re.compile(r"""//[^\n]*|/\*.*?\*/|r(#*)".*?"\1|"(?:\\.|[^"\\])*"|'(?:\\.[^']*|[^'\\])'""", re.DOTALL)
LOGIC_SKIPPED = re.compile(r'\{-.*?-\}|--[^\n]*|"(?:\\.|[^"\\])*"', re.DOTALL)
# A path's first word: nothing of a path stands before it.
PATH = re.compile(r"(?<![\w:.])(?:::\s*)?([a-z]\w*)\s*::")
USE = re.compile(r"\buse\s+([^;]*);")
EXTERN = re.compile(r"\bextern\s+crate\s+(\w+)")
GHOST = re.compile(r"\bRattle\.(\w+)")
MODULE = re.compile(r"\bmod\s+(\w+)")


def stop(why):
    print(why, file=sys.stderr)
    sys.exit(2)


def libraries():
    """The names of the kit's libraries."""
    rt = shutil.which("rt")
    found = {file.stem for file in (pathlib.Path(rt).resolve().parent.parent / "rlibs").glob("*.rlib")} if rt else set()
    return found or stop("rt isn't on the path, or its kit has no libraries")


def roots(tree):
    """The first words of a use: of its path, or of each path between its outermost braces."""
    tree = tree.strip()
    if not tree.startswith("{"):
        return re.findall(r"\A(?:::\s*)?(\w+)", tree)
    inner, depth, paths = tree[1:-1], 0, [""]
    for letter in inner:
        depth += {"{": 1, "}": -1}.get(letter, 0)
        if letter == "," and depth == 0:
            paths.append("")
        else:
            paths[-1] += letter
    return [root for path in paths for root in roots(path)]


def named_in_code(text):
    """What a file of code names, and the modules that it has."""
    text = CODE_SKIPPED.sub(" ", text)
    trees = USE.findall(text)
    # What a use brings in is named by its last word from then on.
    brought = {word for tree in trees for word in re.findall(r"\w+", tree)}
    # A ghost use is a path of the logic, with dots.
    named = set(GHOST.findall(text)) | set(EXTERN.findall(text)) | (set(PATH.findall(USE.sub(" ", text))) - brought)
    for tree in trees:
        named.update(roots(tree))
    return named, set(MODULE.findall(text))


def named_by(crate):
    """All that the files of a crate name, less its own modules."""
    code, modules, logic = set(), set(), set()
    for part in PARTS:
        for file in sorted((ROOT / "crates" / crate / part).rglob("*")):
            if file.suffix == ".rt":
                named, own = named_in_code(file.read_text())
                code, modules = code | named, modules | own
            elif file.suffix == ".antt":
                logic.update(GHOST.findall(LOGIC_SKIPPED.sub(" ", file.read_text())))
    return (code - modules) | logic


def rows(lines):
    """(place, head, crate, named) of each line of a crate."""
    for place, line in enumerate(lines):
        words = line.partition("#")[0].strip()
        if words:
            head, _, below = words.partition(":")
            yield place, head, head.split()[0], re.split(r"[\s,]+", below.strip()) if below.strip() else []


def differing(lines, kit):
    """By place each line of a crate that differs from what it should be."""
    crates = [crate for _, _, crate, _ in rows(lines)]
    found = {}
    for place, head, crate, listed in rows(lines):
        named = named_by(crate) - {crate} - ALWAYS
        own = [it for it in reversed(crates) if it in named]
        wanted = own + sorted((named & kit) - set(crates))
        if sorted(listed) != sorted(wanted):
            found[place] = " ".join([f"{head}:", *wanted])
    return found


def faults_of_headings(lines):
    """Each comment line is a heading over crates, and they are few."""
    lines = [line for line in lines if line.strip()]
    headings = [place for place, line in enumerate(lines) if line.lstrip().startswith("#")]
    if len(headings) > MOST_HEADINGS:
        yield f"{len(headings)} comment lines: at most {MOST_HEADINGS}, each a heading over crates"
    for place in headings:
        if place + 1 == len(lines) or place + 1 in headings:
            yield f"no crate stands under the heading {lines[place].strip()}"


def main():
    options = argparse.ArgumentParser(description=__doc__)
    options.add_argument("--fix", action="store_true", help="write the lines as they should be")
    chosen = options.parse_args()
    lines = LIST.read_text().split("\n")
    found = differing(lines, libraries())
    faults = list(faults_of_headings(lines))
    for told in [*found.values(), *faults]:
        print(told)
    if chosen.fix:
        LIST.write_text("\n".join(found.get(place, line) for place, line in enumerate(lines)))
    return 1 if faults or (found and not chosen.fix) else 0


if __name__ == "__main__":
    sys.exit(main())
