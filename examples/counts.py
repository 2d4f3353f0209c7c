#!/usr/bin/env python3
"""examples/counts.py FILE: replays a listing and prints, for each of the eight columns, how many ties its SWAPs met and how many stores it made to registers."""

import os
import sys

sys.path.insert(0, os.path.join(os.path.dirname(os.path.realpath(__file__)), "../python"))
import replay


def main(file):
    with open(file, "rb") as listing:
        settings, words, outcome = replay.read(listing.read())
    if outcome.done:
        outcome = replay.run(settings, replay.image(), replay.dst(), words)
    if not outcome.done:
        return f"refused by {outcome.answer} at {outcome.place}: {outcome.text}"
    print(f"after {outcome.steps} steps, of at most {16 * outcome.steps} stores a column")
    for column, (ties, stores) in enumerate(zip(outcome.ties, outcome.stores)):
        print(f"column {column}: {ties} ties, {stores} stores")
    return 0


if __name__ == "__main__":
    sys.exit(main(*sys.argv[1:]) if len(sys.argv) == 2 else __doc__)
