#!/usr/bin/env python3
"""examples/grid.py FILE REGISTER: replays a listing and prints a register's 32 lanes as a grid, 8 columns by 4 rows."""

import os
import sys

sys.path.insert(0, os.path.join(os.path.dirname(os.path.realpath(__file__)), "../python"))
import replay


def main(file, reg):
    with open(file, "rb") as listing:
        settings, words, outcome = replay.read(listing.read())
    image = replay.image()
    if outcome.done:
        outcome = replay.run(settings, image, replay.dst(), words)
    if not outcome.done:
        return f"refused by {outcome.answer} at {outcome.place}: {outcome.text}"
    lanes = replay.register(image, int(reg))
    if not lanes:
        return f"register {reg} is not stored"
    print(f"register {reg} after {outcome.steps} steps")
    for row in range(4):
        print(" ".join(f"{word:08X}" for word in lanes[8 * row : 8 * row + 8]))
    return 0


if __name__ == "__main__":
    sys.exit(main(*sys.argv[1:]) if len(sys.argv) == 3 else __doc__)
