#!/usr/bin/env python3
"""examples/stray.py FILE REGISTER LANE: replays a listing, and walks back to the instruction that gave the lane the word it ends with."""

import os
import sys

sys.path.insert(0, os.path.join(os.path.dirname(os.path.realpath(__file__)), "../python"))
import replay


def main(file, reg, lane):
    with open(file, "rb") as listing:
        settings, words, outcome = replay.read(listing.read())
    image = replay.image()
    if outcome.done:
        walk, outcome = replay.begin(settings, image, replay.dst(), words)
    if not outcome.done:
        return f"refused by {outcome.answer} at {outcome.place}: {outcome.text}"
    if int(lane) not in range(len(replay.register(image, int(reg)))):
        return f"register {reg} lane {lane} is not stored"
    while walk.forward() == 0:
        pass
    last = word = replay.register(image, int(reg))[int(lane)]
    print(f"register {reg} lane {lane} after {walk.at} steps: {last:08X}")
    while word == last and walk.back() == 0:
        word = replay.register(image, int(reg))[int(lane)]
        print(f"before instruction {walk.at}, {replay.OPS[words[6 * walk.at]]}: {word:08X}")
    print("it was so from the start" if word == last else f"instruction {walk.at} made it so")
    return 0


if __name__ == "__main__":
    sys.exit(main(*sys.argv[1:]) if len(sys.argv) == 4 else __doc__)
