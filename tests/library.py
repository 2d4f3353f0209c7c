"""The library as a Python host meets it. tests/library runs this with the names that tests/library.c prints."""

import glob
import os
import re
import sys
from array import array

root = os.path.dirname(os.path.dirname(os.path.realpath(__file__)))
sys.path.insert(0, os.path.join(root, "python"))
import replay


def content(name):
    with open(name, "rb") as file:
        return file.read()


def refuses(error, call, *arguments):
    try:
        call(*arguments)
    except error:
        return True
    return False


none = (0,) * replay.COLUMNS

# The module's constants and names are the header's.
header = content(os.path.join(root, "include/replay.h")).decode()
for name, number in re.findall(r"#define REPLAY_(\w+) (\d+)", header):
    assert getattr(replay, name) == int(number), name
names = [f"op {n} {name}" for n, name in enumerate(replay.OPS) if n] + [f"answer {n} {text}" for n, text in enumerate(replay.ANSWERS)]
assert content(sys.argv[1]).decode().splitlines() == names, "names"
assert replay.version() == replay.VERSION

# Each example reads, is written again, the old listing as the same of format 2, runs, and is reported as stored.
for listing in glob.glob(os.path.join(root, "examples/*.lst")):
    text = content(listing)
    form = text if text.startswith(b"format=2\n") else content(os.path.join(root, "examples/sort-step.lst"))
    assert (form == text) == (not listing.endswith("old-listing.lst")), listing
    stored = content(listing[:-4] + ".report")
    report, answer = replay.report(text)
    assert report == stored and f"answer={answer}\n".encode() == stored[: stored.index(b"\n") + 1], listing
    settings, words, outcome = replay.read(text)
    assert outcome.answer == answer and outcome.text == replay.ANSWERS[answer], listing
    if outcome.done:
        assert replay.write(settings, words) == (form, replay.Outcome(0, 0, 0, settings.cursor, len(form))), listing
        assert replay.read(form)[:2] == (settings, words), listing
        image = replay.image()
        outcome = replay.run(settings, image, replay.dst(), words)
        assert outcome.done and outcome.steps * 6 == len(words), listing
        for reg, lane, word in re.findall(rb"reg=(\d+) lane=(\d+) word=(\w+)", stored):
            assert replay.register(image, int(reg))[int(lane)] == int(word, 16), listing

# Dst is written where STORE says, and by nothing where the list is refused.
state, cells, store = replay.image(), replay.dst(), [replay.OPS.index("STORE"), 4, 0, 0, 10, 2]
assert replay.run(replay.Settings(), state, cells, store + [len(replay.OPS), 0, 0, 0, 0, 0]) == replay.Outcome(7, 0, 1, 0, 0, none, none)
assert not any(cells)
assert replay.run(replay.Settings(), state, cells, store).done and not any(state)
assert [at for at, cell in enumerate(cells) if cell] == [16 * row + column for row in range(4, 8) for column in range(0, 16, 2)]
assert set(cells) == {0, 0x007F}

# Ties are a run's, by column: register 0 with itself in all lanes, and with 15 in lane 0 alone; none where the list is refused, or in reading and writing.
# So are stores to registers: none by the first SWAP, one a lane by the second, and two by the third.
swap = replay.OPS.index("SWAP")
swaps = [swap, 0, 0, 0, 0, 1] + [swap, 0, 0, 15, 0, 9] + [swap, 0, 0, 0, 0, 0]
assert replay.run(replay.Settings(), replay.image(), replay.dst(), swaps) == replay.Outcome(0, 3, 0, 0, 0, (5,) + (4,) * 7, (12,) * 8)
assert replay.run(replay.Settings(), replay.image(), replay.dst(), swaps + [swap, 1, 0, 0, 0, 0]) == replay.Outcome(8, 0, 3, 0, 0, none, none)
assert replay.run(replay.Settings(), replay.image(), replay.dst(), []) == replay.Outcome(0, 0, 0, 0, 0, none, none)
for outcome in (replay.write(replay.Settings(), swaps)[1], replay.read(b"")[2], replay.begin(replay.Settings(), replay.image(), replay.dst(), swaps)[1]):
    assert outcome.ties == outcome.stores == ()

# Stores differ by column, and one column's don't change another's: lane 9 is not enabled, and lane 2 has bits 2 and 3 set.
state, load, config = replay.image(), replay.OPS.index("LOAD"), replay.OPS.index("CONFIG")
traffic = [load, 0, 0, 0, 1, 6] + [swap, 0, 0, 0, 4, 0] + [config, 1 << 6, 0, 0, 12, 8] + [config, 0, 0, 0, 2, 0]
state[448 + 9], state[384 + 2] = 1, 12
assert replay.run(replay.Settings(), state, replay.dst(), traffic).stores == (12, 9, 14, 16, 12, 12, 12, 12)
state[384 + 2] = 0
assert replay.run(replay.Settings(), state, replay.dst(), traffic).stores == (12, 9, 12, 16, 12, 12, 12, 12)

# A walk goes to the end and back, 12 at either, and stands where a run of so many instructions ends; what is stored to Dst is taken back too.
settings, words, outcome = replay.read(content(os.path.join(root, "examples/store-and-load.lst")))
settings.cursor = 40
image, cells = replay.image(), replay.dst()
walk, outcome = replay.begin(settings, image, cells, words)
assert outcome == replay.Outcome(0, 0, 0, 40) and len(walk.store) * 6 == len(words) * replay.ENTRY


def stands(at):
    state, there = replay.image(), replay.dst()
    outcome = replay.run(settings, state, there, words[: 6 * at])
    return (walk.at, walk.cursor, image, cells) == (at, outcome.cursor, state, there)


count = len(words) // 6
assert stands(0) and all(walk.forward() == 0 and stands(at) for at in range(1, count + 1))
assert any(cells) and walk.forward() == 12 and stands(count)
assert list(walk.store[5 * replay.ENTRY + replay.IMAGE :][:2]) == [52, 54], "the cursor and the address of entry 5"
assert all(walk.back() == 0 and stands(at) for at in reversed(range(count)))
assert not any(cells) and walk.back() == 12 and stands(0)

# Its store may be lent, with room for fewer steps or none; a walk that is refused is none, with a run's outcome.
walk, outcome = replay.begin(settings, image, cells, words, array("I", [0]) * (2 * replay.ENTRY))
assert [walk.forward(), walk.forward(), walk.forward()] == [0, 0, 12] and stands(2)
assert [walk.back(), walk.forward(), walk.back(), walk.back(), walk.back()] == [0, 0, 0, 0, 12] and stands(0)
assert replay.begin(settings, image, cells, words, array("I"))[0].forward() == 12
assert replay.begin(settings, image, cells, [])[0].forward() == 12
assert replay.begin(settings, image, cells, store + [store[0], 0, 0, 0, 0, 3]) == (None, replay.Outcome(8, 0, 1, 40))
assert replay.begin(replay.Settings(cursor=1024), image, cells, words) == (None, replay.Outcome(3, 0, 0, 1024))
assert replay.begin(settings, array("I"), array("H"), []) == (None, replay.Outcome(1, 0, 0, 40))
assert refuses(TypeError, replay.begin(settings, image, cells, words, [0] * replay.ENTRY)[0].forward)
assert refuses(TypeError, replay.begin, settings, [0] * replay.IMAGE, cells, words)

# The longest list, of the longest lines, is written, read and run, in room made by need; one instruction more is 5, in an old listing above 1,024.
longest = [replay.OPS.index("CONFIG"), 1, 0, 0, 12, 9] * (replay.LIST // 6)
text, outcome = replay.write(replay.Settings(cursor=5), longest)
assert outcome == replay.Outcome(0, 0, 0, 5, replay.TEXT) and len(text) == replay.TEXT
assert replay.read(text) == (replay.Settings(cursor=5), array("I", longest), replay.Outcome(0, 0, 0, 5, replay.LIST))
outcome = replay.run(replay.Settings(), replay.image(), replay.dst(), longest)
assert outcome == replay.Outcome(0, replay.LIST // 6, 0, 0, 0, none, (65536,) + (0,) * 7)
longest += longest[:6]
assert replay.write(replay.Settings(cursor=5), longest) == (b"", replay.Outcome(5, 0, 0, 5))
assert replay.run(replay.Settings(), replay.image(), replay.dst(), longest).answer == 5
assert replay.begin(replay.Settings(), replay.image(), replay.dst(), longest) == (None, replay.Outcome(5, 0, 0, 0))
more = text.replace(b"count=16384\n", b"count=16385\n") + text[-45:]
assert replay.read(more)[2] == replay.Outcome(5, 0, 0, 5) and replay.read(text + text[-45:])[2] == replay.Outcome(10, 0, 16395, 0)
old = text[len("format=2\n") :].replace(b"count=16384\n", b"count=1024\n")[: 104 + 45 * 1024]
assert replay.read(old)[1] == array("I", longest[: 6 * 1024])
assert replay.read(old.replace(b"count=1024\n", b"count=1025\n") + old[-45:])[2] == replay.Outcome(5, 0, 0, 5)
assert replay.read(b"\n" * 1048576)[2] == replay.Outcome(10, 0, 1, 0) and replay.read(b"\n" * 1048577)[2] == replay.Outcome(11, 0, 0, 0)

# The program holds 1,024 instructions and 65,536 bytes.
assert replay.report(old)[0].startswith(b"answer=0\nsteps=01024\nplace=00000\n")
assert replay.report(replay.write(replay.Settings(), longest[: 6 * 1025])[0]) == (b"answer=11\nsteps=00000\nplace=00000\ncursor=0000\n", 11)
assert replay.report(text)[1] == 11 and replay.report(b"\n" * 65536)[1] == 10 and replay.report(b"\n" * 65537)[1] == 11

# A lane and its cells, nothing lent, and what would not fit.
own, cells = array("I", [0]) * 24, array("H", [0x1111, 0x2222])
assert replay.lane(replay.Settings(), 9, [2, 40, 0, 0, 1, 10], own, own, cells) == 0 and own[1] == 40
assert replay.lane(replay.Settings(), 9, [1, 2, 0, 0, 2, 6], own, own, cells) == 0 and own[2] == 0x2222
assert replay.lane(replay.Settings(), 9, store[:1] + [0, 0, 0, 1, 9], own, own, cells) == 0 and list(cells) == [40, 0x2222]
assert replay.lane(replay.Settings(), 9, store[:1] + [0, 0, 0, 2, 8], own, own, cells) == 8 and list(cells) == [40, 0x2222]
assert replay.run(replay.Settings(), array("I"), array("H"), []).answer == 1
assert replay.run(replay.Settings(), replay.image(), replay.dst(), []).done
assert replay.read(b"")[2] == replay.Outcome(10, 0, 1, 0) and replay.write(replay.Settings(), [])[1].length == 114
assert not replay.register(replay.image(), 9) and not replay.register(array("I"), 0)
assert refuses(OverflowError, replay.run, replay.Settings(), replay.image(), replay.dst(), [1 << 32] * 6)
assert refuses(OverflowError, replay.register, replay.image(), 1 << 32)
assert refuses(OverflowError, replay.run, replay.Settings(cursor=-1), replay.image(), replay.dst(), [])
assert refuses(ValueError, replay.lane, replay.Settings(), 9, [2, 40], own, own, cells)
assert refuses(ValueError, replay.lane, replay.Settings(), 9, [2, 40, 0, 0, 1, 10], own, own, cells[:1])
assert refuses(TypeError, replay.lane, replay.Settings(), 9, [2, 40, 0, 0, 1, 10], own, own, [0, 0])
assert refuses(TypeError, replay.run, replay.Settings(), [0] * 768, replay.dst(), [])
