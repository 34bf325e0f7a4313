#!/usr/bin/env python3
"""Writes all rows of examples/ but mixed, and the copies of them that the gate plays, with what is expected of each. The answers are a table, not computed."""
import os

KIND = dict(fork=1, leave=2, map=3, drop=4, make=5, look=6, load=7, store=8, counts=9)
ROOT = os.path.join(os.path.dirname(os.path.abspath(__file__)), "..")
FOLDERS = [os.path.join(ROOT, "examples"), os.path.join(ROOT, "crates", "examples", "data")]


def sizes(*five):
    return b"".join(n.to_bytes(2, "little") for n in five)


def call(text, tail=bytes(3)):
    word, *numbers = text.split()
    return bytes([KIND[word]] + [int(n) for n in numbers]).ljust(5, b"\0") + tail


def write(name, row, out):
    for folder in FOLDERS:
        with open(os.path.join(folder, name + ".row"), "wb") as f:
            f.write(row)
        with open(os.path.join(folder, name + ".out"), "w") as f:
            f.write(out)


def line(i, answer):
    """The answer is a number, full or fault; that of counts is reads and writes, as 2r3w."""
    if answer in ("full", "fault"):
        return f"{i} {answer}\n"
    if answer.endswith("w"):
        reads, writes = answer[:-1].split("r")
        answer = str(int(reads) * 65536 + int(writes))
    return f"{i} done {answer}\n"


def write_table_row(name, frames, places, text):
    steps = [step.split(":") for step in text.split(";")]
    row = sizes(2, 4, 2, frames, places) + b"".join(call(asked) for asked, _ in steps)
    write(name, row, "".join(line(i, answer.strip()) for i, (_, answer) in enumerate(steps)))


# what a row can hold, then each call with its answer; two processes, four pages each, two segments
TABLE = {
    "A": (1, "map 0 0: 0; store 0 0 5 7: 0; fork 0: 1; load 1 0 5: 7; store 1 0 5 9: full; load 0 0 5: 7"),
    "B": (2, "map 0 0: 0; store 0 0 5 7: 0; fork 0: 1; store 1 0 5 9: 0; load 0 0 5: 7; load 1 0 5: 9; store 0 0 5 8: 0; load 1 0 5: 9"),
    "C": (1, "map 0 0: 0; store 0 0 0 1: 0; fork 0: 1; leave 0: 0; store 1 0 0 2: 0; load 1 0 0: 2; load 0 0 0: fault"),
    "D": (1, "map 0 0: 0; fork 0: 1; fork 0: full; load 1 0 9: 0"),
    "E": (1, "make 0 0: 0; fork 0: 1; store 1 0 3 4: 0; load 0 0 3: 4; make 0 1: full; drop 0 0: 0; drop 1 0: 0; make 0 1: 0; load 0 1 3: 0"),
    "F": (1, "map 0 0: 0; store 0 0 0 1: 0; map 0 1: 0; store 0 1 0 1: full; drop 0 0: 0; store 0 1 0 1: 0"),
    "G": (2, "make 0 0: 0; look 0 1 0 0: 0; store 0 1 0 3: 0; load 0 0 0: 3; look 1 0 0 0: fault; fork 0: 1; drop 0 0: 0; drop 0 1: 0; load 1 1 0: 3"),
}

# Rows that ask for reads and writes of the disk: frames and places, then each call with its answer.
#
# thrash: page 0 has the frame. Page 1's first store sends it to the place (0r1w). From there on nothing is free, so each load or
# store of the page on the disk changes it with the one in the frame (one read, one write), and a page in its frame costs nothing.
# A third page is full, and a refused call counts nothing.
#
# copy-from-disk: after the fork both name the one frame. The child's store takes a frame: none is free, so the hand sends the very
# page that is to be copied to the place (one write), and the copy is read from there (one read), while the parent's page stays on the
# disk. The child's page is in the frame then; the parent's load changes the two (one read, one write).
#
# come-in: page 1's store sends page 0 to the place (0r1w). Once page 1 is dropped the frame is free, so page 0 only comes in (one read),
# and leaves its place free: page 1's next first store sends page 0 out again (one write).
#
# hand: F0, F1 are the frames, the star is the used mark, P0, P1 the places; the hand rests where > stands.
#   after the stores to 0 and 1                    >F0 page 0 *   F1 page 1 *   P0 free     P1 free     0r0w
#   store 2: clears F0, F1, takes F0                F0 page 2 *  >F1 page 1     P0 page 0   P1 free     0r1w
#   load 1: in its frame, and used again            F0 page 2 *  >F1 page 1 *
#   store 3: clears F1, F0, takes F1               >F0 page 2     F1 page 3 *   P0 page 0   P1 page 1   0r2w
#   load 0: takes F0 at once, changes 2 and 0       F0 page 0 *  >F1 page 3 *   P0 page 2   P1 page 1   1r3w
#   load 2: clears F1, F0, takes F1, changes       >F0 page 0     F1 page 2 *   P0 page 3   P1 page 1   2r4w
#   load 3: takes F0 at once, changes 0 and 3       F0 page 3 *  >F1 page 2 *   P0 page 0   P1 page 1   3r5w
#   load 2: in its frame                                                                                3r5w
#
# segment-on-disk: a make sets no used mark, and page 1's store sends the segment to the place (0r1w). A second page looks at it without
# reaching it. A store through that one changes segment and page 1 (1r2w), and the first page then sees it in its frame. With page 1
# dropped the place is free, and a second make sends segment 0 there (1r3w). Once both pages of segment 0 are dropped its place is
# free, and segment 0 is made anew: that sends segment 1 out (1r4w).
HELD = {
    "thrash": (1, 1, "map 0 0: 0; map 0 1: 0; store 0 0 0 1: 0; counts: 0r0w; store 0 1 0 2: 0; counts: 0r1w; load 0 0 0: 1; counts: 1r2w; "
        "load 0 1 0: 2; counts: 2r3w; load 0 1 0: 2; counts: 2r3w; store 0 0 0 3: 0; counts: 3r4w; load 0 1 0: 2; load 0 0 0: 3; counts: 5r6w; "
        "map 0 2: 0; store 0 2 0 1: full; counts: 5r6w"),
    "copy-from-disk": (1, 1, "map 0 0: 0; store 0 0 5 7: 0; fork 0: 1; counts: 0r0w; store 1 0 5 9: 0; counts: 1r1w; load 1 0 5: 9; counts: 1r1w; "
        "load 0 0 5: 7; counts: 2r2w; load 1 0 5: 9; counts: 3r3w"),
    "come-in": (1, 1, "map 0 0: 0; map 0 1: 0; store 0 0 0 1: 0; store 0 1 0 2: 0; counts: 0r1w; drop 0 1: 0; load 0 0 0: 1; counts: 1r1w; "
        "map 0 1: 0; load 0 1 0: 0; counts: 1r1w; store 0 1 0 3: 0; counts: 1r2w"),
    "hand": (2, 2, "map 0 0: 0; map 0 1: 0; map 0 2: 0; map 0 3: 0; store 0 0 0 1: 0; store 0 1 0 2: 0; counts: 0r0w; store 0 2 0 3: 0; counts: 0r1w; "
        "load 0 1 0: 2; counts: 0r1w; store 0 3 0 4: 0; counts: 0r2w; load 0 0 0: 1; counts: 1r3w; load 0 2 0: 3; counts: 2r4w; load 0 3 0: 4; counts: 3r5w; "
        "load 0 2 0: 3; counts: 3r5w"),
    "segment-on-disk": (1, 1, "make 0 0: 0; map 0 1: 0; store 0 1 0 5: 0; counts: 0r1w; look 0 2 0 0: 0; counts: 0r1w; store 0 2 3 4: 0; counts: 1r2w; "
        "load 0 0 3: 4; counts: 1r2w; drop 0 1: 0; make 0 3: 1; counts: 1r3w; drop 0 0: 0; drop 0 2: 0; make 0 0: 0; load 0 0 3: 0; counts: 1r4w"),
}

for name, (hold, text) in TABLE.items():
    write_table_row(name, 1, hold - 1, text)
for name, (frames, places, text) in HELD.items():
    write_table_row(name, frames, places, text)

GOOD = sizes(2, 4, 2, 1, 0)
write("empty", b"", "refused 1 0\n")
write("nine-bytes", GOOD[:9], "")
write("thirteen-bytes", GOOD + bytes(3), "refused 3 3\n")
write("kind-0", GOOD + call("map 0 0") + bytes(8), "refused 4 1\n")
write("kind-10", GOOD + call("map 0 0") + call("fork 0") + bytes([10]) + bytes(7), "refused 4 2\n")
write("junk", GOOD + call("map 0 0", b"\xff\x01\x80") + call("load 0 0 9", b"abc"), "0 done 0\n1 done 0\n")
LIMITS = [("processes", 1, 16), ("pages", 1, 64), ("segments", 0, 16), ("frames", 1, 512), ("places", 0, 512)]
for place, (what, least, most) in enumerate(LIMITS):
    for size in [most + 1] + ([least - 1] if least else []):
        five = [2, 4, 2, 1, 0]
        five[place] = size
        write(f"{what}-{size}", sizes(*five) + call("map 0 0"), f"refused 1 {place}\n")
    for size in [least, most]:
        five = [2, 4, 2, 1, 0]
        five[place] = size
        write(f"{what}-{size}", sizes(*five) + call("map 0 0"), "0 done 0\n")
