#!/usr/bin/env python3
"""Writes examples/mixed.row and mixed.out: calls chosen by a fixed seed, answered by two models of the rules of its own.

The model of what processes see and the model of how pages are held (held_model.py) have to agree, but for the counts of reads and
writes, which the second alone has. The row is also what `run` is run on, so crates/run/stdin and stdout are written too.
With two arguments, COUNT and FILE, it writes only a row of that many calls for a machine of 16 processes and 64 pages."""
import os
import random
import sys

from held_model import Held


class Model:
    """A page is None, ('own', contents) or ('segment', number). Pages share contents until one of them is stored to."""

    def __init__(self, processes, pages, segments, hold):
        self.sizes = processes, pages, segments, hold
        self.memory = [None] * processes  # per process None or its pages
        self.memory[0] = [None] * pages
        self.segments = [bytearray(256) for _ in range(segments)]

    def all_pages(self):
        return [page for pages in self.memory if pages is not None for page in pages if page]

    def held(self):
        own = {id(x) for kind, x in self.all_pages() if kind == "own" and not x["blank"]}
        return len(own) + len({x for kind, x in self.all_pages() if kind == "segment"})

    def inside(self, p, v):
        return p < self.sizes[0] and self.memory[p] is not None and v < self.sizes[1]

    def call(self, kind, p=0, v=0, q=0, u=0):
        return getattr(self, kind)(p, v, q, u)

    def fork(self, p, *_):
        if not self.inside(p, 0):
            return "fault"
        if None not in self.memory:
            return "full"
        child = self.memory.index(None)
        self.memory[child] = list(self.memory[p])
        return child

    def leave(self, p, *_):
        if not self.inside(p, 0):
            return "fault"
        self.memory[p] = None
        return 0

    def map(self, p, v, *_):
        if not self.inside(p, v) or self.memory[p][v]:
            return "fault"
        self.memory[p][v] = ("own", dict(blank=True, bytes=bytes(256)))
        return 0

    def drop(self, p, v, *_):
        if not self.inside(p, v) or not self.memory[p][v]:
            return "fault"
        self.memory[p][v] = None
        return 0

    def make(self, p, v, *_):
        if not self.inside(p, v) or self.memory[p][v]:
            return "fault"
        looked_at = {x for kind, x in self.all_pages() if kind == "segment"}
        free = [s for s in range(self.sizes[2]) if s not in looked_at]
        if not free or self.held() >= self.sizes[3]:
            return "full"
        self.segments[free[0]] = bytearray(256)
        self.memory[p][v] = ("segment", free[0])
        return free[0]

    def look(self, p, v, q, u):
        if not self.inside(p, v) or self.memory[p][v] or not self.inside(q, u):
            return "fault"
        page = self.memory[q][u]
        if not page or page[0] == "own":
            return "fault"
        self.memory[p][v] = page
        return page[1]

    def load(self, p, v, o, _):
        if not self.inside(p, v) or not self.memory[p][v]:
            return "fault"
        kind, x = self.memory[p][v]
        return self.segments[x][o] if kind == "segment" else x["bytes"][o]

    def store(self, p, v, o, byte):
        if not self.inside(p, v) or not self.memory[p][v]:
            return "fault"
        kind, x = self.memory[p][v]
        if kind == "segment":
            self.segments[x][o] = byte
            return 0
        shared = sum(1 for page in self.all_pages() if page[1] is x) > 1
        if (x["blank"] or shared) and self.held() >= self.sizes[3]:
            return "full"
        new = bytearray(x["bytes"])
        new[o] = byte
        if x["blank"] or shared:
            self.memory[p][v] = ("own", dict(blank=False, bytes=new))
        else:
            x["bytes"] = new
        return 0

    def counts(self, *_):
        return None  # what is seen has no disk


ROOT = os.path.join(os.path.dirname(os.path.abspath(__file__)), "..")
KINDS = ["fork", "leave", "map", "drop", "make", "look", "load", "store", "counts"]
WEIGHTS = [8, 2, 12, 8, 8, 8, 20, 30, 1]


def chosen(rng, processes, pages):
    kind = rng.choices(KINDS, WEIGHTS)[0]
    p, v = rng.randrange(processes + 1), rng.randrange(pages + 1)
    if kind == "leave":  # process 0 stays, or all would soon be gone
        p = max(p, 1)
    if kind == "look":
        return kind, p, v, rng.randrange(processes), rng.randrange(pages)
    if kind == "load" or kind == "store":
        return kind, p, v, rng.randrange(4), rng.randrange(256)
    return kind, p, v, 0, 0


def encoded(kind, *numbers):
    return bytes([KINDS.index(kind) + 1, *numbers, 0, 0, 0])


def head(*sizes):
    return b"".join(size.to_bytes(2, "little") for size in sizes)


def answered(sizes, calls):
    """What the calls are answered, by both models."""
    processes, pages, segments, frames, places = sizes
    seen, held = Model(processes, pages, segments, frames + places), Held(*sizes)
    answers = [held.call(*c) for c in calls]
    for i, (c, answer) in enumerate(zip(calls, answers)):
        wanted = seen.call(*c)
        assert c[0] == "counts" or answer == wanted, (i, c, answer, wanted)
    return answers


def write(names, contents):
    for name in names:
        with open(os.path.join(ROOT, name), "wb") as f:
            f.write(contents)


def mixed():
    rng = random.Random(7)
    sizes = 5, 6, 3, 3, 5
    calls = [chosen(rng, *sizes[:2]) for _ in range(600)]
    answers = answered(sizes, calls)
    seen = {(c[0], a if isinstance(a, str) else "done") for c, a in zip(calls, answers)}
    for kind in KINDS[:-1]:
        assert (kind, "fault") in seen and (kind, "done") in seen, kind
    assert all((kind, "full") in seen for kind in ["fork", "make", "store"])
    lines = [f"{i} {a if isinstance(a, str) else 'done ' + str(a)}\n" for i, a in enumerate(answers)]
    write(["examples/mixed.row", "crates/examples/data/mixed.row", "crates/run/stdin"], head(*sizes) + b"".join(encoded(*c) for c in calls))
    write(["examples/mixed.out", "crates/examples/data/mixed.out", "crates/run/stdout"], "".join(lines).encode())


if len(sys.argv) == 3:
    rng = random.Random(7)
    with open(sys.argv[2], "wb") as f:
        f.write(head(16, 64, 16, 512, 512) + b"".join(encoded(*chosen(rng, 16, 64)) for _ in range(int(sys.argv[1]))))
else:
    mixed()
