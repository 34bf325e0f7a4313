"""A model of how pages are held: frames, places, page tables, the hand and the look-aside table, written from docs/RULES.md alone.

It checks itself after every call: counts are what entries and segments name, and every slot is what a walk answers."""

ABSENT, ZERO, FRAME, PLACE, SEGMENT = "absent", "zero", "frame", "place", "segment"
NOWHERE = (ABSENT, 0)
BYTES = 256
MOST = 65535
SLOTS = 16


class Full(Exception):
    """No frame is to be had."""


class Entry:
    """What a page's entry says: a kind, the number of a frame, place or segment, and the mark."""

    def __init__(self, kind=ABSENT, index=0, mark=False):
        self.kind, self.index, self.mark = kind, index, mark

    def named(self):
        return self.kind, self.index


class Held:
    def __init__(self, processes, pages, segments, frames, places):
        self.processes, self.pages, self.segments = processes, pages, segments
        self.alive = [p == 0 for p in range(processes)]
        self.table = [[Entry() for _ in range(pages)] for _ in range(processes)]
        self.lies = [NOWHERE] * segments  # where each segment lies
        self.lookers = [0] * segments
        self.bytes = {FRAME: [bytearray(BYTES) for _ in range(frames)], PLACE: [bytearray(BYTES) for _ in range(places)]}
        self.count = {FRAME: [0] * frames, PLACE: [0] * places}
        self.used = [False] * frames
        self.hand = 0
        self.slots = [None] * SLOTS  # each None or (process, page, frame, whether a store needs no copy)
        self.reads = self.writes = self.looks = self.hits = self.copies = 0

    def call(self, kind, p=0, v=0, q=0, u=0):
        """A number for done, or 'full' or 'fault'."""
        answer = getattr(self, kind)(p, v, q, u)
        self.check()
        return answer

    def inside(self, p, v):
        return p < self.processes and self.alive[p] and v < self.pages

    def is_absent(self, p, v):
        return self.inside(p, v) and self.table[p][v].kind == ABSENT

    def is_there(self, p, v):
        return self.inside(p, v) and self.table[p][v].kind != ABSENT

    # the walk, and the look-aside table

    def walk(self, p, v):
        """Where a page lies, and whether a store there needs no copy."""
        entry = self.table[p][v]
        if entry.kind == SEGMENT:
            return self.lies[entry.index], True
        if entry.kind in self.count:
            return entry.named(), self.count[entry.kind][entry.index] <= 1
        return entry.named(), False

    def slot_of(self, p, v):
        return (5 * p + v) % SLOTS

    def purge(self):
        for i, slot in enumerate(self.slots):
            if slot and self.walk(slot[0], slot[1]) != ((FRAME, slot[2]), slot[3]):
                self.slots[i] = None

    def put_slot(self, p, v):
        (kind, frame), no_copy = self.walk(p, v)
        if kind == FRAME:
            self.slots[self.slot_of(p, v)] = (p, v, frame, no_copy)

    def found(self, p, v):
        slot = self.slots[self.slot_of(p, v)]
        return slot if slot and slot[:2] == (p, v) else None

    # counts

    def lowest_free(self, kind):
        return self.count[kind].index(0) if 0 in self.count[kind] else None

    def raise_named(self, kind, index):
        if kind == SEGMENT:
            self.lookers[index] += 1
        elif kind in self.count:
            self.count[kind][index] += 1

    def lower_named(self, kind, index):
        if kind == SEGMENT:
            self.lookers[index] -= 1
            if self.lookers[index] == 0:
                self.lower_named(*self.lies[index])
                self.lies[index] = NOWHERE
        elif kind in self.count:
            self.count[kind][index] -= 1

    def rename(self, names):
        """Every entry and segment that names one of these names what it became; marks are kept."""
        for row in self.table:
            for entry in row:
                entry.kind, entry.index = names.get(entry.named(), entry.named())
        self.lies = [names.get(where, where) for where in self.lies]

    # the disk

    def read(self):
        self.reads = min(self.reads + 1, MOST)

    def write(self):
        self.writes = min(self.writes + 1, MOST)

    def choose(self):
        """The frame that the hand takes."""
        while True:
            frame, self.hand = self.hand, (self.hand + 1) % len(self.used)
            self.looks += 1
            if not self.used[frame]:
                return frame
            self.used[frame] = False

    def move(self, source, target):
        """A page moves to where nobody is: its bytes, its count and its names."""
        (kind, i), (other, k) = source, target
        self.bytes[other][k][:] = self.bytes[kind][i]
        self.count[other][k], self.count[kind][i] = self.count[kind][i], 0
        self.rename({source: target})
        self.purge()

    def go_out(self, place):
        frame = self.choose()
        self.move((FRAME, frame), (PLACE, place))
        self.write()
        return frame

    def exchange(self, frame, place):
        one, two = (FRAME, frame), (PLACE, place)
        pages, counts = self.bytes, self.count
        pages[FRAME][frame], pages[PLACE][place] = pages[PLACE][place], pages[FRAME][frame]
        counts[FRAME][frame], counts[PLACE][place] = counts[PLACE][place], counts[FRAME][frame]
        self.rename({one: two, two: one})
        self.purge()
        self.read()
        self.write()

    def take_frame(self):
        """A frame that nobody names, for a copy, a first store or a make."""
        frame = self.lowest_free(FRAME)
        if frame is not None:
            return frame
        place = self.lowest_free(PLACE)
        if place is None:
            raise Full
        return self.go_out(place)

    def come_in(self, place):
        frame = self.lowest_free(FRAME)
        if frame is None:
            free = self.lowest_free(PLACE)
            if free is None:
                self.exchange(self.choose(), place)
                return
            frame = self.go_out(free)
        self.move((PLACE, place), (FRAME, frame))
        self.read()

    def reach(self, p, v):
        """The frame of a page that lies somewhere, once it has come in."""
        (kind, index), _ = self.walk(p, v)
        if kind == PLACE:
            self.come_in(index)
            (kind, index), _ = self.walk(p, v)
        assert kind == FRAME
        self.used[index] = True
        return index

    # the calls

    def fork(self, p, *_):
        if not self.inside(p, 0):
            return "fault"
        if False not in self.alive:
            return "full"
        child = self.alive.index(False)
        self.alive[child] = True
        for v, entry in enumerate(self.table[p]):
            entry.mark = entry.mark or entry.kind in self.count
            self.table[child][v] = Entry(entry.kind, entry.index, entry.mark)
            self.raise_named(*entry.named())
        self.purge()
        return child

    def leave(self, p, *_):
        if not self.inside(p, 0):
            return "fault"
        for v in range(self.pages):
            self.make_absent(p, v)
        self.alive[p] = False
        self.purge()
        return 0

    def make_absent(self, p, v):
        named = self.table[p][v].named()
        self.table[p][v] = Entry()
        self.lower_named(*named)

    def map(self, p, v, *_):
        if not self.is_absent(p, v):
            return "fault"
        self.table[p][v] = Entry(ZERO, 0, True)
        return 0

    def drop(self, p, v, *_):
        if not self.is_there(p, v):
            return "fault"
        self.make_absent(p, v)
        self.purge()
        return 0

    def make(self, p, v, *_):
        if not self.is_absent(p, v):
            return "fault"
        if 0 not in self.lookers:
            return "full"
        segment = self.lookers.index(0)
        try:
            frame = self.take_frame()
        except Full:
            return "full"
        self.bytes[FRAME][frame][:] = bytes(BYTES)
        self.count[FRAME][frame] = 1
        self.lies[segment] = FRAME, frame
        self.lookers[segment] = 1
        self.table[p][v] = Entry(SEGMENT, segment)
        self.purge()
        return segment

    def look(self, p, v, q, u):
        if not self.is_absent(p, v) or not self.inside(q, u) or self.table[q][u].kind != SEGMENT:
            return "fault"
        segment = self.table[q][u].index
        self.table[p][v] = Entry(SEGMENT, segment)
        self.lookers[segment] += 1
        return segment

    def load(self, p, v, o, _):
        if not self.is_there(p, v) or o >= BYTES:
            return "fault"
        slot = self.found(p, v)
        if slot:
            self.hits += 1
            self.used[slot[2]] = True
            return self.bytes[FRAME][slot[2]][o]
        if self.table[p][v].kind == ZERO:
            return 0
        frame = self.reach(p, v)
        self.put_slot(p, v)
        return self.bytes[FRAME][frame][o]

    def store(self, p, v, o, x):
        if not self.is_there(p, v) or o >= BYTES:
            return "fault"
        slot = self.found(p, v)
        if slot and slot[3]:
            self.hits += 1
            frame = slot[2]
        elif self.walk(p, v)[1]:
            frame = self.reach(p, v)
            self.table[p][v].mark = False
        else:
            try:
                frame = self.copy(p, v)
            except Full:
                return "full"
        self.used[frame] = True
        self.bytes[FRAME][frame][o] = x
        self.put_slot(p, v)
        return 0

    def copy(self, p, v):
        """The page gets a frame of its own, with the same bytes."""
        frame = self.take_frame()
        kind, index = self.table[p][v].named()  # looked at after the hand: it may have sent this very page to the disk
        self.bytes[FRAME][frame][:] = bytes(BYTES) if kind == ZERO else self.bytes[kind][index]
        if kind == PLACE:
            self.read()
        self.lower_named(kind, index)
        self.table[p][v] = Entry(FRAME, frame)
        self.count[FRAME][frame] = 1
        self.copies += 1
        self.purge()
        return frame

    def counts(self, *_):
        return self.reads * 65536 + self.writes

    def check(self):
        entries = [entry for row in self.table for entry in row]
        names = [entry.named() for entry in entries] + self.lies
        for kind, counts in self.count.items():
            assert counts == [names.count((kind, i)) for i in range(len(counts))]
        assert self.lookers == [names.count((SEGMENT, i)) for i in range(self.segments)]
        for entry in entries:
            shared = entry.kind in self.count and self.count[entry.kind][entry.index] > 1
            assert entry.mark or not (shared or entry.kind == ZERO)
        for i, slot in enumerate(self.slots):
            assert not slot or i == self.slot_of(*slot[:2])
            assert not slot or self.walk(slot[0], slot[1]) == ((FRAME, slot[2]), slot[3])
