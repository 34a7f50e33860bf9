#!/usr/bin/env python3
"""A plain model of the record desk, written from the papers (document 01, and points 1, 2, 4, 5, 6 and 9 of 02), to compare the programs with.

It shares no code with the project: sets for reach, Python integers for values, a list of parties for the arrival order.
`listing(data)` gives the lines that the program `listing` must print for the bytes of one file, `waits(data)` the one line of the program `waits`, and
`cut(data, k)` the bytes of the shorter file that the program `cut` must write, or the number of the refusal.

    model.py FILE            prints the listing
    model.py --waits FILE    prints the report: all waits and needless ones
    model.py --cut K FILE    writes the shorter file, or `refused` and its number to standard error
"""
import sys


class Refusal(Exception):
    def __init__(self, number):
        super().__init__(number)
        self.number = number


# ---- blocks of 512 bytes

def little(data):
    """A number, low byte first."""
    return int.from_bytes(data, "little")


def check(data):
    """Fletcher-32; an odd last byte is followed by a zero."""
    if len(data) % 2:
        data = data + b"\0"
    a = b = 0
    for low, high in zip(data[::2], data[1::2]):
        a = (a + low + 256 * high) % 65535
        b = (b + a) % 65535
    return a + 65536 * b


def check_wrong(block):
    return check(block[:508]) != little(block[508:512])


SIZE, EDGE, ENTER, GET, PUT, LEAVE, ADD, VALUE = 1, 2, 3, 4, 5, 6, 7, 8
STEPS = {ENTER, GET, PUT, LEAVE, ADD}
READING, WRITING, ADDING = 1, 2, 3
# the modes of two visits that do not conflict: two readers, and (02, point 5) two adders
TOGETHER = {(READING, READING), (ADDING, ADDING)}
# kind -> bytes that carry fields (an enter's depends on its name count)
FIELDS = {
    SIZE: {1, 2},
    EDGE: {1, 2},
    GET: {1, 2},
    PUT: {1, 2, 4, 5, 6, 7, 8, 9, 10, 11},
    LEAVE: {1},
    ADD: {1, 2, 4, 5, 6, 7, 8, 9, 10, 11},
    VALUE: {1, 4, 5, 6, 7, 8, 9, 10, 11},
}


def record_wrong(r):
    kind = r[0]
    if kind == ENTER:
        mode, count = r[2], r[3]
        if mode not in (READING, WRITING, ADDING):
            return True
        if not 1 <= count <= 8:
            return True
        used = {1, 2, 3} | set(range(4, 4 + count))
    elif kind in FIELDS:
        used = FIELDS[kind]
    else:
        return True
    return any(r[k] for k in range(1, 16) if k not in used)


def order_wrong(kinds_before, kind):
    """One size record comes first, then all edges, then (02, point 9) values, then steps."""
    if not kinds_before:
        return kind != SIZE
    if kind == SIZE:
        return True
    if kind == EDGE:
        return kinds_before[-1] > EDGE
    return kind == VALUE and kinds_before[-1] in STEPS


def value_wrong(before, r):
    """02, point 9: value records stand ascending, each record once, below n and never zero. n is what the size record says, be it legal or not."""
    n, last = little(before[0][1:3]), before[-1]
    if r[1] >= n:
        return True
    if little(r[4:12]) == 0:
        return True
    return last[0] == VALUE and last[1] >= r[1]


def read_file(data):
    if len(data) % 512 or not 1 <= len(data) // 512 <= 128:
        raise Refusal(2)
    blocks = [data[i:i + 512] for i in range(0, len(data), 512)]
    records, kinds = [], []
    for i, block in enumerate(blocks):
        if check_wrong(block):
            raise Refusal(3)
        if little(block[0:4]) != i:
            raise Refusal(4)
        count, last = little(block[4:6]), i == len(blocks) - 1
        if not 1 <= count <= 31:
            raise Refusal(4)
        if not last and count != 31:
            raise Refusal(4)
        if any(block[6:8]):
            raise Refusal(4)
        if any(block[8 + 16 * count:504]):
            raise Refusal(4)
        if any(block[504:508]):
            raise Refusal(4)
        for k in range(count):
            r = block[8 + 16 * k:24 + 16 * k]
            if record_wrong(r):
                raise Refusal(4)
            if order_wrong(kinds, r[0]):
                raise Refusal(4)
            if r[0] == VALUE and value_wrong(records, r):
                raise Refusal(4)
            kinds.append(r[0])
            records.append(r)
    return records


# ---- the hierarchy

class Hierarchy:
    def __init__(self, n, edges):
        if not 1 <= n <= 256:
            raise Refusal(5)
        if len(edges) > 1024:
            raise Refusal(6)
        if any(p >= n or c >= n for p, c in edges):
            raise Refusal(7)
        if any(c == 0 or p == c for p, c in edges):
            raise Refusal(7)
        if len(set(edges)) != len(edges):
            raise Refusal(8)
        self.n = n
        self.children = {r: [c for p, c in edges if p == r] for r in range(n)}
        if len(self.reach(0)) != n:
            raise Refusal(9)
        number = self.numbering()
        self.reaches = [self.reach(r) for r in range(n)]
        self.low, self.high = [], []
        for r in range(n):
            numbers = [number[x] for x in self.reaches[r] if x in number]
            self.low.append(min(numbers))
            self.high.append(max(numbers))

    def reach(self, r):
        """The record itself and all that edges lead to, in rounds: what was found last leads to what is found next."""
        seen, last = {r}, {r}
        while last:
            last = {c for x in last for c in self.children[x]} - seen
            seen |= last
        return seen

    def numbering(self):
        """A walk from record 0, by an explicit stack: a record and the children still to be taken."""
        number, opened, closed = {}, {0}, set()
        stack = [(0, iter(self.children[0]))]
        if not self.children[0]:
            number[0] = 1
        while stack:
            r, rest = stack[-1]
            c = next(rest, None)
            if c is None:
                stack.pop()
                opened.discard(r)
                closed.add(r)
            elif c in closed:
                pass
            elif c in opened:
                if c not in number:
                    number[c] = len(number) + 1
            else:
                opened.add(c)
                if not self.children[c]:
                    number[c] = len(number) + 1
                stack.append((c, iter(self.children[c])))
        return number

    def width(self, r):
        return self.high[r] - self.low[r]

    def contains(self, r, low, high):
        return self.low[r] <= low and high <= self.high[r]

    def cover(self, names):
        """02, point 1: of all records whose interval contains the call's the narrowest, of equally narrow ones the lowest number."""
        low = min(self.low[x] for x in names)
        high = max(self.high[x] for x in names)
        around = [x for x in range(self.n) if self.contains(x, low, high)]
        narrowest = min(self.width(x) for x in around)
        return min(x for x in around if self.width(x) == narrowest)


# ---- visits

class Desk:
    """A hold, and a waiting call, is its mode, its cover and (02, point 6) its names, ascending and each once."""

    def __init__(self, h):
        self.h = h
        self.holds = {}
        self.calls = {}
        self.arrival = []
        self.grants = [0] * 32
        self.values = [0] * h.n

    def reached(self, names):
        """All that the named records reach."""
        return set().union(*(self.h.reaches[x] for x in names))

    def conflict(self, a, b):
        """By the intervals of the covers; the names have no part in it."""
        (mode_a, cover_a, *_), (mode_b, cover_b, *_) = a, b
        before = self.h.high[cover_a] < self.h.low[cover_b]
        behind = self.h.high[cover_b] < self.h.low[cover_a]
        return not before and not behind and (mode_a, mode_b) not in TOGETHER

    def grant(self, party, visit):
        """02, point 4: the desk counts for each of the 32 parties."""
        self.holds[party] = visit
        self.grants[party] = min(self.grants[party] + 1, 4294967295)

    def known(self, party):
        if party > 31:
            raise Refusal(11)

    def enter(self, party, mode, names):
        self.known(party)
        if party in self.holds or party in self.calls:
            raise Refusal(12)
        if not 1 <= len(names) <= 8:
            raise Refusal(15)
        if any(x >= self.h.n for x in names):
            raise Refusal(15)
        visit = (mode, self.h.cover(names), sorted(set(names)))
        if any(self.conflict(visit, v) for v in [*self.holds.values(), *self.calls.values()]):
            self.calls[party] = visit
            self.arrival.append(party)
            return "waits"
        self.grant(party, visit)
        return f"granted {visit[1]}"

    def inside(self, party, record):
        """The mode of the party's visit. 02, point 6: a visit sees only the reach of the records it named."""
        self.known(party)
        if party in self.calls:
            raise Refusal(14)
        if party not in self.holds:
            raise Refusal(13)
        if record >= self.h.n:
            raise Refusal(15)
        mode, _, names = self.holds[party]
        if record not in self.reached(names):
            raise Refusal(16)
        return mode

    def get(self, party, record):
        if self.inside(party, record) == ADDING:
            raise Refusal(18)
        return f"value {self.values[record]}"

    def put(self, party, record, value):
        mode = self.inside(party, record)
        if mode == READING:
            raise Refusal(17)
        if mode == ADDING:
            raise Refusal(18)
        self.values[record] = value
        return "stored"

    def add(self, party, record, number):
        """02, point 5: adds the number to the value, modulo 2 to the 64; possible in adding visits alone."""
        if self.inside(party, record) != ADDING:
            raise Refusal(18)
        self.values[record] = (self.values[record] + number) % 2**64
        return "added"

    def leave(self, party):
        self.known(party)
        if party in self.holds:
            del self.holds[party]
        elif party in self.calls:
            del self.calls[party]
            self.arrival.remove(party)
        else:
            raise Refusal(13)
        granted = []
        for p in list(self.arrival):
            visit = self.calls[p]
            before = [self.calls[q] for q in self.arrival[:self.arrival.index(p)]]
            if not any(self.conflict(visit, v) for v in [*self.holds.values(), *before]):
                self.arrival.remove(p)
                del self.calls[p]
                self.grant(p, visit)
                granted.append(p)
        return " ".join(["left", *map(str, granted)])


def perform(desk, r):
    if r[0] == ENTER:
        return desk.enter(r[1], r[2], list(r[4:4 + r[3]]))
    if r[0] == GET:
        return desk.get(r[1], r[2])
    if r[0] == PUT:
        return desk.put(r[1], r[2], little(r[4:12]))
    if r[0] == ADD:
        return desk.add(r[1], r[2], little(r[4:12]))
    return desk.leave(r[1])


# ---- the listing and the report

def opened(data):
    """A fresh desk over the hierarchy of a file, with the file's values (02, point 9), and the file's steps."""
    records = read_file(data)
    n = little(records[0][1:3])
    desk = Desk(Hierarchy(n, [(r[1], r[2]) for r in records if r[0] == EDGE]))
    for r in records:
        if r[0] == VALUE:
            desk.values[r[1]] = little(r[4:12])
    return desk, [r for r in records if r[0] in STEPS]


def listing(data):
    """A line for each step, `end` with holders, waiters and the sum of the grants, and a line for each party with grants."""
    try:
        desk, steps = opened(data)
    except Refusal as e:
        return [f"refused {e.number}"]
    lines = []
    for k, r in enumerate(steps, 1):
        try:
            lines.append(f"{k} {perform(desk, r)}")
        except Refusal as e:
            lines.append(f"{k} refused {e.number}")
    lines.append(f"end {len(desk.holds)} {len(desk.calls)} {sum(desk.grants)}")
    lines += [f"party {p} {count}" for p, count in enumerate(desk.grants) if count]
    return lines


class Report:
    """02, point 2: beside the desk the two counts."""

    def __init__(self, desk):
        self.desk = desk
        self.waits = self.needless = 0

    def meet(self, a, b):
        """Whether the reaches of two visits meet, other than a reader against a reader or (point 5) an adder against an adder."""
        (mode_a, _, names_a), (mode_b, _, names_b) = a, b
        if (mode_a, mode_b) in TOGETHER:
            return False
        return not self.desk.reached(names_a).isdisjoint(self.desk.reached(names_b))

    def step(self, r):
        """Takes a step. An enter that waits is judged by those who were there before it; a refused step comes to no count."""
        there = [*self.desk.holds.values(), *self.desk.calls.values()]
        if perform(self.desk, r) == "waits":
            self.waits += 1
            if not any(self.meet(self.desk.calls[r[1]], v) for v in there):
                self.needless += 1


def waits(data):
    try:
        desk, steps = opened(data)
    except Refusal:
        return ["0 0"]
    report = Report(desk)
    for r in steps:
        try:
            report.step(r)
        except Refusal:
            pass
    return [f"{report.waits} {report.needless}"]


# ---- shorter files

def written(records):
    """The block file of these records: 31 in each block but the last."""
    out = b""
    for i in range(0, len(records), 31):
        part = records[i:i + 31]
        block = (i // 31).to_bytes(4, "little") + len(part).to_bytes(2, "little") + bytes(2) + b"".join(part)
        block += bytes(508 - len(block))
        out += block + check(block).to_bytes(4, "little")
    return out


def cut(data, k):
    """02, point 9: the same size and edges, a value record for each nonzero value after the first k steps, by ascending record, then the steps after k. Where
    that is refused, the number: 2 to 9 for the file or its hierarchy, 19 for k above the number of steps, 20 for a party holding or waiting then."""
    try:
        desk, steps = opened(data)
    except Refusal as e:
        return e.number
    if k > len(steps):
        return 19
    for r in steps[:k]:
        try:
            perform(desk, r)
        except Refusal:
            pass
    if desk.holds or desk.calls:
        return 20
    head = [r for r in read_file(data) if r[0] in (SIZE, EDGE)]
    values = [bytes([VALUE, x, 0, 0]) + v.to_bytes(8, "little") + bytes(4) for x, v in enumerate(desk.values) if v]
    return written(head + values + steps[k:])


def main(words):
    if words[:1] == ["--cut"] and len(words) == 3 and words[1].isdecimal() and words[1].isascii():
        with open(words[2], "rb") as file:
            shorter = cut(file.read(), int(words[1]))
        if isinstance(shorter, int):
            sys.stderr.write(f"refused {shorter}\n")
        else:
            sys.stdout.buffer.write(shorter)
    elif len(words) == 1 + (words[:1] == ["--waits"]):
        with open(words[-1], "rb") as file:
            print("\n".join((waits if len(words) == 2 else listing)(file.read())))
    else:
        sys.exit(__doc__)


if __name__ == "__main__":
    main(sys.argv[1:])
