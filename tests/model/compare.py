#!/usr/bin/env python3
"""Compares the listing program with the model on random files.

    compare.py LISTING [--files N] [--seed S] [--keep DIR]

LISTING is the program. It prints the seed, how often each answer and each refusal was seen, and the first difference; it exits 1 where there is
one, or where a kind of answer that the paper has was never seen, or a cover that was picked by its number from equally narrow records with
different intervals, or one of the ways in which a party is granted, or a party that came and was never granted, or a listing with a line
for each party, or one with none, or one of the cases of adding visits in ADDS, of names in NAMED or of value records in VALUED, or a wrong kind or mode,
or one of the ways in MISVALUED in which value records are wrong. --keep writes the file that differs into DIR.
Of each listing the line `end` and those behind it are also worked out from the answers before them.
Files are valid, of the wrong length, damaged with and without a check that was made right again (in all blocks, or in some), misordered,
of legal and illegal hierarchies, some with many intervals of one width, with value records and without, and now and then of 128 or 129 blocks; most
steps take effect, since the generator follows the desk with the model and picks parties and records by it.
"""
import argparse
import collections
import itertools
import os
import random
import subprocess
import sys

sys.dont_write_bytecode = True
sys.path.insert(0, os.path.dirname(os.path.abspath(__file__)))
import model  # noqa: E402


def record(*data):
    return bytes(data) + bytes(16 - len(data))


def blocks(records):
    out = b""
    for i in range(0, len(records), 31):
        part = records[i:i + 31]
        body = (i // 31).to_bytes(4, "little") + len(part).to_bytes(2, "little") + bytes(2) + b"".join(part)
        body += bytes(508 - len(body))
        out += body + model.check(body).to_bytes(4, "little")
    return out


def mended(data, which=lambda: True):
    """The same with the check made right: every block's, or of those blocks for which `which` says so."""
    out = bytearray(data)
    for i in range(0, len(out) - 511, 512):
        if which():
            out[i + 508:i + 512] = model.check(bytes(out[i:i + 508])).to_bytes(4, "little")
    return bytes(out)


# ---- hierarchies

def legal(rnd, n, most):
    """Each record but the root gets a parent before it in a random order of the records, in some hierarchies one just before it; then edges at random."""
    names = list(range(1, n))
    rnd.shuffle(names)
    order, near = [0, *names], rnd.choice(((1, 3, 300), (1, 3, 300), (1, 1, 1, 3)))
    edges = [(order[rnd.randrange(max(0, i - rnd.choice(near)), i)], order[i]) for i in range(1, n)]
    seen = set(edges)
    for _ in range(rnd.randrange(0, most + 1) if n > 2 else 0):
        e = (rnd.randrange(n), rnd.randrange(1, n))
        if e[0] != e[1] and e not in seen and len(edges) < 1024:
            seen.add(e)
            edges.append(e)
    if rnd.random() < 0.8:
        rnd.shuffle(edges)
    return edges


def windows(rnd, n):
    """Leaves below the root, and records over stretches of them that overlap, all of one width, so that the lowest number decides. n is 8 or more."""
    names = list(range(1, n))
    rnd.shuffle(names)
    leaves, over = names[:(2 * n + 2) // 3 - 1], names[(2 * n + 2) // 3 - 1:]
    edges = [(0, leaf) for leaf in leaves]
    width = rnd.randrange(2, min(len(leaves), 6))
    for w in over:
        first = rnd.randrange(len(leaves) - width)
        edges += [(0, w), (w, leaves[first]), (w, leaves[first + width])]
    return edges


def spoiled(rnd, n, edges):
    """A hierarchy with one fault, or several."""
    edges = list(edges)
    for _ in range(rnd.choice((1, 1, 2))):
        fault = rnd.randrange(7)
        if fault == 0:
            n = rnd.choice((0, 257, 300, 65535))
        elif fault == 1:
            edges += [(rnd.randrange(256), rnd.randrange(256)) for _ in range(1025 - len(edges))]
        elif fault == 2:
            edges.append((min(n, 255), 1))
        elif fault == 3:
            edges.append((max(1, min(n, 256)) - 1, 0))
        elif fault == 4:
            edges.append((1, 1))
        elif fault == 5 and edges:
            edges.append(rnd.choice(edges))
        elif fault == 6 and edges:
            lost = rnd.choice(edges)[1]
            edges = [e for e in edges if e[1] != lost]
    return n, edges


# ---- steps

MODES = (model.READING, model.WRITING, model.ADDING)
ALLOWED = {model.GET: (model.READING, model.WRITING), model.PUT: (model.WRITING,), model.ADD: (model.ADDING,)}   # in visits of which modes


def rounds(h, names):
    """What the names reach, by how many edges lead there at least: the names themselves, their children that are no names, and so on."""
    found, out = set(), [set(names)]
    while out[-1]:
        found |= out[-1]
        out.append({c for x in out[-1] for c in h.children[x]} - found)
    return out[:-1]


def touched(rnd, desk, party):
    """A record for a holder's get, put or add: mostly one in the reach of its names, at times of one name alone or as far down as can be; else one whose
    interval lies inside the hold's and that no name reaches, at times one that the cover reaches."""
    h, (_, cover, names) = desk.h, desk.holds[party]
    out = rounds(h, names)
    reached = set().union(*out)
    alone = [x for x in reached if sum(x in h.reaches[y] for y in names) == 1] if len(names) > 1 else []
    inside = [x for x in range(h.n) if x not in reached and h.contains(cover, h.low[x], h.high[x])]
    covered = [x for x in inside if x in h.reaches[cover]]
    groups = [group for group in (reached, reached, alone, out[-1], inside, inside, covered) if group]
    return rnd.choice(sorted(rnd.choice(groups)))


def steps(rnd, h, count):
    """Steps that mostly take effect, since the model's desk says who is where; one in eight is picked blindly, and one in eight gets, puts and adds is of any
    holder, whatever its mode."""
    desk, out = model.Desk(h), []
    most, modes = rnd.choice((2, 4, 8, 32)), rnd.choice((MODES, MODES, (1, 2), (1, 3, 3, 3), (2, 3, 3, 3), (3,)))
    low, deep = [x for x in range(h.n) if len(h.reaches[x]) <= 3] or [0], rnd.choice((0, 0.5, 0.9))
    while len(out) < count:
        holding, inside = list(desk.holds), [*desk.holds, *desk.calls]
        able = {kind: [p for p in holding if desk.holds[p][0] in ALLOWED[kind]] for kind in ALLOWED}
        away = [p for p in range(32) if p not in inside]
        party, node = rnd.randrange(34 if rnd.random() < 0.9 else 256), rnd.randrange(h.n if rnd.random() < 0.95 else 256)
        if inside and rnd.random() < 0.7:
            party = rnd.choice(inside)
        blind, any_mode, choice = rnd.random() < 0.125, rnd.random() < 0.125, rnd.random()
        kind = model.ENTER if choice < 0.3 else rnd.choice([*ALLOWED]) if choice < 0.8 else model.LEAVE
        if not blind:
            if not holding:
                kind = model.ENTER
            elif kind == model.ENTER and len(inside) >= most:
                kind = model.LEAVE
            elif kind in ALLOWED and not able[kind] and not any_mode:
                kind = rnd.choice([k for k in ALLOWED if able[k]])
        if kind == model.ENTER:
            if not blind:
                party = rnd.choice(away)
            names = [rnd.choice(low) if rnd.random() < deep else rnd.randrange(h.n) for _ in range(rnd.choice((1, 1, 2, 3, 5, 8)))]
            names[rnd.randrange(len(names))] = node
            if len(names) == 8 and h.n > 8 and rnd.random() < 0.5:
                names = rnd.sample(range(h.n), 8)
            next_to = [x for x in range(h.n) if node < h.n and h.low[x] == h.high[node] + 1]
            if len(names) > 1 and next_to and rnd.random() < 0.4:
                names = [node, rnd.choice(next_to)]
            r = record(kind, party, rnd.choice(modes), len(names), *names)
        elif kind in ALLOWED:
            if not blind:
                party = rnd.choice(holding if any_mode else able[kind])
                node = touched(rnd, desk, party)
            number = rnd.choice((0, 1, rnd.getrandbits(64), 2**64 - 1, rnd.randrange(1000), 2**64 - 1 - rnd.randrange(1000)))
            r = record(kind, party, node, *((0, *number.to_bytes(8, "little")) if kind != model.GET else ()))
        else:
            if not blind:
                party = rnd.choice(holding if rnd.random() < 0.7 else inside)
            r = record(kind, party)
        out.append(r)
        try:
            model.perform(desk, r)
        except model.Refusal:
            pass
    return out


# ---- value records (02, point 9)

def value(rnd, node):
    """A value record of a record, with a number that is not 0."""
    number = rnd.choice((1, 2**64 - 1, rnd.randrange(1, 1000), rnd.randrange(1, 2**64), 2**64 - 1 - rnd.randrange(1000), 1 << rnd.randrange(64)))
    return record(model.VALUE, node, 0, 0, *number.to_bytes(8, "little"))


def values(rnd, n):
    """The value records of a file, right ones: in many files none, else of one record, of a few or of all, ascending."""
    every = range(min(n, 256))
    count = min(len(every), rnd.choice((0, 0, 0, 1, 2, 5, len(every) // 2, len(every), len(every))))
    return [value(rnd, node) for node in sorted(rnd.sample(every, count))]


MISVALUED = ["value 0", "a record's value twice", "values not ascending", "value of record n", "value of a record above n", "edge behind a value", "value behind a step",
             "value before the size", "unused byte of a value", "value of a record below an n over 256"]


def misvalued(rnd, records):
    """What is wrong with a file's value records, and its bytes. Where it has none, it is given some."""
    way, n = rnd.choice(MISVALUED), model.little(records[0][1:3])
    of = {kind: [r for r in records if r[0] == kind] for kind in (model.SIZE, model.EDGE, model.VALUE)}
    (size, *_), edges, given, steps = *of.values(), [r for r in records if r[0] in model.STEPS]
    given = given or [value(rnd, node) for node in sorted(rnd.sample(range(256), rnd.choice((1, 2, 3, 5)))) if node < n] or [value(rnd, 0)]
    at = rnd.randrange(len(given))
    node = given[at][1]
    if way == "value 0":
        given[at] = record(model.VALUE, node)
    elif way == "a record's value twice":
        given.insert(at, rnd.choice((given[at], value(rnd, node))))
    elif way == "values not ascending":
        given.insert(at + 1, value(rnd, rnd.randrange(node + 1)))
    elif way == "value of record n":
        given.append(value(rnd, min(n, 255)))
    elif way == "value of a record above n":
        given.append(value(rnd, rnd.randrange(min(n, 255), 256)))
    elif way == "edge behind a value":
        given.insert(at + 1, edges.pop() if edges else record(model.EDGE, 0, 1))
    elif way == "value behind a step":
        steps.insert(rnd.randrange(len(steps) + 1), record(model.LEAVE, rnd.randrange(33)))
        steps.insert(rnd.randrange(1, len(steps) + 1), given.pop())
    elif way == "value before the size":
        size, given[at] = given[at], size
    elif way == "unused byte of a value":
        byte = rnd.choice((2, 3, 12, 13, 14, 15))
        given[at] = given[at][:byte] + bytes([1 << rnd.randrange(8)]) + given[at][byte + 1:]
    else:
        size, given = record(model.SIZE, n & 255, 1), [value(rnd, rnd.randrange(n & 255, 256))]
    return way, blocks([size, *edges, *given, *steps])


# ---- files

def damaged(rnd, data, records):
    """What was done, and the bytes."""
    kind, out = rnd.randrange(11), bytearray(data)

    def block():
        return 512 * rnd.randrange(len(out) // 512)

    if kind == 0:
        return "length", data[:rnd.randrange(len(data))] if rnd.random() < 0.7 else data + bytes(rnd.choice((1, 511, 512)))
    if kind == 1:
        out[rnd.randrange(len(out))] ^= 1 << rnd.randrange(8)
        return "damaged, check left", bytes(out)
    if kind == 2:
        a, b = block(), block()
        out[a:a + 512], out[b:b + 512] = out[b:b + 512], out[a:a + 512]
        return "misordered", bytes(out)
    if kind == 3:
        moved = list(records)
        a, b = rnd.randrange(len(moved)), rnd.randrange(len(moved))
        moved[a], moved[b] = moved[b], moved[a]
        return "misordered", blocks(moved)
    if kind == 4:   # most often the kind, or the mode, next to the right ones
        wrong, enters = list(records), [k for k, r in enumerate(records) if r[0] == model.ENTER]
        if enters and rnd.random() < 0.5:
            at = rnd.choice(enters)
            wrong[at] = wrong[at][:2] + bytes([rnd.choice((4, 4, 4, 0, 5, 7, 131, 255))]) + wrong[at][3:]
            return "wrong mode", blocks(wrong)
        at = rnd.randrange(len(wrong))
        wrong[at] = bytes([rnd.choice((9, 9, 9, 0, 10, 24, 136, 255))]) + wrong[at][1:]
        return "wrong kind", blocks(wrong)
    if kind == 5:
        for _ in range(rnd.randrange(2, 5)):
            out[block() + rnd.randrange(508)] ^= 1 << rnd.randrange(8)
        return "damaged, some checks corrected", mended(out, lambda: rnd.random() < 0.6)
    if kind in (6, 7):
        return misvalued(rnd, records)
    if kind == 8:
        out[block() + rnd.choice((0, 1, 2, 3, 4, 5, 6, 7, 504, 505, 506, 507))] = rnd.randrange(256)
    else:
        out[block() + 8 + rnd.randrange(496)] = rnd.randrange(256) if rnd.random() < 0.5 else rnd.randrange(11)
    return "damaged, check corrected", mended(out)


def one(rnd):
    """The kind of a file, and its bytes."""
    style = rnd.random()
    if style < 0.01:
        return "noise", rnd.randbytes(rnd.choice((0, 0, 1, 511, 512, 513, 1024, 65536, 65537, 66048, 131072)))
    n = rnd.choice((1, 2, 3, 4, 5, 6, 8, 10, 12, 16, 24, 40)) if style < 0.95 else rnd.choice((100, 255, 256))
    if 8 <= n <= 40 and rnd.random() < 0.3:
        edges = windows(rnd, n)
    else:
        edges = legal(rnd, n, rnd.choice((0, 2, n, 2 * n)) if style < 0.95 else rnd.choice((100, 1024)))
    kind, count = "legal", rnd.choice((0, 1, 5, 20, 40, 80, 160))
    if rnd.random() < 0.12:
        kind, (n, edges) = "illegal hierarchy", spoiled(rnd, n, edges)
    given = values(rnd, n)
    if kind == "legal" and style < 0.014:
        kind, count = "128 or 129 blocks", rnd.choice((3968, 3968, 3969)) - 1 - len(edges) - len(given)
    records = [record(1, n & 255, n >> 8), *(record(2, p, c) for p, c in edges), *given]
    try:
        records += steps(rnd, model.Hierarchy(n, edges), count)
    except model.Refusal:
        pass
    data = blocks(records)
    return damaged(rnd, data, records) if rnd.random() < 0.2 else (kind, data)


def tied(data, lines):
    """How many enters were granted a cover beside which another record is as narrow around the names, with another interval."""
    if lines[0].startswith("refused"):
        return 0
    records, count = model.read_file(data), 0
    h = model.Hierarchy(int.from_bytes(records[0][1:3], "little"), [(r[1], r[2]) for r in records if r[0] == 2])
    for r, line in zip((r for r in records if r[0] in model.STEPS), lines):
        if r[0] == 3 and line.split()[1] == "granted":
            c, names = int(line.split()[2]), r[4:4 + r[3]]
            low, high = min(h.low[x] for x in names), max(h.high[x] for x in names)
            count += any(h.low[x] != h.low[c] and h.high[x] - h.low[x] == h.high[c] - h.low[c] and h.contains(x, low, high) for x in range(h.n))
    return count


def behind(lines):
    """What stands behind the last answer of a listing; all of it where the file was refused."""
    return lines[sum(line[0].isdigit() for line in lines):]


def told(data, lines):
    """What a listing's answers tell by themselves: how often each party was granted by an enter, how often by a leave, who came, and what must stand
    behind the last answer (02, point 4: on a line for each party with grants, `party`, its number and its count, lowest party first)."""
    by_enter, by_leave = collections.Counter(), collections.Counter()
    came, holding, waiting = set(), set(), set()
    if lines[0].startswith("refused"):
        return by_enter, by_leave, came, lines
    for r, line in zip((r for r in model.read_file(data) if r[0] in model.STEPS), lines):
        answer, *rest = line.split()[1:]
        if answer == "granted":
            by_enter[r[1]] += 1
            holding.add(r[1])
        elif answer == "waits":
            waiting.add(r[1])
        elif answer == "left":
            freed = list(map(int, rest))
            by_leave.update(freed)
            holding = holding - {r[1]} | set(freed)
            waiting = waiting - {r[1], *freed}
        came |= holding | waiting
    both = by_enter + by_leave
    return by_enter, by_leave, came, [f"end {len(holding)} {len(waiting)} {sum(both.values())}", *(f"party {p} {both[p]}" for p in sorted(both))]


PARTIES = ["by a leave", "by leaves alone", "by an enter and by a leave", "several times", "ten times or more", "never, though it came", "with number 0", "with number 31"]


def parties(by_enter, by_leave, came):
    """How many parties of a file were granted in each of these ways."""
    both = by_enter + by_leave
    counts = (len(by_leave), len(by_leave.keys() - by_enter), len(by_leave.keys() & by_enter), sum(c > 1 for c in both.values()),
              sum(c > 9 for c in both.values()), len(came - both.keys()), int(0 in both), int(31 in both))
    return collections.Counter(dict(zip(PARTIES, counts)))


WRAP, BESIDE, FREED = "a sum of 2 to the 64 or more", "an adder granted beside one with whom it shares a number", "adders freed together"
WAITER, BEHIND, EARLY = "an adder who waits", "an adder who waits for waiters alone", "add by a waiter, 14"
NOT_ALLOWED = {(model.ADD, model.READING): "add in a reading visit, 18", (model.ADD, model.WRITING): "add in a writing visit, 18",
               (model.GET, model.ADDING): "get in an adding visit, 18", (model.PUT, model.ADDING): "put in an adding visit, 18"}
ADDS = [WRAP, BESIDE, FREED, WAITER, BEHIND, EARLY, *NOT_ALLOWED.values()]


def adds(data, lines):
    """How often each of these (02, point 5) is in a file; the model's desk says what was before each step."""
    times = collections.Counter()
    if lines[0].startswith("refused"):
        return times
    desk, records = model.opened(data)
    for r, line in zip(records, lines):
        kind, party, answer = r[0], r[1], line.split()[1:]
        if kind == model.ENTER and r[2] == model.ADDING and answer[0] != "refused":
            cover, waits = desk.h.cover(r[4:4 + r[3]]), answer == ["waits"]
            beside = [mode for mode, c, _ in desk.holds.values() if desk.conflict((model.WRITING, cover), (model.WRITING, c))]
            times[BESIDE] += not waits and beside != []
            times[WAITER] += waits
            times[BEHIND] += waits and set(beside) <= {model.ADDING}
        elif answer == ["added"]:
            times[WRAP] += desk.values[r[2]] + model.little(r[4:12]) >= 2**64
        elif answer == ["refused", "14"]:
            times[EARLY] += kind == model.ADD
        elif answer == ["refused", "18"]:
            times[NOT_ALLOWED[kind, desk.holds[party][0]]] += 1
        elif answer[0] == "left":
            times[FREED] += sum(desk.calls[int(p)][0] == model.ADDING for p in answer[1:]) > 1
        try:
            model.perform(desk, r)
        except model.Refusal:
            pass
    return times


WORDS = {model.GET: "get", model.PUT: "put", model.ADD: "add"}
APART = {kind: f"{w} inside the hold's interval and in no name's reach" for kind, w in WORDS.items()}
COVERED, COVER, EQUAL = "in the cover's reach alone", "the cover itself, in no name's reach", "with a name's interval, in no name's reach"
FIRST, MIDDLE, FINAL, ALONE = "in the first name's reach alone", "in a middle one's alone", "in the last one's alone", "in a name's reach and not the cover's"
BACK, DEEP, LATER, AGAIN = "above a name on a cycle", "eight edges or more below each name", "in a visit that waited", "by one who came with other names before"
BEFORE_16, BEFORE_17, BEFORE_18 = [["refused", k] for k in ("11", "13", "14", "15")], "16 where 17 holds too", "16 where 18 holds too"
TWICE, MIXED, EIGHT = "names with one twice", "names out of order", "eight different names"
NAMED = [*APART.values(), COVERED, COVER, EQUAL, FIRST, MIDDLE, FINAL, ALONE, BACK, DEEP, LATER, AGAIN, BEFORE_17, BEFORE_18, TWICE, MIXED, EIGHT]


def named(data, lines):
    """How often each of these (02, point 6) is in a file: gets, puts and adds by what names, cover and reach have to do with the record, and visits by their names."""
    times = collections.Counter()
    if lines[0].startswith("refused"):
        return times
    desk, records = model.opened(data)
    h, given, waited = desk.h, {}, set()
    for r, line in zip(records, lines):
        kind, party, answer = r[0], r[1], line.split()[1:]
        if kind == model.ENTER and answer[0] != "refused":
            names = list(r[4:4 + r[3]])
            given.setdefault(party, []).append(set(names))
            waited.discard(party)
            times[TWICE] += len(set(names)) < len(names)
            times[MIXED] += names != sorted(names)
            times[EIGHT] += len(set(names)) == 8
        elif answer[0] == "left":
            waited.update(map(int, answer[1:]))
        elif kind in WORDS and answer not in BEFORE_16:
            mode, cover, names = desk.holds[party]
            by = [k for k, x in enumerate(names) if r[2] in h.reaches[x]]
            inside, reached = h.contains(cover, h.low[r[2]], h.high[r[2]]), r[2] in h.reaches[cover]
            if (answer == ["refused", "16"]) != (not by):
                raise SystemExit(f"16 for a record that a name reaches, or none for one that no name does: {line}")
            times[APART[kind]] += not by and inside
            times[COVERED] += not by and reached
            times[COVER] += not by and r[2] == cover
            times[EQUAL] += not by and any((h.low[x], h.high[x]) == (h.low[r[2]], h.high[r[2]]) for x in names)
            times[FIRST] += by == [0] and len(names) > 1
            times[MIDDLE] += len(by) == 1 and 0 < by[0] < len(names) - 1
            times[FINAL] += by == [len(names) - 1] and len(names) > 1
            times[ALONE] += by != [] and not reached
            times[BACK] += any(names[k] in h.reaches[r[2]] and names[k] != r[2] for k in by)
            times[DEEP] += any(r[2] in found for found in rounds(h, names)[8:])
            times[LATER] += party in waited
            times[AGAIN] += any(r[2] in desk.reached(old) for old in given[party][:-1]) and not by
            times[BEFORE_17] += not by and kind == model.PUT and mode == model.READING
            times[BEFORE_18] += not by and mode not in ALLOWED[kind] and (kind, mode) != (model.PUT, model.READING)
        try:
            model.perform(desk, r)
        except model.Refusal:
            pass
    return times


GIVEN = {"value": "got as given", "stored": "replaced", "added": "added to"}
EACH, NO_STEP, TWO_BLOCKS, FULL = "of all 256 records", "and no step", "in two blocks or more", "in 128 blocks"
VALUED = [*GIVEN.values(), EACH, NO_STEP, TWO_BLOCKS, FULL]


def valued(data, lines):
    """How often each of these (02, point 9) is in a file: what is done first to a value given by a value record, and where the value records are."""
    times = collections.Counter()
    if lines[0].startswith("refused"):
        return times
    records = model.read_file(data)
    places = [k for k, r in enumerate(records) if r[0] == model.VALUE]
    given = {records[k][1]: model.little(records[k][4:12]) for k in places}
    times[EACH] += len(places) == 256
    times[NO_STEP] += given != {} and places[-1] == len(records) - 1
    times[TWO_BLOCKS] += given != {} and places[0] // 31 != places[-1] // 31
    times[FULL] += given != {} and len(data) == 65536
    for r, line in zip((r for r in records if r[0] in model.STEPS), lines):
        answer = line.split()[1:]
        if r[2] in given and answer[0] in GIVEN:
            if answer[0] == "value" and int(answer[1]) != given[r[2]]:
                raise SystemExit(f"another value than the file gives: {line}")
            times[GIVEN[answer[0]]] += 1
            if answer[0] != "value":
                del given[r[2]]
    return times


def word(line):
    w = line.split()
    return " ".join(w) if w[0] == "refused" else w[0] if w[0] in ("end", "party") else " ".join(w[1:3]) if w[1] == "refused" else w[1]


WANTED = ["granted", "waits", "value", "stored", "added", "left", "end", "party",
          *(f"refused {k}" for k in (2, 3, 4, 5, 6, 7, 8, 9, 11, 12, 13, 14, 15, 16, 17, 18))]


def run(program, data):
    """What the program printed; what else went wrong, in words."""
    try:
        got = subprocess.run([program], input=data, capture_output=True, timeout=60)
    except subprocess.TimeoutExpired:
        return "", "did not end in a minute"
    said = f"exit status {got.returncode}" if got.returncode else "wrote to standard error" if got.stderr else ""
    return got.stdout.decode(errors="replace"), said


def main():
    a = argparse.ArgumentParser(description="compares the listing program with the model on random files")
    a.add_argument("listing")
    a.add_argument("--files", type=int, default=3000)
    a.add_argument("--seed", type=int, default=20261115)
    a.add_argument("--keep", metavar="DIR", help="write the file that differs there")
    args = a.parse_args()
    if not os.access(args.listing, os.X_OK):
        print(f"no such program: {args.listing}")
        return 1
    rnd = random.Random(args.seed)
    seen, kinds, who, added, names, start = (collections.Counter() for _ in range(6))
    one_freed = more_freed = ties = many = none = 0
    for k in range(args.files):
        kind, data = one(rnd)
        lines = model.listing(data)
        want = "".join(line + "\n" for line in lines)
        got, said = run(args.listing, data)
        by_enter, by_leave, came, end = told(data, lines)
        if behind(lines) != end:
            said = f"the model's answers tell another end: {' / '.join(end)}"
        if said or got != want:
            print(f"seed {args.seed}: file {k}, {kind}, {len(data)} bytes: differs" + (f" ({said})" if said else ""))
            pairs = itertools.zip_longest(want.split("\n"), got.split("\n"), fillvalue="nothing")
            first = next(((i, w, g) for i, (w, g) in enumerate(pairs, 1) if w != g), None)
            if first:
                print("line {}: the model has '{}', the program '{}'".format(*first))
            if args.keep:
                with open(os.path.join(args.keep, f"differs-{args.seed}-{k}.blocks"), "wb") as f:
                    f.write(data)
            return 1
        kinds[kind] += kind not in MISVALUED or lines == ["refused 5" if kind == MISVALUED[-1] else "refused 4"]
        ties += tied(data, lines)
        who += parties(by_enter, by_leave, came)
        added += adds(data, lines)
        names += named(data, lines)
        start += valued(data, lines)
        many += len(end) == 33
        none += end[-1].startswith("end")
        for line in lines:
            seen[word(line)] += 1
            if " left " in line:
                one_freed += len(line.split()) == 3
                more_freed += len(line.split()) > 3
    print(f"seed {args.seed}: {args.files} files agree")
    print("files: " + ", ".join(f"{w} {n}" for w, n in sorted(kinds.items())))
    print("lines: " + ", ".join(f"{w} {seen[w]}" for w in WANTED))
    print(f"leaves that granted one waiter {one_freed}, several {more_freed}; covers picked by number from records of different intervals {ties}")
    print("parties granted " + ", ".join(f"{w}: {who[w]}" for w in PARTIES) + f"; listings with a line for each party {many}, for none {none}")
    print("adding: " + ", ".join(f"{w}: {added[w]}" for w in ADDS))
    print("names: " + ", ".join(f"{w}: {names[w]}" for w in NAMED))
    print("value records: " + ", ".join(f"{w}: {start[w]}" for w in VALUED))
    missing = [w for w in WANTED if not seen[w]] + [f"a party granted {w}" for w in PARTIES if not who[w]]
    missing += [w for w in ADDS if not added[w]] + [w for w in NAMED if not names[w]] + [f"value records {w}" for w in VALUED if not start[w]]
    missing += [f"a file with this wrong: {w}" for w in ("wrong kind", "wrong mode", *MISVALUED) if not kinds[w]]
    missing += [w for w, n in (("a leave that grants one", one_freed), ("a leave that grants several", more_freed), ("a cover picked by number from records of different intervals", ties),
                               ("a listing with a line for each party", many), ("a listing with `end` last", none)) if not n]
    if missing:
        print("never seen: " + ", ".join(missing))
        return 1
    return 0


if __name__ == "__main__":
    sys.exit(main())
