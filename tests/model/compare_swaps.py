#!/usr/bin/env python3
"""Holds the listing program to point 10 of document 02, that neighbours may swap, on random files.

    compare_swaps.py LISTING [--files N] [--seed S] [--keep DIR]

LISTING is the program. The check has the steps of two files and the lines printed for them, and no desk. A run is a row of gets, puts and adds, each next to
the one before, of which none was refused; an enter, a leave and a refused step end it. Of runs 02 asks it. That refused gets, puts and adds may swap too, with
each other and with those that are not, is more than 02 asks: docs/RULES.md says it. In a wider run they stand, too, whoever's they are: a waiter's (14), of one
who is out (13), of a party over 31 (11); an enter or a leave, refused or not, ends it. Each file is listed. Then its runs are rearranged in some of the ways in
WAYS, in each of which every party keeps its own order, then the wider runs in which a step was refused, and each file so made is listed too. A step of the other
file is that step of the first which has the same party and the same place among the party's steps. It is asked that
- each step have the answer that it had in the first file, under the number that it has now, a refused one the same refusal; so steps outside the runs have their
  lines word for word;
- the line `end` and those behind it be the same: holders, waiters and the grants of each party;
- whoever gets, puts or adds without a refusal hold, by the answers, and the other file's steps be those of the first, moved within their runs alone;
- of two steps of one record that changed places, neither of them refused, both be gets or both adds: two parties that hold at once have nothing else in common.
So that the values left can be seen, behind the steps of every file all parties leave, and then one enters that names record 0, and gets each record; none of
these gets may be refused.
It prints the seed, how many files were compared, what was seen, and the first difference; it exits 1 where there is one, or where one of the things in SEEN
was seen in fewer than FEW of the files whose runs were rearranged, or one of those in SEEN_REFUSED in fewer of those whose wider runs were, which takes some 400
files. --keep writes the two files that show it into DIR.
First the check is tried itself. Of each pair of short listings in WRITTEN, WRITTEN_WIDER and WRITTEN_READ it must tell what stands beside it. On files made as
those of the run are, but every second one bold (see traffic; of the others three in ten are), it must be true of the model's listings, and of the listings of
wrong desks, the model with some text changed, it must be told false in some file: of those in WRONG that a step's answer, or what is left, is another; of those
in WRONG_REFUSED the same, by the wider runs, while by the others it must be told of none; of those in NOT_APART, on which no answer hangs on the order, that two
did at one record what cannot be; of those in NOT_HOLDING that one steps who does not hold; of those in NOT_SEEN that the values cannot be read.
What it cannot tell is a desk that is wrong in the same way whatever the order: one whose sums stop at the greatest number, or are of another kind in which the
order does not matter; one that answers a get with the value before the last put of another party at that record, since while one holds who puts there nobody
else gets it; one that stores puts only when their party leaves, since no leave is moved; one that shows a visit more than it named, as long as no two who hold
at once see the same; one that refuses, or makes wait, where it should not. In SAME are such desks: it must be told false of none of them. compare.py tells them.
"""
import argparse
import collections
import functools
import os
import random
import sys

sys.dont_write_bytecode = True
sys.path.insert(0, os.path.dirname(os.path.abspath(__file__)))
import compare  # noqa: E402
import model  # noqa: E402
from compare import record  # noqa: E402

ENTER, LEAVE, GET, PUT, ADD = model.ENTER, model.LEAVE, model.GET, model.PUT, model.ADD
ANSWERS = {ENTER: ("granted", "waits", "refused"), LEAVE: ("left", "refused"), GET: ("value", "refused"), PUT: ("stored", "refused"), ADD: ("added", "refused")}
MOVED = (GET, PUT, ADD)
TRIED, ENOUGH, TRUE = 400, 5, 100       # files on which the check is tried itself; of how many it need be told false; and on how many of them it must be true


# ---- the check

class Told(Exception):
    """What is told of two files and their listings, where it is not that all is well."""


class Differs(Told):
    """Two listings that point 10 does not allow."""


class AtOnce(Told):
    """Two who hold at once did at one record what only one of them can be there for."""


class CannotBe(Told):
    """A listing that is none for its steps, or in which one gets, puts or adds who does not hold."""


class NotRead(Told):
    """The values left cannot be read, since a get at the end was refused."""


class NotOfThese(Told):
    """Files of which point 10 says nothing: the one is no rearrangement of the other's runs."""


def answers(steps, lines):
    """The answer of each step: the words of its line without the number."""
    if len(lines) <= len(steps) or not lines[len(steps)].startswith("end "):
        raise CannotBe(f"the listing has {len(lines)} lines for {len(steps)} steps, or no line `end` behind these")
    out = []
    for k, (r, line) in enumerate(zip(steps, lines), 1):
        number, *words = line.split(" ")
        if number != str(k) or not words or words[0] not in ANSWERS[r[0]]:
            raise CannotBe(f"step {k} has the line: {line}")
        out.append(words)
    return out


def runs(steps, said, refused_too=False):
    """The runs, or the wider ones, each as the range of its places; who holds is told by the answers."""
    out, start, holding = [], 0, set()
    for k, (r, (word, *rest)) in enumerate(zip(steps, said)):
        if r[0] in MOVED and (refused_too or word != "refused"):
            if word != "refused" and r[1] not in holding:
                raise CannotBe(f"step {k + 1}: party {r[1]} does not hold, and is answered {word}")
            continue
        out.append(range(start, k))
        start = k + 1
        if word == "granted":
            holding.add(r[1])
        elif word == "left":
            holding = holding - {r[1]} | {int(p) for p in rest}
    return [run for run in (*out, range(start, len(steps))) if run]


def order_of(steps, other, found):
    """For each step of the other file its place in the first. It is moved within its run, and no party's own order changes."""
    left = collections.defaultdict(collections.deque)
    for k, r in enumerate(steps):
        left[r[1]].append(k)
    order, run_of = [], {k: run for run in found for k in run}
    for i, r in enumerate(other):
        k = left[r[1]].popleft() if left[r[1]] else None
        if k is None or steps[k] != r:
            raise NotOfThese(f"step {i + 1} of the other file is not the next one of party {r[1]}")
        if i != k and (i not in run_of or k not in run_of[i]):
            raise NotOfThese(f"step {k + 1} was moved to place {i + 1}, out of its run, or is in none")
        order.append(k)
    if len(order) != len(steps):
        raise NotOfThese("the other file has fewer steps")
    return order


def turned(run, place):
    """The pairs of a run that now stand the other way round; `place` has for each step where it now stands."""
    return ((a, b) for a in run for b in range(a + 1, run.stop) if place[b] < place[a])


def at_once(steps, said, found, order):
    """Of two steps of one record that changed places, neither of them refused, both are gets or both adds."""
    place = {k: i for i, k in enumerate(order)}
    for run in found:
        kinds = collections.defaultdict(set)
        for k in run:
            kinds[steps[k][2]] |= {steps[k][0]} if said[k][0] != "refused" else set()
        mixed = {x for x, there in kinds.items() if PUT in there or len(there) > 1}
        for a, b in turned(run, place) if mixed else ():
            r, q = steps[a], steps[b]
            if r[2] == q[2] and r[2] in mixed and "refused" not in (said[a][0], said[b][0]) and (r[0] != q[0] or r[0] == PUT):
                raise AtOnce(f"parties {r[1]} and {q[1]}, who hold at once, both get, put or add to record {r[2]}, in steps {a + 1} and {b + 1}, and not both get or both add")


def compared(steps, lines, other, other_lines, refused_too=False, read=0):
    """Asks it of two files' steps and listings, by the runs or by the wider ones; the last `read` steps are those by which the values are read. The answers, the
    runs, and for each step of the other file its place in the first."""
    said = answers(steps, lines)
    if any(words[0] != "value" for words in said[len(said) - read:]):
        raise NotRead("the values cannot be read at the end")
    found = runs(steps, said, refused_too)
    order = order_of(steps, other, found)
    for i, k in enumerate(order):
        line = other_lines[i] if i < len(other_lines) else "nothing"
        if line != " ".join([str(i + 1), *said[k]]):
            raise Differs(f"step {k + 1} has the line '{lines[k]}', and as step {i + 1} of the rearranged file '{line}'")
    if other_lines[len(steps):] != lines[len(steps):]:
        raise Differs(f"behind the steps stands '{' / '.join(lines[len(steps):])}', and in the rearranged file '{' / '.join(other_lines[len(steps):])}'")
    at_once(steps, said, found, order)
    return said, found, order


# ---- rearranging: each way makes of a run's row of parties another row of them

def one_swap(rnd, row):
    at = rnd.choice([k for k in range(len(row) - 1) if row[k] != row[k + 1]])
    return [*row[:at], row[at + 1], row[at], *row[at + 2:]]


def each_pair(rnd, row):
    """Neighbours swapped, two by two, from the first on or from the second."""
    at = rnd.randrange(2) if len(row) > 2 else 0
    return [*row[:at], *(p for k in range(at, len(row), 2) for p in row[k:k + 2][::-1])]


def by_party(rnd, row):
    every = rnd.sample(sorted(set(row)), len(set(row)))
    return sorted(row, key=every.index)


def one_first(rnd, row):
    party = rnd.choice(row)
    return sorted(row, key=lambda p: p != party)


def one_last(rnd, row):
    party = rnd.choice(row)
    return sorted(row, key=lambda p: p == party)


ONE_SWAP, ANYHOW, BACK = "one swap", "anyhow", "the row of parties from the back"
WAYS = {ONE_SWAP: one_swap, ANYHOW: lambda rnd, row: rnd.sample(row, len(row)), "each pair swapped": each_pair, "party by party": by_party, "one party first": one_first,
        "one party last": one_last, BACK: lambda rnd, row: row[::-1]}
TRIED_WAYS = (BACK, ANYHOW, ONE_SWAP)


def in_turn(part, row):
    """The steps of a run as this row of parties has them, each party's in their order."""
    left = {p: iter([r for r in part if r[1] == p]) for p in set(row)}
    return [next(left[p]) for p in row]


def rearranged(rnd, way, steps, found):
    """The steps with all runs rearranged in this way, with one swap in one run alone; None where none has two parties."""
    wide = [run for run in found if len({steps[k][1] for k in run}) > 1]
    if not wide:
        return None
    out = list(steps)
    for run in [rnd.choice(wide)] if way == ONE_SWAP else wide:
        part = steps[run.start:run.stop]
        out[run.start:run.stop] = in_turn(part, WAYS[way](rnd, [r[1] for r in part]))
    return out


# ---- what there is to see in a rearranged file

PAIRS = {
    (GET, GET, True): "get and get of one record", (GET, GET, False): "get and get of two", (GET, PUT, False): "get and put", (PUT, PUT, False): "put and put",
    (ADD, ADD, True): "add and add of one record", (ADD, ADD, False): "add and add of two", (PUT, ADD, False): "put and add", (GET, ADD, False): "get and add",
}
WRAPS, WRAPS_NOW = "add and add of one record, of which one passes 2 to the 64", "an add that passes 2 to the 64 in one of the two files alone"
NEXT_TO, OVERLAP = "put and put of visits whose intervals touch", "get and get of visits whose intervals overlap and are not equal"
LARGER = "a visit inside another one's interval"
OWN = "a put and the party's own get behind it, with others' steps between that were not there"
OWN_TWICE = "two puts of one record by one party, others' steps between them moved"
BETWEEN, OTHERS = "a get between two puts of others, moved", "a put between two gets of others, moved"
THREE, EIGHT, SIXTEEN, ALL = "a run of 3 parties or more", "of 8 or more", "of 16 or more", "of 32"
SHORT, TEN, FIFTY = "a run of two steps", "of 10 or more", "of 50 or more"
FAR, FARTHER, BLOCK = "a step moved by 10 places or more", "by 50 or more", "a step moved into another block"
EVERY_MODE, WAITER, WAITERS = "a run in which get, put and add are", "a run while one waits", "while two or more wait"
FREED, NAMES = "a step of one whom a leave granted", "a step of a visit of several names"
FIRST, LAST, READERS, ADDERS = "a step of party 0", "a step of party 31", "one record got by 4 or more in a run", "one record added to by 4 or more in a run"
BEFORE_ENTER, BEFORE_LEAVE, BEFORE_REFUSED = "a run that an enter ended", "that a leave ended", "that a refused step ended"
TWO_RUNS, GIVEN, READ = "two runs or more rearranged", "a value record in the file", "a nonzero value read at the end that an add or put of a moved step left"
SEEN = [*PAIRS.values(), WRAPS, WRAPS_NOW, NEXT_TO, OVERLAP, LARGER, OWN, OWN_TWICE, BETWEEN, OTHERS, THREE, EIGHT, SIXTEEN, ALL, SHORT, TEN, FIFTY, FAR, FARTHER,
        BLOCK, EVERY_MODE, WAITER, WAITERS, FREED, NAMES, FIRST, LAST, READERS, ADDERS, BEFORE_ENTER, BEFORE_LEAVE, BEFORE_REFUSED, TWO_RUNS, GIVEN, READ]
# the same of a file whose wider runs were rearranged, of the refused steps in them
PAST, TWO_REFUSED = "a refused step moved past one that was not", "two refused ones swapped"
NUMBERED = {number: f"one refused with {number}" for number in (11, 13, 14, 15, 16, 17, 18)}
BESIDE = {(PUT, "17", GET): "a put refused with 17 moved past a get of that record", (ADD, "18", GET): "an add refused with 18 past a get of it",
          (GET, "18", ADD): "a get refused with 18 past an add to it", (PUT, "14", GET): "a waiter's put past a get of it",
          **{(PUT, "14", kind): "a waiter's put past a put of it or an add to it" for kind in (PUT, ADD)}}
SEEN_REFUSED = [PAST, TWO_REFUSED, *NUMBERED.values(), *dict.fromkeys(BESIDE.values())]
FEW = 20


def sums(file, steps, said, order):
    """The steps, by their places in the first file, whose adding passes 2 to the 64 where they are taken in this order."""
    values, out = dict(file.given), set()
    for k in order:
        r, number = steps[k], model.little(steps[k][4:12])
        if said[k] == ["stored"]:
            values[r[2]] = number
        elif said[k] == ["added"]:
            out |= {k} if values.get(r[2], 0) + number >= 2**64 else set()
            values[r[2]] = (values.get(r[2], 0) + number) % 2**64
    return out


def visits(steps, said, h):
    """For each step the names and the cover of its party's visit, and whether a leave granted it; and how many then wait. By the enters and the answers."""
    names, freed, waiting, out = {}, set(), set(), []
    for r, (word, *rest) in zip(steps, said):
        if r[0] == ENTER and word != "refused":
            names[r[1]] = r[4:4 + r[3]], h.cover(r[4:4 + r[3]])
            freed.discard(r[1])
            waiting |= {r[1]} if word == "waits" else set()
        elif word == "left":
            freed |= set(map(int, rest))
            waiting -= {r[1], *map(int, rest)}
        out.append((*names.get(r[1], ((), None)), r[1] in freed, len(waiting)))
    return out


def seen_in(file, steps, said, found, order):
    """What is in a rearranged file, by what was moved in it."""
    h, before, now, of = file.h, sums(file, steps, said, range(len(steps))), sums(file, steps, said, order), visits(steps, said, file.h)
    place = {k: i for i, k in enumerate(order)}
    changed = [run for run in found if any(place[k] != k for k in run)]
    yield TWO_RUNS, len(changed) > 1
    yield GIVEN, file.given != {}
    yield WRAPS_NOW, before != now
    touched = {steps[k][2] for run in changed for k in run if place[k] != k and steps[k][0] != GET}
    yield READ, any(words[0] == "value" and words[1] != "0" and r[2] in touched for r, words in zip(steps[file.end:], said[file.end:]))
    for run in changed:
        yield from seen_in_run(h, steps, of, run, place, before)
        moved = [abs(place[k] - k) for k in run]
        yield FAR, max(moved) >= 10
        yield FARTHER, max(moved) >= 50
        yield BLOCK, any((file.head + k) // 31 != (file.head + place[k]) // 31 for k in run)
        behind = steps[run.stop][0], said[run.stop][0]
        yield BEFORE_REFUSED, behind[1] == "refused"
        yield BEFORE_ENTER, behind[0] == ENTER and behind[1] != "refused"
        yield BEFORE_LEAVE, behind[0] == LEAVE and behind[1] != "refused"


def seen_in_run(h, steps, of, run, place, before):
    """What is in a run that was rearranged; `place` has for each step where it now stands."""
    part = [steps[k] for k in run]
    count, kinds = len({r[1] for r in part}), {r[0] for r in part}
    for what, least in ((THREE, 3), (EIGHT, 8), (SIXTEEN, 16), (ALL, 32)):
        yield what, count >= least
    yield SHORT, len(part) == 2
    yield TEN, len(part) >= 10
    yield FIFTY, len(part) >= 50
    yield EVERY_MODE, len(kinds) == 3
    yield WAITER, of[run.start][3] > 0
    yield WAITERS, of[run.start][3] > 1
    yield FREED, any(of[k][2] and place[k] != k for k in run)
    yield NAMES, any(len(set(of[k][0])) > 1 and place[k] != k for k in run)
    for what, party in ((FIRST, 0), (LAST, 31)):
        yield what, any(steps[k][1] == party and place[k] != k for k in run)
    for what, kind in ((READERS, GET), (ADDERS, ADD)):
        who = collections.defaultdict(set)
        for r in part:
            who[r[2]] |= {r[1]} if r[0] == kind else set()
        yield what, max(map(len, who.values())) >= 4
    for a, b in turned(run, place):
        yield from seen_in_pair(h, steps[a], steps[b], of[a][1], of[b][1], bool(before & {a, b}))
    for k in run[1:-1]:
        kind, others = steps[k][0], steps[k][1] not in (steps[k - 1][1], steps[k + 1][1])
        yield BETWEEN, kind == GET and others and steps[k - 1][0] == steps[k + 1][0] == PUT and place[k] != k
        yield OTHERS, kind == PUT and others and steps[k - 1][0] == steps[k + 1][0] == GET and place[k] != k
    last = {}
    for k in run:
        r = steps[k]
        if r[0] != ADD and (r[1], r[2]) in last:
            p = last[r[1], r[2]]
            was, is_now = ({x for x in run if at(p) < at(x) < at(k) and steps[x][1] != r[1]} for at in (lambda x: x, place.get))
            yield OWN, r[0] == GET and bool(is_now - was)
            yield OWN_TWICE, r[0] == PUT and was != is_now
        if r[0] == PUT:
            last[r[1], r[2]] = k


def seen_in_pair(h, a, b, cover_a, cover_b, wraps):
    """Of two steps that now stand the other way round."""
    pair = (*sorted((a[0], b[0])), a[2] == b[2])
    yield PAIRS[pair], True
    yield WRAPS, pair == (ADD, ADD, True) and wraps
    (x, y), (v, w) = sorted(((h.low[cover_a], h.high[cover_a]), (h.low[cover_b], h.high[cover_b])))
    yield NEXT_TO, pair[:2] == (PUT, PUT) and v == y + 1
    yield OVERLAP, pair[:2] == (GET, GET) and v <= y and (x, y) != (v, w)
    yield LARGER, v <= y and (x < v and w <= y or x == v and y != w)


def seen_refused(steps, said, found, order):
    """What is in a file whose wider runs were rearranged, of the refused steps that were moved past another one."""
    place = {k: i for i, k in enumerate(order)}
    for a, b in (pair for run in found for pair in turned(run, place)):
        refused = [k for k in (a, b) if said[k][0] == "refused"]
        yield PAST, len(refused) == 1
        yield TWO_REFUSED, len(refused) == 2
        for k in refused:
            yield NUMBERED[int(said[k][1])], True
        if len(refused) == 1 and steps[a][2] == steps[b][2]:
            k, = refused
            beside = steps[k][0], said[k][1], steps[a + b - k][0]
            yield BESIDE.get(beside), beside in BESIDE


# ---- the files

# how often visits are reading, writing and adding, of ten
MODES = ((4, 4, 2), (2, 4, 4), (8, 2, 0), (2, 8, 0), (0, 10, 0), (0, 4, 6), (10, 0, 0), (0, 0, 10))
BOLD_MODES = ((4, 3, 3), (4, 3, 3), (5, 5, 0), (0, 5, 5), (10, 0, 0), (0, 10, 0), (0, 10, 0), (0, 0, 10))
ODD = ["mode", "mode", "theirs", "about", "about", "out"]      # styles of steps that take effect only by chance
# how many records the kinds of hierarchies have
KINDS = {"one record": [1], "leaves": [4, 8, 16, 40], "overlapping intervals": [10, 16, 40], "a tree": [5, 15, 31], "shared records and cycles": [6, 10, 16, 24],
         "many records": [100, 256]}
OFTEN = {"leaves": 3, "a tree": 3, "shared records and cycles": 3, "overlapping intervals": 2, "one record": 1, "many records": 0.3}
NUMBERS = (0, 1, 2, 2**63, 2**64 - 1, 2**64 - 2)


class File:
    """A file's hierarchy, its value records, its steps, and how many of these stand before those by which the values are read."""

    def __init__(self, n, edges, given, steps, reading):
        self.h = model.Hierarchy(n, edges)
        cover = functools.lru_cache(None)(self.h.cover)     # a file is listed many times
        self.h.cover = lambda names: cover(tuple(names))
        self.given = {r[1]: model.little(r[4:12]) for r in given}
        self.first = [record(1, n & 255, n >> 8), *(record(2, p, c) for p, c in edges), *given]
        self.head, self.end, self.steps = len(self.first), len(steps), steps + reading

    def data(self, steps):
        return compare.blocks([*self.first, *steps])


def number(rnd):
    return rnd.choice((rnd.choice(NUMBERS), rnd.randrange(1000), rnd.getrandbits(64), 2**64 - 1 - rnd.randrange(1000)))


def wanted(rnd, desk, mode):
    """The names of a call: most often a record that conflicts with nobody, or next to a holder's interval; for readers and adders at times several."""
    h, there = desk.h, [*desk.holds.values(), *desk.calls.values()]
    free = [x for x in range(h.n) if not any(desk.conflict((mode, x), v) for v in there)]     # for one name the cover has its interval
    beside = [x for x in free if any(h.low[x] == h.high[v[1]] + 1 or h.high[x] == h.low[v[1]] - 1 for v in there)]
    small = [x for x in free if h.width(x) == 0]
    groups = [group for group in (free, free, beside, beside, small, small, small, range(h.n)) if group]
    if mode != model.WRITING:
        groups += [[v[2][0] for v in there if v[0] == mode] or range(h.n)] * 4
    return [rnd.choice(rnd.choice(groups)) for _ in range(rnd.choice((1, 1, 1, 1, 2, 5) if mode != model.WRITING else (1, 1, 1, 1, 1, 1, 1, 2)))]


def odd(rnd, h, reached, few, style):
    """A step that takes effect only by chance. By its style it is of a kind that the party's mode does not allow, of a record that the party's names do not reach:
    one that another's reach, or that shares a number with its interval; or of a party that is out."""
    party, out = rnd.choice([*reached]), rnd.choice([p for p in range(40) if p not in reached])
    nodes, cover, mode = reached[party]
    apart = [x for x in range(h.n) if x not in nodes] or [min(h.n, 255)]
    theirs = [x for x in reached[rnd.choice([*reached])][0] if x in apart] or apart
    about = [x for x in apart if x < h.n and h.low[x] <= h.high[cover] and h.low[cover] <= h.high[x]] or theirs
    hot, allowed = [x for x in few if x in nodes] or nodes[:1], [k for k in MOVED if mode in compare.ALLOWED[k]]
    kind, party, node = {"mode": (rnd.choice(MOVED), party, rnd.choice(hot)), "theirs": (rnd.choice(allowed), party, rnd.choice(theirs)),
                         "about": (allowed[-1], party, about[0]), "out": (rnd.choice(MOVED), out, rnd.randrange(h.n))}[style]
    return record(kind, party, node, *((0, rnd.randrange(1, 256)) if kind != GET else ()))


def traffic(rnd, h, bold):
    """Steps in rounds: parties come until so many are in, those of them who hold get, put and add in a long muddle, and some leave. The model's desk says who holds.
    In bold files two to four come, over one record or apart, and all of them get, put and add, those who wait and what their mode does not allow too; much of that
    is refused, and a desk that lets too much through shows it. In some of them there is a queue: two come who read or add, and others behind them, over one record;
    those who hold step, and leave before the others."""
    desk, out = model.Desk(h), []

    def take(r):
        out.append(r)
        try:
            return model.perform(desk, r)
        except model.Refusal:
            return "refused"

    modes, few = rnd.choice(MODES if not bold else BOLD_MODES), rnd.sample(range(h.n), min(h.n, rnd.choice((1, 2, 4))))
    apart, blind = modes == (0, 10, 0) or rnd.random() < 0.4, rnd.choice((0, 0.3, 0.4)) if bold else rnd.choice((0, 0, 0, 0.02, 0.05, 0.3))
    styles, queue = rnd.choice((ODD, ODD, *([style] for style in ODD))), bold and rnd.random() < 0.3
    for _ in range(rnd.choice((1, 1, 2, 3, 4)) if not bold else 4):
        most = rnd.choice((2, 2, 3, 5, 8, 12, 32, 32, 32)) if not bold else rnd.choice((2, 3, 4)) if not queue else rnd.choice((4, 5, 6))
        first = rnd.choice((model.READING, model.ADDING))
        for _ in range(2 * most if not bold else most):
            away = [p for p in range(32) if p not in desk.holds and p not in desk.calls]
            if len(desk.holds) >= most or not away:
                break
            mode, party = rnd.choices((model.READING, model.WRITING, model.ADDING), modes)[0], rnd.choice((rnd.choice(away), away[-1], away[0]))
            if queue:
                mode = first if len(desk.holds) < 2 else rnd.choice((model.READING, model.WRITING, model.WRITING, model.ADDING))
            names = wanted(rnd, desk, mode) if not bold else [rnd.choice([x for x in range(h.n) if apart and not queue or few[0] in h.reaches[x]])]
            if take(record(ENTER, party, mode, len(names), *names)) == "waits" and not bold and rnd.random() < 0.8:
                take(record(LEAVE, party))
        there = {**desk.holds, **(desk.calls if bold and not queue else {})}
        reached = {p: (sorted(desk.reached(names)), cover, mode) for p, (mode, cover, names) in there.items()}
        row, own = rnd.sample([*reached], min(len(reached), rnd.choice((2, 3, 5, 8, 32, 32, 32)))), {}
        turns = row + rnd.choices(row, k=rnd.choice((0, 0, 2, 4, 8, 15, 30, 70, 90)) if not bold else 8) if row else []
        for party in rnd.sample(turns, len(turns)):
            if rnd.random() < blind:
                take(odd(rnd, h, reached, few, rnd.choice(styles)))
                continue
            if len(desk.holds) > 1 and desk.calls and bold and rnd.random() < 0.15:
                take(record(LEAVE, rnd.choice([*desk.holds])))
            nodes, _, mode = reached[party]
            kind = {model.READING: GET, model.WRITING: rnd.choice((GET, PUT)), model.ADDING: ADD}[mode]
            hot = [x for x in few if x in nodes] or nodes[:1]
            node = own[party] if kind != ADD and party in own and rnd.random() < 0.5 else rnd.choice(hot if rnd.random() < 0.6 else nodes)
            own.update({party: node} if kind == PUT else {})
            take(record(kind, party, node, *((0, *number(rnd).to_bytes(8, "little")) if kind != GET else ())))
        inside, held = [*desk.holds, *desk.calls], [*desk.holds]
        for p in sorted(rnd.sample(inside, rnd.randrange(len(inside) + 1) if not bold else len(inside)), key=lambda p: queue and p not in held):
            take(record(LEAVE, p))
    return out


def one(rnd, least=0.0):
    """The kind of a file, and the file. 0.1 is the least with which it has none of compare.py's steps, and 0.7 that with which it is bold."""
    kind, style = rnd.choices([*OFTEN], OFTEN.values())[0], rnd.uniform(least, 1)
    n = rnd.choice(KINDS[kind])
    if "overlapping" in kind:
        edges = compare.windows(rnd, n)
    elif "leaves" in kind:
        edges = [(0, c) for c in range(1, n)]
    else:
        edges = compare.legal(rnd, n, n if "shared" in kind else 0)
    h = model.Hierarchy(n, edges)
    steps = compare.steps(rnd, h, rnd.choice((20, 60))) if style < 0.1 else traffic(rnd, h, style > 0.7)
    reader = rnd.choice((0, rnd.randrange(32), 31))
    reading = [record(LEAVE, p) for p in sorted({r[1] for r in steps if r[0] == ENTER and r[1] < 32})]
    reading += [record(ENTER, reader, rnd.choice((model.READING, model.WRITING)), 1, 0), *(record(GET, reader, x) for x in range(n))]
    return kind, File(n, edges, compare.values(rnd, n), steps, reading)


# ---- the check is tried itself

# Pairs of short listings, and what is told of them. A party with r, w or a enters, reading, writing or adding; with g it gets, with p it puts, with + it adds, and
# then the record stands, and the number behind =; with - it leaves.
READERS_TWO, WRITERS_TWO, ADDERS_TWO = "0r granted 0, 1r granted 0", "0w1 granted 1, 1w2 granted 2", "0a granted 0, 1a granted 0"
WRITTEN = [
    (f"{READERS_TWO}, 0g value 5, 1g value 5, end 2 0 2", f"{READERS_TWO}, 1g value 5, 0g value 5, end 2 0 2", None),
    (f"{READERS_TWO}, 0g value 5, 1g1 value 6, end 2 0 2", f"{READERS_TWO}, 1g1 value 6, 0g value 5, end 2 0 2", None),
    (f"{WRITERS_TWO}, 0p1=7 stored, 1p2=8 stored, 0g1 value 7, 1g2 value 8, end 2 0 2",
     f"{WRITERS_TWO}, 1p2=8 stored, 1g2 value 8, 0p1=7 stored, 0g1 value 7, end 2 0 2", None),
    (f"{ADDERS_TWO}, 0+=7 added, 1+=8 added, 0- left, 1- left, 0r granted 0, 0g value 15, end 1 0 3, party 0 2, party 1 1",
     f"{ADDERS_TWO}, 1+=8 added, 0+=7 added, 0- left, 1- left, 0r granted 0, 0g value 15, end 1 0 3, party 0 2, party 1 1", None),
    ("0r granted 0, 0g value 5, 0g1 value 6, end 1 0 1", "0r granted 0, 0g value 5, 0g1 value 6, end 1 0 1", None),                              # nothing moved
    # another answer of a moved step, of a step behind the run, another end or line of a party; an answer that stays at its place instead of going with its step
    (f"{READERS_TWO}, 0g value 5, 1g value 6, end 2 0 2", f"{READERS_TWO}, 1g value 5, 0g value 6, end 2 0 2", Differs),
    (f"{READERS_TWO}, 0g value 5, 1g1 value 6, end 2 0 2", f"{READERS_TWO}, 1g1 value 5, 0g value 6, end 2 0 2", Differs),
    (f"{ADDERS_TWO}, 0+=7 added, 1+=8 added, 0- left, 1- left, 0r granted 0, 0g value 15, end 1 0 3",
     f"{ADDERS_TWO}, 1+=8 added, 0+=7 added, 0- left, 1- left, 0r granted 0, 0g value 7, end 1 0 3", Differs),
    (f"{WRITERS_TWO}, 0p1=7 stored, 1p2=8 stored, 2r waits, 0- left, end 1 1 2", f"{WRITERS_TWO}, 1p2=8 stored, 0p1=7 stored, 2r waits, 0- left 2, end 1 1 2", Differs),
    (f"{WRITERS_TWO}, 0p1=7 stored, 1p2=8 stored, 2r waits, end 2 1 2", f"{WRITERS_TWO}, 1p2=8 stored, 0p1=7 stored, 2r granted 0, end 2 1 2", Differs),
    (f"{READERS_TWO}, 0g value 5, 1g value 5, end 2 0 2", f"{READERS_TWO}, 1g value 5, 0g refused 16, end 2 0 2", Differs),
    (f"{READERS_TWO}, 0g value 5, 1g value 5, end 2 0 2", f"{READERS_TWO}, 1g value 5, 0g value 5, end 1 0 2", Differs),
    (f"{READERS_TWO}, 0g value 5, 1g value 5, end 2 0 2, party 0 1, party 1 1", f"{READERS_TWO}, 1g value 5, 0g value 5, end 2 0 2, party 0 1, party 1 2", Differs),
    (f"{READERS_TWO}, 0g value 5, 1g value 5, end 2 0 2, party 0 1, party 1 1", f"{READERS_TWO}, 1g value 5, 0g value 5, end 2 0 2, party 0 1", Differs),
    (f"{READERS_TWO}, 0g value 5, 1g value 5, end 2 0 2", f"{READERS_TWO}, 1g value 5, 0g value 5", Differs),
    # a party's own order, a step moved over an enter, a leave or a refused step, an enter moved, another step in place of one
    ("0w granted 0, 0p=5 stored, 0g value 5, end 1 0 1", "0w granted 0, 0g value 0, 0p=5 stored, end 1 0 1", NotOfThese),
    ("0r granted 0, 0g value 5, 1r granted 0, 1g value 5, end 2 0 2", "0r granted 0, 1r granted 0, 0g value 5, 1g value 5, end 2 0 2", NotOfThese),
    (f"{READERS_TWO}, 0g value 5, 1- left, end 1 0 2", f"{READERS_TWO}, 1- left, 0g value 5, end 1 0 2", NotOfThese),
    (f"{READERS_TWO}, 0g value 5, 1p=6 refused 17, end 2 0 2", f"{READERS_TWO}, 1p=6 refused 17, 0g value 5, end 2 0 2", NotOfThese),
    (f"{READERS_TWO}, 0g value 5, 1p=6 refused 17, 1g value 5, end 2 0 2", f"{READERS_TWO}, 1p=6 refused 17, 1g value 5, 0g value 5, end 2 0 2", NotOfThese),
    ("0r granted 0, 1r granted 0, end 2 0 2", "1r granted 0, 0r granted 0, end 2 0 2", NotOfThese),
    ("0w granted 0, 1r waits, 1g refused 14, 0- left 1, end 1 0 2", "0w granted 0, 1r waits, 0- left 1, 1g value 0, end 1 0 2", NotOfThese),
    (f"{ADDERS_TWO}, 0+=7 added, 1+=8 added, end 2 0 2", f"{ADDERS_TWO}, 1+=7 added, 0+=8 added, end 2 0 2", NotOfThese),
    (f"{READERS_TWO}, 0g value 5, 1g value 5, end 2 0 2", f"{READERS_TWO}, 1g value 5, end 2 0 2", NotOfThese),
    # one who waits or is out and gets all the same; no end; an answer of another kind
    ("0w granted 0, 1r waits, 1g value 5, 0g value 5, end 1 1 1", "0w granted 0, 1r waits, 0g value 5, 1g value 5, end 1 1 1", CannotBe),
    (f"{READERS_TWO}, 1- left, 0g value 5, 1g value 5, end 1 0 2", f"{READERS_TWO}, 1- left, 1g value 5, 0g value 5, end 1 0 2", CannotBe),
    (f"{READERS_TWO}, 0g value 5, 1g value 5", f"{READERS_TWO}, 1g value 5, 0g value 5", CannotBe),
    (f"{READERS_TWO}, 0g stored, 1g value 5, end 2 0 2", f"{READERS_TWO}, 1g value 5, 0g stored, end 2 0 2", CannotBe),
    # the same answers of two steps of one record, of which one puts, or one gets and one adds: a get beside a put, behind it and before it, two puts, and on
    ("0w granted 0, 1r granted 0, 0p=7 stored, 1g value 5, end 2 0 2", "0w granted 0, 1r granted 0, 1g value 5, 0p=7 stored, end 2 0 2", AtOnce),
    ("0r granted 0, 1w granted 0, 0g value 5, 1p=7 stored, end 2 0 2", "0r granted 0, 1w granted 0, 1p=7 stored, 0g value 5, end 2 0 2", AtOnce),
    ("0a granted 0, 1r granted 0, 0+=7 added, 1g value 5, end 2 0 2", "0a granted 0, 1r granted 0, 1g value 5, 0+=7 added, end 2 0 2", AtOnce),
    ("0a granted 0, 1r granted 0, 1g value 5, 0+=7 added, end 2 0 2", "0a granted 0, 1r granted 0, 0+=7 added, 1g value 5, end 2 0 2", AtOnce),
    ("0w granted 0, 1w granted 0, 0p=7 stored, 1p=7 stored, end 2 0 2", "0w granted 0, 1w granted 0, 1p=7 stored, 0p=7 stored, end 2 0 2", AtOnce),
    ("0w granted 0, 1a granted 0, 0p=7 stored, 1+=0 added, end 2 0 2", "0w granted 0, 1a granted 0, 1+=0 added, 0p=7 stored, end 2 0 2", AtOnce),
    ("0w granted 0, 1r granted 0, 0p1=7 stored, 0g value 5, 1g1 value 5, end 2 0 2", "0w granted 0, 1r granted 0, 1g1 value 5, 0p1=7 stored, 0g value 5, end 2 0 2", AtOnce),
    # of two records, in the order that they had, of one party, and of parties of whom one left first: nothing of that
    ("0w granted 0, 1r granted 0, 0p1=7 stored, 1g2 value 5, end 2 0 2", "0w granted 0, 1r granted 0, 1g2 value 5, 0p1=7 stored, end 2 0 2", None),
    ("0w granted 0, 1r granted 0, 0p=7 stored, 1g value 5, 0g1 value 6, end 2 0 2", "0w granted 0, 1r granted 0, 0p=7 stored, 0g1 value 6, 1g value 5, end 2 0 2", None),
    (f"{WRITERS_TWO}, 0p1=7 stored, 0g1 value 7, 1g2 value 5, end 2 0 2", f"{WRITERS_TWO}, 1g2 value 5, 0p1=7 stored, 0g1 value 7, end 2 0 2", None),
    ("0w granted 0, 0p=7 stored, 0- left, 1r granted 0, 2r granted 0, 1g value 7, 2g value 7, end 2 0 3",
     "0w granted 0, 0p=7 stored, 0- left, 1r granted 0, 2r granted 0, 2g value 7, 1g value 7, end 2 0 3", None),
]
WAITS = "0w granted 0, 1w waits"
# Pairs of which it is asked by the wider runs.
WRITTEN_WIDER = [
    (f"{READERS_TWO}, 0g value 5, 1g1 value 6, end 2 0 2", f"{READERS_TWO}, 1g1 value 6, 0g value 5, end 2 0 2", None),
    (f"{READERS_TWO}, 0g value 5, 1p=6 refused 17, end 2 0 2", f"{READERS_TWO}, 1p=6 refused 17, 0g value 5, end 2 0 2", None),
    (f"{READERS_TWO}, 0g value 5, 1p=6 refused 17, 1g value 5, end 2 0 2", f"{READERS_TWO}, 1p=6 refused 17, 1g value 5, 0g value 5, end 2 0 2", None),
    (f"{READERS_TWO}, 0+=1 refused 18, 1p=6 refused 17, end 2 0 2", f"{READERS_TWO}, 1p=6 refused 17, 0+=1 refused 18, end 2 0 2", None),
    (f"{ADDERS_TWO}, 0g refused 18, 1+=6 added, 1p=7 refused 18, end 2 0 2", f"{ADDERS_TWO}, 1+=6 added, 1p=7 refused 18, 0g refused 18, end 2 0 2", None),
    (f"{WAITS}, 0p=5 stored, 1p=6 refused 14, 0g value 5, end 1 1 1", f"{WAITS}, 1p=6 refused 14, 0p=5 stored, 0g value 5, end 1 1 1", None),
    ("0r granted 0, 0g value 5, 1g refused 13, 40g refused 11, end 1 0 1", "0r granted 0, 40g refused 11, 1g refused 13, 0g value 5, end 1 0 1", None),
    (f"{WRITERS_TWO}, 0p1=7 stored, 1g1 refused 16, 1g200 refused 15, end 2 0 2", f"{WRITERS_TWO}, 1g1 refused 16, 1g200 refused 15, 0p1=7 stored, end 2 0 2", None),
    # another number, a number that stays at its place, one that is refused in one order alone; another answer or end behind it
    (f"{READERS_TWO}, 0g value 5, 1p=6 refused 17, end 2 0 2", f"{READERS_TWO}, 1p=6 refused 18, 0g value 5, end 2 0 2", Differs),
    (f"{READERS_TWO}, 0+=1 refused 18, 1p=6 refused 17, end 2 0 2", f"{READERS_TWO}, 1p=6 refused 18, 0+=1 refused 17, end 2 0 2", Differs),
    (f"{READERS_TWO}, 0g value 5, 1p=6 refused 17, end 2 0 2", f"{READERS_TWO}, 1p=6 stored, 0g value 5, end 2 0 2", Differs),
    (f"{READERS_TWO}, 0g value 5, 1p=6 refused 17, end 2 0 2", f"{READERS_TWO}, 1p=6 refused 17, 0g value 6, end 2 0 2", Differs),
    (f"{WAITS}, 0p=5 stored, 1p=6 refused 14, 0g value 6, end 1 1 1", f"{WAITS}, 1p=6 refused 14, 0p=5 stored, 0g value 5, end 1 1 1", Differs),
    (f"{WAITS}, 0p=5 stored, 1p=6 refused 14, 0- left 1, 1g value 6, end 1 0 2", f"{WAITS}, 1p=6 refused 14, 0p=5 stored, 0- left 1, 1g value 5, end 1 0 2", Differs),
    (f"{READERS_TWO}, 0g value 5, 1p=6 refused 17, end 2 0 2", f"{READERS_TWO}, 1p=6 refused 17, 0g value 5, end 2 0 3", Differs),
    # a party's own order; over an enter or a leave, granted, left or refused
    ("0r granted 0, 0p=6 refused 17, 0g value 5, end 1 0 1", "0r granted 0, 0g value 5, 0p=6 refused 17, end 1 0 1", NotOfThese),
    (f"{WAITS}, 1g refused 14, 0- left 1, end 1 0 2", f"{WAITS}, 0- left 1, 1g refused 14, end 1 0 2", NotOfThese),
    ("0r granted 0, 1g refused 13, 2r granted 0, end 2 0 2", "0r granted 0, 2r granted 0, 1g refused 13, end 2 0 2", NotOfThese),
    ("0r granted 0, 0g value 5, 1- refused 13, end 1 0 1", "0r granted 0, 1- refused 13, 0g value 5, end 1 0 1", NotOfThese),
    (f"{READERS_TWO}, 0g value 5, 1r refused 12, end 2 0 2", f"{READERS_TWO}, 1r refused 12, 0g value 5, end 2 0 2", NotOfThese),
    # one who waits, or is out, is answered; a get beside a put that was not refused
    (f"{WAITS}, 1g value 5, 0g value 5, end 1 1 1", f"{WAITS}, 0g value 5, 1g value 5, end 1 1 1", CannotBe),
    ("0r granted 0, 1g value 5, 0p=6 refused 17, end 1 0 1", "0r granted 0, 0p=6 refused 17, 1g value 5, end 1 0 1", CannotBe),
    ("0w granted 0, 1r granted 0, 0p=7 stored, 1p=6 refused 17, 1g value 5, end 2 0 2", "0w granted 0, 1r granted 0, 1p=6 refused 17, 1g value 5, 0p=7 stored, end 2 0 2", AtOnce),
]
# Pairs of which the last two steps are those by which the values are read.
WRITTEN_READ = [
    (f"{READERS_TWO}, 0g value 5, 1g value 5, 1- left, 0g value 5, 0g1 value 6, end 1 0 2", f"{READERS_TWO}, 1g value 5, 0g value 5, 1- left, 0g value 5, 0g1 value 6, end 1 0 2", None),
    (f"{READERS_TWO}, 0g1 refused 16, 0- left, 1g value 5, 1g1 value 6, end 1 0 2", f"{READERS_TWO}, 0g1 refused 16, 0- left, 1g value 5, 1g1 value 6, end 1 0 2", None),
    (f"{READERS_TWO}, 0g value 5, 1g value 5, 1- left, 0g value 5, 0g1 refused 16, end 1 0 2", f"{READERS_TWO}, 1g value 5, 0g value 5, 1- left, 0g value 5, 0g1 refused 16, end 1 0 2", NotRead),
    (f"{READERS_TWO}, 0g value 5, 1g value 5, 1- left, 0g1 refused 16, 0g value 5, end 1 0 2", f"{READERS_TWO}, 1g value 5, 0g value 5, 1- left, 0g1 refused 16, 0g value 5, end 1 0 2", NotRead),
    (f"{WAITS}, 1g refused 14, 1g1 refused 14, end 1 1 1", f"{WAITS}, 1g refused 14, 1g1 refused 14, end 1 1 1", NotRead),
]

START, INSIDE = "self.values = [0] * h.n", "mode, _, names = self.holds[party]"
GOT, STORED, SUM = "return f\"value {self.values[record]}\"", "self.values[record] = value\n", "self.values[record] = (self.values[record] + number) % 2**64"
REACHED, TOGETHER, LEFT = "if record not in self.reached(names)", "TOGETHER = {(READING, READING), (ADDING, ADDING)", "del self.holds[party]\n"
NEWCOMER = "[*self.holds.values(), *self.calls.values()]"
STEPPED = [(START, f"{START}\n        self.last = self.previous = None"), (INSIDE, f"{INSIDE}\n        self.previous, self.last = self.last, party")]
# Wrong desks of whose listings it must be told that point 10 does not allow them.
WRONG = {
    "a get adds one to the value that it read": [(GOT, f"self.values[record] += 1\n        {GOT.replace('[record]}', '[record] - 1}')}")],
    "a reader is let in beside a writer": [(TOGETHER, TOGETHER + ", (READING, WRITING)")],
    "a writer is let in beside a reader": [(TOGETHER, TOGETHER + ", (WRITING, READING)")],
    "adding and reading go together": [(TOGETHER, TOGETHER + ", (READING, ADDING), (ADDING, READING)")],
    "adding and writing go together": [(TOGETHER, TOGETHER + ", (WRITING, ADDING), (ADDING, WRITING)")],
    "two writers go together": [(TOGETHER, TOGETHER + ", (WRITING, WRITING)")],
    "intervals that share one end do not conflict": [("self.h.high[cover_a] < self.h.low[cover_b]", "self.h.high[cover_a] <= self.h.low[cover_b]")],
    "visits conflict only where they name one record":
        [("(mode_a, cover_a, *_), (mode_b, cover_b, *_) = a, b", "(mode_a, cover_a, names_a), (mode_b, cover_b, names_b) = a, b"),
         ("return not before and not behind and", "return not {*names_a}.isdisjoint(names_b) and")],
    "a newcomer looks at waiters only": [(NEWCOMER, "self.calls.values()")],
    "a leave looks at earlier waiters only": [("[*self.holds.values(), *before]", "before")],
    "a visit sees all records": [(REACHED, "if False")],
    "a visit sees all records whose interval shares a number with its own": [
        (INSIDE, "mode, cover, names = self.holds[party]"), (REACHED, "if not self.conflict((0, record), (0, cover))")],
    "a reader may put": [("raise Refusal(17)", "pass")],
    "a get is possible in an adding visit": [("if self.inside(party, record) == ADDING:\n", "if self.inside(party, record) == 0:\n")],
    "a put is possible in an adding visit": [("if mode == ADDING:\n", "if mode == 0:\n")],
    "an add is possible in a reading visit": [("if self.inside(party, record) != ADDING", "if self.inside(party, record) == WRITING")],
    "an add puts": [(SUM, "self.values[record] = number")],
    "an add doubles the value first": [(SUM, SUM.replace("(self.values[record] +", "(2 * self.values[record] +"))],
    "an add past the greatest number does nothing": [(SUM, "self.values[record] += number if self.values[record] + number < 2**64 else 0")],
    "a sum past the greatest number is 0": [(SUM, "self.values[record] = self.values[record] + number if self.values[record] + number < 2**64 else 0")],
    "a put is stored when another party steps":
        [(START, f"{START}\n        self.kept = None, 0, 0"), (STORED, "self.kept = party, record, value\n"),
         (INSIDE, f"{INSIDE}\n        if self.kept[0] not in (None, party):\n            self.values[self.kept[1]], self.kept = self.kept[2], (None, 0, 0)")],
    "a get answers the value before the very last put, where that was another's":
        [(START, f"{START}\n        self.kept = None, 0, 0"), (STORED, f"self.kept = party, record, self.values[record]\n        {STORED}"),
         (GOT, "return f\"value {self.kept[2] if self.kept[0] not in (None, party) and self.kept[1] == record else self.values[record]}\"")],
    "gets are counted, and the count is in the answer": [
        (START, f"{START}\n        self.done = 0"), (GOT, "self.done += 1\n        return f\"value {self.values[record] + self.done}\"")],
    "puts are counted, and the count is stored with the value": [
        (START, f"{START}\n        self.done = 0"), (STORED, "self.done += 1\n        self.values[record] = value + self.done\n")],
    "adds are counted, and every third is lost": [
        (START, f"{START}\n        self.done = 0"), (SUM, f"self.done += 1\n        {SUM.replace('+ number)', '+ (number if self.done % 3 else 0))')}")],
    "a get behind another party's step answers 0": [*STEPPED, (GOT, GOT.replace("{self.values[record]}", "{self.values[record] if self.previous in (None, party) else 0}"))],
    "a put behind another party's step is lost": [*STEPPED, (STORED, "self.values[record] = value if self.previous in (None, party) else self.values[record]\n")],
    "a put is stored in record 0 too": [(STORED, f"self.values[0] = value\n        {STORED}")],
    "a leave counts a grant for whoever stepped last": [*STEPPED, (LEFT, f"{LEFT}            self.grants[party if self.last is None else self.last] += 1\n")],
    "a newcomer does not look at the holder who stepped last": [*STEPPED, (NEWCOMER, "[*(v for p, v in self.holds.items() if p != self.last), *self.calls.values()]")],
    "whoever stepped last is asked first to leave": [*STEPPED, (LEFT, "del self.holds[party if self.last not in self.holds else self.last]\n")],
    "the waiters stand by how far their numbers are from that of whoever stepped last": [(INSIDE, f"{INSIDE}\n        self.arrival.sort(key=lambda q: (q - party) % 32)")],
    "a record that is not reached is refused with 15 where another party stepped last": [*STEPPED, ("raise Refusal(16)", "raise Refusal(16 if self.previous in (None, party) else 15)")],
    "the step behind one refused with 16 sees all records":
        [(START, f"{START}\n        self.left = False"), (INSIDE, f"{INSIDE}\n        left, self.left = self.left, False"),
         (f"{REACHED}:\n", f"{REACHED} and not left:\n            self.left = True\n")],
}
# The same of wrong desks on which a refused step does something: by the wider runs it must be told, and by the others it cannot be.
TURNED_AWAY = "if mode == READING:\n", "if self.inside(party, record) != ADDING:\n", "if self.inside(party, record) == ADDING:\n"
TO_PUT = "mode = self.inside(party, record)\n"
WRONG_REFUSED = {
    "a put refused with 17 is stored": [(TURNED_AWAY[0], f"{TURNED_AWAY[0]}            {STORED}")],
    "an add refused with 18 is added": [(TURNED_AWAY[1], f"{TURNED_AWAY[1]}            {SUM}\n")],
    "a get refused with 18 sets the value to 0": [(TURNED_AWAY[2], f"{TURNED_AWAY[2]}            self.values[record] = 0\n")],
    "a put refused with 14 is stored": [(TO_PUT, f"if party in self.calls and record < self.h.n:\n            {STORED}        {TO_PUT}")],
    "a put refused with 13 is stored":
        [(TO_PUT, f"if party < 32 and party not in self.calls and party not in self.holds and record < self.h.n:\n            {STORED}        {TO_PUT}")],
    "an add refused with 14 is added": [
        (TURNED_AWAY[1], f"if party in self.calls and record < self.h.n:\n            {SUM}\n        {TURNED_AWAY[1]}")],
    "a number of a refusal is one more where another party was refused last":
        [(START, f"{START}\n        self.kept = None"),
         ("lines.append(f\"{k} refused {e.number}\")", "lines.append(f\"{k} refused {e.number + (desk.kept not in (None, r[1]))}\")\n            desk.kept = r[1]")],
}
SNAPSHOT = [("self.holds[party] = visit\n", "self.holds[party] = visit\n        self.stood[party] = list(self.values)\n"), (START, f"{START}\n        self.stood = {{}}"),
            (GOT, GOT.replace("self.values[record]", "(self.stood[party] if self.holds[party][0] == READING else self.values)[record]"))]
# Wrong desks of whose listings it must be told that two did at one record what cannot be: of their answers none hangs on the order.
NOT_APART = {
    "readers are let in beside writers, and get what stood when they were granted": [*SNAPSHOT, (TOGETHER, TOGETHER + ", (READING, WRITING), (WRITING, READING)")],
    "readers are let in beside adders, and get what stood when they were granted": [*SNAPSHOT, (TOGETHER, TOGETHER + ", (READING, ADDING), (ADDING, READING)")],
}
# Wrong desks of whose listings it must be told that one steps who does not hold.
NOT_HOLDING = {
    "a waiter may get": [("if party in self.calls:\n            raise Refusal(14)\n        if party not in self.holds:\n            raise Refusal(13)",
                          "if party not in self.holds and party not in self.calls:\n            raise Refusal(13)"),
                         (INSIDE, "mode, _, names = self.holds[party] if party in self.holds else self.calls[party]")],
}
# Wrong desks of whose listings it must be told that the values cannot be read.
NOT_SEEN = {
    "a visit sees only the records that it named": [(REACHED, "if record not in names")],
    "a leave keeps the hold": [(LEFT, "pass\n")],
}
# Wrong desks in whose listings the order of a run shows nowhere: it must be told false of none.
SAME = {
    "a sum stops at the greatest number": [(SUM, "self.values[record] = min(self.values[record] + number, 2**64 - 1)")],
    "an add is an exclusive or": [(SUM, "self.values[record] ^= number")],
    "a get answers the value before the last put of another party at that record":
        [(START, f"{START}\n        self.kept = {{}}"), (STORED, f"self.kept[record] = party, self.values[record]\n        {STORED}"),
         (GOT, "who, old = self.kept.get(record, (party, 0))\n        return f\"value {old if who != party else self.values[record]}\"")],
    "puts are stored when their party leaves":
        [(START, f"{START}\n        self.kept = []"), (STORED, "self.kept.append((party, record, value))\n"),
         (LEFT, f"{LEFT}            for p, x, v in self.kept:\n                self.values[x] = v if p == party else self.values[x]\n"
                "            self.kept = [put for put in self.kept if put[0] != party]\n")],
    "a visit sees all records whose low lies inside its interval": [
        (INSIDE, "mode, cover, names = self.holds[party]"), (REACHED, "if not self.h.contains(cover, self.h.low[record], self.h.low[record])")],
    "all visits conflict but those that go together": [("return not before and not behind and", "return")],
}


def told(check, *listings):
    """What is told, or None."""
    try:
        check(*listings)
    except Told as e:
        return type(e)
    return None


def written(text):
    """The steps and the lines of a short listing."""
    parts = [part.partition(" ") for part in text.split(", ")]
    count = next((k for k, (who, _, _) in enumerate(parts) if who == "end"), len(parts))
    kinds = {"r": (ENTER, model.READING, 1), "w": (ENTER, model.WRITING, 1), "a": (ENTER, model.ADDING, 1), "g": (GET,), "p": (PUT,), "+": (ADD,), "-": (LEAVE,)}
    steps = []
    for who, _, _ in parts[:count]:
        letter = next(c for c in who if c in kinds)
        party, _, rest = who.partition(letter)
        node, _, given = rest.partition("=")
        kind, *fields = kinds[letter]
        steps.append(record(kind, int(party), *fields, int(node or 0), *((0, int(given)) if given else ())))
    return steps, [*(f"{k} {answer}" for k, (_, _, answer) in enumerate(parts[:count], 1)), *map("".join, parts[count:])]


def desk_with(changes):
    """The model's listing, by a model with these changes of its text. Hierarchies, which none changes, are built once."""
    with open(model.__file__, encoding="utf-8") as f:
        text = f.read()
    for old, new in changes:
        if text.count(old) != 1:
            raise SystemExit(f"'{old}' stands {text.count(old)} times in the model, not once")
        text = text.replace(old, new)
    space = {"__name__": "changed"}
    exec(compile(text, "changed", "exec"), space)
    return space


def listed(space, file, steps):
    """The lines of a changed model for these steps of a file."""
    def opened(_):
        desk = space["Desk"](file.h)
        for x, v in file.given.items():
            desk.values[x] = v
        return desk, steps
    space["opened"] = opened
    return space["listing"](b"")


def asked(rnd, listing, file, ways, wider=()):
    """Lists a file, and with its runs rearranged in each of the ways, then with its wider runs, those in which a step was refused, in each of these; and asks it of
    each pair. Yields the way, whether it was of the wider runs, and what `compared` gives."""
    lines = listing(file.steps)
    said = answers(file.steps, lines)
    for refused_too, some in ((law, some) for law, some in ((False, ways), (True, wider)) if some):
        found = [run for run in runs(file.steps, said, refused_too) if not refused_too or any(said[k][0] == "refused" for k in run)]
        for way in some:
            other = rearranged(rnd, way, file.steps, found)
            if other is not None and other != file.steps:
                yield way, refused_too, compared(file.steps, lines, other, listing(other), refused_too, file.h.n)


def told_false(changes, files, seed, what, ways, wider, enough=None):
    """Of how many files this is told of a wrong desk, in some way, and how many were tried for that: no more when there are enough."""
    space, rnd, times = desk_with(changes), random.Random(seed), 0
    for k, file in enumerate(files, 1):
        lines = listed(space, file, file.steps)

        def is_told(*some):
            return told(lambda: list(asked(rnd, lambda steps: lines if steps is file.steps else listed(space, file, steps), file, *some)))
        times += any(issubclass(is_told(*some) or type(None), what) for some in (*(([way],) for way in ways), *(((), [way]) for way in wider)))
        if times == enough:
            return times, k
    return times, len(files)


DESKS = ((WRONG, Differs, TRIED_WAYS, ()), (WRONG_REFUSED, Differs, (), TRIED_WAYS), (NOT_APART, AtOnce, TRIED_WAYS, ()), (NOT_HOLDING, CannotBe, TRIED_WAYS, ()),
         (NOT_SEEN, NotRead, TRIED_WAYS, ()))


def tried(seed):
    """What is wrong with the check, in words."""
    wrong = []
    for pairs, more in ((WRITTEN, ()), (WRITTEN_WIDER, (True,)), (WRITTEN_READ, (False, 2))):
        for first, other, what in pairs:
            is_told = told(compared, *written(first), *written(other), *more)
            if is_told != what:
                wrong.append(f"the check tells {is_told and is_told.__name__}, not {what and what.__name__}, of: {first} and {other}")
    rnd = random.Random(seed)
    files = [file for k in range(TRIED) for _, file in [one(rnd, 0.7 * (k % 2))] if len(file.steps) <= 150]
    times = {name: told_false(changes, files, seed, what, ways, wider, ENOUGH) for desks, what, ways, wider in DESKS for name, changes in desks.items()}
    print("the check told false, of so many files: " + ", ".join(f"{name} {count} of {most}" for name, (count, most) in times.items()))
    wrong += [f"the check is not told false, in {most} files, of a desk where {name}" for name, (count, most) in times.items() if not count]
    for desks, wider in ((SAME, TRIED_WAYS), ({"nothing is changed": []}, TRIED_WAYS), (WRONG_REFUSED, ())):
        wrong += [f"the check is told false of a desk where {name}" for name, changes in desks.items()
                  if told_false(changes, files[:TRUE], seed, Told, TRIED_WAYS, wider, 1)[0]]
    print(f"and of none of {len(files[:TRUE])}, as it cannot be told: {', '.join(SAME)}; by the runs of steps that were not refused: {', '.join(WRONG_REFUSED)}")
    return wrong


# ---- the run

def printed(program, file, steps):
    got, said = compare.run(program, file.data(steps))
    if said:
        raise CannotBe(said)
    return got.splitlines()


def main():
    a = argparse.ArgumentParser(description="holds the listing program to point 10 of document 02 on random files")
    a.add_argument("listing")
    a.add_argument("--files", type=int, default=500)
    a.add_argument("--seed", type=int, default=20261121)
    a.add_argument("--keep", metavar="DIR", help="write the two files that show what is wrong there")
    args = a.parse_args()
    if not os.access(args.listing, os.X_OK):
        print(f"no such program: {args.listing}")
        return 1
    wrong = tried(args.seed)
    rnd, last = random.Random(args.seed), []
    seen, ways, wider, kinds = (collections.Counter() for _ in range(4))

    def listing(steps):
        last[:] = [*last[:1], steps]
        return printed(args.listing, file, steps)

    for k in range(args.files):
        kind, file = one(rnd)
        last.clear()
        some = [ONE_SWAP, ANYHOW, *rnd.sample([*WAYS][2:], 2)]
        try:
            for way, refused_too, (said, found, order) in asked(rnd, listing, file, some, rnd.sample([*WAYS], 4)):
                (wider if refused_too else ways)[way] += 1
                there = seen_refused(file.steps, said, found, order) if refused_too else seen_in(file, file.steps, said, found, order)
                seen.update({w for w, is_there in there if is_there})
        except Told as e:
            print(f"seed {args.seed}: file {k}, {kind}, {len(file.steps)} steps: {e}")
            for steps, which in zip(last, ("first", "other")) if args.keep else ():
                with open(os.path.join(args.keep, f"differs-{args.seed}-{k}-{which}.blocks"), "wb") as f:
                    f.write(file.data(steps))
            return 1
        kinds[kind] += 1
    print(f"seed {args.seed}: {args.files} files, {sum(ways.values())} with their runs rearranged and {sum(wider.values())} with refused steps moved too: each step has its answer, and what is "
          "left is the same")
    print("files: " + ", ".join(f"{w} {n}" for w, n in sorted(kinds.items())))
    print("rearranged: " + ", ".join(f"{w} {ways[w]}" for w in WAYS))
    print("and with refused steps: " + ", ".join(f"{w} {wider[w]}" for w in WAYS))
    print("seen of what was moved, in so many of the former: " + ", ".join(f"{w} {seen[w]}" for w in SEEN))
    print("and of refused steps, in so many of the latter: " + ", ".join(f"{w} {seen[w]}" for w in SEEN_REFUSED))
    wrong += [f"seen in fewer than {FEW}: {w}" for w in (*SEEN, *SEEN_REFUSED) if seen[w] < FEW]
    wrong += [f"fewer than {FEW} rearranged: {w}" for counts in (ways, wider) for w in WAYS if counts[w] < FEW]
    print("\n".join(wrong), end="\n" * bool(wrong))
    return 1 if wrong else 0


if __name__ == "__main__":
    sys.exit(main())
