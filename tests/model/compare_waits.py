#!/usr/bin/env python3
"""Compares the report of waits with the model on random files.

    compare_waits.py WAITS [--files N] [--seed S] [--keep DIR]

WAITS is the program. It prints the seed, how many waits there were in each kind of file and how many of them were needless, and the first difference; it
exits 1 where there is one, where a kind of file that can have them had no wait, or no needless one, where there was a needless wait in a tree with visits
of one name each, or where no adder waited needlessly, or needfully, or needlessly though its reach meets that of an adder who was there.
--keep writes the file that differs into DIR.
Parties mostly come and go, so that many wait. Many files have value records; some files are damaged, and some hierarchies illegal, as in compare.py.
Of each hierarchy the intervals are also worked out as point 2 of document 02 has it: from sets with a bit for each record.
"""
import argparse
import collections
import os
import random
import sys

sys.dont_write_bytecode = True
sys.path.insert(0, os.path.dirname(os.path.abspath(__file__)))
import compare  # noqa: E402
import model  # noqa: E402
from compare import record  # noqa: E402

TREE, NAMES, SHARED, CYCLES = "tree, one name each", "tree, several names", "shared children", "cycles"
BIG = "128 blocks"
# how often visits are reading, writing and adding, of ten
MODES = ((2, 8, 0), (5, 5, 0), (8, 2, 0), (2, 2, 6), (1, 3, 6), (3, 1, 6), (4, 3, 3), (0, 2, 8), (2, 0, 8))


def plain(h):
    """Whether sets with a bit for each record, joined along the edges until nothing changes, are the model's reaches, and their least and greatest numbers its
    intervals."""
    sets, before, number = [1 << x for x in range(h.n)], None, h.numbering()
    while sets != before:
        before = list(sets)
        for x in range(h.n):
            for c in h.children[x]:
                sets[x] |= sets[c]
    numbers = [[k for y, k in number.items() if s >> y & 1] for s in sets]
    reaches = [{y for y in range(h.n) if s >> y & 1} for s in sets]
    return reaches == [h.reach(x) for x in range(h.n)] and h.low == [min(k) for k in numbers] and h.high == [max(k) for k in numbers]


def cyclic(h):
    return any(x in h.reach(c) for x in range(h.n) for c in h.children[x])


def ways_back(rnd, edges):
    """Some edges more, each from a child, or from its child, back to a parent other than the root."""
    edges, seen = list(edges), set(edges)
    for _ in range(rnd.choice((1, 2, 4))):
        parent, child = rnd.choice([e for e in edges if e[0]] or edges)
        end = rnd.choice([c for p, c in edges if p == child] or [child])
        if parent and parent != end and (end, parent) not in seen:
            seen.add((end, parent))
            edges.append((end, parent))
    return edges


def crowd(rnd, h, count, several):
    """Steps of parties that come and go, up to so many at a time; some blindly, with parties and records that do not fit. Without `several` each enter that is
    not refused names one record, once or more often."""
    desk, out, most = model.Desk(h), [], rnd.choice((3, 6, 12, 32, 32))
    modes, deep = rnd.choice(MODES), rnd.choice((0, 0.5, 0.9))
    narrow = [x for x in range(h.n) if h.width(x) <= 2] or [0]

    def name():
        return rnd.choice(narrow) if rnd.random() < deep else rnd.randrange(h.n)

    while len(out) < count:
        inside = [*desk.holds, *desk.calls]
        away = [p for p in range(32) if p not in inside]
        mode = rnd.choices((model.READING, model.WRITING, model.ADDING), modes)[0]
        choice = rnd.random()
        if choice < 0.05:
            party = rnd.choice(inside) if inside and rnd.random() < 0.7 else rnd.randrange(34)
            out.append(record(rnd.choice((4, 5, 7)), party, rnd.randrange(h.n if rnd.random() < 0.9 else 256)))
        elif choice < 0.13:     # refused for its party or its names, whatever else it has
            names = [rnd.randrange(h.n) for _ in range(rnd.randrange(1, 9))]
            party = rnd.choice(inside) if inside and rnd.random() < 0.7 else rnd.randrange(32, 256)
            if away and h.n < 256 and rnd.random() < 0.3:
                party, names[rnd.randrange(len(names))] = rnd.choice(away), rnd.randrange(h.n, 256)
            out.append(record(3, party, mode, len(names), *names))
        elif away and len(inside) < most and choice < 0.72:
            names = [name() for _ in range(rnd.choice((1, 1, 2, 2, 3, 8)))] if several else [name()] * rnd.choice((1, 1, 1, 2, 8))
            out.append(record(3, rnd.choice(away), mode, len(names), *names))
        elif inside:
            out.append(record(6, rnd.choice(list(desk.holds) if desk.holds and rnd.random() < 0.6 else inside)))
        else:
            continue
        try:
            model.perform(desk, out[-1])
        except model.Refusal:
            pass
    return out


ADDERS = ["needless", "needful", "needless though its reach meets an adder's"]


def adders(data):
    """How many waits of adders there were in a file of each of these sorts."""
    times = collections.Counter()
    try:
        desk, steps = model.opened(data)
    except model.Refusal:
        return times
    report = model.Report(desk)
    for r in steps:
        waits, needless = report.waits, report.needless
        there = [*desk.holds.values(), *desk.calls.values()]
        try:
            report.step(r)
        except model.Refusal:
            continue
        if report.waits > waits and r[2] == model.ADDING:
            reached = desk.reached(r[4:4 + r[3]])
            times[ADDERS[report.needless == needless]] += 1
            times[ADDERS[2]] += report.needless > needless and any(v[0] == model.ADDING and reached & desk.reached(v[2]) for v in there)
    return times


def one(rnd):
    """The kind of a file, its bytes, and whether it was made wrong. What is wrong has waits too, where nobody would refuse it."""
    big = rnd.random() < 0.006
    n = rnd.choice((2, 3, 5, 8, 12, 16, 24, 40, 40)) if rnd.random() < 0.95 else rnd.choice((100, 255, 256))
    style = rnd.randrange(6)
    if style < 3 and 8 <= n <= 40:
        edges = compare.windows(rnd, n)
    else:
        edges = compare.legal(rnd, n, rnd.choice((1, n // 2, n)) if style == 3 else 0)
    if style < 2:
        edges = ways_back(rnd, edges)
    h = model.Hierarchy(n, edges)
    if not plain(h):
        raise SystemExit(f"another reach or interval by sets than by the model: n = {n}, edges {edges}")
    tree, several = len(edges) == n - 1, rnd.random() < 0.5
    kind = TREE if tree and not several else BIG if big else NAMES if tree else CYCLES if cyclic(h) else SHARED
    values = compare.values(rnd, n)
    steps = crowd(rnd, h, 3967 - len(edges) - len(values) if big else rnd.choice((5, 20, 60, 150)), several)
    wrong = rnd.random() < 0.08
    spoiled = wrong and rnd.random() < 0.4
    if spoiled:
        n, edges = compare.spoiled(rnd, n, edges)
    records = [record(1, n & 255, n >> 8), *(record(2, p, c) for p, c in edges), *values, *steps]
    data = compare.blocks(records[:3968])
    if wrong and not spoiled:
        data = compare.damaged(rnd, data, records)[1]
    return kind, data, wrong


def main():
    a = argparse.ArgumentParser(description="compares the report of waits with the model on random files")
    a.add_argument("waits")
    a.add_argument("--files", type=int, default=1500)
    a.add_argument("--seed", type=int, default=20261116)
    a.add_argument("--keep", metavar="DIR", help="write the file that differs there")
    args = a.parse_args()
    if not os.access(args.waits, os.X_OK):
        print(f"no such program: {args.waits}")
        return 1
    rnd, wrong = random.Random(args.seed), []
    files, every, needless, refused, added = (collections.Counter() for _ in range(5))
    for k in range(args.files):
        kind, data, spoiled = one(rnd)
        want, lines = model.waits(data)[0], model.listing(data)
        got, said = compare.run(args.waits, data)
        counts = [int(w) for w in want.split()]
        if counts[0] != sum(line.endswith(" waits") for line in lines):
            said = "the model's listing has another count of waits"
        if said or got != want + "\n":
            print(f"seed {args.seed}: file {k}, {kind}, {len(data)} bytes: differs" + (f" ({said})" if said else ""))
            print(f"the model has '{want}', the program {got[:80]!r}")
            if args.keep:
                with open(os.path.join(args.keep, f"differs-{args.seed}-{k}.blocks"), "wb") as f:
                    f.write(data)
            return 1
        if lines[0].startswith("refused"):
            refused[lines[0]] += 1
        elif not spoiled:
            files[kind] += 1
            every[kind] += counts[0]
            needless[kind] += counts[1]
            added += adders(data)
    print(f"seed {args.seed}: {args.files} files agree, {sum(refused.values())} of them refused: " + ", ".join(f"{w[8:]} {c}" for w, c in sorted(refused.items())))
    for kind in (TREE, NAMES, SHARED, CYCLES, BIG):
        print(f"{kind}: {files[kind]} files, {every[kind]} waits, {needless[kind]} needless")
        wrong += [f"no wait in: {kind}"] * (not every[kind])
        wrong += [f"no needless wait in: {kind}"] * (kind != TREE and not needless[kind])
    print("waits of adders: " + ", ".join(f"{added[w]} {w}" for w in ADDERS))
    wrong += [f"no wait of an adder: {w}" for w in ADDERS if not added[w]]
    wrong += [f"{needless[TREE]} needless waits in trees with one name each"] * (needless[TREE] != 0)
    wrong += [f"never seen: refused {k}" for k in range(2, 10) if not refused[f"refused {k}"]]
    print("\n".join(wrong), end="\n" * bool(wrong))
    return 1 if wrong else 0


if __name__ == "__main__":
    sys.exit(main())
