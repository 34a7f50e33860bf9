#!/usr/bin/env python3
"""Compares building, as the program `cases` calls it, with the model: its answer, and what it leaves in the interval places and in the scratch.

    compare_building.py CASES [--calls N] [--seed S]

CASES is the program. First those lines of crates/cases/stdin that build are held to what stands beside them in crates/cases/stdout (`rt ci` holds the
program to that); then the program is given random ones, N of them: legal hierarchies and faulty ones, lent just enough, more, or too little of places,
edges or scratch, and every other one to be built in the plain way. Of the words lent to the plain engine three are seen, of all else lent each number.
It prints the seed and how often each end was seen, and the first line that differs; it exits 1 where one does, or where an end in WANTED was never
seen, which takes some 600 calls.
"""
import argparse
import collections
import itertools
import os
import random
import re
import subprocess
import sys

sys.dont_write_bytecode = True
sys.path.insert(0, os.path.dirname(os.path.abspath(__file__)))
import compare  # noqa: E402
import model  # noqa: E402

HERE = os.path.dirname(os.path.abspath(__file__))
SCRATCH = 512       # bytes that building is lent: 02, point 7
WORDS = 1024        # words that the plain engine is lent: docs/DECISIONS.md, point 2
PLACES, BYTES, NUMBERS = 516, 2050, 2050    # what the program `cases` has: places of 7, scratch of 9 and numbers of an edge table
TEXT = 65000        # bytes of lines that it takes at a time


def building(n, table, count, places, scratch, need):
    """01, and 02's point 7: the refusal or 0, and the places and the scratch afterwards. It needs 2n places, two numbers an edge and so much scratch. 1 leaves
    the scratch as it was; after any other end the part that is needed is zero, and the rest as it was."""
    if len(places) < 2 * n or len(table) < 2 * count or len(scratch) < need:
        return 1, places, scratch
    wiped = [0] * need + scratch[need:]
    try:
        h = model.Hierarchy(n, [(table[2 * e], table[2 * e + 1]) for e in range(count)])
    except model.Refusal as r:
        return r.number, places, wiped
    return 0, [x for r in range(n) for x in (h.low[r], h.high[r])] + places[2 * n:], wiped


def table_of(after, d):
    """The numbers of a line's edge table: those behind `next d`, and zeros; or edges from each record to each of the next d, round 1 to 255."""
    if d == 0:
        return [x % 65536 for x in after + [0] * NUMBERS][:NUMBERS]
    edges = ((p, 1 + (p + k) % 255) for p in itertools.cycle(range(256)) for k in range(d))
    return [x for e in itertools.islice(edges, NUMBERS // 2) for x in e]


def in_turn(scratch):
    return "".join(f", {len(list(g))} of {b}" for b, g in itertools.groupby(scratch))


def answered(line):
    """What the program must write for a line, and the refusal or 0."""
    n, places, numbers, count, scratch, first, end, d, *after = map(int, re.findall(r"\d+", line))
    plain = line.startswith("plain")
    room, lent, need = [7] * PLACES, [9] * (1026 if plain else BYTES), WORDS if plain else SCRATCH
    places, scratch = min(places, len(room)), min(scratch, len(lent))
    refusal, built, left = building(n, table_of(after, d)[:numbers], count, room[:places], lent[:scratch], need)
    room, lent = built + room[places:], left + lent[scratch:]
    said = f"refused {refusal}" if refusal else "built"
    ends = "".join(f", {room[2 * r]} {room[2 * r + 1]}" for r in range(first, end))
    return f"{line}: {said}{ends}" + (f", {lent[0]}, {lent[1023]}, {lent[1024]}" if plain else in_turn(lent)), refusal


def one(rnd, plain):
    """A line that builds."""
    n = rnd.choice((1, 2, 3, rnd.randrange(4, 30), rnd.randrange(4, 30), rnd.randrange(30, 257), 256))
    edges = compare.windows(rnd, n) if n >= 8 and rnd.random() < 0.2 else compare.legal(rnd, n, rnd.choice((3, n, 300)))
    if rnd.random() < 0.3:
        n, edges = compare.spoiled(rnd, n, edges)
        n = min(n, 257) if rnd.random() < 0.9 else 2 ** 63 + rnd.randrange(3)
    count = len(edges) if rnd.random() < 0.95 else rnd.randrange(len(edges) + 2)
    places = 2 * n + rnd.choice((0, 0, 0, 0, 1, 2, 4)) - (rnd.random() < (0.3 if n > 256 else 0.05))
    numbers = 2 * count + rnd.choice((0, 0, 0, 0, 1, 2)) - (rnd.random() < 0.05)
    need = WORDS if plain else SCRATCH
    scratch = rnd.choice((need, need, need, need + 1, need + 2, need - 1, BYTES - 2, rnd.randrange(BYTES)))
    return (f"{'plain' if plain else 'build'} n {n}, places {max(0, min(PLACES, places))}, numbers {max(0, min(NUMBERS, numbers))}, edges {count}, "
            f"{'words' if plain else 'scratch'} {scratch}, nodes 0 to {min(n, 255) + 3}; next 0, edges {' '.join(f'{p} {c}' for p, c in edges)}")


ENDS = ["built", *(f"refused {k}" for k in (1, 5, 6, 7, 8, 9))]
WANTED = [f"{how} {end}" for how in ("build", "plain") for end in ENDS]
WANTED += ["511 bytes", *(f"{k} bytes {end}" for k in (512, 513, 2048) for end in ("built", "refused with 5 to 9", "refused with 1")),
           "257 records with 513 places", "records past 2 to the 63"]


def ends(line, refusal):
    """Which ends a line shows. 511 bytes count where nothing else is short and the hierarchy is legal."""
    yield f"{line.split()[0]} refused {refusal}" if refusal else f"{line.split()[0]} built"
    lent = re.search(r"scratch (\d+)", line)
    if lent and lent[1] == "511" and answered(line.replace("scratch 511", "scratch 512"))[1] == 0:
        yield "511 bytes"
    if lent and lent[1] in ("512", "513", "2048"):
        yield f"{lent[1]} bytes " + ("built" if refusal == 0 else "refused with 1" if refusal == 1 else "refused with 5 to 9")
    if "n 257, places 513," in line:
        yield "257 records with 513 places"
    if int(line.split()[2][:-1]) >= 2 ** 63:
        yield "records past 2 to the 63"


def run(program, lines):
    """What the program writes for these lines, handed over in parts small enough for it."""
    out, part = "", ""
    for line in [*lines, None]:
        if part and (line is None or len(part) + len(line) > TEXT):
            out += subprocess.run([program], input=part, capture_output=True, text=True, timeout=300, check=True).stdout
            part = ""
        part += f"{line}\n"
    return out.splitlines()


def differ(where, lines, got):
    """Says the first line that differs, where one does."""
    for line, line_got in itertools.zip_longest(lines, got):
        want = answered(line)[0] if line is not None else None
        if want != line_got:
            print(f"{where} differs:\nthe model has {want}\nthe program    {line_got}")
            return True
    return False


def main():
    a = argparse.ArgumentParser(description="compares building with the model")
    a.add_argument("cases")
    a.add_argument("--calls", type=int, default=1200)
    a.add_argument("--seed", type=int, default=20261118)
    args = a.parse_args()
    if not os.access(args.cases, os.X_OK):
        print(f"no such program: {args.cases}")
        return 1
    rnd = random.Random(args.seed)
    crate = os.path.join(HERE, "..", "..", "crates", "cases")
    asked, shown = (open(os.path.join(crate, name)).read().splitlines() for name in ("stdin", "stdout"))
    builds = [i for i, line in enumerate(asked) if line.startswith(("build", "plain"))]
    if differ("crates/cases/stdout", [asked[i] for i in builds], [shown[i] for i in builds]):
        return 1
    lines = [one(rnd, k % 2 == 1) for k in range(args.calls)]
    if differ(f"seed {args.seed}", lines, run(args.cases, lines)):
        return 1
    seen = collections.Counter(end for line in lines for end in ends(line, answered(line)[1]))
    print(f"{len(builds)} lines of crates/cases agree; seed {args.seed}: {args.calls} calls agree")
    print("ends: " + ", ".join(f"{w} {seen[w]}" for w in WANTED))
    missing = [w for w in WANTED if not seen[w]]
    if missing:
        print("never seen: " + ", ".join(missing))
        return 1
    return 0


if __name__ == "__main__":
    sys.exit(main())
