#!/usr/bin/env python3
"""Compares the program `cut` with the model on random files, and holds it and the listing program to what point 9 of document 02 says of the shorter file.

    compare_cut.py CUT LISTING [--files N] [--seed S] [--keep DIR]

CUT and LISTING are the programs. Each file is cut at several k: at 0, at all its steps, past them, at huge numbers, where nobody is in, and anywhere.
What CUT writes must be the model's, to the byte: the shorter file on standard output, or nothing there and the line `refused N` on standard error.
Then point 9 itself is asked, of what the programs wrote:
- cut at 0 a file stays as it is; no shorter file has more blocks than its file;
- LISTING gives the same answers for the steps kept, numbered from 1, and the same holders and waiters at the end; each party's grants in it, and those in the
  first k steps, by the model's listing of these, add up to those of the whole file; by the model the two runs end with the same values, holds and calls;
- cut once more, at some number of the steps kept, it is what the whole file is, cut at both numbers together, refused or not.
It prints the seed, what was seen, and the first difference; it exits 1 where there is one, or where a refusal or one of the things in SEEN was never seen.
--keep writes the file that differs into DIR.
First what is asked is tried itself: on the first files of the seed it must be true of the model's cuts and listings, and of the cuts of each wrong program in
WRONG, the model with some text changed, it must be told false in some file.
Most files have value records, and in most all parties leave again and again, so that there is where to cut; some are wrong, as in compare.py.
"""
import argparse
import collections
import os
import random
import subprocess
import sys

sys.dont_write_bytecode = True
sys.path.insert(0, os.path.dirname(os.path.abspath(__file__)))
import compare  # noqa: E402
import model  # noqa: E402
from compare import record  # noqa: E402

HUGE = [2**8, 2**12, 2**16, 2**32, 2**63, 2**64 - 1, 2**64, 10**20, 10**30 - 1]     # also with a number of steps added
ALL, PART, NONE = "cut at all steps", "cut between the first step and the last", "no step to cut"
SET, KEPT, PUT, SUM = "a value record for a value put or added to", "a value record kept", "a value record for one with another value", "a value past 2 to the 64"
ZERO_PUT, ZERO_ADD, GONE = "a value put and put back to 0", "a value brought back to 0 by an add", "a value record without one in the shorter file"
EVERY, MANY = "256 value records written", "value records in two blocks or more written"
REFUSED, CHANGING = "a refused step cut", "a refused put or add cut, of a record with another value"
FEWER, SAME, FULL = "fewer blocks", "as many blocks", "128 blocks cut, and 128 written"
AGAIN, AGAIN_19, AGAIN_20 = "cut again", "cut again, refused with 19", "cut again, refused with 20"
HOLDS, WAITS, ONE_WAITS = "20, one holder and no waiter", "20, with waiters", "20, a holder whose party waited"
ZEROS, DIGITS, BIG = "k with zeros in front", "k of more than 20 digits", "19 for a k whose low bytes are a right one"
LATER, COUNTS = "someone holds at the end of the shorter file", "a party with grants before the cut and behind it"
SEEN = [ALL, PART, NONE, SET, KEPT, PUT, SUM, ZERO_PUT, ZERO_ADD, GONE, EVERY, MANY, REFUSED, CHANGING, FEWER, SAME, FULL, AGAIN, AGAIN_19, AGAIN_20, HOLDS, WAITS, ONE_WAITS,
        ZEROS, DIGITS, BIG, LATER, COUNTS]
REFUSALS = (2, 3, 4, 5, 6, 7, 8, 9, 19, 20)


class Differs(Exception):
    """What differs, in words."""


# ---- what point 9 says of a whole file and a shorter one

def apart(lines):
    """Of a listing: its answers without their numbers, these numbers, holders and waiters at the end, and the grants of each party."""
    words = [line.split() for line in lines]
    answers = [w for w in words if w[0].isdecimal()]
    end, *parties = words[len(answers):]
    grants = collections.Counter({int(p): int(count) for _, p, count in parties})
    if int(end[3]) != sum(grants.values()):
        raise Differs(f"the grants do not add up to the end's: {' '.join(end)}")
    return [w[1:] for w in answers], [int(w[0]) for w in answers], end[1:3], grants


def same_run(whole, first, shorter, k):
    """Asks it of three listings: that of the whole file, that of its first k steps, and that of the shorter file."""
    if shorter[0].startswith("refused"):
        raise Differs(f"the shorter file is {shorter[0]}")
    (answers, _, end, grants), (kept, numbers, kept_end, kept_grants) = apart(whole), apart(shorter)
    if kept != answers[k:]:
        at = next((i for i, (a, b) in enumerate(zip(kept, answers[k:])) if a != b), min(len(kept), len(answers) - k))
        raise Differs(f"from step {at + 1} of the shorter file on its answers are others than from step {k + at + 1} of the whole one on")
    if numbers != list(range(1, len(kept) + 1)):
        raise Differs("the steps kept are not numbered from 1")
    if kept_end != end:
        raise Differs(f"holders and waiters are {' '.join(kept_end)} at the end, and {' '.join(end)} in the whole file")
    if apart(first)[3] + kept_grants != grants:
        raise Differs(f"grants before the cut and behind it do not add up: {dict(apart(first)[3])} and {dict(kept_grants)} to {dict(grants)}")


def first_steps(data, k):
    """The file with its first k steps alone."""
    records = model.read_file(data)
    return model.written(records[:next((i for i, r in enumerate(records) if r[0] in model.STEPS), len(records)) + k])


def at_end(data):
    """The model's desk at the end of a file's run."""
    desk, steps = model.opened(data)
    for r in steps:
        try:
            model.perform(desk, r)
        except model.Refusal:
            pass
    return desk


def same_end(data, shorter):
    """Asks it of the model: both runs end with the same values, holds and calls."""
    a, b = at_end(data), at_end(shorter)
    if (a.values, a.holds, a.calls, a.arrival) != (b.values, b.holds, b.calls, b.arrival):
        raise Differs("by the model, the shorter file does not end as the whole one")


def asked(data, k, shorter, whole, listing):
    """Asks all of point 9 of a file and what was cut of it; `whole` is the file's listing, and `listing` gives one."""
    if len(shorter) > len(data) or k == 0 and shorter != data:
        raise Differs(f"cut at {k}: more blocks than its file has, or another file at 0")
    same_run(whole, model.listing(first_steps(data, k)), listing(shorter) if k else whole, k)
    same_end(data, shorter)


# ---- what is in a cut

def without(desk, r):
    """Whether the step was refused; the desk takes it."""
    try:
        model.perform(desk, r)
    except model.Refusal:
        return True
    return False


def seen_in(data, k, shorter):
    """What there is to see in a cut that is not refused."""
    desk, steps = model.opened(data)
    start, touched, high, zeroed = list(desk.values), set(), set(), {}
    for r in steps[:k]:
        before, node = list(desk.values), r[2]
        refused = without(desk, r)
        yield REFUSED, refused
        yield CHANGING, refused and r[0] in (model.PUT, model.ADD) and node < desk.h.n and before[node] != model.little(r[4:12])
        if not refused and r[0] in (model.PUT, model.ADD):
            touched.add(node)
            high |= {node} if r[0] == model.ADD and before[node] + model.little(r[4:12]) >= 2**64 else set()
            zeroed[node] = r[0] if before[node] and not desk.values[node] else None
    kept = model.read_file(shorter)
    places = [i for i, r in enumerate(kept) if r[0] == model.VALUE]
    values = {kept[i][1]: model.little(kept[i][4:12]) for i in places}
    yield ALL, 0 < k == len(steps)
    yield PART, 0 < k < len(steps)
    yield NONE, not steps
    yield SET, any(not start[x] for x in values)
    yield KEPT, any(start[x] == v for x, v in values.items())
    yield PUT, any(start[x] and start[x] != v for x, v in values.items())
    yield SUM, any(x in high for x in values)
    yield ZERO_PUT, any(kind == model.PUT and x not in values for x, kind in zeroed.items())
    yield ZERO_ADD, any(kind == model.ADD and x not in values for x, kind in zeroed.items())
    yield GONE, any(v and x not in values for x, v in enumerate(start))
    yield EVERY, k > 0 and len(values) == 256
    yield MANY, k > 0 and values != {} and places[0] // 31 != places[-1] // 31
    yield FEWER, len(shorter) < len(data)
    yield SAME, k > 0 and len(shorter) == len(data)
    yield FULL, k > 0 and len(shorter) == len(data) == 65536
    before, after = model.listing(first_steps(data, k)), model.listing(shorter)
    yield LATER, k > 0 and not after[sum(line[0].isdigit() for line in after)].startswith("end 0 0")
    yield COUNTS, bool(apart(before)[3].keys() & apart(after)[3].keys())


def seen_at(data, k):
    """What there is to see where 20 is given."""
    desk, steps = model.opened(data)
    waited = set()
    for r in steps[:k]:
        without(desk, r)
        waited = (waited | set(desk.calls)) & {*desk.holds, *desk.calls}
    yield HOLDS, len(desk.holds) == 1 and not desk.calls
    yield WAITS, desk.calls != {}
    yield ONE_WAITS, len(desk.holds) == 1 and not desk.calls and waited != set()


# ---- files

def visits(rnd, h, count):
    """Steps in parts, each as in compare.py, behind each of which all who are in leave; at times not behind the last."""
    out = []
    while len(out) < count:
        part, desk = compare.steps(rnd, h, min(rnd.choice((1, 3, 8, 20, 40)), count - len(out))), model.Desk(h)
        for r in part:
            without(desk, r)
        inside = [*desk.holds, *desk.calls]
        rnd.shuffle(inside)
        out += part + [record(model.LEAVE, p) for p in inside if len(out) + len(part) + len(inside) < count or rnd.random() < 0.95]
    return out[:count]


def puts(rnd, n, count):
    """Steps of one who writes all, with as many puts as fit; who leaves, and steps that are refused behind it."""
    out = [record(model.ENTER, 1, model.WRITING, 1, 0)]
    out += [record(model.PUT, 1, x, 0, *rnd.randrange(2**64).to_bytes(8, "little")) for x in range(n)][:count - 2]
    return out + [record(model.LEAVE, 1)] * (count - len(out))


def one(rnd):
    """The kind of a file, and its bytes."""
    style = rnd.random()
    if style < 0.08:
        return compare.one(rnd)
    big = style > 0.988
    n = rnd.choice((1, 2, 3, 5, 8, 10, 12, 16, 24, 40)) if style < 0.95 else rnd.choice((100, 255, 256))
    edges = compare.windows(rnd, n) if 8 <= n <= 40 and rnd.random() < 0.3 else compare.legal(rnd, n, rnd.choice((0, 2, n)))
    kind, h, given = "legal", model.Hierarchy(n, edges), compare.values(rnd, n)
    if big:
        given = rnd.choice((given, []))
        kind, steps = "128 blocks", puts(rnd, n, 3967 - len(edges) - len(given))
    else:
        steps = visits(rnd, h, rnd.choice((0, 1, 5, 20, 40, 80, 160)))
    if n == 256 and not big and rnd.random() < 0.5:
        steps = puts(rnd, n, 260) + steps
    if rnd.random() < 0.08:
        kind, (n, edges) = "illegal hierarchy", compare.spoiled(rnd, n, edges)
    records = [record(1, n & 255, n >> 8), *(record(2, p, c) for p, c in edges), *given, *steps]
    data = compare.blocks(records)
    return compare.damaged(rnd, data, records) if rnd.random() < 0.06 else (kind, data)


def clear(data):
    """How many steps a file has, and the numbers of steps after which nobody is in; 0 alone, and no step, where it is refused."""
    try:
        desk, steps = model.opened(data)
    except model.Refusal:
        return 0, [0]
    out = [0]
    for k, r in enumerate(steps, 1):
        without(desk, r)
        if not desk.holds and not desk.calls:
            out.append(k)
    return len(steps), out


def numbers(rnd, data):
    """Some k to cut a file at, each as the word that is given to the program, and the k where nobody is in."""
    count, out = clear(data)
    some = [rnd.choice((rnd.choice(out), out[:2][-1])) if len(data) < 65536 else out[:2][-1], rnd.choice((0, count, count + 1, rnd.choice(out))), rnd.randrange(count + 1)]
    some.append(rnd.choice(HUGE) + rnd.choice((0, 0, rnd.choice(out), count)))
    return [("0" * rnd.choice((1, 2, 30)) if rnd.random() < 0.15 else "") + str(k) for k in dict.fromkeys(some)], out


# ---- what is asked is tried itself

TRIED = 60      # files for that
VALUES, KEPT_STEPS = "enumerate(desk.values) if v]", "head + values + steps[k:]"
# Wrong cuts of which it must be told false in some file.
WRONG = {
    "zeros are written too": (VALUES, "enumerate(desk.values)]"),
    "values are those that the file gives": (VALUES, "enumerate(opened(data)[0].values) if v]"),
    "values that the file gives are left out": (VALUES, "enumerate(desk.values) if v != opened(data)[0].values[x]]"),
    "the last value is left out": (VALUES, VALUES + "[:-1]"),
    "values stand the other way round": (VALUES, VALUES + "[::-1]"),
    "values have four bytes": ("v.to_bytes(8, ", "(v % 2**32).to_bytes(8, "),
    "adds are left out": ("for r in steps[:k]:", "for r in [r for r in steps[:k] if r[0] != ADD]:"),
    "a step too many is taken": ("for r in steps[:k]:", "for r in steps[:k + 1]:"),
    "a step too many is cut": (KEPT_STEPS, "head + values + steps[k + 1:]"),
    "a step too few is cut": (KEPT_STEPS, "head + values + steps[max(k - 1, 0):]"),
    "the file's value records are kept too": ("(SIZE, EDGE)]", "(SIZE, EDGE, VALUE)]"),
    "an edge is left out": (KEPT_STEPS, "head[:1] + head[2:] + values + steps[k:]"),
    "edges are sorted": (KEPT_STEPS, "sorted(head) + values + steps[k:]"),
    "who is in does not matter": ("if desk.holds or desk.calls:\n        return 20", "if False:\n        return 20"),
    "who waits does, who holds does not": ("if desk.holds or desk.calls:\n        return 20", "if desk.calls:\n        return 20"),
}


def cut_with(old, new):
    """The model's cut, by a model with this change of its text."""
    with open(model.__file__, encoding="utf-8") as f:
        text = f.read()
    if text.count(old) != 1:
        raise SystemExit(f"'{old}' stands {text.count(old)} times in the model, not once")
    space = {"__name__": "changed"}
    exec(compile(text.replace(old, new), "changed", "exec"), space)
    return space["cut"]


def told_false(cut_of, files):
    """Of how many files it is told false; each is cut everywhere from 1 to 12, and at all its steps. Cut at 0 a wrong file would be told by its bytes."""
    false = 0
    for data, lines, count in files:
        try:
            for k in sorted({*range(1, min(count, 12) + 1), count} - {0}):
                shorter = cut_of(data, k)
                if not isinstance(shorter, int):
                    asked(data, k, shorter, lines, model.listing)
        except (Differs, model.Refusal):
            false += 1
    return false


def tried(seed):
    """What is wrong with what is asked, in words."""
    rnd, files = random.Random(seed), []
    for _ in range(TRIED):
        data = one(rnd)[1]
        if len(data) <= 2048 and not model.listing(data)[0].startswith("refused"):
            files.append((data, model.listing(data), clear(data)[0]))
    times = {name: told_false(cut_with(*change), files) for name, change in WRONG.items()}
    print(f"told false, of {len(files)} files: " + ", ".join(f"{name} {count}" for name, count in times.items()))
    wrong = [f"it is not told false where {name}" for name, count in times.items() if not count]
    return wrong + ["it is told false of the model"] * (told_false(model.cut, files) > 0)


# ---- the programs

def run(program, words, data):
    """What the program wrote to standard output and to standard error."""
    try:
        got = subprocess.run([program, *words], input=data, capture_output=True, timeout=60)
    except subprocess.TimeoutExpired:
        raise Differs("did not end in a minute") from None
    if got.returncode:
        raise Differs(f"exit status {got.returncode}")
    return got.stdout, got.stderr


def listed(program, data):
    out, said = run(program, [], data)
    if said:
        raise Differs("the listing program wrote to standard error")
    return out.decode(errors="replace").splitlines()


def cut(program, word, data):
    """What the program made of it, compared with the model: the bytes, or the number of a refusal."""
    want, (out, said) = model.cut(data, int(word)), run(program, [word], data)
    told = f"refused {want}\n".encode() if isinstance(want, int) else b""
    if said != told:
        raise Differs(f"standard error has {said[:80]!r}, not {told!r}")
    if out != (b"" if told else want):
        raise Differs(f"{len(out)} bytes on standard output, not the model's {0 if told else len(want)}, or others")
    return want


def judged(rnd, programs, data, seen, refused):
    """Cuts a file at some k, and asks all that is said above of it."""
    words, out = numbers(rnd, data)
    whole = None
    for word in words:
        k = int(word)
        shorter = cut(programs[0], word, data)
        seen[ZEROS] += word[0] == "0" and k > 0 and not isinstance(shorter, int)
        seen[DIGITS] += len(str(k)) > 20
        seen[BIG] += shorter == 19 and any(k & 2**bits - 1 in out[1:] for bits in (8, 12, 16, 32, 64) if k >= 2**bits)
        if isinstance(shorter, int):
            refused[shorter] += 1
            seen.update(w for w, there in (seen_at(data, k) if shorter == 20 else ()) if there)
            continue
        seen.update({w for w, there in seen_in(data, k, shorter) if there})
        whole = whole or listed(programs[1], data)
        asked(data, k, shorter, whole, lambda file: listed(programs[1], file))
        again = rnd.choice([*(x - k for x in out if x >= k), rnd.randrange(clear(shorter)[0] + 2)])
        if cut(programs[0], str(again), shorter) != cut(programs[0], str(k + again), data):
            raise Differs(f"cut at {k} and then at {again} it is another file than cut at {k + again}")
        seen[{19: AGAIN_19, 20: AGAIN_20}.get(model.cut(data, k + again), AGAIN)] += k > 0


def main():
    a = argparse.ArgumentParser(description="compares the program cut with the model on random files")
    a.add_argument("cut")
    a.add_argument("listing")
    a.add_argument("--files", type=int, default=600)
    a.add_argument("--seed", type=int, default=20261120)
    a.add_argument("--keep", metavar="DIR", help="write the file that differs there")
    args = a.parse_args()
    for program in (args.cut, args.listing):
        if not os.access(program, os.X_OK):
            print(f"no such program: {program}")
            return 1
    wrong = tried(args.seed)
    if wrong:
        print("\n".join(wrong))
        return 1
    rnd, seen, refused, kinds = random.Random(args.seed), collections.Counter(), collections.Counter(), collections.Counter()
    for k in range(args.files):
        kind, data = one(rnd)
        try:
            judged(rnd, (args.cut, args.listing), data, seen, refused)
        except Differs as e:
            print(f"seed {args.seed}: file {k}, {kind}, {len(data)} bytes: {e}")
            if args.keep:
                with open(os.path.join(args.keep, f"differs-{args.seed}-{k}.blocks"), "wb") as f:
                    f.write(data)
            return 1
        kinds[kind] += 1
    print(f"seed {args.seed}: {args.files} files and what was cut of them agree")
    print("files: " + ", ".join(f"{w} {n}" for w, n in sorted(kinds.items())))
    print("cuts refused: " + ", ".join(f"{n}: {refused[n]}" for n in REFUSALS))
    print("seen: " + ", ".join(f"{w} {seen[w]}" for w in SEEN))
    missing = [f"refused {n}" for n in REFUSALS if not refused[n]] + [w for w in SEEN if not seen[w]]
    if missing:
        print("never seen: " + ", ".join(missing))
        return 1
    return 0


if __name__ == "__main__":
    sys.exit(main())
