#!/usr/bin/env python3
"""Holds the listing program to point 8 of document 02, that nobody is passed over, on random files.

    compare_passing.py LISTING [--files N] [--seed S] [--keep DIR]

LISTING is the program. The check has the steps of a file and the lines printed for them, and no desk: by the answers it follows which party is out,
waiting or holding. A visit is one stay of a party, from its enter to its leave, so that a party that comes back has another. When a call is answered
`waits`, the visits that then hold or wait are noted as ahead of it, 1 to 31 of them; after each leave, every call that still waits must have one ahead
that has not left.
A party must be where the answers have it. An enter and a leave are refused exactly where document 01 has it, with that number; a get, put or add gets 11, 13
or 14 exactly where its party is over 31, out or waiting; and the line `end` counts these holders and waiters.
It prints the seed, how many calls waited, what was seen, and the first call that was passed over or the first line that cannot be; it exits 1 where there is
one, or where one of the things in SEEN was seen less than FEW times, which takes some 300 files. --keep writes the file that shows it into DIR.
First the check is tried itself. Of each short listing in WRITTEN it must tell what stands beside it. On the first files of the seed it must be true of the
model's listings, and of those of each wrong desk, the model with some text changed, it must be told false in some file: of one in WRONG that a call was
passed over, of one in HIDDEN that or that a party is where it cannot be.
"""
import argparse
import collections
import os
import random
import sys

sys.dont_write_bytecode = True
sys.path.insert(0, os.path.dirname(os.path.abspath(__file__)))
import compare  # noqa: E402
import model  # noqa: E402
from compare import record  # noqa: E402

LAST, EARLY = "held by the leave of the last one ahead", "held while one ahead was there"
BACK, BACK_LAST = "a party ahead left and came back", "held by the leave of the last one ahead, and a party ahead was back"
PAST, BEHIND = "a newcomer held at once", "a newcomer waited behind"
GAVE_UP, AHEAD_GAVE_UP = "its own party left", "one ahead left without having held"
TEN, ALL, LEAVES = "ten or more ahead", "31 ahead", "held after 31 leaves"
FIVE, EIGHT = "five or more names", "eight names"
LARGE, WIDE = "40 or more records in the file", "record 0 named, over 17 or more records without a child"
ASKED, ASKED_LATER = "its get, put or add refused with 14", "its get, put or add when it held, not refused"
SEEN = [LAST, EARLY, BACK, BACK_LAST, PAST, BEHIND, GAVE_UP, AHEAD_GAVE_UP, TEN, ALL, LEAVES, FIVE, EIGHT, LARGE, WIDE, ASKED, ASKED_LATER]
FEW = 10
ANSWERS = {model.ENTER: ["granted", "waits", "refused"], model.LEAVE: ["left", "refused"],
           model.GET: ["value", "refused"], model.PUT: ["stored", "refused"], model.ADD: ["added", "refused"]}
TRIED = 100     # files on which the check is tried itself


# ---- the check

class PassedOver(Exception):
    """A call that waits, though point 8 has it hold."""


class CannotBe(Exception):
    """A listing that is none for these steps, or in which a party is where it cannot be."""


class Call:
    """A call that waits: the visits ahead of it that have not left, and the parties of those that have."""

    def __init__(self, ahead):
        self.ahead, self.gone, self.leaves = set(ahead), set(), 0

    def left(self, visit, party):
        """Whether the visit that left was ahead."""
        if visit not in self.ahead:
            return False
        self.ahead.remove(visit)
        self.gone.add(party)
        self.leaves += 1
        return True


class Follower:
    """Who is where, by the answers alone. A visit is the number of the step with which it began. Of the hierarchy it has n and how many records have no child."""

    def __init__(self, n, childless):
        self.n, self.childless = n, childless
        self.visits = {}        # of the parties that hold or wait
        self.calls = {}         # of the parties that wait
        self.later = set()      # the parties that hold and waited before
        self.seen = collections.Counter()
        self.waits = self.held = 0

    def step(self, k, r, word, *rest):
        """A step and its answer. A refused one moves nobody, nor does a get, put or add."""
        kind, party = r[0], r[1]
        if word not in ANSWERS[kind] or not all(w.isdigit() for w in rest):
            raise CannotBe(f"step {k}: the answer is {' '.join([word, *rest])}")
        self.refused(k, r, 0 if word != "refused" else int(rest[0]) if rest else -1)
        if kind == model.ENTER and word != "refused":
            self.enter(k, r, word == "waits")
        elif kind == model.LEAVE and word != "refused":
            self.leave(k, party, map(int, rest))
        elif kind in (model.GET, model.PUT, model.ADD):
            self.seen[ASKED] += party in self.calls
            self.seen[ASKED_LATER] += party in self.later and word != "refused"

    def refused(self, k, r, number):
        """The refusal of a step, 0 where it is none, must be one that it can have where its party is."""
        party, can = r[1], self.refusals(r)
        if number not in can:
            where = "out" if party not in self.visits else "waiting" if party in self.calls else "holding"
            raise CannotBe(f"step {k}: party {party} is {where}, and the refusal is {number} (0 is none), not {' or '.join(map(str, can))}")

    def refusals(self, r):
        """The refusals that a step can have, 0 for none: one alone, but for the get, put or add of a holder."""
        kind, party, names = r[0], r[1], r[4:4 + r[3]]
        if party > 31:
            return [11]
        if kind == model.ENTER:
            return [12] if party in self.visits else [15] if max(names) >= self.n else [0]
        if party not in self.visits:
            return [13]
        if kind == model.LEAVE:
            return [0]
        return [14] if party in self.calls else [0, 15, 16, 17, 18]

    def enter(self, k, r, waits):
        party, names = r[1], set(r[4:4 + r[3]])
        self.seen[BACK] += any(party in call.gone for call in self.calls.values())
        self.seen[BEHIND if waits else PAST] += self.calls != {}
        if waits:
            self.begin(k, party, names)
        self.visits[party] = k

    def begin(self, k, party, names):
        """A call begins to wait: all who hold or wait are ahead of it."""
        call = self.calls[party] = Call(self.visits.values())
        if not 1 <= len(call.ahead) <= 31:
            raise PassedOver(f"step {k}: party {party} waits, and {len(call.ahead)} visits are ahead of it")
        self.waits += 1
        self.seen[TEN] += len(call.ahead) >= 10
        self.seen[ALL] += len(call.ahead) == 31
        self.seen[FIVE] += len(names) >= 5
        self.seen[EIGHT] += len(names) == 8
        self.seen[LARGE] += self.n >= 40
        self.seen[WIDE] += 0 in names and self.childless >= 17      # each of these has a number, so the interval of record 0 has as many

    def leave(self, k, party, granted):
        visit, gave_up = self.visits.pop(party), self.calls.pop(party, None) is not None
        self.later.discard(party)
        self.seen[GAVE_UP] += gave_up
        ahead_of = [call.left(visit, party) for call in self.calls.values()]
        self.seen[AHEAD_GAVE_UP] += gave_up and any(ahead_of)
        for p in granted:
            self.grant(k, p)
        for p, call in self.calls.items():
            if not call.ahead:
                raise PassedOver(f"step {k}: party {p} has waited since step {self.visits[p]}, and all visits ahead of it have left, {call.leaves} in all")

    def grant(self, k, party):
        if party not in self.calls:
            raise CannotBe(f"step {k}: party {party} is granted, and did not wait")
        call = self.calls.pop(party)
        self.later.add(party)
        self.held += 1
        self.seen[EARLY if call.ahead else LAST] += 1
        self.seen[BACK_LAST] += not call.ahead and any(p in self.visits for p in call.gone)
        self.seen[LEAVES] += call.leaves == 31

    def end(self, line):
        holders, waiters = len(self.visits) - len(self.calls), len(self.calls)
        if line.split()[:3] != ["end", str(holders), str(waiters)]:
            raise CannotBe(f"{holders} hold and {waiters} wait, and the end is: {line}")


def followed(follower, steps, lines):
    """The same follower at the end of a listing."""
    if len(lines) <= len(steps):
        raise CannotBe(f"the listing has {len(lines)} lines for {len(steps)} steps")
    for k, (r, line) in enumerate(zip(steps, lines), 1):
        words = line.split()
        if words[:1] != [str(k)] or len(words) < 2:
            raise CannotBe(f"step {k} has the line: {line}")
        follower.step(k, r, *words[1:])
    follower.end(lines[len(steps)])
    return follower


def checked(data, lines):
    """The follower at the end of a file's listing."""
    records = model.read_file(data)
    n, parents = model.little(records[0][1:3]), {r[1] for r in records if r[0] == model.EDGE}
    return followed(Follower(n, n - len(parents)), [r for r in records if r[0] in model.STEPS], lines)


# ---- the files

# how often visits are reading, writing and adding, of ten
MODES = ((8, 2, 0), (9, 1, 0), (5, 5, 0), (2, 8, 0), (0, 10, 0), (4, 3, 3), (1, 2, 7), (3, 0, 7))
# how many names calls have
COUNTS = ((1,), (1, 1, 1, 2, 4), (1, 1, 1, 8), (1, 8), (1, 2, 5, 6, 7, 8))
# how many records the kinds of hierarchies have
KINDS = {"one record": [1], "leaves": [3, 4, 6], "overlapping intervals": [8, 10, 12, 16], "shared records and cycles": [8, 10, 12, 16],
         "many leaves": [40, 100, 256], "many overlapping intervals": [40, 100, 256], "many shared records and cycles": [40, 100, 256]}


def hierarchy(rnd, kind):
    """The number of records, and the edges."""
    n = rnd.choice(KINDS[kind])
    if "overlapping" in kind:
        return n, compare.windows(rnd, n)
    if "shared" in kind:
        return n, compare.legal(rnd, n, n)
    return n, [(0, c) for c in range(1, n)]


def aside(rnd, n, inside, mode):
    """A step that is refused, or a get, put or add: it moves nobody."""
    party, other = rnd.choice(inside or [32]), rnd.choice([p for p in range(40) if p not in inside])
    return rnd.choice((
        record(rnd.choice((4, 5, 7)), party, rnd.randrange(n)),
        record(rnd.choice((4, 5, 7)), rnd.choice((party, other)), rnd.randrange(n)),
        record(3, party, mode, 1, rnd.randrange(n)),                            # 12, or 11
        record(3, other if n < 256 else 32, mode, 2, rnd.randrange(n), 255),    # 15, or 11
        record(6, other),                                                       # 13, or 11
    ))


def named(rnd, few, counts):
    """The names of a call, now and then one twice."""
    return rnd.sample(few * 2, min(rnd.choice(counts), 2 * len(few)))


def traffic(rnd, n, count):
    """Steps of parties that come and go over a few records. Whoever came is in until it leaves, whatever it was answered, so no desk is asked for that. They come
    until so many are in, and then go, one by one or in a muddle; most often the one that came first leaves, or any."""
    most, inside, out, coming = rnd.choice((3, 5, 8, 16, 32, 32)), [], [], True
    parties = rnd.sample(range(32), min(32, most + rnd.choice((0, 1, 3, 32))))
    few, counts = rnd.sample(range(n), min(n, rnd.choice((1, 2, 3, 6, 12, 24)))), rnd.choice(COUNTS)
    few = [0, *few[1:]] if n >= 40 and 0 not in few and rnd.random() < 0.5 else few
    swing, first, modes = rnd.choice((0.55, 0.7, 1)), rnd.choice((0, 0.5, 0.9, 1)), rnd.choice(MODES)
    while len(out) < count:
        coming = len(inside) < most if coming else inside == []
        mode = rnd.choices((model.READING, model.WRITING, model.ADDING), modes)[0]
        if rnd.random() < 0.08:
            out.append(aside(rnd, n, inside, mode))
        elif inside == [] or len(inside) < most and rnd.random() < (swing if coming else 1 - swing):
            names = named(rnd, few, counts)
            inside.append(rnd.choice([p for p in parties if p not in inside]))
            out.append(record(3, inside[-1], mode, len(names), *names))
        else:
            out.append(record(6, inside.pop(0 if rnd.random() < first else rnd.randrange(len(inside)))))
    return out


def one(rnd):
    """The kind of a file, and its bytes. Many have value records, which are no steps."""
    kind = rnd.choice([*KINDS])
    n, edges = hierarchy(rnd, kind)
    steps = traffic(rnd, n, rnd.choice((20, 60, 150, 150, 300)))
    return kind, compare.blocks([record(1, n & 255, n >> 8), *(record(2, p, c) for p, c in edges), *compare.values(rnd, n), *steps])


# ---- the check is tried itself

# Short listings, and what is told of them. The hierarchy is record 0 alone. A party with r or w enters, reading or writing, with x writing record 1, which is not
# there; with g it gets; with - it leaves.
WRITTEN = {
    "0r granted 0, 1r granted 0, 2w waits, 3w waits, 0- left, 0r waits, 3- left, 1- left 2, 2g value 0, 0g refused 14, 1g refused 13, 2- left 0, end 1 0 4": None,
    "0r waits, end 0 1 0": PassedOver,                                                                      # nobody ahead
    "0w granted 0, 1w waits, 0- left, end 0 1 1": PassedOver,                                               # one ahead
    "0r granted 0, 1r granted 0, 2w waits, 0- left, 0r granted 0, 1- left, end 1 1 3": PassedOver,          # a party ahead is back
    "0r granted 0, 1w waits, 2w waits, 1- left, 0- left, end 0 1 1": PassedOver,                            # one ahead gave up
    ", ".join([*(f"{p}r granted 0" for p in range(31)), "31w waits", *(f"{p}- left" for p in range(31)), "end 0 1 31"]): PassedOver,
    "0w granted 0, 1w waits, 0- left 1, 1g refused 14, end 1 0 2": CannotBe,
    "0w granted 0, 1w waits, 1g value 0, end 1 1 1": CannotBe,
    "0w granted 0, 0g refused 13, end 1 0 1": CannotBe,
    "0g value 0, end 0 0 0": CannotBe,
    "0w granted 0, 1w waits, 0- left 1, end 0 1 2": CannotBe,
    "0w granted 0, 1w refused 12, end 1 0 1": CannotBe,
    "0w granted 0, 0w granted 0, end 1 0 2": CannotBe,
    "0w granted 0, 0- refused 13, end 1 0 1": CannotBe,
    "0- left, end 0 0 0": CannotBe,
    "0x granted 0, end 1 0 1": CannotBe,
    "32r granted 0, end 1 0 1": CannotBe,
}
NEWCOMER = "for v in [*self.holds.values(), *self.calls.values()]"
# Wrong desks of whose listings it must be told that a call was passed over.
WRONG = {
    "a newcomer looks at holders only": [(NEWCOMER, "for v in self.holds.values()")],
    "waiters are taken from the back": [("for p in list(self.arrival):", "for p in self.arrival[::-1]:"),
                                        ("self.arrival[:self.arrival.index(p)]", "self.arrival[self.arrival.index(p) + 1:]")],
    "a leave takes no waiter": [("for p in list(self.arrival):", "for p in []:")],
    "a leave looks at holders only": [("for v in [*self.holds.values(), *before]", "for v in self.holds.values()")],
    "a newcomer looks past waiters of five or more names":
        [(NEWCOMER, "for v in [*self.holds.values(), *(call for call in self.calls.values() if len(call[2]) < 5)]")],
    "a newcomer looks past waiters whose interval ends past 16":
        [(NEWCOMER, "for v in [*self.holds.values(), *(call for call in self.calls.values() if self.h.high[call[1]] < 17)]")],
}
# Wrong desks whose listings are right but for gets, puts, adds and the end: a hold with True behind it is answered and counted like a call that waits.
AS_WAITING = [
    ("if party in self.calls:\n            raise Refusal(14)", "if party in self.calls or True in self.holds.get(party, ())[3:]:\n            raise Refusal(14)"),
    ("mode, _, names = self.holds[party]", "mode, _, names, *_ = self.holds[party]"),
    ("    lines.append(f\"end {len(desk.holds)} {len(desk.calls)}",
     "    lost = sum(True in v[3:] for v in desk.holds.values())\n    lines.append(f\"end {len(desk.holds) - lost} {len(desk.calls) + lost}"),
]
HIDDEN = {
    "a leave lists a party that goes on waiting": [*AS_WAITING, ("self.grant(p, visit)", "self.grant(p, (*visit, True))")],
    "a party that a leave granted loses its hold at the next granted enter": [
        *AS_WAITING, ("self.grant(p, visit)", "self.grant(p, (*visit, False))"),
        ("self.grant(party, visit)", "self.holds = {p: (*v[:3], *(True for _ in v[3:])) for p, v in self.holds.items()}\n        self.grant(party, visit)")],
}


def told(follow, *listing):
    """What is told of a listing: PassedOver, CannotBe or None."""
    try:
        follow(*listing)
    except (PassedOver, CannotBe) as e:
        return type(e)
    return None


def written(text):
    """The steps and the lines of a short listing."""
    *answers, end = text.split(", ")
    parts = [answer.partition(" ") for answer in answers]
    fields = {"r": (3, model.READING, 1, 0), "w": (3, model.WRITING, 1, 0), "x": (3, model.WRITING, 1, 1), "g": (4, 0), "-": (6,)}
    steps = [record(fields[who[-1]][0], int(who[:-1]), *fields[who[-1]][1:]) for who, _, _ in parts]
    return steps, [*(f"{k} {answer}" for k, (_, _, answer) in enumerate(parts, 1)), end]


def desk_with(changes):
    """The model's listing, by a model with these changes of its text."""
    with open(model.__file__, encoding="utf-8") as f:
        text = f.read()
    for old, new in changes:
        if text.count(old) != 1:
            raise SystemExit(f"'{old}' stands {text.count(old)} times in the model, not once")
        text = text.replace(old, new)
    space = {"__name__": "changed"}
    exec(compile(text, "changed", "exec"), space)
    return space["listing"]


def told_false(changes, files, *what):
    """Of how many files this is told."""
    listing = desk_with(changes)
    return sum(told(checked, data, listing(data)) in what for _, data in files)


def tried(seed):
    """What is wrong with the check, in words."""
    wrong = [f"the check does not tell {what.__name__ if what else 'nothing'} of: {text}"
             for text, what in WRITTEN.items() if told(followed, Follower(1, 1), *written(text)) != what]
    rnd = random.Random(seed)
    files = [one(rnd) for _ in range(TRIED)]
    times = {name: told_false(changes, files, PassedOver) for name, changes in WRONG.items()}
    times.update((name, told_false(changes, files, PassedOver, CannotBe)) for name, changes in HIDDEN.items())
    print(f"the check told false, of {TRIED} files: " + ", ".join(f"{name} {count}" for name, count in times.items()))
    wrong += [f"the check is not told false of a desk where {name}" for name, count in times.items() if not count]
    return wrong + ["the check is told false of the model"] * (told_false([], files, PassedOver, CannotBe) > 0)


# ---- the run

def judged(program, data):
    """The follower of what the program printed, or None, and what is wrong, in words."""
    got, said = compare.run(program, data)
    if said:
        return None, said
    try:
        return checked(data, got.splitlines()), ""
    except (PassedOver, CannotBe) as e:
        return None, str(e)


def main():
    a = argparse.ArgumentParser(description="holds the listing program to point 8 of document 02 on random files")
    a.add_argument("listing")
    a.add_argument("--files", type=int, default=1000)
    a.add_argument("--seed", type=int, default=20261119)
    a.add_argument("--keep", metavar="DIR", help="write the file that shows what is wrong there")
    args = a.parse_args()
    if not os.access(args.listing, os.X_OK):
        print(f"no such program: {args.listing}")
        return 1
    wrong = tried(args.seed)
    rnd, seen, waits, held = random.Random(args.seed), collections.Counter(), 0, 0
    for k in range(args.files):
        kind, data = one(rnd)
        follower, said = judged(args.listing, data)
        if said:
            print(f"seed {args.seed}: file {k}, {kind}, {len(data)} bytes: {said}")
            if args.keep:
                with open(os.path.join(args.keep, f"differs-{args.seed}-{k}.blocks"), "wb") as f:
                    f.write(data)
            return 1
        seen += follower.seen
        waits, held = waits + follower.waits, held + follower.held
    print(f"seed {args.seed}: {args.files} files, {waits} calls waited, {held} of them held later, none was passed over")
    print("seen of calls that waited: " + ", ".join(f"{w} {seen[w]}" for w in SEEN))
    wrong += [f"seen less than {FEW} times: {w}" for w in SEEN if seen[w] < FEW]
    print("\n".join(wrong), end="\n" * bool(wrong))
    return 1 if wrong else 0


if __name__ == "__main__":
    sys.exit(main())
