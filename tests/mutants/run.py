#!/usr/bin/env python3
"""Tries the conformance files on wrong listing, report and cut programs: the model with one line changed, for each change in changes.txt.

    run.py              prints what is amiss, then how many changes there are and what became of them
    run.py --verbose    a line for each change too: what became of it, and by which file

A change is killed where the changed model gives another listing than the file's own, NAME.listing; behind the line 'program: waits' another report,
NAME.waits; behind the line 'program: cut' another shorter file, or refusal, than a line of NAME.cuts has, or another than itself for a file cut at 0.
It must be killed, unless changes.txt says that it is equivalent, and then it must not be. Exit status 0: that is so for all of them.

changes.txt has a section '[NAME]' for a function, a method (CLASS.NAME) or an assignment of the model, and in it a line for each change:

    OLD  =>  NEW              OLD stands once in the section, within a line
    2/3 OLD  =>  NEW          OLD stands three times in it, and the second is meant
        equivalent: WHY       behind a change that alters no listing, no report, or no cut

Lines that start with '#' are comments.
"""
import ast
import os
import re
import signal
import sys

HERE = os.path.dirname(os.path.abspath(__file__))
MODEL = os.path.join(HERE, "..", "model", "model.py")
FILES = os.path.join(HERE, "..", "..", "conformance")
PROGRAMS = ("listing", "waits", "cut")  # functions of the model; the first two are ends of the files' names too
LIMIT = 60  # seconds of processor time for a file; the model needs up to 0.6 for the longest; with an equivalent change it took 9.4 on one machine, and over 10 beside other work


class Wrong(Exception):
    pass


class TooLong(BaseException):
    pass


def sections(source):
    """Name -> the numbers of its lines, from 0."""
    found = {}
    for node in ast.parse(source).body:
        if isinstance(node, ast.ClassDef):
            parts = [(f"{node.name}.{part.name}", part) for part in node.body if isinstance(part, ast.FunctionDef)]
        elif isinstance(node, ast.FunctionDef):
            parts = [(node.name, node)]
        elif isinstance(node, ast.Assign):
            parts = [(name.id, node) for name in ast.walk(node.targets[0]) if isinstance(name, ast.Name)][:1]
        else:
            parts = []
        found.update((name, range(part.lineno - 1, part.end_lineno)) for name, part in parts)
    return found


def read_changes(path):
    """A list of [line number, section, which, of how many, old, new, why equivalent or None, program]."""
    changes, section, program = [], None, PROGRAMS[0]
    with open(path, encoding="utf-8") as f:
        for at, line in enumerate(f, 1):
            text = line.strip()
            if not text or text.startswith("#"):
                continue
            if re.fullmatch(r"\[[\w.]+\]", text):
                section = text[1:-1]
            elif text.startswith("program: ") and text[9:] in PROGRAMS:
                section, program = None, text[9:]
            elif text.startswith("equivalent: ") and changes and changes[-1][6] is None:
                changes[-1][6] = text[12:]
            else:
                form = re.fullmatch(r"(?:(\d)/(\d) )?(.+?)  =>  (.+)", text)
                if not form or section is None:
                    raise Wrong(f"line {at}: neither a section, a change nor a reason")
                changes.append([at, section, int(form[1] or 1), int(form[2] or 1), form[3], form[4], None, program])
    return changes


def changed(source, places, change):
    """The model with the change."""
    section, which, count, old, new = change[1:6]
    if section not in places:
        raise Wrong(f"no such section: {section}")
    lines = source.split("\n")
    found = [(k, m.start()) for k in places[section] for m in re.finditer(re.escape(old), lines[k])]
    if len(found) != count:
        raise Wrong(f"'{old}' stands {len(found)} times in {section}, not {count}")
    k, at = found[which - 1]
    lines[k] = lines[k][:at] + new + lines[k][at + len(old):]
    return "\n".join(lines)


# What is slow to find, and the same in all models in which neither was changed: checks of blocks, and hierarchies (or the number with which one is refused).
CHECKS, HIERARCHIES = {}, {}


def keep(space, section):
    """Has a model look up checks and hierarchies where they were found before, unless that is the part of it that was changed."""
    check, hierarchy, refusal = space["check"], space["Hierarchy"], space["Refusal"]

    def kept_check(data):
        if data not in CHECKS:
            CHECKS[data] = check(data)
        return CHECKS[data]

    def kept_hierarchy(n, edges):
        key = n, tuple(edges)
        if key not in HIERARCHIES:
            try:
                HIERARCHIES[key] = hierarchy(n, edges)
            except refusal as e:
                HIERARCHIES[key] = e.number
        if isinstance(HIERARCHIES[key], int):
            raise refusal(HIERARCHIES[key])
        return HIERARCHIES[key]

    if section != "check":
        space["check"] = kept_check
    if not section.startswith("Hierarchy."):
        space["Hierarchy"] = kept_hierarchy


def load(source, name, program, section):
    """The program of a model in which this section was changed."""
    space = {"__name__": name}
    exec(compile(source, name, "exec"), space)
    keep(space, section)
    return space[program]


def over(*_):
    raise TooLong


def run(program, given):
    """The lines, or what a cut gives; 'crash' or 'endless' where there are none."""
    signal.setitimer(signal.ITIMER_VIRTUAL, LIMIT)
    try:
        return program(*given)
    except TooLong:
        return "endless"
    except Exception:
        return "crash"
    finally:
        signal.setitimer(signal.ITIMER_VIRTUAL, 0)


def fate(source, program, files, section):
    """How the changed model was found out, 'differs', 'crash' or 'endless', and by which file; 'survives' where it was not.
    A crash counts only where no file has it print something else. A short file that finds one out is tried first on the next."""
    try:
        changed_one = load(source, "changed", program, section)
    except Exception as e:
        raise Wrong(f"is no program: {e}") from None
    crash = None
    for at, (name, given, want) in enumerate(files):
        got = run(changed_one, given)
        if got == "crash":
            crash = crash or ("crash", name)
        elif got != want:
            if len(given[0]) <= 2048:
                files.insert(0, files.pop(at))
            return ("endless" if got == "endless" else "differs", name)
    return crash or ("survives", None)


def content(name):
    with open(os.path.join(FILES, name), "rb") as f:
        return f.read()


def read_files(program):
    """Each file, as (name, what the program is given, what it must print). Those come first that find out most changes: short ones, and of them those whose report
    has a wait."""
    names = [entry[:-7] for entry in os.listdir(FILES) if entry.endswith(".blocks")]
    if program == "cut":
        return read_cuts(names)
    files = [(name, (content(name + ".blocks"),), content(f"{name}.{program}").decode().split("\n")[:-1]) for name in names]
    return sorted(files, key=lambda case: (len(case[1][0]) > 2048, case[2] == ["0 0"], len(case[1][0]), case[0]))


def read_cuts(names):
    """The same of the cuts: each line of each NAME.cuts, and each file at 0 where no line says so."""
    data, cuts = {name: content(name + ".blocks") for name in names}, []
    for name in names:
        lines = content(name + ".cuts").decode().splitlines() if os.path.exists(os.path.join(FILES, name + ".cuts")) else []
        if not any(line.split()[0] == "0" for line in lines):
            first = content(name + ".listing").split()[:2]
            lines.append(f"0 refused {first[1].decode()}" if first[0] == b"refused" else f"0 {name}")
        for line in lines:
            k, result, *number = line.split()
            cuts.append((f"{name} at {k}", (data[name], int(k)), int(number[0]) if number else data[result]))
    return sorted(cuts, key=lambda case: (len(case[1][0]) > 2048, case[1][1] == 0, len(case[1][0]), case[0]))


def main(words):
    if words not in ([], ["--verbose"]):
        sys.stderr.write(__doc__)
        return 2
    signal.signal(signal.SIGVTALRM, over)
    with open(MODEL, encoding="utf-8") as f:
        source = f.read()
    files, places, seen = {program: read_files(program) for program in PROGRAMS}, sections(source), set()
    tree = ast.dump(ast.parse(source))
    for program in PROGRAMS:
        right = fate(source, program, files[program], "")
        if right[0] != "survives":
            print(f"mutants: the model itself has another {program} than {right[1]}")
            return 1
    count = dict.fromkeys(("differs", "crash", "endless", "equivalent", "wrong"), 0)
    changes = read_changes(os.path.join(HERE, "changes.txt"))
    for change in changes:
        at, section, _, _, old, new, why, program = change
        try:
            text = changed(source, places, change)
            how, name = fate(text, program, files[program], section)
            if how == "survives" and ast.dump(ast.parse(text)) == tree:
                raise Wrong("changes nothing")
            if (program, text) in seen:
                raise Wrong("stands twice")
            seen.add((program, text))
            if why is None and how == "survives":
                raise Wrong("survives")
            if why is not None and how != "survives":
                raise Wrong(f"is killed by {name} ({how}) and was said to be equivalent")
            count["equivalent" if why is not None else how] += 1
            if words:
                print(f"line {at}: {'equivalent' if why is not None else how} {name or ''}: [{section}] {old}  =>  {new}")
        except Wrong as e:
            print(f"mutants: changes.txt, line {at}: {e}: [{section}] {old}  =>  {new}")
            count["wrong"] += 1
    killed = count["differs"] + count["crash"] + count["endless"]
    of = {program: sum(change[7] == program for change in changes) for program in PROGRAMS}
    print(f"mutants: {len(changes)} changes, {of['waits']} of them of the report and {of['cut']} of the cut, {len(files[PROGRAMS[0]])} files and {len(files['cut'])} cuts: "
          f"{killed} killed ({count['crash']} of them only by a crash, "
          f"{count['endless']} did not end), {count['equivalent']} equivalent, {count['wrong']} amiss")
    return 1 if count["wrong"] or not changes else 0


if __name__ == "__main__":
    try:
        sys.exit(main(sys.argv[1:]))
    except (Wrong, OSError) as e:
        print(f"mutants: {e}")
        sys.exit(1)
