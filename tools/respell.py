#!/usr/bin/env python3
"""Gives the repository's own definitions and lemmas today's spelling: words in snake case, types in camel case.

    tools/respell.py [FOLDER]      once, behind the port's own script, at the top of the checkout or of FOLDER

tools/respell.txt has a line for each name, the old one and the new one. In .antt and .rt files each such word is written anew, but for a name that the
file takes from a library by `use` or `ghost use`, and but for text between double quotes in a .rt file. In comments, and in README and docs, a name with a hyphen is one
only inside backquotes, since plain words have hyphens too; there the names of must-fail edits and of conformance cases stay.
"""
import glob
import os
import re
import sys

HERE = os.path.dirname(os.path.abspath(__file__))
NAMES = dict(line.split() for line in open(os.path.join(HERE, "respell.txt"), encoding="utf-8"))
WORD = re.compile(r"(?<![\w'\-])[A-Za-z][\w'\-]*")
OWN = set()


def words(text, out=frozenset()):
    """The text with each name of ours written anew; `out` are words that stay."""
    return WORD.sub(lambda m: m.group(0) if m.group(0) in out else NAMES.get(m.group(0), m.group(0)), text)


def prose(text, out=frozenset()):
    """The same in running text: a name with a hyphen, or a plain word, only inside backquotes."""
    def plain(m):
        w = m.group(0)
        return NAMES.get(w, w) if re.search(r"[a-z0-9][A-Z]", w) and w not in out else w
    parts = re.split(r"(`[^`\n]*`)", text)
    return "".join(words(p, out) if p.startswith("`") else WORD.sub(plain, p) for p in parts)


def taken(text):
    """The words that a file takes from a library."""
    found = set()
    for m in re.finditer(r"(?m)^\s*(?:pub )?(?:ghost )?use\s+([\w.']+?)\.?\{([^}]*)\}", text):
        path = m.group(1).split(".")
        if not (path[0] == "Rattle" and len(path) > 1 and path[1] in OWN):
            found |= {w.split(" as ")[0].strip() for w in m.group(2).split(",")}
    return found


def antt(text):
    out = taken(text)
    lines = []
    for line in text.split("\n"):
        m = re.search(r"(^|\s)--( |$)", line)
        cut = m.start() if m else len(line)
        lines.append(words(line[:cut], out) + prose(line[cut:], out))
    return "\n".join(lines)


def rt(text):
    out = taken(text)
    lines = []
    for line in text.split("\n"):
        m = re.search(r"(^|\s)//", line)
        cut = m.start() if m else len(line)
        code = "".join(p if i % 2 else words(p, out) for i, p in enumerate(re.split(r'("(?:[^"\\]|\\.)*")', line[:cut])))
        lines.append(code + prose(line[cut:], out))
    return "\n".join(lines)


def rewrite(path, by):
    with open(path, encoding="utf-8") as f:
        old = f.read()
    new = by(old)
    if new != old:
        with open(path, "w", encoding="utf-8") as f:
            f.write(new)
        return 1
    return 0


def main(top):
    OWN.update(os.listdir(os.path.join(top, "crates")))
    changed = 0
    for folder, dirs, files in os.walk(os.path.join(top, "crates")):
        dirs[:] = sorted(d for d in dirs if d != "out")
        for f in sorted(files):
            if f.endswith(".antt"):
                changed += rewrite(os.path.join(folder, f), antt)
            elif f.endswith(".rt"):
                changed += rewrite(os.path.join(folder, f), rt)
    stays = {os.path.basename(p)[:-5] for p in glob.glob(os.path.join(top, "crates/*/must-fail/*.edit"))}
    stays |= {os.path.basename(p).split(".")[0] for p in glob.glob(os.path.join(top, "conformance/*"))}

    def page(text):
        # a theorem stands as an indented block, `name : ..`: it is written anew whole
        lines = [words(l, stays) if re.match(r"    \S", l) and re.search(r"[≡→×:]", l) else l for l in text.split("\n")]
        return prose("\n".join(lines), stays)

    for p in [os.path.join(top, "README.md")] + sorted(glob.glob(os.path.join(top, "docs/**/*.md"), recursive=True)):
        if os.path.basename(p) != "PORT.md":
            changed += rewrite(p, page)
    print(f"respell: {changed} files")


if __name__ == "__main__":
    main(os.path.abspath(sys.argv[1]) if len(sys.argv) > 1 else os.path.dirname(HERE))
