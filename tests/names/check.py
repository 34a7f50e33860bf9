#!/usr/bin/env python3
"""Whether every name that the documents cite in backquotes is declared in the repository.

    tests/names/check.py            prints each name that is not found, with document and line, then how many were looked at; exits 1 where one is missing

What is looked at: each span in backquotes of the documents below, outside fenced blocks, and the theorems that stand in them as indented blocks. A span
is one of these, tried in this order:

  a command      its first word is in COMMANDS; the rest of it is not looked at
  a path         it has a slash, or ends as a file does: it exists. A part in capitals (CRATE, FILE, NAME) stands for any
  a case         it has a colon, and starts as a line of a program of cases does (the first word of a line of crates/*/stdout, or a word behind a semicolon
                 there) or with `..`, or has `..` just before the colon: it is such a line, from its start on; `..` is what was left out. It is never taken
                 apart
  a line         it stands in what a program prints or is given (crates/*/stdout, crates/*/stdin, conformance/*.listing); `..` is what was left out
  bytes          two or more pairs of hexadecimal figures
  names          else it is taken apart at blanks and signs, and every word of it that is no number is a name. `Desk::enter` is enter of Desk,
                 `IsCover .below` is below of IsCover. A word with `..` before or behind it is the end or the start of some name

A name is found where it is *declared*; that it occurs, in a comment or in use, is not enough. Declared are
  in crates/*/specs and proofs     definitions, theorems, records, data, their fields and constructors, modules
  in crates/*/src                  functions, structs, fields, enums, variants, constants; the parameters of public functions; crates, in crates.txt
  files                            must-fail edits, conformance cases, a function's proofs by its folder
  the kit's                        what a crate imports of it (`use Rattle.std.., mathlib..`, and not what it imports of a crate of crates.txt), or takes of it in
                                   its code (`use std::io::Read`)
  in include/record_desk.h         functions
  in tools/blockfile               functions
and the words in WORDS, each with its reason. Variables, and the parameters of definitions and of private functions, are known only inside a span of
several words.

Beyond that:
  `a`, `b` (crate/specs/File)      the file exists and declares each name of the list before the parenthesis; (crate), (File): the crate does, a file so named
  edit `a`, edits `a`, `b`         each is the name of a must-fail edit; so is each name in a table's column Edit or Edits
  conformance `a`, `b`             each is the name of a conformance case
  `a` (crate/proofs/F)             F is a function: one of its files Invariants and Answers declares the name
  a table's column Function        each name in it is a public function of the crate (or of the struct) that the last `crate::name` of its cell named, and the
                                   column has every public function of the libraries. "N public functions" says how many there are, "its N" in a table's row
                                   how many the crate has that the row begins with
  an indented block                in README.md it is a drawing or a command. In docs/ it is a theorem, `name : ..`: its statement is, blanks aside, the one
                                   that a file of crates/*/specs or proofs declares under that name, and each word in it is declared, or bound in it
  crate/specs/File, docs/File ..   paths in the text, without backquotes too, exist
"""
import glob
import os
import re
import sys

os.chdir(os.path.join(os.path.dirname(os.path.abspath(__file__)), "..", ".."))

DOCUMENTS = ["docs/READING.md", "docs/RULES.md", "docs/DECISIONS.md", "docs/ASSUMPTIONS.md", "docs/PROOF-NOTES.md", "README.md"]

COMMANDS = {"rt", "rattle", "gcc", "ulimit"}

# Words that are no names of the crates, by the reason why they may be cited.
WORDS = {
    "words of the languages Rattle, antt and C": """let else if match return pub extern mut use as record elim rw simp search grind by omega ap self ensures requires
        unsafe no_mangle usize u8 u16 u32 u64 bool old C""",
    "names that the kit gives in the goals of a proof": """goal at args ensures given initial branch auto invariant Start After-leaving-swept Else-n-gt-NODES one_name_more-bounds if-closer best-is
        slice_known-1 shared_slice_known shared_slice_known-in-loop-i-1""",
    "such names with a place for the source's": "STEP FIELD GOAL PLACE F slice_bounds-F-end overflow_cast-x if-a-b in-V",
    "variables of an example in the text": "test",
    "the gate's last line": "N passed failed",
}


def read(name):
    with open(name, encoding="utf-8") as f:
        return f.read()


# ---- what is declared

NAME = r"[^\W\d][\w′₀-]*"  # letters, digits, _, - and ′; not a number
WORD = r"[\w′₀⊎-]+"


class Declared:
    """The names of one file: those declared, those of public functions and of their parameters, and all other parameters and variables."""

    def __init__(self):
        self.names, self.parameters, self.inner, self.members = set(), set(), set(), {}
        self.public, self.statements = set(), {}


def mixfix(name):
    return [part for part in name.split("◌") if part]


def of_antt(text):
    d = Declared()
    owner = None
    for line in re.sub(r"--[^\n]*", "", text).split("\n"):
        if not line.strip() or re.match(r"\s*use\b", line):
            continue
        indent = len(line) - len(line.lstrip())
        if indent == 0:
            owner = None
        m = re.match(r"\s*(?:pub )?(record|data|mod|module) (\S+)", line)
        if m:
            if m[2] != "_":
                d.names.add(m[2])
                if m[1] in ("record", "data"):
                    owner = m[2]
                    d.members.setdefault(owner, set())
        else:
            m = re.match(r"\s*(?:(?:abbrev|unfoldable|pub|opaque|private|instance) )*((?:\S+ )+?):(?: |$)", line)
            if m and not re.search(r"[(){}=;→\"]", m[1]):
                for name in m[1].split():
                    for part in mixfix(name):
                        d.names.add(part)
                        if owner and indent:
                            d.members[owner].add(part)
            else:
                m = re.match(r"\s*(\S+) ([^=]*?)=(?: |$)", line)
                if m:  # the variables of a clause
                    d.inner.update(re.findall(WORD, m[2]))
        for binder in re.findall(r"[({]([^(){}:]*) :", line):
            d.inner.update(binder.split())
        for bound in re.findall(r"λ ([^.]*)\.", line):
            d.inner.update(bound.split())
    return d


def statements(text):
    """The statement of each name, blanks aside: its line and those further in that follow."""
    found, lines = {}, re.sub(r" *--[^\n]*", "", text).split("\n")
    for k, line in enumerate(lines):
        m = re.match(r"( *)(?:(?:abbrev|unfoldable|pub|opaque|private|instance) )*(\S+) : ", line)
        if m:
            end = k + 1
            while end < len(lines) and lines[end].startswith(m[1] + " "):
                end += 1
            found.setdefault(m[2], set()).add(" ".join(" ".join([line[m.start(2):]] + lines[k + 1:end]).split()))
    return found


def of_rattle(text):
    d = Declared()
    text = re.sub(r"//[^\n]*", "", text)
    code = re.sub(r"\b(?:ensures|requires|invariant|decreases) \{[^\n]*\}", "", text)
    for name in re.findall(r"\b(?:fn|const|struct|enum) (\w+)", code):
        d.names.add(name)
    for kind, name, body in re.findall(r"\b(struct|enum|impl) (\w+) \{\n(.*?)\n\}", code, re.S):
        mine = d.members.setdefault(name, set())
        if kind == "struct":
            mine.update(re.findall(r"^    (?:pub )?(\w+):", body, re.M))
        elif kind == "enum":
            mine.update(re.findall(r"^    (\w+)", body, re.M))
        else:
            mine.update(re.findall(r"\bfn (\w+)", body))
        d.names.update(mine)
    for name, parameters in re.findall(r"^ *pub (?:extern \"C\" )?fn (\w+)(?:<[^<>(]*>)?\(([^)]*)\)", code, re.M):
        d.public.add(name)
        d.parameters.update(re.findall(r"\b(\w+): ", parameters))
    d.inner.update(re.findall(r"\blet (?:mut )?(\w+)", code))
    d.inner.update(re.findall(r"\b(\w+): [&\[\w]", code))
    d.inner.update(re.findall(r"\b\w+::\w+\((\w+)\)", code))
    return d


crates = [line.split(":")[0].split()[0] for line in read("crates.txt").split("\n") if line and not line.startswith("#")]
files, kit = {}, set()
for name in sorted(glob.glob("crates/**/*.antt", recursive=True) + glob.glob("crates/**/*.rt", recursive=True)):
    text = read(name)
    files[name] = of_antt(text) if name.endswith(".antt") else of_rattle(text)
    if name.endswith(".antt"):
        files[name].statements = statements(text)
    for path, names in re.findall(r"^(?:ghost )?use ([\w.+-]+)\.\{([^}]*)\}", text, re.M):
        if not (path.startswith("Rattle.") and path.split(".")[1] in crates):
            for n in names.split(","):
                for one in n.split(" as "):
                    kit.update(mixfix(one.strip()))
            kit.update(path.split("."))
    if name.endswith(".rt"):
        for path in re.findall(r"^use ([\w:]+(?:::\{[^}]*\})?);", text, re.M):
            if path.split("::")[0] not in crates:
                kit.update(re.findall(r"\w+", path))
edits = {os.path.basename(f)[:-5] for f in glob.glob("crates/*/must-fail/*.edit")}
cases = {os.path.basename(f)[:-7] for f in glob.glob("conformance/*.blocks")}
given = {os.path.basename(f) for f in glob.glob("crates/*/*") if os.path.isfile(f)}  # stdin, stdout
own_proof = re.compile(r"/proofs/.+/(?:Invariants|Answers|Proof)\.antt$")  # of a function: no module that a page may mean by this name alone
modules = {os.path.basename(f)[:-5] for f in files if f.endswith(".antt") and not own_proof.search(f)} - {"Lib"}
header = set(re.findall(r"\b(\w+)\(", re.sub(r"/\*.*?\*/", "", read("include/record_desk.h"), flags=re.S)))
tool = set(re.findall(r"^def (\w+)\(", read("tools/blockfile"), re.M))
declared = set(crates) | tool | given | edits | cases | modules | header | kit
members, inner = {}, set()
for d in files.values():
    declared |= d.names | d.parameters
    inner |= d.inner
    for owner, names in d.members.items():
        members.setdefault(owner, set()).update(names)
words = {w for group in WORDS.values() for w in group.split()}


def lines(name):
    """Of a file that a program reads or writes, which may be a block file."""
    with open(name, "rb") as stream:
        return stream.read().decode("utf-8", "replace").split("\n")


printed = set()
for f in glob.glob("crates/*/stdout") + glob.glob("crates/*/stdin") + glob.glob("conformance/*.listing"):
    printed.update(lines(f))
printed = "\n".join(sorted(printed))
told = sorted({line for f in glob.glob("crates/*/stdout") for line in lines(f) if line and not line.startswith("#")})
openings = {w for line in told for w in re.findall(r"(?:^|; )([a-zA-Z]+)\b", line)} | {".."}
told = "\n".join(told)
functions = {(f.split("/")[1], name) for f, d in files.items() if re.fullmatch(r"crates/\w+/src/lib\.rt", f) for name in d.public}


# ---- what is cited

missing, looked = [], 0


def miss(document, at, what):
    missing.append(f"{document}:{at}: {what}")


def exists(path):
    path = path.rstrip("/")
    path = re.sub(r"\b[A-Z]{2,}\b(?!\.md)", "*", path) if not os.path.exists(path) else path
    if path.startswith("target/"):
        return True
    places = [path, "crates/" + path, "crates/*/" + path, "tests/*/" + path]
    return any(glob.glob(p) or glob.glob(p + ".antt") for p in places)


def is_path(span):
    return bool(re.fullmatch(r"[\w.*+-]*(?:/[\w.*+-]*)+", span)) or bool(re.fullmatch(r"[\w-]+\.(?:py|c|h|md|rt|txt|antt)", span))


def is_line(span):
    parts = [re.escape(p.strip()) for p in span.split("..")]
    return " " in span and re.search(r"(?:^|\b|(?<= ))" + "[^\n]*".join(parts) + r"(?:$|\b)", printed, re.M) is not None


def is_case(span):
    """Whether the span can only be a line of a program of cases: the start of one and a colon before a blank or its end, or `..` just before it."""
    return re.search(r"(?<!:):(?: |$)", span) is not None and (span.split(" ")[0] in openings or "..:" in span)


def is_told(span):
    """A line of such a program, from the start of the line on, or of a part behind a semicolon. No word or number is cut."""
    parts = [r"(?<!\w)" * p.strip()[:1].isalnum() + " +".join(re.escape(w) for w in p.split()) + r"(?!\w)" * p.strip()[-1:].isalnum() for p in span.split("..")]
    return re.search(r"(?:^|(?<=; ))" + r"[^\n]*".join(parts), told, re.M) is not None


def known(word, alone):
    return word in declared or word in words or (word in inner and not alone) or re.fullmatch(r"\d+|0x[0-9A-F]*", word) is not None


def partly(word):
    """The start or the end of a name, with `..` for the rest."""
    rest = word.strip(".")
    if rest.isdigit() or rest.strip("-") in words:
        return True
    return any(n.startswith(rest) if word.endswith("..") else n.endswith(rest) for n in declared if n != rest)


def look(document, at, span):
    global looked
    if span.split(" ")[0] in COMMANDS:
        return
    if is_path(span):
        looked += 1
        if not exists(span):
            miss(document, at, f"no such file: `{span}`")
        return
    if is_path(span.split(" ")[0]):  # a path with words behind it: a command
        looked += 1
        if not exists(span.split(" ")[0]):
            miss(document, at, f"no such file: `{span}`")
        return
    if is_case(span):
        looked += 1
        if not is_told(span):
            miss(document, at, f"no program tells this case: `{span}`")
        return
    if is_line(span) or re.fullmatch(r"[0-9A-F]{2}(?: [0-9A-F]{2})+", span):
        looked += 1
        return
    for owner, member in re.findall(rf"({NAME})(?:::| ?\.)({NAME})", span):
        if owner in members and member not in members[owner] and owner not in crates:
            miss(document, at, f"{owner} has no {member}: `{span}`")
        if owner in crates and not any(member in d.names for f, d in files.items() if f.startswith(f"crates/{owner}/src")):
            miss(document, at, f"{owner}/src declares no {member}: `{span}`")
    for word in re.findall(rf"\.\.{WORD}|{WORD}\.\.|{WORD}", span):
        if not re.search(r"[^\W_]", word):
            continue
        if ".." in word:
            looked += 1
            if not partly(word):
                miss(document, at, f"no name is {word}: `{span}`")
        elif not word.isdigit():
            looked += 1
            if not known(word, word == span):
                miss(document, at, f"not declared: {word}" + ("" if word == span else f" in `{span}`"))


def in_place(document, at, names, place):
    """A list of names before a parenthesis with a crate, a module or a file."""
    crate, _, rest = place.partition("/")
    labels = set()
    if place in crates:
        where = [f for f in files if f.startswith(f"crates/{place}/")]
        labels = {os.path.basename(f)[:-5] for f in glob.glob(f"crates/{place}/must-fail/*.edit")}
    elif place in modules:
        where = [f for f in files if f.endswith(f"/{place}.antt") and not own_proof.search(f)]
    elif crate in crates:
        whole = rest in ("src", "specs", "proofs")
        own = [f"crates/{place}{end}.antt" for end in ("", "/Invariants", "/Answers")]
        where = [f for f in files if f in own or whole and f.startswith(f"crates/{place}/")]
        if not where:
            miss(document, at, f"no such file: ({place})")
            return
    else:
        return
    for name in names:
        name = name.split("::")[-1]
        if re.fullmatch(NAME, name) and name not in labels and not any(name in files[f].names for f in where):
            miss(document, at, f"not declared in ({place}): {name}")


def theorem(document, at, text):
    """A theorem in an indented block."""
    global looked
    text = " ".join(text.split())
    name = text.split(" ")[0]
    bound = {w for binder in re.findall(r"[({]([^(){}:]*) :", text) for w in binder.split()}
    for word in re.findall(WORD, text):
        looked += 1
        if not (word in bound or known(word, True)):
            miss(document, at, f"not declared: {word} in the theorem {name}")
    if not any(text in d.statements.get(name, ()) for d in files.values()):
        miss(document, at, f"{name} is not stated so in crates/*/specs or proofs")


def function_column(document, cells):
    """The column Function of a table: its lines and cells, each with the crate or struct that its last `..::name` had."""
    found = set()
    for at, cell in cells:
        owner = None
        for span in re.findall(r"`([^`]+)`", cell):
            first, _, name = span.rpartition("::")
            owner = first or owner
            crate = owner if owner in crates else next((f.split("/")[1] for f, d in files.items() if f.endswith(".rt") and owner in d.members), None)
            if (crate, name) not in functions or owner not in crates and name not in members.get(owner, ()):
                miss(document, at, f"no public function of {owner}: {name}")
            found.add((crate, name))
    for crate, name in sorted(functions - found):
        miss(document, cells[0][0], f"not in the column Function: {crate}::{name}")


for document in DOCUMENTS:
    # fenced blocks are blanked, lines kept
    text = re.sub(r"^```.*?^```", lambda m: "\n" * m[0].count("\n"), read(document), flags=re.S | re.M)

    def at(place):
        return text.count("\n", 0, place) + 1

    for k, line in enumerate(text.split("\n"), 1):
        if line.count("`") % 2:
            miss(document, k, "a backquote without its second in the line")
        for span in re.findall(r"`([^`]+)`", line):
            look(document, k, span)
    flat = text.replace("\n", " ")
    for m in re.finditer(rf"((?:`[^`]+`(?:,? +and +|, +)?)+) +\(([\w+-]+(?:/[\w+-]+)*)[,)]", flat):
        in_place(document, at(m.start()), re.findall(r"`([^`]+)`", m[1]), m[2])
    for word, labels in (("edits?", edits), ("conformance", cases)):
        for m in re.finditer(rf"\b{word} +((?:`[^`]+`(?: +\([^()|]*\))?(?:,? +and +|, +)?)+)", flat):
            for name in re.findall(r"`([^`]+)`", re.sub(r"\([^()]*\)", "", m[1])):
                if re.fullmatch(NAME, name) and name not in labels:
                    miss(document, at(m.start()), f"no {'must-fail edit' if word == 'edits?' else 'conformance case'} {name}")
    for m in re.finditer(r"(?<=\n\n)(?: {4,}[^\n]+\n)+(?=\n|$)", text):
        if document != "README.md":
            theorem(document, at(m.start()), m[0])
    for m in re.finditer(r"(?:^\| `(\w+)` \|[^\n]*\bits )?\b(\d+) public functions", text, re.M):
        count = sum(1 for crate, _ in functions if m[1] in (None, crate))
        if int(m[2]) != count:
            miss(document, at(m.start()), f"{m[2]} public functions, and there are {count}")
    column, column_cells = None, []
    for k, line in enumerate(text.split("\n") + [""], 1):
        cells = [c.strip() for c in line.split("|")] if line.startswith("|") else []
        if not cells:
            if column_cells:
                function_column(document, column_cells)
            column, column_cells = None, []
        elif column is None:
            column = next((i for i, c in enumerate(cells) if c in ("Edit", "Edits", "Function")), 0)
            heading = cells[column]
        elif column and heading == "Function":
            column_cells += [(k, cells[column])] if "`" in cells[column] else []
        elif column and column < len(cells):
            for name in re.findall(r"`([^`]+)`", cells[column]):
                if name not in edits:
                    miss(document, k, f"no must-fail edit {name}")
    for m in re.finditer(r"(?<![\w/`.*])((?:[a-z_]+/(?:specs|proofs|src|must-fail)|crates|docs|conformance|tests|tools|bench|include)/[\w+./-]*\w)", text):
        looked += 1
        if not exists(m[1].rstrip(".")):
            miss(document, at(m.start()), f"no such file: {m[1]}")

for line in missing:
    print("names:", line)
print(f"names: {looked} names and paths looked at in {len(DOCUMENTS)} documents, {len(missing)} not found")
sys.exit(1 if missing else 0)
