#!/usr/bin/env python3
"""Brings this repository's own names to the spelling of today's Rattle: definitions, fields, constructors and lemmas in snake case.

    python3 tools/port_names.py [--list]

Run once, at the top, right after the kit's port.py (docs/PORT.md). It renames, in crates/*/specs, crates/*/proofs, the clauses of
crates/*/src, crates/*/must-fail and the pages:
- lowerCamelCase to snake_case, in each part of a dashed name (oddShift-odd to odd_shift-odd);
- a dash between two plain words to _ (bad-byte to bad_byte). It stays after the names of definitions and words of std with which
  a lemma's name begins (classes-le, decimal-length); in a definition, a field or a constructor none stays.
Functions and types of src/, generated names, C names, strings, inputs and outputs keep theirs. It stops before it writes where two
names would fall together. With --list it writes nothing and prints the new names.
"""
import collections
import glob
import re
import sys

TOKEN = re.compile(r"[^\s(){}\[\],;.:\"`«»|\\]+")
TOP = re.compile(r"^(?:abbrev |unfoldable |pub |record |data )*([^\s:(){}]+)(?: [^:]*)? ?:(?: |$)")
FIELD = re.compile(r"^ +(?:pub )?([^\s:(){}.=]+) :(?: |$)")
# Words of std and of the logic that names of lemmas are made of.
STD = set("""length append map reverse take drop replicate sum min max suc zero add mul sub div mod pow cons nil cond eqb leb ltb
≤ < + * ∷ ++ filter zip zip_with concat get_or""".split())


def snake(word):
    word = re.sub(r"(?<=[a-z0-9_'])(?=[A-Z])", "_", word)
    word = re.sub(r"(?<=[A-Z])(?=[A-Z])", "_", word)
    return word.lower()


def is_camel(word):
    return re.match(r"[a-z][a-z0-9]*[A-Z][A-Za-z0-9']*$", word) is not None


def texts(pattern):
    return sorted(glob.glob(pattern, recursive=True))


def read(path):
    with open(path, encoding="utf8") as file:
        return file.read()


def bare(line):
    """A line of antt without its comment."""
    return re.sub(r"(^|\s)--(\s.*)?$", "", line)


ANTT = texts("crates/*/specs/**/*.antt") + texts("crates/*/proofs/**/*.antt")
RT = texts("crates/*/src/**/*.rt")
EDITS = texts("crates/*/must-fail/*.edit")
PAGES = ["README.md"] + texts("docs/**/*.md") + texts("crates/**/README.md")
WALK = re.compile(r"/Proof\.antt$")

definitions, spoken, fields, lemmas, words = set(), set(), set(), set(), set(STD)
for path in ANTT:
    in_specs = "/specs/" in path
    for line in map(bare, read(path).split("\n")):
        top, field = TOP.match(line), FIELD.match(line)
        if top and not WALK.search(path):
            (definitions if in_specs or line.startswith(("abbrev", "unfoldable", "data", "pub data", "record", "pub record")) else lemmas).add(top.group(1))
            if in_specs:
                spoken.add(top.group(1))
        elif field and not WALK.search(path):
            fields.add(field.group(1))
words |= {name if name[:1].isupper() else snake(name) for name in spoken if "-" not in name}

tokens = collections.Counter()
for path in ANTT + RT:
    tokens.update(TOKEN.findall(read(path)))

# A name of std or of the kit, which imports bring in, keeps its spelling.
outside = set()
for path in ANTT + RT:
    for module, names in re.findall(r"use ([^\s{]+)\.\{([^}]*)\}", read(path)):
        own = module.startswith("Rattle.") and glob.glob("crates/" + module.split(".")[1])
        if not own:
            outside.update(name.strip() for name in names.split(","))


def new_name(name):
    parts = [snake(part) if is_camel(part) else part for part in name.split("-")]
    if len(parts) == 1 or "" in parts or not re.match(r"[A-Za-z]", name):
        return "-".join(parts)
    # The first of the parts that are names of definitions, then plain words.
    first = 1
    if name in lemmas and parts[0] in words:
        while first < len(parts) - 1 and parts[first] in words:
            first += 1
        return "-".join(parts[:first]) + "-" + "_".join(parts[first:])
    return "_".join(parts)


renames = {}
for name in list(tokens) + sorted(definitions | fields | lemmas):
    if name in outside or name.startswith(("Need-", "Else", "Then", "After-", "At-", "In-")):
        continue
    declared = name in definitions or name in fields or name in lemmas
    if declared or any(is_camel(part) for part in name.split("-")):
        new = new_name(name) if declared else "-".join(snake(p) if is_camel(p) else p for p in name.split("-"))
        if new != name:
            renames[name] = new

# Where a lemma or a field would fall on the name of a definition, it gets _lem. These are lemmas and fields that had the name in
# snake case before; in_order is also a function's name, and that stays.
LEMMAS = "by_way digits_in in_order no_code same_class same_word taken_in too_many too_short".split()
ONLY_IN = {"in_order": "crates/survey/"}
# Local names, which do not meet the definitions oneLess and oneMore; and two local names of proofs.
APART = {"one_less", "one_more", "at_start"}

by_new = collections.defaultdict(set)
for old, new in renames.items():
    by_new[new].add(old)
together = []
for new, olds in sorted(by_new.items()):
    if new in definitions or len(olds) > 1:
        firsts = [old for old in olds if old in definitions] or [old for old in olds if is_camel(old)]
        if len(firsts) + (new in definitions) > 1:
            together.append(f"{new} from {sorted(olds)}")
        for old in olds:
            if old not in firsts:
                renames[old] = new + "_lem"
    elif new in tokens and (new in fields or new in lemmas or new in outside) and new not in LEMMAS and new not in APART:
        together.append(f"{new} from {sorted(olds)}, and there is {new}")
for name in LEMMAS:
    renames[name] = name + "_lem"
# Two fields of one name but for the spelling: the one is on `word_of` at a code, the other the theorem about words of codes.
renames["wordOf-code"], renames["word-of-code"] = "word_of-code", "word_of_code"
# Two public fields that would have got _lem.
renames["letters-of"], renames["cleared-table"] = "letters_only", "table_cleared"
taken = set(tokens) & {new for new in renames.values() if new.endswith("_lem")}
together += sorted(taken)

if "--list" in sys.argv:
    for old, new in sorted(renames.items()):
        print(old, new)
if together:
    print("fall together:", *together, sep="\n  ")
if "--list" in sys.argv or together:
    sys.exit(bool(together))

place = ""


def turned(text):
    def word(match):
        name = match.group(0)
        if name in LEMMAS and (not place.endswith(".antt") or not place.startswith(ONLY_IN.get(name, ""))):
            return name
        return renames.get(name, name)

    return TOKEN.sub(word, text)


def turned_antt(text):
    lines = []
    for line in text.split("\n"):
        code = bare(line)
        comment = line[len(code):]
        # In a comment, names between backticks and those in camel case.
        comment = re.sub(r"`[^`]*`", lambda m: turned(m.group(0)), comment)
        comment = TOKEN.sub(lambda m: renames.get(m.group(0), m.group(0)) if any(map(is_camel, m.group(0).split("-"))) else m.group(0), comment)
        pieces = re.split(r'("[^"]*")', code)
        lines.append("".join(piece if piece.startswith('"') else turned(piece) for piece in pieces) + comment)
    return "\n".join(lines)


def turned_page(text):
    return re.sub(r"`[^`\n]*`", lambda m: turned(m.group(0)), text)


def turned_rt(text):
    # Clauses, ghost items and comments alone have names of definitions; code has none in camel case or with a dash.
    lines = []
    for line in text.split("\n"):
        if "//" in line:
            code, comment = line.split("//", 1)
            comment = "//" + re.sub(r"`[^`]*`", lambda m: turned(m.group(0)), comment)
        else:
            code, comment = line, ""
        pieces = re.split(r'("[^"]*")', code)
        lines.append("".join(piece if piece.startswith('"') else turned(piece) for piece in pieces) + comment)
    return "\n".join(lines)


for paths, turn in ((ANTT, turned_antt), (RT, turned_rt), (EDITS, turned_antt), (PAGES, turned_page)):
    for path in paths:
        text, place = read(path), path
        new = turn(text)
        if new != text:
            with open(path, "w", encoding="utf8") as file:
                file.write(new)

# The pages and edits still have the older spelling of names that port.py turned in specs/ and proofs/.
known = set()
for path in ANTT + RT:
    known.update(TOKEN.findall(read(path)))


def known_name(match):
    name = match.group(0)
    if name in known or not re.match(r"[a-z]", name):
        return name
    for new in ("-".join(map(snake, name.split("-"))), snake(name.replace("-", "_"))):
        if new in known:
            return new
    return name


for path in PAGES + EDITS:
    text = read(path)
    if path.endswith(".edit"):
        new = re.sub(r"(?m)^(old|new): .*$", lambda m: m.group(1) + ":" + TOKEN.sub(known_name, m.group(0)[4:]), text)
    else:
        new = re.sub(r"`[^`\n]*`", lambda m: TOKEN.sub(known_name, m.group(0)), text)
    if new != text:
        with open(path, "w", encoding="utf8") as file:
            file.write(new)

# The one operator spelled in letters.
for path in ANTT + RT + EDITS + PAGES:
    text = read(path)
    new = text.replace("orElse", "or_else").replace("_or_else_", "◌or_else◌")
    if new != text:
        with open(path, "w", encoding="utf8") as file:
            file.write(new)
print(f"{len(renames)} names")
