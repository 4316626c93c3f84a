#!/usr/bin/env python3
"""Counts the places in the code where an older form of Rattle may stand.

usage: python3 tools/places.py          the counts, a line for each kind of place
       python3 tools/places.py 3        the places of point 3, a line for each

The points are those of docs/DESIGN-PASS.md. A place is found by its text, so a kind may list places that are as they should be;
the page says of each that stays why it does.
"""
import collections
import glob
import re
import sys

KEYWORDS = set("fn let mut pub crate self if else for in while match return where impl use mod struct enum trait type const as ref move".split())
PRIMITIVES = re.compile(r"\b([ui](8|16|32|64|size)|bool|str|char)\b")


def files(kind, folder):
    return sorted(glob.glob(f"crates/*/{folder}/**/*.{kind}", recursive=True))


def lines_of(path):
    with open(path, encoding="utf-8") as text:
        return text.read().split("\n")


def code_lines():
    for path in files("rt", "src"):
        for number, line in enumerate(lines_of(path), 1):
            if not line.lstrip().startswith(("//", "ghost use", "use ")):
                yield path, number, line


def by_text(pattern):
    found = re.compile(pattern)
    return [(p, n, l.strip()) for p, n, l in code_lines() if found.search(l)]


def functions():
    """Each function: its path, line, name, parameters, clauses and body, by the layout that rt fmt gives."""
    for path in files("rt", "src"):
        lines = lines_of(path)
        i = 0
        while i < len(lines):
            start = re.match(r"(\s*)(?:pub(?:\(crate\))? )?fn (\w+)", lines[i])
            if not start:
                i += 1
                continue
            indent, name, head, body, clauses, j = start[1], start[2], [], [], [], i
            while j < len(lines) and lines[j] not in (indent + "{", indent + "{}") and not lines[j].endswith((" {", ";")) or (
                j < len(lines) and re.match(r"\s*(requires|ensures)", lines[j]) and not lines[j].endswith(";")
            ):
                (clauses if re.match(r"\s*(requires|ensures)", lines[j]) else head).append(lines[j])
                j += 1
            if j < len(lines) and lines[j] not in (indent + "{", indent + "{}"):
                (clauses if re.match(r"\s*(requires|ensures)", lines[j]) else head).append(lines[j])
            while j < len(lines) and lines[j] not in (indent + "}", indent + "{}") and not lines[j].endswith(";" if not body else "\0"):
                j += 1
                if j < len(lines):
                    body.append(lines[j])
            yield path, i + 1, name, " ".join(head), clauses, "\n".join(body)
            i += 1


def enums_of_two():
    """Own enums with two variants, one of which has no value: the shape of an Option."""
    found = []
    for path in files("rt", "src"):
        text = "\n".join(lines_of(path))
        for enum in re.finditer(r"enum (\w+)[^{]*\{([^}]*)\}", text):
            variants = [v for v in re.findall(r"^    (\w+)", enum[2], re.M)]
            if len(variants) <= 2:
                found.append((path, text[: enum.start()].count("\n") + 1, f"enum {enum[1]}"))
    return found


def twins():
    """Functions of one text, but for their names, types and numbers."""
    groups = collections.defaultdict(list)
    for path, line, name, head, _, body in functions():
        text = re.sub(r"\b" + name + r"\b", "F", head + body)
        text = PRIMITIVES.sub("T", re.sub(r"\b[A-Z]\w*\b", "T", re.sub(r"\b[0-9][0-9_]*\b", "N", text)))
        tokens = re.findall(r"\w+|[^\w\s]", text)
        if len(tokens) >= 24:
            groups[" ".join(tokens)].append((path, line, name))
    return [place for group in groups.values() if len(group) > 1 for place in group]


def asking_loops():
    """Loops over elements that ask whether any passes, count or find them."""
    found = []
    for path in files("rt", "src"):
        lines = lines_of(path)
        for n, line in enumerate(lines[:-2]):
            if re.search(r"\bfor \w+ in [^.]*\{$", line) and re.search(r"\bif\b", lines[n + 1]) and re.search(r"return|\+= 1|= Some", lines[n + 2]):
                found.append((path, n + 1, line.strip()))
    return found


def shape(clause):
    """A clause without the names of its clause and parameters."""
    text = re.sub(r"^\s*(requires|ensures)\*? ?\w* ?\{ ?(.*?) ?\};?$", r"\2", clause)
    return re.sub(r"\b(?!self\.new|self\.old)[a-z_]+\.(now|old|new)\b", r"_.\1", text)


def repeated_facts():
    """Facts that stand in the clauses of three functions or more."""
    groups = collections.defaultdict(list)
    for path, line, name, _, clauses, _ in functions():
        for one in {shape(c) for c in clauses}:
            groups[one].append((path, line, f"{name}: {one}"))
    return [place for fact in groups.values() if len({p[:2] for p in fact}) >= 3 for place in fact]


def parameters_together():
    """Three parameters or more that three functions or more take together."""
    groups = collections.defaultdict(list)
    for path, line, name, head, _, _ in functions():
        inside = re.search(r"\((.*)\)", head)
        parameters = re.findall(r"(\w+): ([^,()]+)", inside[1]) if inside else []
        names = sorted({n for n, _ in parameters})
        for i in range(len(names)):
            for j in range(i + 1, len(names)):
                for k in range(j + 1, len(names)):
                    groups[names[i], names[j], names[k]].append((path, line, name))
    return [(p, l, f"{n}: {' '.join(key)}") for key, group in groups.items() if len(group) >= 3 for p, l, n in group]


def repeated_proof_lines():
    """Lines that stand in four answers or more."""
    groups = collections.defaultdict(list)
    for path in files("antt", "proofs"):
        if path.endswith("Answers.antt"):
            for number, line in enumerate(lines_of(path), 1):
                text = line.strip()
                if len(text) > 40 and not text.startswith(("use ", "--", "let key =", "let rank =")):
                    groups[text].append((path, number, text))
    return [place for group in groups.values() if len(group) >= 4 for place in group]


def repeated_lemmas():
    """Statements of lemmas that stand in two crates or more."""
    groups = collections.defaultdict(list)
    for path in files("antt", "proofs"):
        for number, line in enumerate(lines_of(path), 1):
            one = re.match(r"(?:abbrev |unfoldable )?pub ([\w◌'-]+) : (.*)", line)
            if one and len(one[2]) > 20 and "goal." not in line:
                groups[one[2]].append((path, number, one[1]))
    return [place for group in groups.values() if len({p[0].split("/")[1] for p in group}) > 1 for place in group]


POINTS = {
    "1 enums of two variants": enums_of_two,
    "1 flags in structs": lambda: by_text(r"^\s+(pub(\(crate\))? )?\w+: bool,$"),
    "1 answers with a flag or a filler beside a value": lambda: by_text(r"-> \(.*\bbool\)|=> \(.*, 0\),"),
    "1 numbers for kinds, refusals or nothing": lambda: by_text(r"-> u8$|-> u8 \{|\b(kind|code)\b(: u\d+| [=!]= |\) ->)|const [A-Z_]+: u(8|16)\b|match self.kind"),
    "2 twins by text": twins,
    "3 while": lambda: by_text(r"\bwhile\b"),
    "3 for over numbers": lambda: by_text(r"\bfor \w+ in [^{]*\.\."),
    "3 loops that ask, count or find": asking_loops,
    "4 orders and equality": lambda: by_text(r"-> Ordering$|-> Ordering \{|fn eq\("),
    "4 blanks": lambda: by_text(r"fn blank_|Blob\(0\)"),
    "4 results turned by hand": lambda: by_text(r"(Ok|Some)\((\w+)\) => \1\(\2\)|Err\(\w+\) => Err\(|Err\(_\) => (None|Err)|Ok\(\(\)\) => Ok\(\(\)\)"),
    "4 conversions and printing": lambda: by_text(r"fmt::Display for|fn (row_kind|number|code_and_layer|raise|lowest_fault|kind)\b|HostFault::Cut \{$"),
    "5 facts in three contracts or more": repeated_facts,
    "5 parameters that travel together": parameters_together,
    "6 lengths beside buffers": lambda: by_text(r"^\s+(pub )?len: usize,|, len: usize\b|remove\(0\)|lost: bool"),
    "6 own lists and tables": lambda: by_text(r": Vec<|: Table<"),
    "7 switches on the step": lambda: by_text(r"match layers|Act::\w+(\(\w+\))? =>|Request::\w+\(\w+\) => host\.|\bfn\("),
    "8 lines of four answers or more": repeated_proof_lines,
    "8 lemmas of two crates or more": repeated_lemmas,
}


def main():
    asked = sys.argv[1] if len(sys.argv) > 1 else None
    for name, find in POINTS.items():
        places = find()
        if asked is None:
            print(f"{len(places):5} {name}")
        elif name.split()[0] == asked:
            for path, line, text in places:
                print(f"{name}: {path}:{line}: {text}")


main()
