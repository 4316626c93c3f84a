"""Turns the names of this repository's definitions and lemmas to one spelling: snake case, and camel case for types.

    respell.py          rewrites the files below crates/ in place, and the names in backticks in comments, README.md and docs/
    respell.py names    prints the old and the new names, one pair a line, and writes nothing

A name is turned where it is declared in an .antt file of this repository. Names of the library keep theirs in the files that import them;
names that the check makes for a function's goals keep theirs everywhere.
"""

from __future__ import annotations

import re
import sys
from pathlib import Path

ROOT = Path(__file__).resolve().parent.parent
WORD = re.compile(r"[^\s(){}\[\];,.@λ\"`]+")
HEAD = re.compile(r"^\s*(?:(?:abbrev|pub|unfoldable)\s+)*(?:(?:record|data)\s+)?([^\s:(){},.]+)(?:\s+[({].*)?\s+:\s")
LET = re.compile(r"\blet\s+([^\s:(){},.=]+)\s*(?::|=)")
BOUND = re.compile(r"[({]((?:[^\s(){}:,.]+\s+)+):\s")
LAMBDA = re.compile(r"λ\s*([^.]*)\.")
IMPORT = re.compile(r"^\s*(?:ghost\s+)?(?:pub\s+)?use\s+([\w·.]+?)\.\{([^}]*)\}")
GENERATED = {"Answers.antt", "Choices.antt", "Invariants.antt"}
# Names that the rule alone would bring together with another, or that speak of a word which is gone.
OWN = {
    "every-getD": "every_index",
    "getD-set-same": "index_set_same",
    "isFree": "seg_is_free",
    "least-signed": "above_least_signed",
    "first-of": "first_among",
}


def files(*endings: str) -> list[Path]:
    return sorted(p for e in endings for p in (ROOT / "crates").rglob(f"*.{e}") if "out" not in p.relative_to(ROOT).parts)


def crates() -> set[str]:
    return {p.name for p in (ROOT / "crates").iterdir()}


def spelled(name: str) -> str:
    if name in OWN:
        return OWN[name]
    if name[0].isupper():
        return "".join(part[:1].upper() + part[1:] for part in name.split("-"))
    name = re.sub(r"(?<=[a-z0-9])([A-Z])", lambda m: "_" + m[1].lower(), name)
    return name.replace("-", "_")


def plain(text: str) -> str:
    """The text without its comments."""
    return "\n".join(re.split(r"(?:^|\s)--(?:\s|$)", line)[0] for line in text.split("\n"))


def declared() -> set[str]:
    found: set[str] = set()
    for path in files("antt"):
        if path.name in GENERATED:
            continue
        for line in plain(path.read_text()).split("\n"):
            for m in (HEAD.match(line), *LET.finditer(line)):
                if m:
                    found.add(m[1])
            for m in BOUND.finditer(line):
                found.update(m[1].split())
            for m in LAMBDA.finditer(line):
                found.update(re.split(r"[\s(),]+", m[1]))
    return found


def turned() -> dict[str, str]:
    """Old name to new name, of the names declared here that are spelled otherwise."""
    pairs = {}
    for name in declared():
        if re.match(r"^[A-Za-z][\w'-]*$", name) and spelled(name) != name:
            pairs[name] = spelled(name)
    return pairs


def from_library(text: str, own: set[str]) -> set[str]:
    """The names that a file has from elsewhere."""
    names = set()
    for line in text.split("\n"):
        m = IMPORT.match(line)
        if not m:
            continue
        parts = re.split(r"[·.]", m[1])
        if parts[0] == "Rattle" and len(parts) > 1 and parts[1] in own:
            continue
        for item in m[2].split(","):
            names.update(re.split(r"\s+as\s+", item.strip()))
    return names


def rewrite(text: str, pairs: dict[str, str], comment: str) -> str:
    def word(m: re.Match[str]) -> str:
        # behind a dot a name of OWN may be a call of a function
        return m[0] if m[0] in OWN and m.string[m.start() - 1: m.start()] == "." else pairs.get(m[0], m[0])

    lines = []
    for line in text.split("\n"):
        cut = re.search(comment, line)
        code, rest = (line[: cut.start()], line[cut.start():]) if cut else (line, "")
        lines.append(WORD.sub(word, code) + quoted(rest, pairs))
    return "\n".join(lines)


def quoted(text: str, pairs: dict[str, str]) -> str:
    """Turns the names in backticks alone."""
    return re.sub(r"`[^`]*`", lambda m: WORD.sub(lambda w: pairs.get(w[0], w[0]), m[0]), text)


def main() -> int:
    pairs = turned()
    if sys.argv[1:] == ["names"]:
        for old, new in sorted(pairs.items()):
            print(old, new)
        return 0
    own = crates()
    for path in files("antt", "rt"):
        text = path.read_text()
        kept = from_library(text, own)
        here = {old: new for old, new in pairs.items() if old not in kept}
        after = rewrite(text, here, r"(?:^|\s)--(?:\s|$)" if path.suffix == ".antt" else r"(?:^|\s)//")
        if after != text:
            path.write_text(after)
    for path in [ROOT / "README.md", *sorted((ROOT / "docs").glob("*.md"))]:
        text = path.read_text()
        after = "\n".join(quoted(line, pairs) for line in text.split("\n"))
        if after != text:
            path.write_text(after)
    return 0


if __name__ == "__main__":
    sys.exit(main())
