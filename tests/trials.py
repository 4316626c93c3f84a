"""The stored lists as one trial of the port.

    trials.py make      writes unfinished/trials/stdin and stdout anew from the lists and transcripts in sample/
    trials.py check     tells whether the two files are what the sample gives

The lists of the sample stand one after another in stdin, and their transcripts by the rules in stdout, with the runs counted on.
Left out are the lists that the port does not play to their end: those with a statement that cannot be read, and those with more
fail layers than it takes.
"""

from __future__ import annotations

import sys
from pathlib import Path

ROOT = Path(__file__).resolve().parent.parent
sys.path.insert(0, str(ROOT / "reference"))

from call_lists import MOST_LAYERS, most_layers  # noqa: E402

SAMPLE = ROOT / "sample"
TRIALS = ROOT / "unfinished" / "trials"


def is_played(name: str, text: str) -> bool:
    return not name.startswith("unreadable-") and most_layers(text) <= MOST_LAYERS


def gathered() -> tuple[str, str]:
    """The whole list and its transcript."""
    calls, lines, runs = [], [], 0
    for path in sorted(SAMPLE.glob("*.calls")):
        text = path.read_text()
        if not is_played(path.stem, text):
            continue
        calls.append(f"# {path.stem}\n{text}")
        for line in path.with_suffix(".rules").read_text().splitlines():
            if line.startswith("run "):
                runs += 1
                line = f"run {runs}"
            lines.append(line + "\n")
    return "".join(calls), "".join(lines)


def main() -> int:
    made = dict(zip(("stdin", "stdout"), gathered()))
    match sys.argv[1:]:
        case ["make"]:
            for name, text in made.items():
                (TRIALS / name).write_text(text)
            return 0
        case ["check"]:
            stale = [name for name, text in made.items() if (TRIALS / name).read_text() != text]
            for name in stale:
                print(f"unfinished/trials/{name} is not what the sample gives: run tests/trials.py make")
            return 1 if stale else 0
    print("usage: trials.py make | trials.py check", file=sys.stderr)
    return 2


if __name__ == "__main__":
    sys.exit(main())
