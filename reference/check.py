"""Plays generated lists on the crate and by the rules, and compares.

    check.py HARNESS COUNT [FIRST_SEED] [KEEP]

Takes COUNT lists, the kinds in turn, seeds from FIRST_SEED (0) on. Each list is played by the rules under the laws of
recount.py, and by the harness; the two transcripts are compared. Tells what agreed, what left the domain, and what was
reached. Lists that show a fault are kept in the folder KEEP. Exit status 1 at a disagreement, a broken law, a harness
that fails, or something that was not reached.
"""

from __future__ import annotations

import subprocess
import sys
from pathlib import Path
from typing import Iterator, Optional

from compare import Report, compare, tell
from generate import KINDS, generate
from playing import play
from reached import MUST_REACH, Reached, Watchers
from recount import Watcher


class Check:
    """Gathers what the lists show."""

    def __init__(self, harness: str, keep: Optional[Path]) -> None:
        self.harness = harness
        self.keep = keep
        self.report = Report()
        self.reached = Reached()
        self.faults: list[str] = []
        self.lists = 0

    def check(self, name: str, text: str) -> None:
        self.lists += 1
        watcher = Watcher()
        rules = play(text, Watchers(watcher, self.reached))
        answer = subprocess.run([self.harness], input=text, capture_output=True, text=True)
        if answer.returncode != 0:
            self.fault(name, text, f"the harness ended with {answer.returncode}: {answer.stderr.strip()}")
            return
        report = compare(text, answer.stdout, rules)
        self.report.add(report)
        for what in watcher.broken + report.disagreements:
            self.fault(name, text, what)

    def fault(self, name: str, text: str, what: str) -> None:
        self.faults.append(f"{name}: {what}")
        if self.keep:
            self.keep.mkdir(parents=True, exist_ok=True)
            (self.keep / f"{name}.calls").write_text(text)

    def tell(self) -> None:
        self.report.disagreements = []
        print(f"lists {self.lists}")
        print("\n".join(tell(self.report)))
        for name in MUST_REACH:
            print(f"reached {name}: {self.reached.counts[name]}")
        for name, count in sorted(self.reached.counts.items()):
            if name not in MUST_REACH:
                print(f"also {name}: {count}")
        for fault in self.faults[:50]:
            print(f"FAULT {fault}")
        for name in self.reached.missing():
            print(f"NOT REACHED {name}")


def lists(count: int, first: int) -> Iterator[tuple[str, str]]:
    """COUNT generated lists with their names, the kinds in turn, seeds from the first on."""
    kinds = list(KINDS)
    for turn in range(count):
        kind, seed = kinds[turn % len(kinds)], first + turn // len(kinds)
        yield f"{kind}-{seed}", generate(kind, seed)


def main() -> int:
    if not 3 <= len(sys.argv) <= 5:
        print("usage: check.py HARNESS COUNT [FIRST_SEED] [KEEP]", file=sys.stderr)
        return 2
    first = int(sys.argv[3]) if len(sys.argv) > 3 else 0
    check = Check(sys.argv[1], Path(sys.argv[4]) if len(sys.argv) > 4 else None)
    for name, text in lists(int(sys.argv[2]), first):
        check.check(name, text)
    check.tell()
    return 1 if check.faults or check.reached.missing() else 0


if __name__ == "__main__":
    sys.exit(main())
