"""Plays generated lists by the port, by the rules and on the crate, and compares.

    port.py PORT HARNESS COUNT [FIRST_SEED] [KEEP]

PORT is the built program replay, HARNESS the one around the crate. Takes COUNT lists, the kinds in turn, seeds from
FIRST_SEED (0) on. Of every list the port's transcript must be what the rules give, up to the reason of a statement that
cannot be read, and compare.py must find that it agrees with the crate's wherever the two must agree. Lists with more
fail layers than the port takes are counted and passed over. Lists that show a fault are kept in the folder KEEP. Exit
status 1 at a fault.
"""

from __future__ import annotations

import re
import subprocess
import sys
from pathlib import Path
from typing import Optional

from call_lists import MOST_LAYERS, most_layers
from check import Check, lists
from compare import blocks_of, compare, first_difference, tell
from playing import play

BAD_LINE = re.compile(r"^(line \d+): .*$")


def without_reason(transcript: str) -> list[str]:
    """The lines of a transcript; of a statement that cannot be read only its line number."""
    return [BAD_LINE.sub(r"\1", line) for line in transcript.splitlines()]


class PortCheck(Check):
    """Gathers what the lists show of the port."""

    def __init__(self, port: str, harness: str, keep: Optional[Path]) -> None:
        super().__init__(harness, keep)
        self.port = port
        self.calls = 0
        self.passed_over = 0

    def check(self, name: str, text: str) -> None:
        if most_layers(text) > MOST_LAYERS:
            self.passed_over += 1
            return
        self.lists += 1
        rules = play(text)
        self.calls += sum(block.kind == "call" for block in blocks_of(rules))
        told = subprocess.run([self.port], input=text, capture_output=True, text=True)
        crate = subprocess.run([self.harness], input=text, capture_output=True, text=True)
        self.compare_with_rules(name, text, told, rules)
        if crate.returncode != 0:
            self.fault(name, text, f"the harness ended with {crate.returncode}: {crate.stderr.strip()}")
            return
        report = compare(text, crate.stdout, told.stdout)
        self.report.add(report)
        for what in report.disagreements:
            self.fault(name, text, f"against the crate: {what}")

    def compare_with_rules(self, name: str, text: str, told: subprocess.CompletedProcess, rules: str) -> None:
        ours, theirs = without_reason(told.stdout), without_reason(rules)
        status = 1 if theirs and theirs[-1].startswith("line ") else 0
        if ours != theirs:
            self.fault(name, text, f"against the rules: {first_difference(ours, theirs)}")
        elif told.returncode != status:
            self.fault(name, text, f"the port ended with {told.returncode}: {told.stderr.strip()}")

    def tell(self) -> None:
        self.report.disagreements = []
        print(f"lists {self.lists}, calls {self.calls}; passed over for their fail layers {self.passed_over}")
        print("against the crate: " + "\n".join(tell(self.report)))
        for fault in self.faults[:50]:
            print(f"FAULT {fault}")
        print(f"faults {len(self.faults)}")


def main() -> int:
    if not 4 <= len(sys.argv) <= 6:
        print("usage: port.py PORT HARNESS COUNT [FIRST_SEED] [KEEP]", file=sys.stderr)
        return 2
    first = int(sys.argv[4]) if len(sys.argv) > 4 else 0
    check = PortCheck(sys.argv[1], sys.argv[2], Path(sys.argv[5]) if len(sys.argv) > 5 else None)
    for name, text in lists(int(sys.argv[3]), first):
        check.check(name, text)
    check.tell()
    return 1 if check.faults else 0


if __name__ == "__main__":
    sys.exit(main())
