"""The fixed sample of call lists with both transcripts.

    sample.py make HARNESS FOLDER     writes the generated lists, and for every list NAME.calls the crate's transcript
                                      NAME.crate and the rules' transcript NAME.rules, and the manifest
    sample.py check FOLDER            plays every list by the rules and compares all that is stored; needs no Rust

Lists whose names begin with worked, difference or same are written by hand and stay as they are.
"""

from __future__ import annotations

import subprocess
import sys
from pathlib import Path

from compare import Report, compare, tell
from generate import KINDS, generate
from playing import play
from reached import Reached, Watchers
from recount import Watcher

MANIFEST = "MANIFEST.txt"

# The seeds kept of each kind, where they are not these.
USUAL = (0, 1, 2, 3)
SEEDS = {
    "full_pages": (0,),
    "full_rows_at_start": (0,),
    "full_blobs": (0,),
    "full_segments": (0,),
    "full_bytes": (0,),
    "full_bytes_at_start": (0,),
    "many_olds": (0,),
    "many_blobs": (0,),
    "deep_pile": (0,),
    "queue": (0, 1, 6),
    "queue_full_at_start": (2, 6),
    "snapshot_faults_each": (0,),
    "attacks_each": (0, 1, 2, 3, 4, 5, 6, 7),
    "unreadable": (0, 1, 2, 3, 4, 5),
    "snapshots": (1, 2, 3, 4, 5),
}


def planned() -> list[tuple[str, int]]:
    return [(kind, seed) for kind in KINDS for seed in SEEDS.get(kind, USUAL)]


def make(harness: str, folder: Path) -> None:
    origin = {}
    for kind, seed in planned():
        name = f"{kind}-{seed}"
        (folder / f"{name}.calls").write_text(generate(kind, seed))
        origin[name] = f"kind {kind} seed {seed}"
    lines = []
    for path in sorted(folder.glob("*.calls")):
        text = path.read_text()
        played = subprocess.run([harness], input=text, capture_output=True, text=True, check=True)
        path.with_suffix(".crate").write_text(played.stdout)
        path.with_suffix(".rules").write_text(play(text))
        lines.append(f"{path.stem}: {origin.get(path.stem, 'by hand')}\n")
    (folder / MANIFEST).write_text("".join(lines))


def check(folder: Path) -> int:
    """The number of faults found."""
    report, reached, faults = Report(), Reached(), []
    names = [line.split(":")[0] for line in (folder / MANIFEST).read_text().splitlines()]
    if sorted(names) != sorted(path.stem for path in folder.glob("*.calls")):
        faults.append("the manifest does not name the lists that are there")
    for name in names:
        text, crate, rules = [(folder / f"{name}.{end}").read_text() for end in ("calls", "crate", "rules")]
        watcher = Watcher()
        if play(text, Watchers(watcher, reached)) != rules:
            faults.append(f"{name}: the rules tell another transcript")
        one = compare(text, crate, rules)
        faults += [f"{name}: {what}" for what in watcher.broken + one.disagreements]
        one.disagreements = []
        report.add(one)
    faults += [f"not reached: {name}" for name in reached.missing()]
    print(f"lists {len(names)}")
    print("\n".join(tell(report)))
    for fault in faults:
        print(f"FAULT {fault}")
    return len(faults)


def main() -> int:
    match sys.argv[1:]:
        case ["make", harness, folder]:
            make(harness, Path(folder))
            return 0
        case ["check", folder]:
            return 1 if check(Path(folder)) else 0
    print("usage: sample.py make HARNESS FOLDER | sample.py check FOLDER", file=sys.stderr)
    return 2


if __name__ == "__main__":
    sys.exit(main())
