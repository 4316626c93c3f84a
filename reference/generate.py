"""Writes call lists, each from a kind and a seed.

    generate.py KIND SEED     writes one list on standard output
    generate.py --kinds       names the kinds

The same kind and seed always give the same list.
"""

from __future__ import annotations

import random
import sys
from typing import Callable

from adversarial import attacked, attacks_each, lsns, olds, sizes
from full_tables import (
    full_blobs, full_bytes, full_bytes_at_start, full_pages, full_rows_at_start, full_segments, many_blobs, many_olds,
)  # fmt: skip
from noise import noise, noise_over_faults
from realistic import blobs, cache, churn, restart, share_held_back, share_without_pages, shrink, shrink_high
from refusing_hosts import cuts, deep_pile, fail, pile, queue, queue_full_at_start, removals, start_faults
from scenes import Script, new_cache
from snapshots import snapshot_faults_each, snapshots


def unreadable(script: Script, rng: random.Random) -> None:
    """A list that ends at a statement that cannot be read."""
    bad = [
        "stop", "next", "next 1 2", "next x", "next -", f"next {2**63}", f"stabilize {-(2**63) - 1}", "pop 1",
        f"link {2**64} 0 0 0 - 0", "link -1 0 0 0 - 0", "link 1 0 +5 0 - 0", "row 256 0 0 - 0", "start 512 32 -",
        "fail 3", "memory 512", "memory 512 0 -", "old 0 0 - - 0", "books 1", "take 0", "page 0", "queue x 0",
    ]  # fmt: skip
    first = rng.random() < 0.15
    if first:
        script.say("# nothing but memory or queue may stand first")
        script.say_unreadable(rng.choice(["next 0", "books", "fail 1", "start 512 32 - -"]))
    else:
        pages = new_cache(script, rng)
        script.say("")
        script.say("# a remark")
        pages.live(rng.randint(1, 10))
        script.say_unreadable(rng.choice(bad))
    script.lines += ["next 0", "books"]


KINDS: dict[str, Callable[[Script, random.Random], None]] = {
    kind.__name__: kind
    for kind in (
        cache, churn, shrink, shrink_high, share_held_back, share_without_pages, blobs, restart, attacked, attacks_each,
        lsns, sizes, olds, many_olds, noise, noise_over_faults, full_pages, full_rows_at_start, full_blobs,
        full_segments, full_bytes, full_bytes_at_start, snapshots, snapshot_faults_each, fail, pile, deep_pile, cuts,
        removals, queue, queue_full_at_start, start_faults, unreadable, many_blobs,
    )
}  # fmt: skip


def generate(kind: str, seed: int) -> str:
    script = Script()
    script.say(f"# {kind} {seed}")
    KINDS[kind](script, random.Random(f"{kind} {seed}"))
    return script.text()


def main() -> int:
    if sys.argv[1:] == ["--kinds"]:
        print("\n".join(KINDS))
        return 0
    if len(sys.argv) != 3 or sys.argv[1] not in KINDS:
        print("usage: generate.py KIND SEED | generate.py --kinds", file=sys.stderr)
        return 2
    sys.stdout.write(generate(sys.argv[1], int(sys.argv[2])))
    return 0


if __name__ == "__main__":
    sys.exit(main())
