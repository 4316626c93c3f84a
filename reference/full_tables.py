"""Lists that fill a table, a count or a sum to its limit."""

from __future__ import annotations

import random

from call_lists import Info
from scenes import LARGEST, Script, new_run, start_empty


def full_pages(script: Script, rng: random.Random) -> None:
    """2,048 page rows: no room for one more, room for one that is there, and room again once some go."""
    new_run(script, 256)
    start_empty(script, 256)
    script.say("next 0")
    script.say("next 256")
    for page in range(2047):
        script.say(f"link {page} 0 0 0 - 0")
    script.say("link 0 0 256 256 - 0")
    script.say("link 1 0 256 256 - 0")
    script.say("replace 2 256 0 256 256 - 0")
    script.say("link 2046 0 0 0 - 9")
    script.say("old 0 0 0 - 0")
    script.say("replace 0 260 0 260 260 - 0")
    script.say(f"stabilize {rng.choice([512, 768])}")
    script.say("link 5 0 256 256 - 0")


def full_rows_at_start(script: Script, rng: random.Random) -> None:
    """A snapshot of 2,048 page rows is taken, one more is not: 256 pages with rows in each of 8 segments."""
    for added in (1, 0):
        script.say("memory 256 2048")
        for page in range(256):
            script.say(f"page {page * 8} 8")
        for _ in range(added):
            script.say("page 2048 1")
        for _ in range(256):
            for number in range(8):
                script.say(f"row {min(number, 1)} {number * 256} {number * 256} - 0")
        for _ in range(added):
            script.say(f"row {rng.choice([0, 2])} 0 0 - 0")
        script.say("start 256 32 0 0")
        script.say("link 0 0 0 0 - 0")
        script.say("link 9999 0 0 0 - 0")


def full_blobs(script: Script, rng: random.Random) -> None:
    """256 blob rows."""
    new_run(script, 256, tuple(range(0, 300, 7)))
    start_empty(script, 256)
    script.say("next 0")
    script.say("next 256")
    first = rng.randint(200, 256)
    filled(script, 0, range(first))
    filled(script, 256, range(1000, 1000 + 256 - first))
    script.say("replace 1 5 0 5 5 - 0")
    filled(script, 0, range(3, 5))
    filled(script, 256, range(3, 5))
    script.say("books")
    script.say("stabilize 512")
    filled(script, 256, range(3, 9))
    script.say("stabilize 1024")
    script.say("books")


def filled(script: Script, at: int, blobs_: range) -> None:
    """Page 1 is replaced in the segment at this offset, with so many old blobs of no bytes."""
    old = [Info(0, at, at, blob, 0) for blob in blobs_]
    script.replace(1, old, Info(0, at + 1, at + 1, None, 0))


def full_segments(script: Script, rng: random.Random) -> None:
    """256 segments: the tip can rise no further until one is free."""
    new_run(script, 256)
    start_empty(script, 256)
    for number in range(256):
        script.say(f"next {number * 256}")
        if number % 9 == 0 or rng.random() < 0.2:
            script.say(f"link {number} 0 {number * 256} {number * 256} - {rng.choice([1, 200])}")
    script.say(f"next {256 * 256}")
    script.say(f"stabilize {rng.randint(10, 255) * 256}")
    script.say(f"next {256 * 256}")
    script.say(f"next {257 * 256}")
    script.say("books")


def full_bytes(script: Script, rng: random.Random) -> None:
    """Linked bytes up to 2^40."""
    new_run(script, 256)
    start_empty(script, 256)
    script.say("next 0")
    for _ in range(256):
        script.say(f"link 1 0 0 0 - {LARGEST}")
    left = 2**40 - 256 * LARGEST
    script.say(f"link 1 0 0 0 - {left + 1}")
    script.say(f"replace 1 0 0 0 0 - {left + 1}")
    script.say(f"link 1 0 0 0 - {left}")
    script.say("link 1 0 0 0 - 1")
    script.say("link 1 0 0 0 - 0")
    script.say("books")


def full_bytes_at_start(script: Script, rng: random.Random) -> None:
    for last in (256, 257):
        script.say("memory 256 256")
        script.say("page 0 257")
        for number in range(256):
            script.say(f"row {min(number, 1)} 0 0 - {LARGEST}")
        script.say(f"row 1 0 0 - {last}")
        script.say("start 256 32 0 0")
        script.say("books")


def many_olds(script: Script, rng: random.Random) -> None:
    """256 old infos are taken, 257 are not."""
    for count in (256, 257):
        new_run(script, 256, (1, 2))
        start_empty(script, 256)
        script.say("next 0")
        script.say("next 256")
        script.say("link 3 0 0 0 - 200")
        old = [Info(0, 0, rng.choice([0, 256]), None, 0) for _ in range(count)]
        script.replace(3, old, Info(0, 256, 256, None, 10))
        script.say("books")


def many_blobs(script: Script, rng: random.Random) -> None:
    """A host takes the first 1,024 of its blobs."""
    pointers = [rng.randint(0, 1200) for _ in range(1015)] + list(range(2000, 2020))
    script.say(f"{rng.choice(['memory', 'queue'])} 256 0 {' '.join(map(str, pointers))}")
    start_empty(script, 256)
    script.say("next 0")
    old = [Info(0, 0, 0, blob, 0) for blob in (2000, 2008, 2009, 2019, pointers[0])]
    script.replace(1, old, Info(0, 1, 1, None, 200))
    script.say("stabilize 512")
    script.say("books")
