"""Lists over hosts that refuse: fail layers, piles of them, a queue that fills up."""

from __future__ import annotations

import random

from call_lists import Info
from scenes import SIZES, PageCache, Script, live_with_books, new_cache, some_books, start_empty


def fail(script: Script, rng: random.Random) -> None:
    """A page cache over one fail layer."""
    for _ in range(rng.randint(1, 3)):
        faulty_cache(script, rng, [rng.randint(0, 6)], "memory", rng.randint(30, 90))


def pile(script: Script, rng: random.Random) -> None:
    """A page cache over several fail layers."""
    layers = [rng.randint(0, 8) for _ in range(rng.randint(2, 7))]
    faulty_cache(script, rng, layers, rng.choice(["memory", "queue"]), rng.randint(40, 100))


def deep_pile(script: Script, rng: random.Random) -> None:
    """More layers than the layer number can tell."""
    depth = rng.choice([255, 256, 257, 300])
    faulty_cache(script, rng, [0] + [10**6] * (depth - 1), "memory", 20)
    empties(script, rng, [0] + [10**6] * depth, 5)


def faulty_cache(script: Script, rng: random.Random, layers: list[int], host: str, steps: int) -> None:
    size = rng.choice(SIZES)
    pointers = rng.sample(range(100), 20)
    script.say(f"{host} {size} 0 {' '.join(map(str, pointers[:15]))}")
    for passes in layers:
        script.say(f"fail {passes}")
    start_empty(script, size)
    pages = PageCache(script, rng, size, pointers)
    live_with_books(pages, steps)


def empties(script: Script, rng: random.Random, layers: list[int], count: int, host: str = "memory") -> None:
    """Segments without pages are all freed at once: many cuts in one freeing."""
    size = rng.choice(SIZES)
    script.say(f"{host} {size} 0")
    for passes in layers:
        script.say(f"fail {passes}")
    start_empty(script, size)
    kept = rng.choice([None, 0, rng.randint(0, count - 1)])
    for number in range(count):
        script.say(f"next {number * size}")
        if number == kept:
            script.say(f"link 1 0 {number * size} {number * size} - {size}")
    script.say(f"stabilize {(count + 1) * size}")
    script.say("books")
    for number in range(count, count + rng.randint(2, 5)):
        script.say(f"next {number * size}")
    script.say("books")


def cuts(script: Script, rng: random.Random) -> None:
    """Refused cuts, remembered and then told by next at the tip."""
    for _ in range(rng.randint(2, 5)):
        layers = [rng.randint(0, 4) for _ in range(rng.randint(1, 4))]
        empties(script, rng, layers, rng.randint(2, 9))


def removals(script: Script, rng: random.Random) -> None:
    """Faults in the middle of a stabilize that removes blobs."""
    for _ in range(rng.randint(2, 4)):
        size = rng.choice(SIZES)
        script.say(f"memory {size} 0 1 2 3 4 5 6 7")
        for _ in range(rng.randint(1, 3)):
            script.say(f"fail {rng.randint(0, 9)}")
        start_empty(script, size)
        count = rng.randint(2, 5)
        for number in range(count):
            script.say(f"next {number * size}")
            give_up_blobs(script, rng, number * size)
        for _ in range(3):
            script.say(f"stabilize {rng.randint(1, count + 2) * size}")
            some_books(script, rng, 0.6)
        script.say(f"next {count * size}")
        give_up_blobs(script, rng, count * size)
        script.say(f"stabilize {(count + 3) * size}")
        script.say("books")


def give_up_blobs(script: Script, rng: random.Random, at: int) -> None:
    page = rng.randint(0, 3)
    script.link(page, Info(0, at, at, None, rng.choice([10, 200])))
    old = [Info(0, at, at, rng.randint(0, 9), 1) for _ in range(rng.randint(2, 4))]
    script.replace(page, old, Info(0, at + 3, at + 3, rng.choice([None, 77]), rng.choice([10, 200])))


def queue(script: Script, rng: random.Random) -> None:
    """A queue host that is nearly full from the start, and requests taken now and then."""
    size = rng.choice(SIZES)
    free = rng.randint(55, 63)
    script.say(f"queue {size} {(free + 1) * size} 1 2 3 4 5 6")
    for _ in range(rng.choice([0, 0, 1, 2])):
        script.say(f"fail {rng.randint(50, 200)}")
    script.say("page 0 1")
    script.say(f"row 0 {200 * size} {free * size} - 100")
    script.say(f"start {size} 32 {200 * size + 200} {free * size}")
    pages = PageCache(script, rng, size, list(range(1, 30)))
    pages.next_lsn = 201 * size
    pages.table[0] = [Info(0, 200 * size, free * size, None, 100)]
    for _ in range(rng.randint(20, 60)):
        pages.step()
        if rng.random() < 0.2:
            script.say("take")
        some_books(script, rng, 0.05)
    for _ in range(rng.randint(5, 70)):
        script.say("take")
    script.say("books")


def queue_full_at_start(script: Script, rng: random.Random) -> None:
    """More free segments than the queue has room: start is refused, some are taken, start is tried again."""
    size = rng.choice(SIZES)
    free = rng.randint(64, 100)
    script.say(f"queue {size} {free * size}")
    for _ in range(rng.choice([0, 0, 1, 3])):
        script.say(f"fail {rng.randint(100, 300)}")
    for _ in range(3):
        script.say(f"start {size} 32 - -")
        script.say("books")
        for _ in range(rng.randint(0, 64)):
            script.say("take")
    empties(script, rng, [], 70, "queue")
    for _ in range(rng.randint(1, 66)):
        script.say("take")
    script.say(f"next {200 * size * 2}")
    script.say("books")


def start_faults(script: Script, rng: random.Random) -> None:
    """Starts that the host ends, retried until it gives way."""
    pages = new_cache(script, rng)
    pages.live(rng.randint(30, 80))
    for _ in range(rng.randint(1, 3)):
        fails = tuple(rng.randint(0, 6) for _ in range(rng.randint(1, 3)))
        if pages.restart("memory", fails):
            pages.live(rng.randint(3, 20))
        script.say("books")
    for _ in range(3):
        free_file(script, rng)


def free_file(script: Script, rng: random.Random) -> None:
    """A file of free segments only: each is filled, the last ones are cut."""
    size = rng.choice(SIZES)
    count = rng.randint(1, 6)
    script.say(f"memory {size} {count * size - rng.choice([0, 0, 1, size - 1])}")
    if rng.random() < 0.7:
        script.say(f"fail {rng.randint(0, 2 * count)}")
    for _ in range(2):
        script.say(f"start {size} 32 - -")
        script.say("books")
    script.say("next 0")
    script.say(f"next {size * 7}")
    script.say("books")
