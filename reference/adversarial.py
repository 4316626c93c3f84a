"""Adversarial lists: a page cache at work, and then calls that a sound one would not make."""

from __future__ import annotations

import random

from attacks import ATTACKS, attack
from call_lists import Info
from scenes import LARGEST, SIZES, TOP, Script, active_segments, new_cache, new_run, some_books, start_empty


def attacked(script: Script, rng: random.Random) -> None:
    """Short runs, each ended by an attack or two."""
    for _ in range(rng.randint(3, 7)):
        pages = new_cache(script, rng, blobs=rng.choice([0, 0, 8]))
        pages.live(rng.randint(2, 45))
        for _ in range(rng.randint(1, 3)):
            attack(rng.choice(list(ATTACKS)), pages)
            some_books(script, rng, 0.5)
            pages.live(rng.randint(0, 4))


def attacks_each(script: Script, rng: random.Random) -> None:
    """A run for each of some attacks, none left out over few seeds."""
    names = list(ATTACKS)
    rng.shuffle(names)
    for name in names[:12]:
        pages = new_cache(script, rng, blobs=rng.choice([0, 6]))
        pages.live(rng.randint(5, 60))
        attack(name, pages)
        script.say("books")


def lsns(script: Script, rng: random.Random) -> None:
    """LSNs that jump, come again, are unaligned, negative or at the top of the range."""
    for _ in range(rng.randint(2, 5)):
        size = rng.choice(SIZES)
        new_run(script, size)
        start_empty(script, size)
        choices = [size * n for n in range(8)] * 3 + [TOP - size, TOP - 2 * size, TOP, TOP - 1, size + 1, -size, -1]
        for _ in range(rng.randint(5, 25)):
            jump_about(script, rng, rng.choice(choices), size)
            some_books(script, rng)


def jump_about(script: Script, rng: random.Random, lsn: int, size: int) -> None:
    books = script.books
    action = rng.choice(["next", "next", "next", "link", "link", "replace", "stabilize", "pop"])
    if action in ("next", "stabilize"):
        script.say(f"{action} {lsn}")
    elif action == "pop" or not active_segments(books):
        script.say("pop")
    else:
        number = rng.choice(active_segments(books))
        own = books.segments[number].lsn + rng.randint(0, size - 1)
        info = Info(1, rng.choice([own, own, own, lsn]), books.offset(number), None, rng.randint(0, size))
        page = rng.randint(0, 3)
        old = Info(1, own, rng.randint(0, len(books.segments)) * size, None, rng.choice([0, 1, 50]))
        script.link(page, info) if action == "link" else script.replace(page, [old], info)


def sizes(script: Script, rng: random.Random) -> None:
    """Sizes at every border."""
    for _ in range(rng.randint(2, 4)):
        size = rng.choice(SIZES)
        half = size * 51 // 100
        borders = [0, 1, half - 1, half, half + 1, size // 2, size, size - 1, LARGEST, LARGEST + 1, 2**63, 2**64 - 1]
        new_run(script, size)
        start_empty(script, size)
        for number in range(rng.randint(2, 4)):
            script.say(f"next {number * size}")
        for _ in range(rng.randint(4, 20)):
            sized_call(script, rng, size, borders)
            some_books(script, rng)


def sized_call(script: Script, rng: random.Random, size: int, borders: list[int]) -> None:
    number = rng.randint(0, 2)
    bytes_ = rng.choice(borders[:8] * 6 + borders)
    info = Info(0, number * size + 9, number * size + 9, None, bytes_)
    page = rng.randint(0, 2)
    action = rng.choice(["link", "link", "replace", "stabilize", "pop"])
    if action == "link":
        script.link(page, info)
    elif action == "replace":
        other = rng.randint(0, 2)
        old = [Info(0, other * size, other * size, None, rng.choice(borders[:8] * 4 + borders))]
        script.replace(page, old * rng.choice([1, 1, 2]), info)
    elif action == "stabilize":
        script.say(f"stabilize {rng.choice([size, 2 * size, 3 * size])}")
    else:
        script.say("pop")


def olds(script: Script, rng: random.Random) -> None:
    """Old infos doubled, in the new segment, in several segments; blobs shared."""
    for _ in range(rng.randint(2, 4)):
        size = rng.choice(SIZES)
        new_run(script, size, (1, 2, 3))
        start_empty(script, size)
        count = rng.randint(2, 6)
        for number in range(count):
            script.say(f"next {number * size}")
            for page in range(3):
                if rng.random() < 0.7:
                    script.link(page, Info(0, number * size + 1, number * size, rng.choice([None, 1, 2]), 60))
        if rng.random() < 0.5:
            script.say(f"stabilize {rng.randint(1, count + 1) * size}")
        for _ in range(rng.randint(3, 12)):
            replace_olds(script, rng, count, size)
            some_books(script, rng, 0.3)
        script.say(f"stabilize {(count + 1) * size}")
        script.say("books")


def replace_olds(script: Script, rng: random.Random, count: int, size: int) -> None:
    target = rng.choice([count - 1, count - 1, rng.randint(0, count - 1)])
    places = rng.sample(range(count), rng.randint(0, count))
    old = [
        Info(0, place * size + 1, place * size, rng.choice([None, None, 1, 2, 3]), rng.choice([0, 30, 60]))
        for place in places
    ]
    if old and rng.random() < 0.4:
        old += rng.choices(old, k=rng.randint(1, 2))
    new = Info(0, target * size + 5, target * size + 5, rng.choice([None, None, 1, 4]), rng.choice([0, 20, 60]))
    script.replace(rng.randint(0, 2), old, new)
    if rng.random() < 0.15:
        script.say(f"stabilize {rng.randint(1, count + 1) * size}")
