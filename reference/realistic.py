"""Realistic lists: a page cache at work, large files that shrink, restarts."""

from __future__ import annotations

import random

from call_lists import Info
from scenes import ALL_SIZES, PageCache, Script, live_with_books, new_cache, some_books


def cache(script: Script, rng: random.Random) -> None:
    """A page cache that goes about its work."""
    live_with_books(new_cache(script, rng, sizes=ALL_SIZES), rng.randint(60, 160))


def churn(script: Script, rng: random.Random) -> None:
    """Few pages, written over and over, always stable soon: segments are drained, freed and cut."""
    pages = new_cache(script, rng)
    for _ in range(rng.randint(2, 5)):
        pages.create()
    for _ in range(rng.randint(30, 80)):
        pages.overwrite(rng.choice(list(pages.table)))
        if rng.random() < 0.4:
            pages.stabilize(1)
        some_books(script, rng, 0.1)
    script.say("books")


def grow(pages: PageCache, segments: int) -> None:
    """Fills so many segments, two large pages to each."""
    large = (pages.size - 30) // 2
    for _ in range(2 * segments):
        pages.create(large)
    pages.stabilize(1)


def shrink_pages(pages: PageCache, numbers: set[int]) -> None:
    """Writes all pages of these segments small, so that the segments empty."""
    for page, infos in list(pages.table.items()):
        if infos[0].offset // pages.size in numbers:
            pages.write(page, pages.rng.randint(1, 12))


def shrink(script: Script, rng: random.Random) -> None:
    """Most of a large file is given up: the share of free segments drains the last Inactive ones."""
    pages = new_cache(script, rng)
    count = rng.randint(15, 22)
    grow(pages, count)
    low = set(range(count)) if rng.random() < 0.3 else set(range(rng.randint(0, 2), count - rng.randint(6, 8)))
    shrink_pages(pages, low)
    pages.stabilize(1)
    script.say("books")
    for _ in range(rng.randint(10, 40)):
        rng.choice([pages.pop, pages.pop, pages.roll, lambda: pages.stabilize(1), pages.step])()
        some_books(script, rng)
    script.say("books")


def shrink_high(script: Script, rng: random.Random) -> None:
    """Full segments below, empty ones above: the empty ones are cut off, but the crate still counts them as free."""
    pages = new_cache(script, rng)
    kept = rng.randint(5, 8)
    grow(pages, kept)
    for _ in range(kept + rng.randint(0, 2)):
        pages.roll()
    for part in rng.choice([(1,), (0.5, 1), (0.8, 1)]):
        pages.stabilize(part)
        pages.roll()
    script.say(f"stabilize {pages.next_lsn}")
    script.say("books")
    for _ in range(rng.randint(3, 15)):
        rng.choice([pages.roll, pages.pop, lambda: pages.stabilize(1), pages.step])()
        some_books(script, rng)
    script.say("books")


def share_held_back(script: Script, rng: random.Random) -> None:
    """Free segments that are held back count towards the share too."""
    pages = new_cache(script, rng)
    low = rng.randint(6, 9)
    for _ in range(low):
        pages.roll()
        if rng.random() < 0.8:
            pages.create(rng.randint(1, 9))
    small = list(pages.table)
    grow(pages, rng.randint(6, 7))
    pages.roll()
    for page in small:
        pages.write(page, rng.randint(1, 9))
    for lsn in rng.choice([(pages.head.lsn,), (pages.head.lsn - pages.size, pages.head.lsn)]):
        script.say(f"stabilize {lsn}")
        script.say("books")
    pages.live(rng.randint(3, 15))
    script.say("books")


def share_without_pages(script: Script, rng: random.Random) -> None:
    """The last Inactive segment has live bytes but no page; draining by share lists it, and nothing frees it."""
    pages = new_cache(script, rng)
    size = pages.size
    for _ in range(rng.randint(7, 9)):
        pages.roll()
    grow(pages, 6)
    page, info = len(pages.table) - 1, pages.table[len(pages.table) - 1][0]
    other = pages.table[page - 1][0]
    pages.roll()
    head = pages.head
    for left, place in ((page, info), (page - 1, other)):
        nothing = Info(place.ts, place.lsn, place.offset, None, 0)
        new = Info(0, head.lsn + 30, head.offset + 30, None, rng.randint(1, size // 3))
        if script.replace(left, [nothing], new):
            pages.table[left] = [new]
    script.say(f"stabilize {head.lsn}")
    script.say("books")
    pages.live(rng.randint(5, 25))
    script.say(f"stabilize {pages.next_lsn}")
    script.say("books")


def blobs(script: Script, rng: random.Random) -> None:
    """Pages with blobs, handled as the crate handles them."""
    pages = new_cache(script, rng, blobs=rng.randint(10, 40))
    live_with_books(pages, rng.randint(60, 140))


def restart(script: Script, rng: random.Random) -> None:
    """A page cache that is stopped and started again from its snapshot, several times."""
    pages = new_cache(script, rng, rng.choice([0, 10]), ALL_SIZES)
    for _ in range(rng.randint(2, 4)):
        pages.live(rng.randint(10, 50))
        if not pages.restart():
            return
        script.say("books")
    pages.live(rng.randint(10, 40))
    script.say("books")
