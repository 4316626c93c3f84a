"""Calls that a sound page cache would not make, each named for what it tries."""

from __future__ import annotations

from dataclasses import replace
from typing import Callable, Optional

from call_lists import I64_MAX, I64_MIN, Info
from rules import Draining, Free, Inactive
from scenes import LARGEST, TOP, PageCache, segments_in

FAR_SEGMENT = 200


def attack(name: str, pages: PageCache) -> None:
    ATTACKS[name](pages)


def sound_info(pages: PageCache) -> Info:
    """An info in the head segment, whether there is room or not."""
    if pages.head is None and not pages.roll():
        return Info(0, pages.next_lsn, 0, None, 10)
    head = pages.head
    inside = pages.rng.randint(0, pages.size - 1)
    return Info(0, head.lsn + inside, head.offset + inside, None, 10)


def info_in(pages: PageCache, number: int, size: int = 10) -> Info:
    """An info that fits a segment's own LSN, as far as it has one."""
    segment = pages.script.books.segments[number]
    lsn = segment.lsn if not isinstance(segment, Free) else segment.former or 0
    return Info(0, lsn + 3, number * pages.size + 3, None, size)


def some_page(pages: PageCache) -> int:
    return pages.rng.choice(list(pages.table)) if pages.table else 0


def some_segment(pages: PageCache, state: type) -> Optional[int]:
    numbers = segments_in(pages.script.books, state)
    return pages.rng.choice(numbers) if numbers else None


# Next.


def next_unaligned(pages: PageCache) -> None:
    pages.script.say(f"next {pages.next_lsn + pages.rng.choice([1, pages.size // 2, pages.size - 1])}")


def next_in_use(pages: PageCache) -> None:
    ordering = pages.script.books.ordering
    pages.script.say(f"next {pages.rng.choice(list(ordering) or [0])}")


def next_held_back(pages: PageCache) -> None:
    """A segment is held back; its LSN is still taken."""
    size = pages.size
    pages.head = None
    if not (pages.roll() and pages.create(10) is not None):
        return
    page, first = len(pages.table) - 1, pages.table[len(pages.table) - 1]
    if not pages.roll():
        return
    head = pages.head
    pages.script.replace(page, first, Info(0, head.lsn + 30, head.offset + 30, None, size // 2))
    pages.script.say(f"stabilize {head.lsn}")
    pages.script.say("pop")
    pages.script.say(f"next {first[0].lsn // size * size}")
    pages.script.say("books")


def next_below_offset(pages: PageCache) -> None:
    books = pages.script.books
    below = [lsn for lsn in range(0, books.tip, books.size) if lsn not in books.ordering]
    while books.free and pages.rng.random() < 0.8 and pages.roll():
        pass
    pages.script.say(f"next {pages.rng.choice(below) if below else 0}")


def next_out_of_range(pages: PageCache) -> None:
    pages.script.say(f"next {pages.rng.choice([-pages.size, -1, TOP, TOP + pages.size, I64_MIN, I64_MAX])}")


def next_at_the_top(pages: PageCache) -> None:
    pages.script.say(f"next {TOP - pages.size}")
    pages.script.say(f"stabilize {TOP - 1}")


def next_jumps(pages: PageCache) -> None:
    pages.next_lsn += pages.rng.randint(1, 9) * pages.size
    pages.roll()


def next_reuses(pages: PageCache) -> None:
    """An LSN that was in use before, and is free again."""
    books = pages.script.books
    used = [lsn for lsn in range(0, pages.next_lsn, books.size) if lsn not in books.ordering]
    if used:
        pages.script.say(f"next {pages.rng.choice(used)}")


# Stabilize.


def stabilize_negative(pages: PageCache) -> None:
    pages.script.say(f"stabilize {pages.rng.choice([-1, -pages.size, I64_MIN + 1])}")


def stabilize_lowest(pages: PageCache) -> None:
    pages.script.say(f"stabilize {I64_MIN}")


def stabilize_out_of_range(pages: PageCache) -> None:
    pages.script.say(f"stabilize {pages.rng.choice([TOP, I64_MAX])}")


def stabilize_all(pages: PageCache) -> None:
    pages.script.say(f"stabilize {TOP - 1}")


def stabilize_again(pages: PageCache) -> None:
    stable = max(pages.script.books.stabilized, 0)
    pages.script.say(f"stabilize {stable + pages.size}")
    pages.script.say(f"stabilize {stable}")
    pages.script.say(f"stabilize {stable + 2 * pages.size - 1}")


# Link.


def link_too_large(pages: PageCache) -> None:
    info = sound_info(pages)
    pages.script.link(50, replace(info, size=pages.rng.choice([LARGEST + 1, 2**64 - 1])))


def link_largest(pages: PageCache) -> None:
    pages.script.link(50, replace(sound_info(pages), size=LARGEST))


def link_not_reached(pages: PageCache) -> None:
    reached = len(pages.script.books.segments)
    number = pages.rng.choice([reached, reached + 1, FAR_SEGMENT, 2**40, 2**64 // pages.size - 1])
    pages.script.link(some_page(pages), Info(0, number * pages.size % TOP, number * pages.size, None, 1))


def link_into(state: type) -> Callable[[PageCache], None]:
    def call(pages: PageCache) -> None:
        number = some_segment(pages, state)
        if number is not None:
            pages.script.link(some_page(pages), info_in(pages, number))

    return call


def link_other_base(pages: PageCache) -> None:
    info = sound_info(pages)
    pages.script.link(some_page(pages), replace(info, lsn=info.lsn + pages.rng.choice([1, 2]) * pages.size))


def link_out_of_range(pages: PageCache) -> None:
    lsn = pages.rng.choice([-1, TOP, I64_MIN, I64_MAX])
    pages.script.link(some_page(pages), replace(sound_info(pages), lsn=lsn))


def left_page(pages: PageCache) -> Optional[tuple[int, Info]]:
    """A page that leaves an Active segment for another one; where it was."""
    if not pages.roll() or pages.create(20) is None:
        return None
    page = len(pages.table) - 1
    first = pages.table[page][0]
    if not (pages.roll() and pages.write(page, 20)):
        return None
    return page, first


def link_page_that_left(pages: PageCache) -> None:
    left = left_page(pages)
    if left:
        pages.script.link(*left)


# Replace.


def replace_with(change: Callable[[PageCache, Info], Info]) -> Callable[[PageCache], None]:
    def call(pages: PageCache) -> None:
        page = some_page(pages)
        pages.script.replace(page, pages.table.get(page, []), change(pages, sound_info(pages)))

    return call


def replace_other_lsn(pages: PageCache) -> None:
    page, info = some_page(pages), sound_info(pages)
    pages.script.replace(page, pages.table.get(page, []), info, lsn=info.lsn + pages.rng.choice([1, -1, pages.size]))


def replace_own_lsn_out_of_range(pages: PageCache) -> None:
    pages.script.replace(some_page(pages), [], sound_info(pages), lsn=pages.rng.choice([-1, TOP]))


def replace_old_out_of_range(pages: PageCache) -> None:
    page = some_page(pages)
    old = [replace(info, lsn=pages.rng.choice([-1, TOP])) for info in pages.table.get(page, [])]
    pages.script.replace(page, old or [Info(0, -1, 0, None, 0)], sound_info(pages))


def replace_old(change: Callable[[PageCache, Info], Info]) -> Callable[[PageCache], None]:
    """One old info of some page is changed."""

    def call(pages: PageCache) -> None:
        page = some_page(pages)
        new = sound_info(pages)
        old = list(pages.table.get(page, [])) or [new]
        place = pages.rng.randrange(len(old))
        old[place] = change(pages, old[place])
        pages.script.replace(page, old, new)

    return call


def old_not_reached(pages: PageCache, info: Info) -> Info:
    reached = len(pages.script.books.segments)
    return replace(info, offset=pages.rng.choice([reached, FAR_SEGMENT, 2**50]) * pages.size)


def old_in_free(pages: PageCache, info: Info) -> Info:
    number = some_segment(pages, Free)
    return info if number is None else replace(info, offset=number * pages.size)


def old_elsewhere(pages: PageCache, info: Info) -> Info:
    return replace(info, offset=pages.rng.randrange(len(pages.script.books.segments)) * pages.size)


def old_more_bytes(pages: PageCache, info: Info) -> Info:
    return replace(info, size=info.size + pages.rng.choice([1, 10 * pages.size, LARGEST - info.size]))


def old_too_large(pages: PageCache, info: Info) -> Info:
    return replace(info, size=LARGEST + pages.rng.choice([1, 2**40]))


def replace_doubled(pages: PageCache) -> None:
    page = some_page(pages)
    old = pages.table.get(page, [])
    pages.script.replace(page, list(old) * 2, sound_info(pages))


def replace_too_many(pages: PageCache) -> None:
    page = some_page(pages)
    pages.script.replace(page, list(pages.table.get(page, [sound_info(pages)])) * 300, sound_info(pages))


def replace_backwards(pages: PageCache) -> None:
    """The new info lies in an older Active segment than an old one."""
    if not pages.roll():
        return
    older = pages.head
    if not pages.roll() or pages.create(15) is None:
        return
    page = len(pages.table) - 1
    back = Info(0, older.lsn + 40, older.offset + 40, None, 5)
    pages.script.replace(page, pages.table[page], back)


def replace_page_that_left(pages: PageCache) -> None:
    left = left_page(pages)
    if left:
        page, first = left
        pages.script.replace(page, [first], sound_info(pages))


def replace_into_left(pages: PageCache) -> None:
    """The new info lies in a segment that the page has left."""
    left = left_page(pages)
    if left:
        page, first = left
        pages.script.replace(page, pages.table[page], first)


def next_below_free_offset(pages: PageCache) -> None:
    """The free list's least offset lies above the LSN."""
    if pages.script.books.free or not pages.roll() or pages.create(pages.size - 30) is None:
        return
    pages.roll()
    pages.roll()
    pages.script.say(f"stabilize {pages.next_lsn}")
    ordering = pages.script.books.ordering
    low = [lsn for lsn in range(0, min(pages.script.books.free, default=0), pages.size) if lsn not in ordering]
    pages.script.say(f"next {pages.rng.choice(low) if low else 0}")


def replace_never_there(pages: PageCache) -> None:
    books = pages.script.books
    info = sound_info(pages)
    numbers = [n for n, s in enumerate(books.segments) if not isinstance(s, Free) and n != info.offset // pages.size]
    if numbers:
        old = info_in(pages, pages.rng.choice(numbers), 0)
        pages.script.replace(77, [old], info)


def replace_more_than_inactive(pages: PageCache) -> None:
    """More bytes than an Inactive segment has."""
    grown = pages.roll() and pages.create(pages.size // 2 + 9) is not None and pages.roll()
    if not grown:
        return
    page = len(pages.table) - 1
    pages.script.say(f"stabilize {pages.head.lsn}")
    old = [replace(info, size=info.size + 1) for info in pages.table[page]]
    pages.script.replace(page, old, sound_info(pages))


def replace_leaves_bytes(pages: PageCache) -> None:
    """Old infos that name fewer bytes than were linked: bytes stay live where no page lies."""
    if not pages.table:
        return
    page = some_page(pages)
    old = [replace(info, size=0) for info in pages.table[page]]
    new = sound_info(pages)
    if pages.script.replace(page, old, new):
        pages.table[page] = [new]


def replace_single_blob(pages: PageCache) -> None:
    """A page of one blob becomes another: the crate keeps the old blob."""
    page, new = len(pages.table), sound_info(pages)
    first = replace(new, blob=pages.rng.randint(0, 9))
    if pages.script.link(page, first):
        pages.script.replace(page, [first], replace(new, blob=pages.rng.choice([None, 33])))


def replace_keeps_blob(pages: PageCache) -> None:
    """The new info's blob is one of several old ones: the crate gives it up all the same."""
    page, new = len(pages.table), sound_info(pages)
    first = replace(new, blob=5)
    if pages.script.link(page, first) and pages.script.link(page, new):
        pages.script.replace(page, [first, new], first)


# Start and pop.


def second_start(pages: PageCache) -> None:
    pages.script.say(f"start {pages.size} 32 - -")


def before_start(pages: PageCache) -> None:
    """Every call before a start, on a new run."""
    script = pages.script
    script.say(f"memory {pages.size} 0")
    calls = ["next 0", "next -5", "stabilize 0", "stabilize -9", "pop", "take"]
    calls += ["link 0 0 0 0 - 0", "replace 0 0 0 0 0 - 0"]
    pages.rng.shuffle(calls)
    for call in calls:
        script.say(call)
    script.say("books")
    script.say(f"start {pages.size} 32 - -")
    pages.table, pages.freed_pages, pages.head = {}, set(), None


def pop_all(pages: PageCache) -> None:
    for _ in range(pages.rng.randint(3, 12)):
        pages.script.say("pop")


ATTACKS: dict[str, Callable[[PageCache], None]] = {
    call.__name__: call
    for call in (
        next_unaligned, next_in_use, next_held_back, next_below_offset, next_below_free_offset, next_out_of_range,
        next_at_the_top, next_jumps, next_reuses, stabilize_negative, stabilize_lowest, stabilize_out_of_range,
        stabilize_all, stabilize_again, link_too_large, link_largest, link_not_reached, link_other_base,
        link_out_of_range, link_page_that_left, replace_other_lsn, replace_own_lsn_out_of_range,
        replace_old_out_of_range, replace_doubled, replace_too_many, replace_backwards, replace_page_that_left,
        replace_into_left, replace_never_there, replace_more_than_inactive, replace_leaves_bytes, replace_single_blob,
        replace_keeps_blob, second_start, before_start, pop_all,
    )
}  # fmt: skip
ATTACKS.update(
    link_into_free=link_into(Free),
    link_into_inactive=link_into(Inactive),
    link_into_draining=link_into(Draining),
    replace_too_large=replace_with(lambda pages, info: replace(info, size=LARGEST + 1)),
    replace_not_reached=replace_with(lambda pages, info: replace(info, offset=FAR_SEGMENT * pages.size)),
    replace_other_base=replace_with(lambda pages, info: replace(info, lsn=info.lsn + pages.size)),
    replace_new_out_of_range=replace_with(lambda pages, info: replace(info, lsn=TOP)),
    replace_old_not_reached=replace_old(old_not_reached),
    replace_old_in_free=replace_old(old_in_free),
    replace_old_elsewhere=replace_old(old_elsewhere),
    replace_old_more_bytes=replace_old(old_more_bytes),
    replace_old_too_large=replace_old(old_too_large),
)
