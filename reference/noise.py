"""Accepted calls at random: each is in order by itself, but no page cache would make them so."""

from __future__ import annotations

import random
from dataclasses import replace

from call_lists import Info
from scenes import Script, active_segments, new_run, some_books, start_empty, tell_info


def noise(script: Script, rng: random.Random) -> None:
    """Random accepted calls over a few segments and pages."""
    for _ in range(rng.randint(1, 3)):
        new_run(script, 256, (1, 2, 3))
        start_empty(script, 256)
        make_noise(script, rng, rng.randint(40, 150))


def noise_over_faults(script: Script, rng: random.Random) -> None:
    """The same over a host that refuses now and then."""
    for _ in range(rng.randint(1, 3)):
        new_run(script, 256, (1, 2, 3), rng.choice(["memory", "queue"]))
        for _ in range(rng.randint(1, 5)):
            script.say(f"fail {rng.randint(0, 12)}")
        start_empty(script, 256)
        make_noise(script, rng, rng.randint(40, 150))


def make_noise(script: Script, rng: random.Random, calls: int) -> None:
    weights = [rng.randint(1, 6) for _ in range(5)]
    careful = rng.random() < 0.8
    for _ in range(calls):
        action = rng.choices([noisy_next, noisy_link, noisy_replace, noisy_stabilize, noisy_pop], weights)[0]
        lines = action(script, rng, careful)
        if lines:
            script.say_if_accepted(lines)
        some_books(script, rng, 0.08)
    script.say("books")


def noisy_next(script: Script, rng: random.Random, careful: bool) -> list[str]:
    books = script.books
    above = (max([books.stabilized, *books.ordering]) // 256 + 1) * 256
    return [f"next {rng.choice([above, above, above, above + 256, rng.randint(0, 30) * 256])}"]


def noisy_place(script: Script, rng: random.Random) -> Info:
    """A place in some Active segment, mostly in the last one."""
    books = script.books
    active = sorted(active_segments(books), key=lambda number: books.segments[number].lsn) or [0]
    number = rng.choice(active[-2:] + active)
    lsn = books.segments[number].lsn if number in active_segments(books) else 0
    inside = rng.randint(0, 255)
    size = rng.choice([0, 1, 20, 100, 130, 131, 132, 200])
    return Info(rng.randint(0, 9), lsn + inside, books.offset(number) + inside, None, size)


def noisy_link(script: Script, rng: random.Random, careful: bool) -> list[str]:
    return [f"link {rng.randint(0, 5)} {tell_info(noisy_place(script, rng))}"]


def noisy_replace(script: Script, rng: random.Random, careful: bool) -> list[str]:
    """Takes a page away from some of the segments where it lies, with some of their bytes."""
    books = script.books
    page = rng.randint(0, 5)
    places = [number for number in range(len(books.segments)) if books.lies(number, page)]
    old = []
    for number in rng.sample(places, rng.randint(0, len(places))):
        live = getattr(books.segments[number], "live", lambda: 9)()
        size = rng.choice([0, min(live, 100), live, live // 2])
        blob = rng.choice([None, None, None, rng.randint(0, 6)])
        parts = rng.choice([(size,), (size, 0), (size // 2, size // 2)])
        old += [Info(0, 0, number * 256, blob, part) for part in parts]
    new = replace(noisy_place(script, rng), blob=rng.choice([None, None, rng.randint(4, 9)]))
    if careful:
        old, new = alike_in_the_crate(old, new)
    lines = [f"old {tell_info(info)}" for info in old]
    return lines + [f"replace {page} {new.lsn} {tell_info(new)}"]


def alike_in_the_crate(old: list[Info], new: Info) -> tuple[list[Info], Info]:
    """Blobs changed so that the crate gives up the same ones."""
    if len(old) == 1:
        return old, replace(new, blob=old[0].blob)
    return [replace(info, blob=None) if info.blob == new.blob else info for info in old], new


def noisy_stabilize(script: Script, rng: random.Random, careful: bool) -> list[str]:
    books = script.books
    waiting = [lsn for lsn in books.ordering if lsn > books.stabilized]
    if not waiting or rng.random() < 0.1:
        return [f"stabilize {max(books.stabilized, 0) + rng.randint(0, 600)}"]
    return [f"stabilize {rng.choice(waiting) + 256 + rng.choice([0, 0, 255])}"]


def noisy_pop(script: Script, rng: random.Random, careful: bool) -> list[str]:
    return [rng.choice(["pop", "pop", "pop", "take"])]
