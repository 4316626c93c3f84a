"""Helpers for writing call lists: a script that plays what it writes, and a page cache that lives on it."""

from __future__ import annotations

import random
from dataclasses import dataclass
from typing import Optional

from call_lists import BadLine, Info
from playing import Player
from rules import Accountant, Active, Books

SEGMENT_HEADER = 20
HEADER = 32
SIZES = (256, 512)
ALL_SIZES = SIZES * 4 + (1024, 65_536, 16_777_216)
TOP = 2**62
LARGEST = 4_294_967_295


def tell(value: Optional[int]) -> str:
    return "-" if value is None else str(value)


def tell_info(info: Info) -> str:
    return f"{info.ts} {info.lsn} {info.offset} {tell(info.blob)} {info.size}"


class Script:
    """A list in the making. Every line is played by the rules at once, so that the writer knows the answers."""

    def __init__(self) -> None:
        self.lines: list[str] = []
        self.player = Player()

    def say(self, line: str) -> bool:
        """Adds a line; whether it was a call that is accepted."""
        self.lines.append(line)
        self.player.play_line(line)
        made = self.player.made
        return made is not None and made.refused is None

    def say_if_accepted(self, lines: list[str]) -> bool:
        """Adds these lines, the last of them a call, unless it is refused for another reason than the host's."""
        for line in lines:
            self.say(line)
        refused = self.player.made.refused
        if refused is not None and refused.number != 25:
            del self.lines[-len(lines) :]
        return refused is None

    def say_unreadable(self, line: str) -> None:
        self.lines.append(line)
        try:
            self.player.play_line(line)
        except BadLine:
            return
        raise AssertionError(f"{line} can be read")

    @property
    def answer(self) -> object:
        return self.player.made.answer

    @property
    def accountant(self) -> Accountant:
        return self.player.accountant

    @property
    def books(self) -> Optional[Books]:
        return self.accountant.books

    def link(self, page: int, info: Info) -> bool:
        return self.say(f"link {page} {tell_info(info)}")

    def replace(self, page: int, old: list[Info], new: Info, lsn: Optional[int] = None) -> bool:
        for info in old:
            self.say(f"old {tell_info(info)}")
        return self.say(f"replace {page} {new.lsn if lsn is None else lsn} {tell_info(new)}")

    def text(self) -> str:
        return "".join(line + "\n" for line in self.lines)


@dataclass
class Head:
    """The segment being written: its offset, its LSN, and the bytes used."""

    offset: int
    lsn: int
    used: int


class PageCache:
    """A page cache that links, replaces, stabilizes, pops and rewrites, as the one above the accountant does."""

    def __init__(self, script: Script, rng: random.Random, size: int, blobs: Optional[list[int]] = None) -> None:
        self.script = script
        self.rng = rng
        self.size = size
        self.blobs = list(blobs or [])
        self.head: Optional[Head] = None
        self.next_lsn = 0
        self.stable = 0
        self.ts = 0
        self.table: dict[int, list[Info]] = {}
        self.freed_pages: set[int] = set()

    # Room in the log.

    def roll(self) -> bool:
        """Takes a new segment from the accountant."""
        if not self.script.say(f"next {self.next_lsn}"):
            return False
        self.head = Head(self.script.answer, self.next_lsn, SEGMENT_HEADER)
        self.next_lsn += self.size
        return True

    def room(self, size: int, blob: Optional[int] = None) -> Optional[Info]:
        """A place for so many bytes, in a new segment if the head is full."""
        if self.head is None or self.head.used + size > self.size:
            if not (self.roll() or self.roll()):
                return None
        head = self.head
        self.ts += 1
        info = Info(self.ts, head.lsn + head.used, head.offset + head.used, blob, size)
        head.used += size
        return info

    def some_size(self) -> int:
        most = self.size - SEGMENT_HEADER
        return self.rng.choice([self.rng.randint(1, most // 8), self.rng.randint(20, most // 3), most // 2])

    def some_blob(self) -> Optional[int]:
        if self.blobs and self.rng.random() < 0.4:
            return self.blobs.pop(self.rng.randrange(len(self.blobs)))
        return None

    # What happens to pages.

    def create(self, size: Optional[int] = None) -> Optional[int]:
        page = len(self.table)
        info = self.room(size or self.some_size(), self.some_blob())
        if info is None:
            return None
        done = self.script.link(page, info) if self.rng.random() < 0.5 else self.script.replace(page, [], info)
        if done:
            self.table[page] = [info]
        return page if done else None

    def write(self, page: int, size: Optional[int] = None, blob: Optional[int] = None) -> bool:
        """Replaces the whole page."""
        info = self.room(size or self.some_size(), blob)
        if info is None:
            return False
        old = list(self.table[page])
        self.rng.shuffle(old)
        done = self.script.replace(page, old, info)
        if done:
            self.table[page] = [info]
            self.freed_pages.discard(page)
        return done

    def overwrite(self, page: int) -> bool:
        """A replacement that the crate handles alike: a page of a single blob keeps its blob."""
        old = self.table[page]
        if len(old) == 1 and old[0].blob is not None:
            return self.write(page, 30, old[0].blob)
        return self.write(page, None, self.some_blob())

    def append(self, page: int) -> bool:
        info = self.room(self.some_size() // 2 + 1, self.some_blob())
        done = info is not None and self.script.link(page, info)
        if done:
            self.table[page].append(info)
            self.freed_pages.discard(page)
        return done

    def free(self, page: int) -> bool:
        if len(self.table[page]) == 1 and self.table[page][0].blob is not None:
            return self.overwrite(page)
        done = self.write(page, HEADER)
        if done:
            self.freed_pages.add(page)
        return done

    def pop(self) -> None:
        """Pops a page and rewrites it, if it still lies there."""
        if not self.script.say("pop") or self.script.answer is None:
            return
        page, offset = self.script.answer
        places = [info.offset // self.size for info in self.table.get(page, [])]
        if offset // self.size in places and self.rng.random() < 0.9:
            self.rewrite(page)

    def rewrite(self, page: int) -> None:
        old = self.table[page]
        if len(old) == 1:
            self.write(page, min(old[0].size, self.size // 2), old[0].blob)
        else:
            self.write(page, min(sum(info.size for info in old), self.size // 3))

    def stabilize(self, part: Optional[float] = None) -> None:
        """Some of what was written has reached the disk."""
        head = self.head
        written = head.lsn + head.used if head else self.next_lsn
        part = self.rng.choice([0.3, 0.7, 1, 1]) if part is None else part
        self.stable = max(self.stable, int(self.stable + (written - self.stable) * part))
        self.script.say(f"stabilize {self.stable}")

    def step(self) -> None:
        """One thing that a page cache does."""
        rng = self.rng
        page = rng.choice(list(self.table)) if self.table else None
        action = rng.choices(
            ["create", "overwrite", "append", "free", "pop", "stabilize", "take"], [3, 8, 4, 1, 6, 4, 1]
        )[0]
        if page is None or (action == "create" and len(self.table) < 30):
            self.create()
        elif action == "append" and len(self.table[page]) < 6:
            self.append(page)
        elif action == "free":
            self.free(page)
        elif action == "pop":
            self.pop()
        elif action == "stabilize":
            self.stabilize()
        elif action == "take":
            self.script.say("take")
        else:
            self.overwrite(page)

    def live(self, steps: int) -> None:
        for _ in range(steps):
            self.step()

    # Starting again from what was written.

    def snapshot_lines(self) -> list[str]:
        lines = []
        first = 0
        for page in range(len(self.table)):
            infos = self.table[page]
            lines.append(f"page {first} {len(infos)}")
            first += len(infos)
            for place, info in enumerate(infos):
                kind = 2 if page in self.freed_pages and len(infos) == 1 else min(place, 1)
                lines.append(f"row {kind} {info.lsn} {info.offset} {tell(info.blob)} {info.size}")
        return lines

    def restart(self, host: str = "memory", fails: tuple[int, ...] = ()) -> bool:
        """A new run on the file that the last one left."""
        books = self.script.books
        tip = books.tip if books else 0
        blobs = " ".join(str(blob) for blob in self.blobs[:20])
        ragged = self.rng.choice([0, 0, 0, self.rng.randint(0, self.size - 1)])
        self.script.say(f"{host} {self.size} {max(tip - ragged, 0)} {blobs}".rstrip())
        for passes in fails:
            self.script.say(f"fail {passes}")
        for _ in range(len(fails) + 1):
            for line in self.snapshot_lines():
                self.script.say(line)
            if self.start_again():
                return True
        return False

    def start_again(self) -> bool:
        head = self.head
        if head and self.rng.random() < 0.7:
            return self.script.say(f"start {self.size} {HEADER} {head.lsn + head.used} {head.offset}")
        self.head = None
        return self.script.say(f"start {self.size} {HEADER} {self.next_lsn} -")


def active_segments(books: Books) -> list[int]:
    return [n for n, s in enumerate(books.segments) if isinstance(s, Active)]


def segments_in(books: Books, state: type) -> list[int]:
    return [n for n, s in enumerate(books.segments) if isinstance(s, state)]


def some_books(script: Script, rng: random.Random, chance: float = 0.15) -> None:
    if rng.random() < chance:
        script.say("books")


def new_run(script: Script, size: int, blobs: tuple[int, ...] = (), host: str = "memory") -> None:
    """A new run on an empty file."""
    script.say(f"{host} {size} 0 {' '.join(map(str, blobs))}".rstrip())


def start_empty(script: Script, size: int) -> None:
    script.say(f"start {size} {HEADER} - -")


def new_cache(script: Script, rng: random.Random, blobs: int = 0, sizes: tuple[int, ...] = SIZES) -> PageCache:
    """A page cache over an accountant started on an empty file."""
    size = rng.choice(sizes)
    pointers = rng.sample(range(-50, 500), blobs)
    held = [blob for blob in pointers if rng.random() < 0.8]
    new_run(script, size, tuple(held))
    start_empty(script, size)
    return PageCache(script, rng, size, pointers)


def live_with_books(cache: PageCache, steps: int, every: int = 25) -> None:
    for step in range(steps):
        cache.step()
        if step % every == every - 1:
            cache.script.say("books")
