"""The rules of the segment accountant, written to be read and run.

    rules.py [--check] < LIST > TRANSCRIPT

Reads a call list, makes the calls by the rules and writes the transcript. With --check every call is also held
against the recount and the laws of the books (recount.py); a broken law is told on standard error, exit status 1.

A segment is known by its number, offset / S. A call makes all its checks before it changes anything; only a
refusal by the host may come later. What happens inside a call is also noted as events (name and values), for those
who count, recount and compare.
"""

from __future__ import annotations

import sys
from dataclasses import dataclass, field
from dataclasses import replace as changed
from typing import Optional, Union

from call_lists import Info, Row
from hosts import Fault, HostOfRun, Request

SEGMENTS = 256
PAGE_ROWS = 2048
BLOB_ROWS = 256
OLD_INFOS = 256
LSN_END = 2**62
LARGEST_SIZE = 4_294_967_295
LARGEST_LINKED = 2**40
SMALLEST_SEGMENT, LARGEST_SEGMENT = 256, 16_777_216
LONGEST_HEADER = 4096
CLEANUP_THRESHOLD = 50
MANY_INACTIVE = 5

BASE, FRAGMENT, FREE_PAGE, UNINITIALISED = 0, 1, 2, 3


class Refused(Exception):
    """A call refused by number; `why` tells cases of one number apart, `fault` is the host's for 25."""

    def __init__(self, number: int, why: str = "", fault: Optional[Fault] = None) -> None:
        super().__init__(number, why)
        self.number = number
        self.why = why
        self.fault = fault

    def __str__(self) -> str:
        return f"refused {self.number}" + (f" {self.fault}" if self.fault else "")


def refuse_if(condition: bool, number: int, why: str = "") -> None:
    if condition:
        raise Refused(number, why)


# The four states of a segment.


@dataclass(frozen=True)
class Free:
    former: Optional[int]


@dataclass(frozen=True)
class Active:
    lsn: int
    linked: int = 0
    deferred: int = 0
    latest: int = 0

    def live(self) -> int:
        return self.linked - self.deferred

    def deactivated(self, pages: int, replaced: int) -> Inactive:
        return Inactive(self.lsn, self.live(), pages, replaced, self.latest)


@dataclass(frozen=True)
class Inactive:
    lsn: int
    live_bytes: int
    pages: int
    replaced: int
    latest: int

    def live(self) -> int:
        return self.live_bytes

    def drained(self) -> Draining:
        return Draining(self.lsn, self.pages, self.replaced, self.latest)


@dataclass(frozen=True)
class Draining:
    lsn: int
    pages: int
    replaced: int
    latest: int

    def freed(self) -> Free:
        return Free(self.lsn)


Segment = Union[Free, Active, Inactive, Draining]


@dataclass
class Books:
    """All that the accountant keeps. Rows of pages and queues are kept by segment for ease of reading."""

    size: int
    segments: list[Segment]
    tip: int
    stabilized: int = -1
    free: set[int] = field(default_factory=set)
    ordering: dict[int, int] = field(default_factory=dict)  # LSN to offset
    pages: dict[int, dict[int, bool]] = field(default_factory=dict)  # segment, page: has it left
    queues: dict[int, set[int]] = field(default_factory=dict)  # listed offset: pages still queued
    blobs: set[tuple[int, int]] = field(default_factory=set)  # segment, blob
    freeable: set[tuple[int, int]] = field(default_factory=set)  # Active segment, LSN it holds back
    faults: dict[int, Fault] = field(default_factory=dict)  # offset of a refused cut

    def base(self, lsn: int) -> int:
        return lsn // self.size * self.size

    def number(self, offset: int) -> int:
        return offset // self.size

    def offset(self, number: int) -> int:
        return number * self.size

    def reached(self, number: int) -> Segment:
        """The segment's state; one not reached is as a Free one."""
        return self.segments[number] if number < len(self.segments) else Free(None)

    def page_rows(self) -> int:
        return sum(len(rows) for rows in self.pages.values())

    def has_left(self, number: int, page: int) -> bool:
        return self.pages.get(number, {}).get(page, False)

    def has_row(self, number: int, page: int) -> bool:
        return page in self.pages.get(number, {})

    def lies(self, number: int, page: int) -> bool:
        return self.has_row(number, page) and not self.has_left(number, page)

    def pages_lying(self, number: int) -> set[int]:
        return {page for page, left in self.pages.get(number, {}).items() if not left}

    def blobs_of(self, number: int) -> list[int]:
        return sorted(blob for owner, blob in self.blobs if owner == number)

    def free_below_tip(self) -> int:
        return sum(isinstance(s, Free) for s in self.segments[: self.number(self.tip)])

    def add_page_row(self, number: int, page: int) -> None:
        self.pages.setdefault(number, {}).setdefault(page, False)

    def mark_left(self, number: int, page: int) -> None:
        self.pages[number][page] = True


class Accountant:
    """The calls. `books` is None until a start is accepted."""

    def __init__(self, host: HostOfRun) -> None:
        self.host = host
        self.books: Optional[Books] = None
        self.events: list[tuple] = []

    def note(self, *event: object) -> None:
        self.events.append(event)

    def check_started(self, lsns: list[int]) -> None:
        """The two checks that come first in every call but start: 28, then 12."""
        refuse_if(self.books is None, 28, "before start")
        self.check_lsns(lsns)

    @staticmethod
    def check_lsns(lsns: list[int]) -> None:
        refuse_if(any(not 0 <= lsn < LSN_END for lsn in lsns), 12)

    # Start.

    def start(
        self,
        size: int,
        header: int,
        stable: Optional[int],
        active: Optional[int],
        directory: list[tuple[int, int]],
        rows: list[Row],
    ) -> None:
        refuse_if(self.books is not None, 28, "second start")
        self.check_lsns([row.lsn for row in rows] + ([] if stable is None else [stable]))
        self.check_fit(size, header)
        count = self.count_segments(size, active)
        pages = read_pages(directory, rows)
        refuse_if(active is not None and active // size >= count, 5, "active offset")
        books = Books(size, [Free(None)] * count, count * size)
        if active is not None:
            books.segments[active // size] = Active(books.base(stable or 0))
        for page, page_rows in enumerate(pages):
            for row in page_rows:
                self.recover(books, page, row, header)
        self.enter_ordering(books)
        self.books = books
        self.free_at_start()

    def check_fit(self, size: int, header: int) -> None:
        power = size & (size - 1) == 0
        refuse_if(not power or not SMALLEST_SEGMENT <= size <= LARGEST_SEGMENT, 1, "segment size")
        refuse_if(not 1 <= header <= LONGEST_HEADER, 1, "header length")
        refuse_if(self.host.bottom.size != size, 1, "host made for another size")

    def count_segments(self, size: int, active: Optional[int]) -> int:
        """File length / S rounded up, one more if the active offset lies in exactly the next."""
        in_file = -(-self.host.bottom.length // size)
        added = active is not None and active // size == in_file
        refuse_if(in_file > SEGMENTS, 2, "file length")
        refuse_if(in_file + added > SEGMENTS, 2, "segment added")
        if added:
            self.note("segment added for the active offset")
        return in_file + added

    def recover(self, books: Books, page: int, row: Row, header: int) -> None:
        """A snapshot row makes its segment Active at the row's base and links the page there."""
        number = books.number(row.offset)
        refuse_if(number >= len(books.segments), 5, "row")
        segment = books.segments[number]
        if isinstance(segment, Free):
            segment = Active(books.base(row.lsn))
        refuse_if(segment.lsn != books.base(row.lsn), 6)
        refuse_if(row.kind != FREE_PAGE and row.size > LARGEST_SIZE, 17, "row size")
        size = header if row.kind == FREE_PAGE else row.size
        refuse_if(segment.linked + size > LARGEST_LINKED, 17, "row total")
        refuse_if(not books.has_row(number, page) and books.page_rows() >= PAGE_ROWS, 18, "start")
        if row.kind == FREE_PAGE:
            self.note("free page recovered")
        books.segments[number] = changed(segment, linked=segment.linked + size)
        books.add_page_row(number, page)

    @staticmethod
    def enter_ordering(books: Books) -> None:
        for number, segment in enumerate(books.segments):
            if isinstance(segment, Active):
                refuse_if(segment.lsn in books.ordering, 7)
                books.ordering[segment.lsn] = books.offset(number)

    def free_at_start(self) -> None:
        """Frees and fills the Free segments, ascending. The host's refusal leaves no books."""
        books = self.books
        try:
            for number in [n for n, s in enumerate(books.segments) if isinstance(s, Free)]:
                asked_before = len(self.host.asked)
                self.free(number)
                offset = books.offset(number)
                if Request("cut", offset) in [request for request, _ in self.host.asked[asked_before:]]:
                    self.note("fill left out at start", offset)
                    continue
                fault = self.host.ask("fill", offset)
                if fault:
                    raise Refused(25, "fill at start", fault)
            if books.faults:
                raise Refused(25, "cut at start", books.faults[min(books.faults)])
        except Refused:
            self.books = None
            raise

    # Link.

    def link(self, page: int, info: Info) -> None:
        self.check_started([info.lsn])
        self.check_link(page, info, "link")
        self.enter_link(page, info)

    def check_link(self, page: int, info: Info, call: str) -> None:
        books = self.books
        refuse_if(info.size > LARGEST_SIZE, 17, f"{call} size")
        number = books.number(info.offset)
        segment = books.reached(number)
        if isinstance(segment, Free):
            raise Refused(13, f"{call} into " + ("Free" if number < len(books.segments) else "not reached"))
        refuse_if(segment.lsn != books.base(info.lsn), 14, call)
        refuse_if(not isinstance(segment, Active), 15, f"{call} into {type(segment).__name__}")
        refuse_if(books.has_left(number, page), 16, call)
        refuse_if(segment.linked + info.size > LARGEST_LINKED, 17, f"{call} total")
        refuse_if(not books.has_row(number, page) and books.page_rows() >= PAGE_ROWS, 18, call)

    def enter_link(self, page: int, info: Info) -> None:
        """Adds the size to the linked bytes, and the page row if it is new."""
        books = self.books
        number = books.number(info.offset)
        segment = books.segments[number]
        books.segments[number] = changed(segment, linked=segment.linked + info.size)
        books.add_page_row(number, page)

    # Replace.

    def replace(self, page: int, lsn: int, old: list[Info], new: Info) -> None:
        self.check_started([lsn, new.lsn] + [info.lsn for info in old])
        refuse_if(lsn != new.lsn, 19)
        refuse_if(len(old) > OLD_INFOS, 20)
        refuse_if(any(info.size > LARGEST_SIZE for info in old), 17, "old size")
        self.check_link(page, new, "replace")
        sums = self.sum_by_segment(old)
        for number, size in sums.items():
            self.check_take_away(number, page, size, new)
        given_up = {info.blob for info in old if info.blob is not None} - {new.blob}
        self.check_blob_rows(given_up, new)

        self.enter_link(page, new)
        self.enter_blob_rows(given_up, new)
        self.note_blobs(old, new, given_up)
        for number, size in sums.items():
            self.take_away(number, page, size, self.books.base(lsn))
            self.clean(number)
        self.note("replaced in segments", len(sums))

    def sum_by_segment(self, old: list[Info]) -> dict[int, int]:
        """Old sizes by segment, segments ascending."""
        sums: dict[int, int] = {}
        for info in old:
            number = self.books.number(info.offset)
            sums[number] = sums.get(number, 0) + info.size
        return dict(sorted(sums.items()))

    def check_take_away(self, number: int, page: int, size: int, new: Info) -> None:
        """The checks for one segment, with the link counted as made."""
        books = self.books
        segment = books.reached(number)
        if isinstance(segment, Free):
            raise Refused(13, "old in " + ("Free" if number < len(books.segments) else "not reached"))
        refuse_if(books.base(new.lsn) < segment.lsn, 21)
        own = number == books.number(new.offset)
        if not own and not books.lies(number, page):
            raise Refused(22, "left" if books.has_row(number, page) else "never there")
        if not isinstance(segment, Draining):
            live = segment.live() + (new.size if own else 0)
            refuse_if(size > live, 23, type(segment).__name__)

    def check_blob_rows(self, given_up: set[int], new: Info) -> None:
        """Only rows that are not there yet need room."""
        owner = self.books.number(new.offset)
        added = {(owner, blob) for blob in given_up} - self.books.blobs
        refuse_if(bool(added) and len(self.books.blobs) + len(added) > BLOB_ROWS, 24)

    def enter_blob_rows(self, given_up: set[int], new: Info) -> None:
        owner = self.books.number(new.offset)
        self.books.blobs |= {(owner, blob) for blob in given_up}

    def note_blobs(self, old: list[Info], new: Info, given_up: set[int]) -> None:
        """The crate gives up no blob from a list of one, else every old blob."""
        old_blobs = [info.blob for info in old if info.blob is not None]
        if set(old_blobs if len(old) != 1 else []) != given_up:
            self.note("crate's blob rows differ", "one old info" if len(old) == 1 else "the new blob among old ones")
        if given_up:
            self.note("blobs given up", len(given_up))
        if new.blob is not None and new.blob in old_blobs:
            self.note("blob moved, not given up")
        if len(set(old)) < len(old):
            self.note("old infos doubled")
        if len(old_blobs) > len(set(old_blobs)):
            self.note("old blob named twice")

    def take_away(self, number: int, page: int, size: int, base: int) -> None:
        """The replacement takes its old bytes, and maybe the page, from a segment."""
        books = self.books
        segment = books.segments[number]
        latest = max(segment.latest, base)
        match segment:
            case Active() if segment.lsn == base:
                self.note("taken away from Active, same base")
                after: Segment = changed(segment, deferred=segment.deferred + size, latest=latest)
            case Active():
                self.note("taken away from Active, other base")
                books.mark_left(number, page)
                after = changed(segment, deferred=segment.deferred + size, latest=latest)
            case Inactive():
                self.note("taken away from Inactive")
                books.mark_left(number, page)
                live = segment.live_bytes - size
                after = changed(segment, live_bytes=live, replaced=segment.replaced + 1, latest=latest)
            case Draining():
                self.note("taken away from Draining")
                books.mark_left(number, page)
                after = changed(segment, replaced=segment.replaced + 1, latest=latest)
        books.segments[number] = after

    # Cleaning and freeing.

    def clean(self, number: int) -> None:
        """Drains an Inactive segment with few live bytes; frees or holds back a drained one without pages."""
        books = self.books
        segment = books.segments[number]
        if isinstance(segment, Inactive) and segment.live_bytes * 100 // books.size <= CLEANUP_THRESHOLD:
            self.drain(number, "few live bytes")
        segment = books.segments[number]
        if isinstance(segment, Draining) and segment.replaced == segment.pages:
            self.leave_draining(number, segment)

    def drain(self, number: int, why: str) -> None:
        books = self.books
        pages = books.pages_lying(number)
        books.segments[number] = books.segments[number].drained()
        books.queues[books.offset(number)] = pages
        self.note("Inactive to Draining", why)
        if not pages:
            self.note("listed with no page queued")

    def leave_draining(self, number: int, segment: Draining) -> None:
        books = self.books
        active = {s.lsn: n for n, s in enumerate(books.segments) if isinstance(s, Active)}
        books.segments[number] = segment.freed()
        self.note("Draining to Free", number, active)
        holder = self.active_at(segment.latest)
        if holder is None:
            self.note("freed at once")
            self.free(number)
        else:
            self.note("held back", number, holder)
            books.freeable.add((holder, segment.lsn))

    def active_at(self, lsn: int) -> Optional[int]:
        """The Active segment that the ordering has under an LSN."""
        books = self.books
        if lsn not in books.ordering:
            return None
        number = books.number(books.ordering[lsn])
        return number if isinstance(books.segments[number], Active) else None

    def free(self, number: int) -> None:
        """Puts a Free segment on the free list, and cuts the file while its end is free."""
        books = self.books
        offset = books.offset(number)
        books.queues.pop(offset, None)
        books.pages.pop(number, None)
        former = books.segments[number].former
        if former is not None:
            books.ordering.pop(former, None)
        books.free.add(offset)
        cuts = 0
        while books.tip != 0 and len(books.free) > 1 and books.tip - books.size in books.free:
            self.cut_tip()
            cuts += 1
        if cuts > 1:
            self.note("several cuts in one freeing")

    def cut_tip(self) -> None:
        books = self.books
        books.tip -= books.size
        books.free.remove(books.tip)
        fault = self.host.ask("cut", books.tip)
        if fault:
            books.faults[books.tip] = fault
            self.note("cut refused and remembered")
        else:
            self.note("cut granted")

    # Stabilize.

    def stabilize(self, stable: int) -> None:
        self.check_started([stable] if stable >= 0 else [])
        books = self.books
        up_to = (stable // books.size - 1) * books.size
        if stable < 0 or books.stabilized >= up_to:
            self.note("stabilize changes nothing", "negative" if stable < 0 else "not above")
            return
        lsns = sorted(lsn for lsn in books.ordering if books.stabilized < lsn <= up_to)
        books.stabilized = up_to
        for done, lsn in enumerate(lsns):
            try:
                self.deactivate(lsn)
            except Refused:
                self.note("stabilize ended", "after earlier work" if done else "at the first segment")
                raise
        if len(lsns) > 1:
            self.note("several segments deactivated in one call")

    def deactivate(self, lsn: int) -> None:
        books = self.books
        number = books.number(books.ordering[lsn])
        segment = books.segments[number]
        self.remove_blobs(number)
        rows = books.pages.get(number, {})
        books.segments[number] = segment.deactivated(len(rows), sum(rows.values()))
        self.note("Active to Inactive")
        held = sorted(former for holder, former in books.freeable if holder == number)
        for former in held:
            self.note("freed when its holder was deactivated")
            self.free(books.number(books.ordering[former]))
        books.freeable -= {(number, former) for former in held}
        if len(held) > 1:
            self.note("one segment held several back")
        self.clean(number)
        self.drain_by_share()

    def remove_blobs(self, number: int) -> None:
        """Removes the segment's blobs, ascending; a refusal keeps all its blob rows."""
        books = self.books
        blobs = books.blobs_of(number)
        for done, blob in enumerate(blobs):
            held = blob in self.host.bottom.blobs
            fault = self.host.ask("remove", blob)
            if fault:
                self.note("removal refused", "after one granted" if done else "the first")
                raise Refused(25, "remove", fault)
            self.note("blob removed", "held by the host" if held else "not held by the host")
        books.blobs -= {(number, blob) for blob in blobs}

    def drain_by_share(self) -> None:
        """With many free segments, the last Inactive one is drained too, with no test for freeing."""
        books = self.books
        inactive = [n for n, s in enumerate(books.segments) if isinstance(s, Inactive)]
        below_tip = books.free_below_tip()
        reached = sum(isinstance(s, Free) for s in books.segments)
        if share_is_high(below_tip, len(inactive)) != share_is_high(reached, len(inactive)):
            self.note("crate's draining by share differs", len(books.segments) - books.number(books.tip))
        if share_is_high(below_tip, len(inactive)) != share_is_high(len(books.free), len(inactive)):
            self.note("share is high only with held-back segments")
        if share_is_high(below_tip, len(inactive)):
            self.drain(inactive[-1], "share of free segments")
            if not books.queues[books.offset(inactive[-1])]:
                self.note("drained by share with no page lying")

    # Next and pop.

    def next(self, lsn: int) -> int:
        self.check_started([lsn])
        books = self.books
        refuse_if(lsn % books.size != 0, 8)
        if lsn in books.ordering:
            segment = books.segments[books.number(books.ordering[lsn])]
            raise Refused(10, "held back" if isinstance(segment, Free) else "in use")
        at_tip = not books.free
        if at_tip:
            self.answer_remembered_fault()
        refuse_if(at_tip and books.tip >= SEGMENTS * books.size, 11)
        offset = books.tip if at_tip else min(books.free)
        refuse_if(lsn < offset, 9, "tip" if at_tip else "free offset")
        self.hand_out(lsn, offset, at_tip)
        return offset

    def answer_remembered_fault(self) -> None:
        """At the tip the remembered faults are all dropped, and the lowest is answered."""
        faults = self.books.faults
        if faults:
            lowest = faults[min(faults)]
            self.note("remembered faults dropped", "several" if len(faults) > 1 else "one")
            self.books.faults = {}
            raise Refused(25, "next at the tip", lowest)

    def hand_out(self, lsn: int, offset: int, at_tip: bool) -> None:
        books = self.books
        number = books.number(offset)
        if at_tip:
            again = number < len(books.segments)
            self.note("handed out at the tip", "cut off before" if again else "new")
            books.tip += books.size
            if not again:
                books.segments.append(Free(None))
        else:
            self.note("handed out from the free list")
            books.free.remove(offset)
            if books.faults:
                self.note("free offset handed out past remembered faults")
        if lsn <= books.stabilized:
            self.note("handed out with an LSN already stabilised")
        books.segments[number] = Active(lsn)
        books.ordering[lsn] = offset

    def pop(self) -> Optional[tuple[int, int]]:
        """The lowest queued page of the lowest listed offset, or none, which unlists an empty one."""
        self.check_started([])
        books = self.books
        if not books.queues:
            self.note("pop with nothing listed")
            return None
        offset = min(books.queues)
        queue = books.queues[offset]
        number = books.number(offset)
        if not queue:
            del books.queues[offset]
            self.note("pop unlists")
            return None
        page = min(queue)
        queue.remove(page)
        if books.has_left(number, page):
            self.note("popped page that had left")
        if isinstance(books.segments[number], Free):
            self.note("popped from a held-back segment")
        self.note("popped page")
        return page, offset


def share_is_high(free: int, inactive: int) -> bool:
    return free * 100 // (1 + free + inactive) >= CLEANUP_THRESHOLD and inactive > MANY_INACTIVE


def read_pages(directory: list[tuple[int, int]], rows: list[Row]) -> list[list[Row]]:
    """The rows of each page, by page id; 3 for a directory fault, 4 for rows that form no state."""
    end = 0
    for first, count in directory:
        refuse_if(first != end, 3)
        end += count
    refuse_if(end != len(rows), 3)
    refuse_if(any(row.kind > UNINITIALISED for row in rows), 4, "kind")
    pages = [rows[first : first + count] for first, count in directory]
    for page in pages:
        check_page_state(page)
    return pages


def check_page_state(rows: list[Row]) -> None:
    """A base and then fragments, or one row that says the page is free."""
    kinds = [row.kind for row in rows]
    refuse_if(not kinds, 4, "page without rows")
    refuse_if(kinds == [UNINITIALISED], 4, "uninitialised")
    present = kinds[0] == BASE and all(kind == FRAGMENT for kind in kinds[1:])
    refuse_if(not present and kinds != [FREE_PAGE], 4, "rows of no state")


if __name__ == "__main__":
    from playing import main

    sys.exit(main())
