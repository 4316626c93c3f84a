"""The recount: an account kept only from the calls, their answers and the host's answers, and the laws that the
books must keep beside it. A Watcher is handed to the player of rules.py and gathers every broken law."""

from __future__ import annotations

from dataclasses import dataclass, field
from typing import Iterator, Optional

from call_lists import Info, Row
from playing import Made
from rules import FREE_PAGE, SEGMENTS, Accountant, Active, Books, Draining, Free, Inactive


@dataclass
class Account:
    """What is known of one segment from the calls alone."""

    lsn: Optional[int] = None
    live: int = 0
    pages: set[int] = field(default_factory=set)
    bases: set[int] = field(default_factory=set)

    def largest_base(self) -> int:
        return max(self.bases, default=0)


class Recount:
    """Fed each call with its answer; knows nothing of the books."""

    def __init__(self, size: int) -> None:
        self.size = size
        self.accounts: dict[int, Account] = {}
        self.stored = -1
        self.given_up: set[tuple[int, int]] = set()  # blob, base of the replacement

    def base(self, lsn: int) -> int:
        return lsn // self.size * self.size

    def account(self, number: int) -> Account:
        return self.accounts.setdefault(number, Account())

    def feed(self, made: Made) -> None:
        fields = made.statement.fields
        match made.statement.word:
            case "start":
                self.start(fields, made.handed["directory"], made.handed["rows"])
            case "link":
                self.link(fields[0], Info(*fields[1:]))
            case "replace":
                self.replace(fields[0], made.handed["old"], Info(*fields[2:]))
            case "next":
                self.accounts[made.answer // self.size] = Account(lsn=fields[0])
            case "stabilize":
                self.stabilize(fields[0])

    def start(self, fields: tuple, directory: list[tuple[int, int]], rows: list[Row]) -> None:
        _, header, stable, active = fields
        if active is not None:
            self.account(active // self.size).lsn = self.base(stable or 0)
        for page, (first, count) in enumerate(directory):
            for row in rows[first : first + count]:
                account = self.account(row.offset // self.size)
                account.lsn = self.base(row.lsn)
                account.live += header if row.kind == FREE_PAGE else row.size
                account.pages.add(page)

    def link(self, page: int, info: Info) -> None:
        account = self.account(info.offset // self.size)
        account.live += info.size
        account.pages.add(page)

    def replace(self, page: int, old: list[Info], new: Info) -> None:
        self.link(page, new)
        base = self.base(new.lsn)
        for info in old:
            account = self.account(info.offset // self.size)
            account.live -= info.size
            account.bases.add(base)
            if base != account.lsn:
                account.pages.discard(page)
            if info.blob is not None and info.blob != new.blob:
                self.given_up.add((info.blob, base))

    def stabilize(self, stable: int) -> None:
        if stable >= 0:
            self.stored = max(self.stored, (stable // self.size - 1) * self.size)

    def may_be_overwritten(self, number: int) -> bool:
        """No page lies there, and every replacement noted there is stable."""
        account = self.accounts.get(number, Account())
        return not account.pages and all(base <= self.stored for base in account.bases)

    def may_be_removed(self, blob: int) -> bool:
        """Some stable replacement gave the blob up."""
        return any(given == blob and base <= self.stored for given, base in self.given_up)


class Watcher:
    """Holds every call against the recount and the laws; `broken` gathers what does not hold."""

    def __init__(self) -> None:
        self.broken: list[str] = []
        self.runs = 0
        self.calls = 0

    def new_run(self, accountant: Accountant) -> None:
        self.runs += 1
        self.calls = 0
        self.accountant = accountant
        self.recount: Optional[Recount] = None
        self.activations: dict[int, int] = {}
        self.holders: dict[int, tuple[int, int]] = {}  # held-back segment: holder and which activation of it

    def before(self, made: Made) -> None:
        books = self.accountant.books
        self.least = None if books is None else min(books.free, default=books.tip)

    def after(self, made: Made) -> None:
        self.calls += 1
        stopped_by_host = made.refused is not None and made.refused.number == 25
        if made.refused is None or (made.statement.word == "stabilize" and stopped_by_host):
            self.judge_next(made)
            self.feed(made)
        if self.recount:
            self.judge_requests(made)
            self.follow_holders(made)
            self.judge_books()

    def expect(self, holds: bool, law: str) -> None:
        if not holds:
            self.broken.append(f"run {self.runs} call {self.calls}: broken: {law}")

    def judge_next(self, made: Made) -> None:
        if made.statement.word != "next":
            return
        self.expect(made.answer == self.least, "next answers the least free offset, or the tip")
        number = made.answer // self.recount.size
        self.expect(self.recount.may_be_overwritten(number), "nothing is handed out early")

    def feed(self, made: Made) -> None:
        if made.statement.word == "start":
            self.recount = Recount(made.statement.fields[0])
        if self.recount:
            self.recount.feed(made)
        if made.statement.word == "next":
            number = made.answer // self.recount.size
            self.activations[number] = self.activations.get(number, 0) + 1

    def judge_requests(self, made: Made) -> None:
        for request, fault in made.asked:
            if fault is None and request.verb == "cut":
                self.judge_cut(request.place // self.recount.size)
            if fault is None and request.verb == "remove":
                self.expect(self.recount.may_be_removed(request.place), "no blob leaves early")

    def judge_cut(self, first: int) -> None:
        for number in self.recount.accounts:
            if number >= first:
                self.expect(self.recount.may_be_overwritten(number), "nothing is cut off early")

    def follow_holders(self, made: Made) -> None:
        """Who holds whom back: from the step Draining to Free, while the holder is still Active."""
        for event in made.events:
            if event[0] == "Draining to Free":
                _, number, active = event
                base = self.recount.account(number).largest_base()
                if base in active:
                    holder = active[base]
                    self.holders[number] = (holder, self.activations.get(holder, 0))
        segments = self.accountant.books.segments
        self.holders = {
            number: (holder, activation)
            for number, (holder, activation) in self.holders.items()
            if isinstance(segments[holder], Active) and self.activations.get(holder, 0) == activation
        }

    def judge_books(self) -> None:
        books = self.accountant.books
        for law, holds in laws(books, self.recount, self.holders):
            self.expect(holds, law)


def laws(books: Books, recount: Recount, holders: dict[int, tuple[int, int]]) -> Iterator[tuple[str, bool]]:
    """Every law of the books, with whether it holds."""
    yield "live bytes are true", live_bytes_true(books, recount)
    yield "the free list is exact", books.free == exact_free_list(books, holders)
    yield from room_laws(books)
    yield "the tip ends the segments in use", tip_ends(books)
    yield "the ordering is exact", books.ordering == exact_ordering(books, holders)
    yield "page rows and counts agree", pages_agree(books, recount)
    yield "bytes stay in bounds", bytes_in_bounds(books)
    yield "LSNs and latest agree with the recount", lsns_agree(books, recount)
    yield "noted bases are stable or Active", bases_known(books, recount)
    yield "freeable rows are exact", books.freeable == exact_freeable(books, recount, holders)
    yield "blob rows belong to Active segments", blob_rows_owned(books, recount)


def room_laws(books: Books) -> Iterator[tuple[str, bool]]:
    in_use = books.number(books.tip)
    yield "free offsets + ordering rows = tip / S", len(books.free) + len(books.ordering) == in_use
    held = len(books.free) + len(books.freeable)
    yield "Free below the tip = free offsets + freeable rows", books.free_below_tip() == held
    yield "freeable rows <= ordering rows", len(books.freeable) <= len(books.ordering)
    yield "faults + tip / S <= reached", len(books.faults) + in_use <= len(books.segments)
    yield "reached <= 256", len(books.segments) <= SEGMENTS


def live_bytes_true(books: Books, recount: Recount) -> bool:
    return all(
        segment.live() == recount.account(number).live
        for number, segment in enumerate(books.segments)
        if isinstance(segment, (Active, Inactive))
    )


def exact_free_list(books: Books, holders: dict[int, tuple[int, int]]) -> set[int]:
    """Below the tip, Free, and held back by nobody."""
    return {
        books.offset(number)
        for number, segment in enumerate(books.segments)
        if books.offset(number) < books.tip and isinstance(segment, Free) and number not in holders
    }


def tip_ends(books: Books) -> bool:
    """The tip is a multiple of S; above it every segment is Free, without rows, not listed."""
    above = range(books.number(books.tip), len(books.segments))
    empty = all(
        isinstance(books.segments[n], Free) and n not in books.pages and books.offset(n) not in books.queues
        for n in above
    )
    return books.tip % books.size == 0 and books.number(books.tip) <= len(books.segments) and empty


def exact_ordering(books: Books, holders: dict[int, tuple[int, int]]) -> dict[int, int]:
    """Each segment in use under its LSN, each held-back one under its former LSN."""
    ordering = {}
    for number, segment in enumerate(books.segments):
        if not isinstance(segment, Free):
            ordering[segment.lsn] = books.offset(number)
        elif number in holders:
            ordering[segment.former] = books.offset(number)
    return ordering


def pages_agree(books: Books, recount: Recount) -> bool:
    for number, segment in enumerate(books.segments):
        rows = books.pages.get(number, {})
        lying = books.pages_lying(number)
        if isinstance(segment, Free) and lying:
            return False
        if not isinstance(segment, Free) and lying != recount.account(number).pages:
            return False
        if isinstance(segment, (Inactive, Draining)):
            if (segment.pages, segment.replaced) != (len(rows), len(rows) - len(lying)):
                return False
    return True


def bytes_in_bounds(books: Books) -> bool:
    return all(0 <= s.deferred <= s.linked <= 2**40 for s in books.segments if isinstance(s, Active)) and all(
        s.live_bytes >= 0 and s.replaced <= s.pages for s in books.segments if isinstance(s, Inactive)
    )


def lsns_agree(books: Books, recount: Recount) -> bool:
    return all(
        (segment.lsn, segment.latest) == (recount.account(number).lsn, recount.account(number).largest_base())
        for number, segment in enumerate(books.segments)
        if not isinstance(segment, Free)
    )


def bases_known(books: Books, recount: Recount) -> bool:
    active = {segment.lsn for segment in books.segments if isinstance(segment, Active)}
    noted = {base for account in recount.accounts.values() for base in account.bases}
    return all(base <= recount.stored or base in active for base in noted)


def exact_freeable(books: Books, recount: Recount, holders: dict[int, tuple[int, int]]) -> set[tuple[int, int]]:
    """A held-back segment's former LSN, at the holder whose LSN is the largest base noted for it."""
    rows = set()
    for number, (holder, _) in holders.items():
        if books.segments[holder].lsn == recount.account(number).largest_base():
            rows.add((holder, books.segments[number].former))
    return rows


def blob_rows_owned(books: Books, recount: Recount) -> bool:
    return all(
        isinstance(books.segments[number], Active) and (blob, books.segments[number].lsn) in recount.given_up
        for number, blob in books.blobs
    )
