"""Holds a transcript of a call list against the crate's transcript of the same list.

    compare.py LIST CRATE OTHER

Knows the domain in which the two must agree, by playing the list by the rules beside them. A run is compared call by
call until it leaves the domain:
- at a refusal that the crate has no notion of,
- where the crate's blob rows or its draining by share differ from the rules',
- where the crate panics (there the other side must refuse),
- at stabilize(-2^63), which overflows in the crate,
- where the fill at start that the rules leave out would shift what the host counts or the number of segments.
Otherwise that fill is passed over, and the file length it leaves is followed on each side.
Exit status 0 if all that was compared agrees, 1 if not.
"""

from __future__ import annotations

import sys
from collections import Counter
from dataclasses import dataclass, field
from typing import Optional

from call_lists import BadLine, CALLS, HOSTS, I64_MIN, U64_MAX, Statement, lines_of, read_line
from playing import Made, Player

# Refusals that the crate has no notion of; 23 counts for Active segments only.
ADDED = {2, 7, 10, 11, 12, 16, 17, 18, 19, 20, 22, 24}


@dataclass
class Block:
    """The lines of a transcript that belong to one statement."""

    kind: str  # run, call, books, line
    requests: list[str] = field(default_factory=list)
    lines: list[str] = field(default_factory=list)

    def answer(self) -> str:
        return self.lines[0]


def blocks_of(transcript: str) -> list[Block]:
    blocks: list[Block] = []
    requests: list[str] = []
    books: Optional[Block] = None
    for line in transcript.splitlines():
        if books is not None:
            books.lines.append(line)
            books = None if line == "end" else books
        elif line.startswith("asked "):
            requests.append(line)
        elif line == "books":
            books = Block("books")
            blocks.append(books)
        else:
            word = line.split(" ")[0]
            kind = word if word in ("run", "line") else "call"
            blocks.append(Block(kind, requests, [line]))
            requests = []
    return blocks


def kind_of(statement: Statement) -> Optional[str]:
    """The kind of block that a statement leaves in a transcript."""
    if statement.word in HOSTS:
        return "run"
    if statement.word in CALLS:
        return "call"
    return "books" if statement.word == "books" else None


@dataclass
class Report:
    """What a comparison found."""

    runs: int = 0
    calls: int = 0
    books: int = 0
    left: Counter = field(default_factory=Counter)
    panics: Counter = field(default_factory=Counter)
    disagreements: list[str] = field(default_factory=list)

    def add(self, other: Report) -> None:
        self.runs += other.runs
        self.calls += other.calls
        self.books += other.books
        self.left.update(other.left)
        self.panics.update(other.panics)
        self.disagreements += other.disagreements


class Length:
    """The file length that one side's own requests lead to."""

    def __init__(self, size: int, length: int) -> None:
        self.size = size
        self.length = length

    def follow(self, requests: list[str]) -> None:
        for line in requests:
            _, verb, place = line.split(":")[0].split(" ")
            if not line.endswith("granted"):
                continue
            if verb == "cut":
                self.length = min(self.length, int(place))
            if verb == "fill":
                self.length = max(self.length, min(int(place) + self.size, U64_MAX))

    def segments(self) -> int:
        return -(-self.length // self.size) if self.size else 0


class Comparer:
    """Walks the list with both transcripts; one Player beside them knows the domain."""

    def __init__(self, crate: str, other: str) -> None:
        self.crate = blocks_of(crate)
        self.other = blocks_of(other)
        self.crate_at = self.other_at = 0
        self.player = Player()
        self.report = Report()
        self.left = False
        self.crate_over = False
        self.line = 0

    def compare(self, text: str) -> Report:
        for self.line, line in enumerate(lines_of(text), start=1):
            try:
                self.player.play_line(line)
                statement = read_line(line)
            except BadLine:
                self.compare_bad_line()
                return self.report
            kind = statement and kind_of(statement)
            if kind and not self.compare_statement(statement, kind):
                return self.report
        if self.crate_at < len(self.crate) or self.other_at < len(self.other):
            self.disagree("a transcript goes on after the list")
        return self.report

    def disagree(self, what: str) -> None:
        self.report.disagreements.append(f"line {self.line}: {what}")
        self.left = True

    def leave(self, why: str) -> None:
        self.report.left[why] += 1
        self.left = True

    def compare_bad_line(self) -> None:
        ends = [blocks[at:] for blocks, at in ((self.crate, self.crate_at), (self.other, self.other_at))]
        for rest in ends:
            if len(rest) != 1 or not rest[0].answer().startswith(f"line {self.line}: "):
                self.disagree("a statement that cannot be read is not told")
        self.report.left["statement that cannot be read"] += 1

    def compare_statement(self, statement: Statement, kind: str) -> bool:
        """Whether both transcripts go on with a block of the statement's kind."""
        if kind == "run":
            self.crate_over = False
        other = self.next_block("other", statement, kind)
        crate = None if self.crate_over else self.next_block("crate", statement, kind)
        if other is None or (crate is None and not self.crate_over):
            self.disagree("a transcript does not follow the list")
            return False
        if kind == "run":
            self.new_run(statement, crate, other)
        elif crate is not None:
            self.compare_block(crate, other)
        return True

    def next_block(self, side: str, statement: Statement, kind: str) -> Optional[Block]:
        blocks, at = (self.crate, self.crate_at) if side == "crate" else (self.other, self.other_at)
        fits = at < len(blocks) and blocks[at].kind == kind
        if fits and kind == "call":
            fits = blocks[at].answer().startswith(statement.word + ": ")
        if not fits:
            return None
        if side == "crate":
            self.crate_at += 1
        else:
            self.other_at += 1
        return blocks[at]

    def new_run(self, statement: Statement, crate: Block, other: Block) -> None:
        self.left = False
        self.report.runs += 1
        size, length = statement.fields[:2]
        self.crate_length, self.other_length = Length(size, length), Length(size, length)
        if crate.lines != other.lines:
            self.disagree(f"{crate.answer()} against {other.answer()}")

    def compare_block(self, crate: Block, other: Block) -> None:
        panicked = crate.kind == "call" and crate.answer().endswith(": panic")
        self.crate_over = self.crate_over or panicked
        if self.left:
            return
        if crate.kind == "books":
            self.compare_books(crate, other)
            return
        why = self.departure(self.player.made)
        if why:
            self.leave(why)
        elif panicked:
            self.compare_panic(crate, other)
        else:
            self.compare_call(self.player.made, crate, other)

    def departure(self, made: Made) -> Optional[str]:
        """Why the domain ends at this call, or None."""
        refused = made.refused
        if refused and (refused.number in ADDED or (refused.number, refused.why) == (23, "Active")):
            return f"refusal {refused.number}" + (" for Active" if refused.number == 23 else "")
        names = [event[0] for event in made.events]
        if "crate's blob rows differ" in names and not refused:
            return "blob rows differ"
        if "crate's draining by share differs" in names:
            self.expect_cut_off(made)
            return "draining by share differs"
        word, fields = made.statement.word, made.statement.fields
        if word == "stabilize" and fields[0] == I64_MIN and not refused:
            return "stabilize(-2^63)"
        started = refused is not None and refused.number == 28
        if word == "start" and not started and self.crate_length.segments() != self.other_length.segments():
            return "start after a fill left out"
        if "fill left out at start" in names and self.player.accountant.host.counts_requests():
            return "fill left out over a host that counts"
        return None

    def expect_cut_off(self, made: Made) -> None:
        """The shares can differ only where segments lie above the tip."""
        if ("crate's draining by share differs", 0) in made.events:
            self.disagree("the shares differ though nothing is cut off")

    def compare_panic(self, crate: Block, other: Block) -> None:
        answer = other.answer()
        if ": refused " not in answer:
            self.disagree(f"the crate panics, but {answer}")
        else:
            self.report.panics["refusal " + answer.split(" ")[2]] += 1
            self.leave("the crate panics")

    def compare_call(self, made: Made, crate: Block, other: Block) -> None:
        self.crate_length.follow(crate.requests)
        self.other_length.follow(other.requests)
        requests = crate.requests
        if made.statement.word == "start":
            requests = without_fills_of_cuts(requests)
        if requests != other.requests:
            self.disagree(f"requests {requests} against {other.requests}")
        elif crate.answer() != other.answer() and not same_start_refusal(made, crate, other):
            self.disagree(f"{crate.answer()} against {other.answer()}")
        else:
            self.report.calls += 1

    def compare_books(self, crate: Block, other: Block) -> None:
        ours = kept_by_the_crate(other.lines)
        lengths = f"length {self.crate_length.length}", f"length {self.other_length.length}"
        for own, lines in zip(lengths, (crate.lines, ours)):
            if own not in lines:
                self.disagree(f"books do not say {own}")
                return
        theirs = [line for line in crate.lines if line != lengths[0]]
        ours = [line for line in ours if line != lengths[1]]
        if theirs != ours:
            self.disagree("books differ: " + first_difference(theirs, ours))
        else:
            self.report.books += 1


def without_fills_of_cuts(requests: list[str]) -> list[str]:
    """At start the crate also fills a segment whose cut it has just asked."""
    kept: list[str] = []
    cuts: set[str] = set()
    for line in requests:
        _, verb, place = line.split(":")[0].split(" ")
        if verb == "cut":
            cuts.add(place)
        if verb != "fill" or place not in cuts:
            kept.append(line)
    return kept


def same_start_refusal(made: Made, crate: Block, other: Block) -> bool:
    """An uninitialised page: the crate tells an active offset past the segments first."""
    uninitialised = made.refused is not None and made.refused.why == "uninitialised"
    return uninitialised and other.answer() == "start: refused 4" and crate.answer() == "start: refused 5"


def kept_by_the_crate(books: list[str]) -> list[str]:
    """The books without page rows that the crate does not keep: all of Draining and Free segments, and those of
    pages that have left an Inactive one."""
    states = {line.split(" ")[1]: line.split(" ")[2] for line in books if line.startswith("segment ")}

    def kept(line: str) -> bool:
        if not line.startswith("page "):
            return True
        _, number, _, mark = line.split(" ")
        return states[number] == "active" or (states[number] == "inactive" and mark == "lies")

    return [line for line in books if kept(line)]


def first_difference(left: list[str], right: list[str]) -> str:
    for ours, theirs in zip(left, right):
        if ours != theirs:
            return f"{ours} against {theirs}"
    return f"{len(left)} lines against {len(right)}"


def compare(text: str, crate: str, other: str) -> Report:
    return Comparer(crate, other).compare(text)


def tell(report: Report) -> list[str]:
    lines = [f"runs {report.runs}, calls agreed {report.calls}, books agreed {report.books}"]
    lines += [f"left the domain: {why}: {count}" for why, count in sorted(report.left.items())]
    lines += [f"the crate panics, {why}: {count}" for why, count in sorted(report.panics.items())]
    return lines + [f"DISAGREE {what}" for what in report.disagreements]


def main() -> int:
    if len(sys.argv) != 4:
        print("usage: compare.py LIST CRATE OTHER", file=sys.stderr)
        return 2
    texts = [open(name, encoding="utf-8").read() for name in sys.argv[1:]]
    report = compare(*texts)
    print("\n".join(tell(report)))
    return 1 if report.disagreements else 0


if __name__ == "__main__":
    sys.exit(main())
