"""Plays call lists by the rules: reads each line, makes the call, tells the transcript's lines."""

from __future__ import annotations

import sys
from dataclasses import dataclass, field
from typing import Iterator, Optional

from call_lists import BadLine, CALLS, HOSTS, Info, Row, Statement, lines_of, read_line
from hosts import Answer, HostOfRun, MemoryHost, QueueHost, Request
from rules import Accountant, Active, Books, Draining, Free, Inactive, Refused, Segment


@dataclass
class Made:
    """A call as it was made: the statement, what it was handed, its answer or refusal, requests and events."""

    statement: Statement
    handed: dict
    answer: object = None
    refused: Optional[Refused] = None
    asked: list[tuple[Request, Answer]] = field(default_factory=list)
    events: list[tuple] = field(default_factory=list)


def tell_books(accountant: Accountant) -> Iterator[str]:
    host = accountant.host.bottom
    books = accountant.books
    yield "books"
    yield "started no" if books is None else "started yes"
    if books is not None:
        yield from tell_tables(books)
    yield f"length {host.length}"
    yield line_of("blobs", sorted(host.blobs))
    yield "end"


def tell_tables(books: Books) -> Iterator[str]:
    yield f"tip {books.tip}"
    yield f"stabilized {books.stabilized}"
    yield line_of("free", sorted(books.free))
    yield line_of("ordering", [f"{lsn}:{offset}" for lsn, offset in sorted(books.ordering.items())])
    for number, segment in enumerate(books.segments):
        yield f"segment {number} {tell_segment(segment)}"
    for number, rows in sorted(books.pages.items()):
        for page, left in sorted(rows.items()):
            yield f"page {number} {page} {'left' if left else 'lies'}"
    for offset, pages in sorted(books.queues.items()):
        yield line_of(f"queued {offset}", sorted(pages))
    for number, blob in sorted(books.blobs):
        yield f"blob {number} {blob}"
    for number, lsn in sorted(books.freeable):
        yield f"freeable {number} {lsn}"
    for offset, fault in sorted(books.faults.items()):
        yield f"fault {offset} {fault.code} {fault.layer}"


def tell_segment(segment: Segment) -> str:
    match segment:
        case Free(former):
            return f"free {'-' if former is None else former}"
        case Active(lsn, linked, deferred, latest):
            return f"active {lsn} {linked} {deferred} {latest}"
        case Inactive(lsn, live, pages, replaced, latest):
            return f"inactive {lsn} {live} {pages} {replaced} {latest}"
        case Draining(lsn, pages, replaced, latest):
            return f"draining {lsn} {pages} {replaced} {latest}"


def line_of(word: str, values: list) -> str:
    return " ".join([word] + [str(value) for value in values])


def tell_asked(request: Request, answer: Answer) -> str:
    told = f"refused code {answer.code} layer {answer.layer}" if answer else "granted"
    return f"asked {request}: {told}"


class Player:
    """Plays a list line by line. `made` is the last call; `watcher` is told of every run and call."""

    def __init__(self, watcher: Optional[object] = None) -> None:
        self.watcher = watcher
        self.runs = 0
        self.accountant: Optional[Accountant] = None
        self.called = False
        self.made: Optional[Made] = None
        self.drop_gathered()

    def drop_gathered(self) -> None:
        self.directory: list[tuple[int, int]] = []
        self.rows: list[Row] = []
        self.old: list[Info] = []

    def play_line(self, line: str) -> list[str]:
        """The transcript's lines for one line of the list; raises BadLine."""
        self.made = None
        statement = read_line(line)
        if statement is None:
            return []
        if statement.word in HOSTS:
            return self.new_run(statement)
        if self.accountant is None:
            raise BadLine("the first statement is memory or queue")
        if statement.word in CALLS:
            return self.call(statement)
        if statement.word == "books":
            return list(tell_books(self.accountant))
        self.gather(statement)
        return []

    def new_run(self, statement: Statement) -> list[str]:
        size, length, *blobs = statement.fields
        bottom = MemoryHost if statement.word == "memory" else QueueHost
        self.accountant = Accountant(HostOfRun(bottom(size, length, blobs)))
        self.called = False
        self.drop_gathered()
        self.runs += 1
        if self.watcher:
            self.watcher.new_run(self.accountant)
        return [f"run {self.runs}"]

    def gather(self, statement: Statement) -> None:
        match statement.word:
            case "fail":
                if self.called:
                    raise BadLine("fail after a call")
                self.accountant.host.add_fail_layer(statement.fields[0])
            case "page":
                self.directory.append(statement.fields)
            case "row":
                self.rows.append(Row(*statement.fields))
            case "old":
                self.old.append(Info(*statement.fields))

    def call(self, statement: Statement) -> list[str]:
        self.called = True
        made = self.made = Made(statement, self.hand_over(statement))
        if self.watcher:
            self.watcher.before(made)
        accountant = self.accountant
        accountant.events, accountant.host.asked = [], []
        try:
            made.answer = self.make(statement, made.handed)
            told = self.tell_answer(statement.word, made.answer)
        except Refused as refused:
            made.refused = refused
            told = str(refused)
        made.asked, made.events = accountant.host.asked, accountant.events
        if self.watcher:
            self.watcher.after(made)
        return [tell_asked(*asked) for asked in made.asked] + [f"{statement.word}: {told}"]

    def hand_over(self, statement: Statement) -> dict:
        """The gathered lines that a call takes; they are used up, refused or not."""
        handed: dict = {}
        if statement.word == "start":
            handed = {"directory": self.directory, "rows": self.rows}
            self.directory, self.rows = [], []
        elif statement.word == "replace":
            handed = {"old": self.old}
            self.old = []
        return handed

    def make(self, statement: Statement, handed: dict) -> object:
        accountant, fields = self.accountant, statement.fields
        match statement.word:
            case "start":
                return accountant.start(*fields, handed["directory"], handed["rows"])
            case "link":
                return accountant.link(fields[0], Info(*fields[1:]))
            case "replace":
                return accountant.replace(fields[0], fields[1], handed["old"], Info(*fields[2:]))
            case "next":
                return accountant.next(fields[0])
            case "stabilize":
                return accountant.stabilize(fields[0])
            case "pop":
                return accountant.pop()
            case _:
                return accountant.host.bottom.take()

    @staticmethod
    def tell_answer(word: str, answer: object) -> str:
        if word == "next":
            return str(answer)
        if word == "pop":
            return "none" if answer is None else f"page {answer[0]} offset {answer[1]}"
        if word == "take":
            return "none" if answer is None else str(answer)
        return "ok"


def play(text: str, watcher: Optional[object] = None) -> str:
    """The transcript of a whole list."""
    player = Player(watcher)
    out: list[str] = []
    for count, line in enumerate(lines_of(text), start=1):
        try:
            out += player.play_line(line)
        except BadLine as reason:
            out.append(f"line {count}: {reason}")
            break
    return "".join(line + "\n" for line in out)


def main() -> int:
    watcher = None
    if "--check" in sys.argv[1:]:
        from recount import Watcher

        watcher = Watcher()
    sys.stdout.write(play(sys.stdin.read(), watcher))
    broken = watcher.broken if watcher else []
    for line in broken:
        print(line, file=sys.stderr)
    return 1 if broken else 0
