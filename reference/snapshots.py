"""Lists of starts from made-up snapshots, sound ones and ones with a fault, retried after a refusal."""

from __future__ import annotations

import random
from typing import Callable, Optional

from scenes import LARGEST, SIZES, TOP, Script


def snapshots(script: Script, rng: random.Random) -> None:
    """Starts from made-up snapshots, with one fault each, and retried with a sound one."""
    for _ in range(rng.randint(4, 8)):
        fault = rng.choice(list(SNAPSHOT_FAULTS) + [None, None])
        SnapshotWriter(script, rng).write(fault)


def snapshot_faults_each(script: Script, rng: random.Random) -> None:
    for fault in SNAPSHOT_FAULTS:
        SnapshotWriter(script, rng).write(fault)


class SnapshotWriter:
    """A made-up snapshot: some segments with an LSN each, pages whose rows lie in them."""

    def __init__(self, script: Script, rng: random.Random) -> None:
        self.script = script
        self.rng = rng
        self.size = rng.choice(SIZES)
        self.count = rng.randint(1, 9)
        bases = rng.sample(range(self.count, 3 * self.count + 1), self.count)
        self.bases = [base * self.size for base in bases]
        self.used = [number for number in range(self.count) if rng.random() < 0.6] or [0]

    def write(self, fault: object) -> None:
        rng, script = self.rng, self.script
        ragged = rng.choice([0, 0, rng.randint(0, self.size - 1)])
        host_size = self.size * 2 if fault == "host size" else self.size
        length = 257 * self.size if fault == "length" else self.count * self.size - ragged
        if fault in ("added segment", "past the added segment"):
            length = 256 * self.size
        script.say(f"memory {host_size} {length} 7")
        if rng.random() < 0.2:
            script.say("next 0")
        for attempt in (fault, None):
            if self.attempt(attempt):
                break
        self.go_on()

    def attempt(self, fault: object) -> bool:
        pages = self.pages()
        stable, active = self.active()
        header: int = self.rng.choice([1, 32, 4096])
        given = {"size": self.size, "header": header, "stable": stable, "active": active, "pages": pages}
        directory = None
        if fault is not None:
            directory = SNAPSHOT_FAULTS[fault](given, self)
        self.tell_pages(given["pages"], directory)
        told = [("-" if v is None else v) for v in (given["stable"], given["active"])]
        return self.script.say(f"start {given['size']} {given['header']} {told[0]} {told[1]}")

    def pages(self) -> list[list[list]]:
        """Each page a list of rows: kind, LSN, offset, blob, size."""
        rng = self.rng
        pages = []
        for _ in range(rng.randint(1, 8)):
            if rng.random() < 0.2:
                pages.append([self.row(2)])
            else:
                pages.append([self.row(min(place, 1)) for place in range(rng.randint(1, 4))])
        return pages

    def row(self, kind: int) -> list:
        rng = self.rng
        number = rng.choice(self.used)
        inside = rng.randint(0, self.size - 1)
        blob = rng.choice(["-", "-", rng.randint(-3, 9)])
        size = rng.randint(0, self.size)
        return [kind, self.bases[number] + inside, number * self.size + inside, blob, size]

    def active(self) -> tuple:
        """The active segment has the base of the stable LSN; it may be one just past the file."""
        rng = self.rng
        if rng.random() < 0.3:
            return rng.choice([None, self.bases[0]]), None
        if rng.random() < 0.3:
            return (3 * self.count + 5) * self.size + 3, self.count * self.size + rng.randint(0, self.size - 1)
        number = rng.choice(self.used)
        return self.bases[number] + rng.randint(0, self.size - 1), number * self.size + rng.randint(0, self.size - 1)

    def tell_pages(self, pages: list[list[list]], directory: object) -> None:
        first = 0
        entries = []
        for rows in pages:
            entries.append((first, len(rows)))
            first += len(rows)
        for entry in entries if directory is None else directory(entries):
            self.script.say(f"page {entry[0]} {entry[1]}")
        for rows in pages:
            for row in rows:
                self.script.say("row " + " ".join(map(str, row)))

    def go_on(self) -> None:
        """A few calls on what was started, or was not."""
        script, size = self.script, self.size
        script.say("books")
        lsn = 4 * (self.count + 1) * size
        script.say(f"next {lsn}")
        script.say(f"stabilize {self.rng.choice([lsn, lsn + size, 2 * lsn])}")
        script.say("pop")
        script.say("pop")
        script.say("books")


# Faults of snapshots. Each changes what start is given: size, header, stable, active and pages (rows as lists of
# kind, LSN, offset, blob, size), and may answer a function that spoils the directory.

Spoil = Optional[Callable[[list], list]]


def set_field(**values: object) -> Callable:
    def fault(given: dict, writer: object) -> Spoil:
        given.update(values)
        return None

    return fault


def spoil_directory(spoil: Callable[[list], list]) -> Callable:
    return lambda given, writer: spoil


def set_rows(rows: Callable[[object], list]) -> Callable:
    """Some page's rows are replaced."""

    def fault(given: dict, writer: object) -> Spoil:
        given["pages"][writer.rng.randrange(len(given["pages"]))] = rows(writer)
        return None

    return fault


def set_in_row(place: int, value: Callable[[object], int]) -> Callable:
    """One field of some row is replaced."""

    def fault(given: dict, writer: object) -> Spoil:
        writer.rng.choice(writer.rng.choice(given["pages"]))[place] = value(writer)
        return None

    return fault


def two_segments_one_lsn(given: dict, writer: object) -> Spoil:
    """The active segment, past the file, is given the base of a segment in use."""
    row = given["pages"][0][0]
    given["stable"], given["active"] = row[1], writer.count * writer.size
    return None


def uninitialised_and_active_past(given: dict, writer: object) -> Spoil:
    given["pages"].append([writer.row(3)])
    given["active"] = (writer.count + 5) * writer.size
    return None


SNAPSHOT_FAULTS: dict[str, Callable[[dict, object], Spoil]] = {
    "size no power": set_field(size=300),
    "size small": set_field(size=128),
    "size none": set_field(size=0),
    "size large": set_field(size=2**25),
    "size huge": set_field(size=2**63),
    "header none": set_field(header=0),
    "header long": set_field(header=4097),
    "host size": set_field(),
    "length": set_field(),
    "added segment": lambda given, writer: given.update(active=256 * writer.size, stable=0, pages=[]),
    "past the added segment": lambda given, writer: given.update(active=257 * writer.size, stable=0, pages=[]),
    "directory gap": spoil_directory(lambda entries: [(first + 1, count) for first, count in entries]),
    "directory short": spoil_directory(lambda entries: entries[:-1]),
    "directory long": spoil_directory(lambda entries: entries + [(sum(entries[-1]), 1)]),
    "directory overlap": spoil_directory(lambda entries: [(0, count) for _, count in entries] + [(0, 1)]),
    "directory huge": spoil_directory(lambda entries: entries + [(sum(entries[-1]), 2**64 - 1)]),
    "directory none": spoil_directory(lambda entries: []),
    "page without rows": set_rows(lambda writer: []),
    "kind 4": set_in_row(0, lambda writer: writer.rng.choice([4, 255])),
    "fragment first": set_rows(lambda writer: [writer.row(1)]),
    "two bases": set_rows(lambda writer: [writer.row(0), writer.row(0)]),
    "free and more": set_rows(lambda writer: [writer.row(2), writer.row(1)]),
    "uninitialised": set_rows(lambda writer: [writer.row(3)]),
    "uninitialised twice": set_rows(lambda writer: [writer.row(3), writer.row(3)]),
    "uninitialised, active past": uninitialised_and_active_past,
    "active past": lambda given, writer: given.update(active=(writer.count + 2) * writer.size),
    "active far past": lambda given, writer: given.update(active=2**64 - 1),
    "row past": set_in_row(2, lambda writer: (writer.count + writer.rng.choice([1, 2, 2**50])) * writer.size),
    "row base": set_in_row(1, lambda writer: 4 * (writer.count + 1) * writer.size),
    "row LSN negative": set_in_row(1, lambda writer: -1),
    "row LSN high": set_in_row(1, lambda writer: TOP),
    "stable negative": set_field(stable=-1),
    "stable high": set_field(stable=TOP),
    "row size": set_in_row(4, lambda writer: LARGEST + 1),
    "two segments, one LSN": two_segments_one_lsn,
}
