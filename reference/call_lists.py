"""Call lists: the statements of a run, and how one line is read."""

from __future__ import annotations

from dataclasses import dataclass
from typing import Callable, Optional

U64_MAX = 2**64 - 1
I64_MIN, I64_MAX = -(2**63), 2**63 - 1


class BadLine(Exception):
    """A line that cannot be read; the text says why."""


@dataclass(frozen=True)
class Info:
    """Where a part of a page lies in the log: time stamp, LSN, pointer (offset and blob or none) and log size."""

    ts: int
    lsn: int
    offset: int
    blob: Optional[int]
    size: int


@dataclass(frozen=True)
class Row:
    """A snapshot row: kind (0 base, 1 fragment, 2 free, 3 uninitialised), LSN, pointer and size."""

    kind: int
    lsn: int
    offset: int
    blob: Optional[int]
    size: int


@dataclass(frozen=True)
class Statement:
    """One line: its first word, and the fields behind it as numbers or None."""

    word: str
    fields: tuple


def unsigned(word: str) -> int:
    if not (word.isascii() and word.isdigit()) or int(word) > U64_MAX:
        raise BadLine(f"{word} is no unsigned number")
    return int(word)


def signed(word: str) -> int:
    body = word[1:] if word.startswith("-") else word
    if not (body.isascii() and body.isdigit()) or not I64_MIN <= int(word) <= I64_MAX:
        raise BadLine(f"{word} is no signed number")
    return int(word)


def kind(word: str) -> int:
    number = unsigned(word)
    if number > 255:
        raise BadLine(f"{word} is no kind")
    return number


def or_none(read: Callable[[str], int]) -> Callable[[str], Optional[int]]:
    return lambda word: None if word == "-" else read(word)


INFO = [unsigned, signed, unsigned, or_none(signed), unsigned]

FORMS: dict[str, list] = {
    "memory": [unsigned, unsigned],
    "queue": [unsigned, unsigned],
    "fail": [unsigned],
    "page": [unsigned, unsigned],
    "row": [kind, signed, unsigned, or_none(signed), unsigned],
    "start": [unsigned, unsigned, or_none(signed), or_none(unsigned)],
    "link": [unsigned] + INFO,
    "old": INFO,
    "replace": [unsigned, signed] + INFO,
    "next": [signed],
    "stabilize": [signed],
    "pop": [],
    "take": [],
    "books": [],
}

HOSTS = ("memory", "queue")
CALLS = ("start", "link", "replace", "next", "stabilize", "pop", "take")


def read_line(line: str) -> Optional[Statement]:
    """The statement of one line, or None for an empty line or a remark."""
    if line.startswith("#"):
        return None
    words = [word for word in line.split(" ") if word]
    if not words:
        return None
    word, given = words[0], words[1:]
    if word not in FORMS:
        raise BadLine(f"{word} is no statement")
    form = list(FORMS[word])
    if word in HOSTS:
        form += [signed] * (len(given) - len(form))
    if len(given) != len(form):
        raise BadLine("a field is missing" if len(given) < len(form) else "a field too many")
    return Statement(word, tuple(read(field) for read, field in zip(form, given)))


def lines_of(text: str) -> list[str]:
    """The lines of a list, as the line count of an unreadable statement counts them."""
    lines = text.split("\n")
    return lines[:-1] if lines[-1] == "" else lines


# The port takes no more fail layers than these over one host.
MOST_LAYERS = 4


def most_layers(text: str) -> int:
    """The largest number of fail layers over one host of a list."""
    most = layers = 0
    for line in lines_of(text):
        word = line.split(" ")[0]
        if word in HOSTS:
            layers = 0
        elif word == "fail":
            layers += 1
            most = max(most, layers)
    return most
