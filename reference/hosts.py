"""The host below the accountant: a memory host or a queue host, with any number of fail layers over it."""

from __future__ import annotations

from collections import deque
from dataclasses import dataclass
from typing import Optional, Union

from call_lists import U64_MAX

BLOBS_TAKEN = 1024
QUEUE_ROOM = 64
CODE_QUEUE_FULL = 2
CODE_FAIL_LAYER = 9
HIGHEST_LAYER = 255


@dataclass(frozen=True)
class Request:
    """What is asked of a host: cut or fill at an offset, or remove a blob."""

    verb: str
    place: int

    def __str__(self) -> str:
        return f"{self.verb} {self.place}"


@dataclass(frozen=True)
class Fault:
    """A refusal: the request, its code, and the number of layers above the refuser."""

    request: Request
    code: int
    layer: int

    def __str__(self) -> str:
        return f"{self.request} code {self.code} layer {self.layer}"

    def below_one_more(self) -> Fault:
        return Fault(self.request, self.code, min(self.layer + 1, HIGHEST_LAYER))


Answer = Optional[Fault]  # None: granted


class MemoryHost:
    """A file length and the blobs held; grants everything."""

    def __init__(self, size: int, length: int, blobs: list[int]) -> None:
        self.size = size
        self.length = length
        self.blobs = set(blobs[:BLOBS_TAKEN])

    def ask(self, request: Request) -> Answer:
        if request.verb == "cut":
            self.length = min(self.length, request.place)
        elif request.verb == "fill":
            self.length = max(self.length, min(request.place + self.size, U64_MAX))
        else:
            self.blobs.discard(request.place)
        return None

    def take(self) -> Optional[Request]:
        return None


class QueueHost(MemoryHost):
    """Counts each request as done and writes it into a list of 64 for another program to take."""

    def __init__(self, size: int, length: int, blobs: list[int]) -> None:
        super().__init__(size, length, blobs)
        self.queue: deque[Request] = deque()

    def ask(self, request: Request) -> Answer:
        if len(self.queue) >= QUEUE_ROOM:
            return Fault(request, CODE_QUEUE_FULL, 0)
        self.queue.append(request)
        return super().ask(request)

    def take(self) -> Optional[Request]:
        return self.queue.popleft() if self.queue else None


class FailLayer:
    """Lets a number of requests through, refuses the one after them, then lets all through."""

    def __init__(self, below: "Host", passes: int) -> None:
        self.below = below
        self.passes = passes
        self.spent = False

    def ask(self, request: Request) -> Answer:
        if self.spent:
            return self.pass_on(request)
        if self.passes > 0:
            self.passes -= 1
            return self.pass_on(request)
        self.spent = True
        return Fault(request, CODE_FAIL_LAYER, 0)

    def pass_on(self, request: Request) -> Answer:
        fault = self.below.ask(request)
        return fault and fault.below_one_more()


Host = Union[MemoryHost, FailLayer]


class HostOfRun:
    """The hosts of one run, topmost first; keeps a record of what was asked and answered."""

    def __init__(self, bottom: MemoryHost) -> None:
        self.bottom = bottom
        self.top: Host = bottom
        self.asked: list[tuple[Request, Answer]] = []

    def add_fail_layer(self, passes: int) -> None:
        self.top = FailLayer(self.top, passes)

    def ask(self, verb: str, place: int) -> Answer:
        request = Request(verb, place)
        answer = self.top.ask(request)
        self.asked.append((request, answer))
        return answer

    def counts_requests(self) -> bool:
        """Whether one request more or less could change a later answer, or what another program takes."""
        host = self.top
        while isinstance(host, FailLayer):
            if not host.spent:
                return True
            host = host.below
        return isinstance(host, QueueHost)
