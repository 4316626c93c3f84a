"""What call lists reach: every refusal, change of state and special event is counted, and none may stay at zero."""

from __future__ import annotations

from collections import Counter

from playing import Made

REFUSALS = """
1 segment size | 1 header length | 1 host made for another size | 2 file length | 2 segment added | 3
4 kind | 4 page without rows | 4 rows of no state | 4 uninitialised | 5 active offset | 5 row | 6 | 7 | 8
9 tip | 9 free offset | 10 in use | 10 held back | 11 | 12 in start | 12 in next | 12 in stabilize | 12 in link
12 in replace | 13 link into Free | 13 link into not reached | 13 replace into not reached | 13 replace into Free
13 old in Free | 13 old in not reached | 14 link | 14 replace | 15 link into Inactive | 15 link into Draining
15 replace into Inactive | 15 replace into Draining | 16 link | 16 replace | 17 link size | 17 link total
17 replace size | 17 replace total | 17 old size | 17 row size | 17 row total | 18 link | 18 replace | 18 start
19 | 20 | 21 | 22 left | 22 never there | 23 Active | 23 Inactive | 24
25 fill at start | 25 cut at start | 25 next at the tip | 25 remove
28 before start in next | 28 before start in stabilize | 28 before start in link | 28 before start in replace
28 before start in pop | 28 second start in start
"""

CHANGES = """
handed out at the tip, new | handed out at the tip, cut off before | handed out from the free list
Active to Inactive | Inactive to Draining, few live bytes | Inactive to Draining, share of free segments
Draining to Free | freed at once | held back | freed when its holder was deactivated
taken away from Active, same base | taken away from Active, other base | taken away from Inactive
taken away from Draining
"""

SPECIAL = """
segment added for the active offset | free page recovered | fill left out at start
cut granted | cut refused and remembered | several cuts in one freeing
remembered faults dropped, one | remembered faults dropped, several | free offset handed out past remembered faults
stabilize changes nothing, negative | stabilize changes nothing, not above | several segments deactivated in one call
stabilize ended, at the first segment | stabilize ended, after earlier work
removal refused, the first | removal refused, after one granted
blob removed, held by the host | blob removed, not held by the host
blobs given up | blob moved, not given up | old infos doubled | old blob named twice
crate's blob rows differ, one old info | crate's blob rows differ, the new blob among old ones
crate's draining by share differs | drained by share with no page lying | share is high only with held-back segments
one segment held several back | listed with no page queued | replaced in segments, 0 | replaced in segments, 1
replaced in segments, more | handed out with an LSN already stabilised
pop with nothing listed | pop unlists | popped page | popped page that had left | popped from a held-back segment
take cut | take fill | take remove | take none | start retried after a refusal | start retried after the host's refusal
fault code 2, layer 0 | fault code 2, layer more | fault code 9, layer 0 | fault code 9, layer more
fault code 9, layer 255
"""


def names(table: str) -> list[str]:
    return [name.strip() for line in table.strip().splitlines() for name in line.split("|")]


MUST_REACH = [f"refusal {name}" for name in names(REFUSALS)] + names(CHANGES) + names(SPECIAL)


class Reached:
    """A watcher for the player: counts, and judges nothing."""

    def __init__(self) -> None:
        self.counts: Counter = Counter()
        self.start_refused = ""

    def new_run(self, accountant: object) -> None:
        self.start_refused = ""

    def before(self, made: Made) -> None:
        pass

    def after(self, made: Made) -> None:
        self.counts[f"call {made.statement.word}"] += 1
        if made.refused:
            self.count_refusal(made)
        for event in made.events:
            self.counts[told_event(event)] += 1
        for _, fault in made.asked:
            if fault:
                self.count_fault(fault.code, fault.layer)
        if made.statement.word == "take":
            self.counts["take " + (made.answer.verb if made.answer else "none")] += 1
        if made.statement.word == "start":
            self.count_retry(made)

    def count_refusal(self, made: Made) -> None:
        refused = made.refused
        name = f"refusal {refused.number} {refused.why}".strip()
        if refused.number in (12, 28):
            name += f" in {made.statement.word}"
        self.counts[name] += 1

    def count_fault(self, code: int, layer: int) -> None:
        self.counts[f"fault code {code}, layer {'more' if layer else 0}"] += 1
        if layer == 255:
            self.counts[f"fault code {code}, layer 255"] += 1

    def count_retry(self, made: Made) -> None:
        if made.refused is None and self.start_refused:
            self.counts[f"start retried after {self.start_refused}"] += 1
        elif made.refused is not None:
            self.start_refused = "the host's refusal" if made.refused.number == 25 else "a refusal"

    def missing(self) -> list[str]:
        return [name for name in MUST_REACH if not self.counts[name]]


def told_event(event: tuple) -> str:
    """An event's name, with its value where the value tells cases apart."""
    name, values = event[0], event[1:]
    if name == "replaced in segments":
        return f"{name}, {values[0] if values[0] < 2 else 'more'}"
    if values and isinstance(values[0], str):
        return f"{name}, {values[0]}"
    return name


class Watchers:
    """Several watchers in the place of one."""

    def __init__(self, *watchers: object) -> None:
        self.watchers = watchers

    def new_run(self, accountant: object) -> None:
        for watcher in self.watchers:
            watcher.new_run(accountant)

    def before(self, made: Made) -> None:
        for watcher in self.watchers:
            watcher.before(made)

    def after(self, made: Made) -> None:
        for watcher in self.watchers:
            watcher.after(made)
