"""What the processes of a service count, in one piece of memory that they share: each adds to a row of its own, and whichever is asked sums
all. A process that is begun anew goes on with the row, so that no count goes back."""

import ctypes
import mmap
import os
from bisect import bisect_left
from typing import Dict, Iterator, List, Optional, Tuple

CALLS = ("evaluation", "evaluations", "ask", "whole", "edit", "held", "other")
STATUSES = (200, 400, 401, 403, 404, 405, 408, 409, 413, 415, 422, 428, 500, 503)
DECISIONS = ("allow", "deny", "open")
# The upper bounds of the times that requests take, in seconds.
BOUNDS = (0.0005, 0.001, 0.0025, 0.005, 0.01, 0.025, 0.05, 0.1, 0.25, 0.5, 1.0, 2.5, 5.0)

# What isn't summed: the process that has the row, whether it is ready, where it stands, and when it last was at the log's end.
_GAUGES = ("process", "ready", "position", "seen")
_REQUESTS = [(call, status) for call in CALLS for status in STATUSES]
_NAMES: List[object] = [*_GAUGES, *_REQUESTS, *DECISIONS, *(("le", it) for it in (*BOUNDS, "+Inf")), "seconds"]
_AT: Dict[object, int] = {name: index for index, name in enumerate(_NAMES)}
_WIDTH = len(_NAMES)
# (the bounds stand in their order)
_FIRST_BOUND, _SECONDS = _AT["le", BOUNDS[0]], _AT["seconds"]


class Metrics:
    """The counts of so many processes."""

    def __init__(self, rows: int):
        self.rows = rows
        # (each number is written whole, by one process alone)
        self._cells = (ctypes.c_double * (rows * _WIDTH)).from_buffer(mmap.mmap(-1, rows * _WIDTH * 8))

    def row(self, index: Optional[int]) -> "Row":
        """A row of these, or one that nobody else sees."""
        return Row((ctypes.c_double * _WIDTH)(), 0) if index is None else Row(self._cells, index * _WIDTH)

    def leave(self, index: int) -> None:
        """The process of this row has ended."""
        for it in range(len(_GAUGES)):
            self._cells[index * _WIDTH + it] = 0

    def text(self, now: float) -> str:
        """All of it, as Prometheus reads it."""
        return "".join(f"{it}\n" for it in self._lines(now))

    def _sum(self, name: object) -> int:
        return int(sum(self._cells[_AT[name] :: _WIDTH]))

    def _lines(self, now: float) -> Iterator[str]:
        yield from _head("cedar_requests_total", "counter", "Requests, by call and status.")
        for call, status in _REQUESTS:
            count = self._sum((call, status))
            if count:
                yield f'cedar_requests_total{{call="{call}",status="{status}"}} {count}'
        yield from _head("cedar_decisions_total", "counter", "Decisions that were given.")
        for it in DECISIONS:
            yield f'cedar_decisions_total{{decision="{it}"}} {self._sum(it)}'
        yield from self._times()
        yield from self._gauges(now)

    def _times(self) -> Iterator[str]:
        yield from _head("cedar_request_seconds", "histogram", "What requests took, their bodies read.")
        count = 0
        for bound in (*BOUNDS, "+Inf"):
            count += self._sum(("le", bound))
            yield f'cedar_request_seconds_bucket{{le="{bound}"}} {count}'
        yield f"cedar_request_seconds_sum {sum(self._cells[_AT['seconds'] :: _WIDTH])}"
        yield f"cedar_request_seconds_count {count}"

    def _gauges(self, now: float) -> Iterator[str]:
        rows = [self._cells[it * _WIDTH : it * _WIDTH + len(_GAUGES)] for it in range(self.rows)]
        live = [it for it in rows if it[0]]
        ready = [it for it in live if it[1]]
        yield from _head("cedar_processes", "gauge", "Processes that serve, and those that are ready.")
        yield f'cedar_processes{{state="all"}} {len(live)}'
        yield f'cedar_processes{{state="ready"}} {len(ready)}'
        if ready:
            yield from _head("cedar_position", "gauge", "The positions of the log that processes stand on.")
            yield f'cedar_position{{of="least"}} {int(min(it[2] for it in ready))}'
            yield f'cedar_position{{of="most"}} {int(max(it[2] for it in ready))}'
            yield from _head("cedar_log_seen_seconds", "gauge", "How long ago the process that lies furthest behind was at the log's end.")
            yield f"cedar_log_seen_seconds {max(now - it[3] for it in ready):.3f}"


def _head(name: str, kind: str, words: str) -> Tuple[str, str]:
    return f"# HELP {name} {words}", f"# TYPE {name} {kind}"


class Row:
    """What one process counts."""

    def __init__(self, cells: "ctypes.Array[ctypes.c_double]", at: int):
        self._cells, self._at = cells, at
        cells[at + _AT["process"]] = os.getpid()

    def stands(self, ready: bool, position: int, seen: float) -> None:
        """Where the process is."""
        for name, value in (("ready", float(ready)), ("position", float(position)), ("seen", seen)):
            self._cells[self._at + _AT[name]] = value

    def decided(self, decision: str) -> None:
        self._cells[self._at + _AT[decision]] += 1

    def requested(self, call: str, status: int, seconds: float) -> None:
        """Counts a request that was answered."""
        cells, at = self._cells, self._at
        cells[at + _AT[call, status]] += 1
        cells[at + _FIRST_BOUND + bisect_left(BOUNDS, seconds)] += 1
        cells[at + _SECONDS] += seconds
