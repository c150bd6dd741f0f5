"""Several clusters on one clock, as a gateway between them sees them."""
from __future__ import annotations

from contextlib import ExitStack
from typing import Callable, List, Optional, Tuple, Type

from .cluster import Cluster
from .errors import LinsimError, Unmet
from .log import Run, count_of

__tracebackhide__ = True                # pytest shows the lines of tests alone

NEVER = 1 << 62                         # microseconds


class Bench:
    """Clusters on one clock: `linsim.Bench(body, door).run(ms=1000)`.

    Events are made in the order of their times. At the start of a slot its header and responses
    are sent; at its end it is heard, and handlers and hooks are called. So what a hook writes to
    another cluster is in the first of its responses that begins then or later. At one time, ends
    come before starts, and each in the order of the clusters.

    A slot may be open when `run` returns; the next one goes on with it. `run`, `request` and `idle`
    of a cluster run the slots of all. A cluster that is asleep waits, and its slots go on at the
    time of its wake-up. `time` is the clock in microseconds.
    """

    def __init__(self, *clusters: Cluster) -> None:
        if not all(isinstance(it, Cluster) for it in clusters):
            raise TypeError("a bench takes clusters")
        if not clusters or len(set(map(id, clusters))) < len(clusters) or any(
                it.bench or it.history.finished or it.ask("next") == "open" for it in clusters):
            raise ValueError("a bench takes clusters that have run nothing yet")
        self.time = 0
        self.clusters = list(clusters)
        self._lines = [Line(self, it, place) for place, it in enumerate(clusters)]
        for it in clusters:
            it.bench = self

    def __enter__(self) -> Bench:
        return self

    def __exit__(self, kind: Optional[Type[BaseException]], *error: object) -> None:
        with ExitStack() as all_of_them:
            for it in reversed(self.clusters):
                all_of_them.callback(it.close if kind is None else it.live.kill)

    def run(self, ms: int, until: Optional[Callable[[], object]] = None) -> List[Run]:
        """Makes what happens in the next `ms` milliseconds: slots that start before the end. With
        `until`, only up to where it holds; it is asked before the first slot and after each. What
        came of the slots that ended, for each cluster in their order."""
        ms = count_of(ms, "ms")
        for it in self.clusters:
            it.refuse_in_hook()
        with ExitStack() as held:
            runs = [held.enter_context(it.slots_turn) for it in self.clusters]
            end = self.time + 1000 * ms
            is_over = self._holds(until)
            while not is_over:
                at, is_start, place = min(it.next_event() for it in self._lines)
                if at > end or at == end and is_start:
                    self.time = end
                    break
                self.time = at
                self._lines[place].go_on()
                is_over = not is_start and self._holds(until)
        return runs

    def _holds(self, until: Optional[Callable[[], object]]) -> bool:
        return bool(until and self.clusters[0]._call(until))

    def run_of(self, cluster: Cluster, slots: Optional[int], ms: Optional[int],
               until: Optional[Callable[[], object]]) -> Run:
        """What `run` of a cluster does."""
        if ms is None:
            longest = max(delay for _, delay in cluster.entries.values())
            ms = (longest // 1000 + 1) * ((slots or 0) + 1)
        start: List[int] = []               # slots that were finished before the first one

        def is_over() -> bool:
            finished = cluster.history.finished
            start.extend([] if start else [finished])
            is_made = slots is not None and finished >= start[0] + slots
            return is_made or bool(until and until())
        return self.run(ms, is_over)[self.clusters.index(cluster)]

    def idle_of(self, cluster: Cluster, most: int) -> Run:
        """What `idle` of a cluster does."""
        run = self.run_of(cluster, most, None, lambda: not cluster._left())
        left = cluster._left()
        if left:
            raise Unmet("idle", left, cluster.place())
        return run

    def is_open(self, cluster: Cluster) -> bool:
        """Whether a slot of the cluster is open."""
        return any(it.end is not None for it in self._lines if it.cluster is cluster)


class Line:
    """A cluster of a bench, with its next event."""

    def __init__(self, bench: Bench, cluster: Cluster, place: int) -> None:
        self.bench, self.cluster, self.place = bench, cluster, place
        self.behind = 0                     # the bench's time less the cluster's
        self.end: Optional[int] = None      # of the slot that is open, by the bench's clock
        self.hurt: Optional[bytes] = None   # the damage to this slot
        self.slept = False

    def next_event(self) -> Tuple[int, bool, int]:
        """Returns the time of the next event, whether it is the start of a slot, and the place of
        the cluster."""
        if self.end is not None:
            return self.end, False, self.place
        if self.cluster.asleep:
            self.slept = True
            return NEVER, True, self.place
        if self.slept:
            self.slept, self.behind = False, self.bench.time - self.cluster.time
        return self.cluster.time + self.behind, True, self.place

    def go_on(self) -> None:
        """Makes the next event."""
        cluster = self.cluster
        if self.end is None:
            self.hurt = cluster._prepare()
            slot = cluster._open()
            _, delay = cluster.entries[slot.table, slot.entry]
            self.end = slot.time + self.behind + delay
        else:
            heard = len(cluster.received)
            self.end = None
            cluster._finish(self.hurt)
            cluster._after_slot(heard)
