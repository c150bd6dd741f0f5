"""The cluster: its parts by their names, lines, slots, and hooks around slots."""
from __future__ import annotations

import difflib
import os
import re
import threading
from functools import partial
from threading import get_ident
from typing import (TYPE_CHECKING, Callable, Dict, List, NamedTuple, Optional, Sequence, Tuple,
                    Type, TypeVar, Union)

from .errors import LinsimError, Refused, StartError, UnknownName, Unmet
from .log import (REQUEST_NAME, RESPONSE_NAME, Data, History, Received, Run, Slot, as_bytes,
                  count_of, hex_of)
from .node import Handler, Node, answers_of
from .process import (MARK, SECONDS, START, Answer, Live, Marks, Program, check, located,
                      options_of)
from .values import Meaning, Texts

__tracebackhide__ = True                # pytest shows the lines of tests alone

if TYPE_CHECKING:
    from .bench import Bench

PORT = r"(?:(?:bus|[hn]\d+|[hn]:\S+)\s+)?"
MAKES_SLOTS = re.compile(rf"\s*{PORT}(?:slots?|open|answer|leave|hurt|finish)(?:\s|$)")
GOES_BACK = re.compile(r"\s*back(?:\s|$)")
Before = TypeVar("Before", bound=Callable[[], object])
Result = TypeVar("Result")
After = TypeVar("After", bound=Callable[[Slot], object])


class AtMark(NamedTuple):
    """What a cluster keeps of a run at a mark."""
    history: History
    slot_damage: Dict[int, bytes]
    frame_damage: List[Tuple[str, int, bytes]]
    noted: List[Tuple[int, Node, str, bytes]]


class Cluster:
    """A LIN cluster of an LDF file, in a process of its own, which ends with a `with` block.

    `bus["Heater"]` is a node. It begins with the schedule table `table`, or with the first one;
    `capacity` is how many messages of a host may wait (16); with `configuration`, the node
    configuration commands of its tables are sent; the program is `program`, the environment's
    LINSIM, the one that the wheel brings, or `linsim` on the path; an answer that takes longer than
    `seconds` by the clock raises `TimeLimit`. Raises `LdfError` with the place of each fault of the
    LDF, and `StartError`; warnings are ignored. `nodes`, `signals`, `frames` and `tables` have the
    names in the LDF's order.
    """

    def __init__(self, ldf: Union[str, os.PathLike[str]], table: Optional[str] = None, *,
                 capacity: Optional[int] = None, configuration: bool = False,
                 program: Optional[Program] = None, seconds: float = SECONDS) -> None:
        # (later processes start in whatever folder and environment the test has by then)
        self.ldf, self.program = os.fsdecode(ldf), located(program)
        self.path = os.path.abspath(self.ldf)
        self.options = options_of(table, capacity, configuration)
        self.nodes: Dict[str, Node] = {}
        self.signals: List[str] = []
        self.frames: List[str] = []
        self.tables: List[str] = []
        self.entries: Dict[Tuple[str, int], Tuple[str, int]] = {}   # name, delay in microseconds
        self.meanings: Dict[str, Meaning] = {}                  # by the signal
        self._publisher = ""                                    # of the frame that is declared
        self.texts = Texts(partial(Live, self.path, program=self.program, seconds=seconds))
        for line in check(self.ldf, self.program, seconds, configuration):
            try:
                self._declare(line.split(" "))
            except (IndexError, ValueError):
                raise StartError(0, f"unexpected output of linsim check: {line}") from None
        services = {name for name, _ in self.entries.values()} - {"-"}      # and names of frames
        self._names = {"node": set(self.nodes), "signal": set(self.signals),
                       "frame": {*self.frames, *services, REQUEST_NAME, RESPONSE_NAME},
                       "table": set(self.tables)}
        if table is not None:
            self.known("table", table)
        self._fresh = partial(type(self), self.path, table, capacity=capacity,
                              configuration=configuration, program=self.program, seconds=seconds)
        self.live = Live(self.ldf, table, capacity=capacity, configuration=configuration,
                         program=self.program, seconds=seconds)
        self.history = History(self.nodes)
        self._before: List[Tuple[Optional[str], Callable[[], object]]] = []
        self._after: List[Tuple[Optional[str], Callable[[Slot], object]]] = []
        self._slot_damage: Dict[int, bytes] = {}                # by the number of the slot
        self._frame_damage: List[Tuple[str, int, bytes]] = []   # of the frame's slots, from now
        self._noted: List[Tuple[int, Node, str, bytes]] = []    # answers of handlers to come
        self.bench: Optional[Bench] = None
        self._later: List[str] = []             # lines for the end of the open slot
        self.turn = threading.RLock()           # a line and its answer belong to one thread
        self.slots_turn = SlotsTurn(self)       # and so do the slots of one call
        self._hook_thread: Optional[int] = None         # the one that runs a hook
        self._marks = Marks(self._kept())

    def _declare(self, fields: Sequence[str]) -> None:
        """Keeps what a line of `check` declares."""
        kind, name = fields[0], "".join(fields[2:3])
        if kind == "node":
            nad = None if fields[3] == "-" else int(fields[3])
            self.nodes[name] = Node(self, name, int(fields[1]), nad)
        elif kind == "signal":
            self.signals.append(name)
        elif kind == "table":
            self.tables.append(name)
        elif kind in ("frame", "sporadic", "event"):
            self.frames.append(name)
            self._publisher = fields[6] if kind == "frame" else ""
        elif kind == "place":
            self.texts.publishers[fields[4]] = self._publisher
        elif kind == "slot":
            entry = self.tables[int(fields[1])], int(fields[2])
            self.entries[entry] = fields[3], int(fields[6])
        elif kind in ("value", "range"):
            meaning, first = self._meaning(fields[1]), int(fields[2])
            if kind == "value":
                meaning.values[first] = " ".join(fields[3:])
            else:
                meaning.ranges.append((first, int(fields[3])))
            meaning.has_hash |= "#" in "".join(fields[3:])

    def _meaning(self, number: str) -> Meaning:
        """The encoding of the signal with this number."""
        return self.meanings.setdefault(self.signals[int(number)], Meaning())

    def __enter__(self) -> Cluster:
        return self

    def __exit__(self, kind: Optional[Type[BaseException]], *_: object) -> None:
        if kind is None:
            self.close()
        else:
            self.live.kill()

    def close(self) -> int:
        """Ends the process. Its exit status: 0; 6 where an expectation wasn't met, 1 where a line
        was bad or met the limit of slots."""
        return self.live.close()

    __iter__ = __contains__ = None          # by __getitem__ they would look for a node 0

    def __getitem__(self, node: str) -> Node:
        return self.nodes[self.known("node", node)]

    def known(self, kind: str, name: Union[str, int]) -> str:
        """The name, where the cluster has a node, signal, frame or table (`kind`) of that name."""
        names = self._names[kind]
        if name in names:
            return str(name)
        nearest = " or ".join(difflib.get_close_matches(str(name), names))
        hint = f"; did you mean {nearest}?" if nearest else ""
        raise UnknownName(f"{self.ldf} has no {kind} {name}{hint}")

    @property
    def time(self) -> int:
        """The schedule's time in microseconds, which is the end of the last slot."""
        return self.history.time

    @property
    def table(self) -> str:
        """The schedule table of the next slot, or of the slot that is open."""
        table, *entry = self.ask("next").split(" ")
        return table if entry else self.history.opened.table

    @property
    def asleep(self) -> bool:
        """Whether the cluster is asleep."""
        return self.history.asleep

    @property
    def received(self) -> List[Received]:
        """All messages that arrived at nodes, in order."""
        return self.history.received

    def place(self) -> str:
        """Where the run is, as errors tell it: the LDF file, the line of `script` that was made
        last, the last slot that was finished, and the time at its end."""
        slot = f"slot {self.history.finished - 1}" if self.history.finished else "no slot"
        return f"{self.ldf}, script line {len(self.live.lines)}, {slot}, {self.time} us"

    @property
    def script(self) -> str:
        """The run so far as a bench script: all its lines but questions, bad lines and marks, and
        without those that `back` has undone. What rules and handlers sent, and what hooks wrote, is
        in it, so that it makes the same run."""
        return "".join(line + "\n" for line in self.live.lines)

    def copy(self) -> Cluster:
        """Another process in the same state: the lines of `script` are made again. Hooks, handlers
        and the answers that they still owe are not copied, nor are marks, and damage to slots to come."""
        other = self._fresh()
        other.ldf = self.ldf
        other._made(self.live.lines)
        return other

    # -- lines

    def line(self, text: str) -> Answer:
        """Makes a line of a bench script, as it stands: slots that it makes have no hooks, handlers
        and damage. Raises `BadLine`, `Refused`, `SlotLimit` and `Unmet`."""
        if not MAKES_SLOTS.match(text) and not GOES_BACK.match(text):
            return self.step(text)
        self._refuse_in_bench()
        with self.slots_turn:
            return self.step(text)

    def step(self, text: str) -> Answer:
        """Makes a line that makes no slots."""
        return self._made([text])[0].check(self.place)

    def _made(self, lines: List[str]) -> List[Answer]:
        """Makes the lines, and follows what came of them."""
        with self.turn:
            try:
                answers = self.live.ask_all(lines)
            except LinsimError as error:
                raise error.at(self.place()) from None
            for line, answer in zip(lines, answers):
                if answer.log:
                    self.history.take(answer.log)
                elif answer.kind == "ok":
                    self._follow_mark(line)
            return answers

    # -- marks

    def mark(self, name: str) -> None:
        """Sets a mark, to which `back` goes; one of this name moves here. Raises `BadLine` if the
        name isn't a letter or `_`, and then letters, digits and `_`, or if it is `start`."""
        self.line(f"mark {name}")

    def back(self, name: str = START) -> None:
        """Restores the state at a mark, or at the beginning, and removes the marks that were set
        after it. Hooks and handlers stay; damage to slots to come, and answers that handlers owe,
        are those at the mark. It takes as long as the steps before the mark took. Raises `BadLine`
        if no mark has the name, and `LinsimError` in a hook and in a `Bench`."""
        self.line(f"back {name}")

    def _kept(self) -> AtMark:
        """What a mark keeps."""
        return AtMark(self.history.copy(), dict(self._slot_damage), list(self._frame_damage),
                      list(self._noted))

    def _follow_mark(self, line: str) -> None:
        """Keeps the state at a mark that was set, or goes back to it."""
        mark = MARK.fullmatch(line)
        if mark is None:
            return
        if mark[1] == "mark":
            self._marks.put(mark[2], self._kept())
            return
        kept = self._marks.back(mark[2])
        self.history = kept.history.copy()
        self._slot_damage = dict(kept.slot_damage)
        self._frame_damage, self._noted = list(kept.frame_damage), list(kept.noted)

    # -- steps, rules and expectations

    def expect(self, form: str) -> None:
        """Raises `Unmet`, which is an AssertionError, where the expectation of a bench script isn't
        met: `bus.expect("signal BCM SeatTemp 690..710")`."""
        self.line(f"expect {form}")

    def ask(self, question: str) -> str:
        """The answer to a question of `linsim live`: `bus.ask("signal BCM SeatTemp")`."""
        return self.step(f"? {question}").text

    def switch(self, table: str) -> None:
        """The schedule goes on with the first entry of this table. Refused in an open slot; but in
        a `Bench` it goes on so after this slot."""
        line = f"switch {self.known('table', table)}"
        if self.bench and self.bench.is_open(self):
            self._later.append(line)
        else:
            self.line(line)

    def sleep(self) -> None:
        """The commander is asked to put the cluster to sleep, by the next free MasterReq slot."""
        self.line("sleep")

    def wake(self) -> None:
        """The cluster wakes up, at the first entry of its table. Refused where it isn't asleep."""
        self.line("wake")

    def timeouts(self, ms: Optional[int]) -> None:
        """Messages whose next frame is so late are given up (N_As, N_Cr); None: none are."""
        self.line("timeouts off" if ms is None else f"timeouts {count_of(ms, 'ms')} ms")

    def every(self, ms: int, step: str) -> None:
        """Each time that so many milliseconds are over the step is made, a `send` or a `write`:
        `bus.every(2000, "send BCM 126 3E80")`."""
        self.line(f"every {count_of(ms, 'ms')} ms {step}")

    # -- hooks and damage

    def before(self, frame: Optional[str] = None) -> Callable[[Before], Before]:
        """Calls the function before each slot of this frame opens (of an entry of this name, or of
        a sporadic frame that will send it); without a frame, before each slot.

        Hooks and handlers may write, send, ask and expect. If they make slots, that is a
        `LinsimError`.
        """
        if frame is not None:
            self.known("frame", frame)

        def add(hook: Before) -> Before:
            self._before.append((frame, hook))
            return hook
        return add

    def after(self, frame: Optional[str] = None) -> Callable[[After], After]:
        """Calls the function with each `Slot` of this frame (of an entry of this name, or that
        carried it) once it is finished; without a frame, with each slot."""
        if frame is not None:
            self.known("frame", frame)

        def add(hook: After) -> After:
            self._after.append((frame, hook))
            return hook
        return add

    def damage(self, slot: Optional[int] = None, frame: Optional[str] = None, nth: int = 0,
               data: Data = b"") -> Cluster:
        """Damages the response of a slot to come: of the one with this number, counted from 0 at
        the next one, or of the frame's nth slot from now on, from 0. `data` is what the nodes see
        in its place. A slot without a response, or with several, isn't damaged: its `hurt` stays
        None, and the refusal stands in the `Run`. The cluster itself."""
        if (slot is None) == (frame is None):
            raise ValueError("damage takes a slot or a frame")
        nth = count_of(nth, "slots")
        if slot is not None:
            number = self.history.finished + count_of(slot, "slots")
            self._slot_damage[number] = as_bytes(data)
        elif frame is not None:
            self._frame_damage.append((self.known("frame", frame), nth, as_bytes(data)))
        return self

    # -- slots

    def slot(self, hurt: Optional[Data] = None, leave: Sequence[str] = ()) -> Slot:
        """Makes one slot, with its hooks. `hurt` damages its response, in place of which the nodes
        see these bytes; the nodes of `leave`, which must be due, leave their responses out. If no
        response is left to damage, the refusal stands in the `Run`. Refused (Asleep, SlotOpen)
        where it can't be opened."""
        if isinstance(leave, str):
            raise TypeError(f"leave takes a list of nodes, not {leave!r}")
        left = [self.known("node", node) for node in leave]
        damage = None if hurt is None else as_bytes(hurt)
        self._refuse_in_bench()
        with self.slots_turn as run:
            self._make(damage, left)
        return run.slots[-1]

    def run(self, slots: Optional[int] = None, ms: Optional[int] = None,
            until: Optional[Callable[[], object]] = None) -> Run:
        """Makes so many slots, or slots while less than `ms` milliseconds are over; with `until`,
        only up to where it holds, which is asked before each slot as a hook is called. What came of
        them. Refused (Asleep, SlotOpen) where a slot can't be opened."""
        if (slots is None) == (ms is None):
            raise ValueError("run takes slots or ms")
        count = count_of(slots, "slots") if slots is not None else 0
        time = count_of(ms, "ms") if ms is not None else 0
        if self.bench:
            return self.bench.run_of(self, slots, ms, until)
        with self.slots_turn as run:
            start = self.time

            def is_over() -> bool:
                if ms is None:
                    return len(run.slots) >= count
                return self.time >= start + 1000 * time

            if self._is_looked_at or until or time and self._slot_damage:
                while not is_over() and not (until and self._call(until)):
                    self._make()
            elif time:
                self._slots([f"slots {time} ms"])
            elif count:
                self._slots(self._stretches(count))
        return run

    def idle(self, most: int = 10_000) -> Run:
        """Makes slots until no message waits and no answer of a rule or a handler is to come, at
        most so many. `Unmet` where some still do. What came of the slots."""
        most = count_of(most, "slots")
        if self.bench:
            return self.bench.idle_of(self, most)
        with self.slots_turn as run:
            if self._is_looked_at or self._slot_damage or not most:
                self._make_until_idle(run, most)
            else:
                self.step(f"slots idle {most}")         # (line would begin another Run)
        return run

    def _make_until_idle(self, run: Run, most: int) -> None:
        left = self._left()
        while left:
            if len(run.slots) >= most:
                raise Unmet("idle", left, self.place())
            self._make()
            left = self._left()

    def _left(self) -> str:
        """What waits or is to come; nothing where the cluster is idle."""
        told = self.ask("idle")
        left = [] if told == "idle" else [told]
        if self._noted:
            left.append(f"{len(self._noted)} of handlers noted")
        return ", ".join(left)

    def _refuse_in_bench(self) -> None:
        """Raises `LinsimError` if other clusters are on the same clock."""
        if self.bench:
            raise LinsimError("one cluster of a bench makes no slots and doesn't go back "
                              f"({self.place()})")

    def refuse_in_hook(self) -> None:
        """Raises `LinsimError` in a hook, a handler or an `until`."""
        if self._hook_thread is not None and self._hook_thread == get_ident():
            raise LinsimError(f"a hook makes no slots and doesn't go back ({self.place()})")

    @property
    def _is_looked_at(self) -> bool:
        """Whether slots are made one by one, since something may be done between them."""
        return bool(self._before or self._after or self._frame_damage or self._noted
                    or any(node.handlers for node in self.nodes.values()))

    def _stretches(self, slots: int) -> List[str]:
        """The lines that make so many slots, with the damage that is asked for."""
        lines, at, end = [], self.history.finished, self.history.finished + slots
        for number in sorted(it for it in self._slot_damage if at <= it < end):
            if number > at:
                lines.append(f"slots {number - at}")
            lines.append(f"slot hurt {hex_of(self._slot_damage[number])}")
            at = number + 1
        return lines + [f"slots {end - at}"] if end > at else lines

    def _slots(self, lines: List[str]) -> None:
        """Makes lines of slots. Raises where one ended at a slot that couldn't be opened; what else
        was refused stands in the Run."""
        answers = self._made(lines)
        if self._slot_damage:
            for number in [it for it in self._slot_damage if it < self.history.finished]:
                del self._slot_damage[number]
        for answer in answers:
            if answer.kind != "refused":
                answer.check(self.place)
            elif answer.log[-2] == "bus open":
                refusal, name = answer.log[-1].split(" ")[2:]
                raise Refused(answer.line, int(refusal), name, self.place())

    def _make(self, hurt: Optional[bytes] = None, leave: Sequence[str] = ()) -> None:
        """One slot with its hooks."""
        heard = len(self.received)
        damage = self._prepare()
        hurt = damage if hurt is None else hurt
        if hurt is None:
            self._slots([" ".join(["slot leave", *leave]) if leave else "slot"])
        elif leave:
            self._open(leave)
            self._finish(hurt)
        else:
            self._slots([f"slot hurt {hex_of(hurt)}"])
        self._after_slot(heard, leave)

    def _prepare(self) -> Optional[bytes]:
        """Calls the hooks before a slot. Returns the damage that is asked for of it."""
        if self._before:
            names = self._next_names() if any(frame for frame, _ in self._before) else []
            for hook in [it for frame, it in self._before if frame is None or frame in names]:
                self._call(hook)
        return self._damage()

    def _open(self, leave: Sequence[str] = ()) -> Slot:
        """The first half of a slot: its header, and the responses of the nodes that are due."""
        self._slots(["open"])
        slot = self.history.opened
        self._slots([f"{'leave' if it in leave else 'answer'} {it}" for it in slot.due])
        return slot

    def _finish(self, hurt: Optional[bytes]) -> None:
        """The second half of a slot: its end."""
        self._slots([*([] if hurt is None else [f"hurt {hex_of(hurt)}"]), "finish"])
        lines, self._later = self._later, []
        for line in lines:
            self.line(line)

    def _after_slot(self, heard: int, leave: Sequence[str] = ()) -> None:
        """Calls the handlers and the hooks of the slot that was finished: all of them, and then
        raises the first exception of one."""
        slot, received = self.history.run.slots[-1], self.history.received
        calls: List[Callable[[], object]] = []
        if len(received) > heard:
            calls += [partial(self._hear, handler, it)
                      for it in received[heard:] for handler in self.nodes[it.target].handlers]
        if self._after:
            calls += [partial(self._call, hook, slot) for frame, hook in self._after
                      if frame is None or slot.is_of(frame)]
        if calls or self._noted:
            calls.append(self._send_noted)
        first: Optional[BaseException] = None
        for call in calls:
            try:
                call()
            except BaseException as error:      # also what a test's framework raises
                first = error if first is None else first
        if first is not None:
            raise first
        for node in leave:
            if node not in slot.due:
                raise LinsimError(f"{node} isn't due ({self.place()})")

    def _next_names(self) -> List[str]:
        """The names of the slot that comes next: of its entry, and the member of a sporadic
        frame that it will send."""
        return self.ask("next").split(" ")[2:]

    def _damage(self) -> Optional[bytes]:
        """The damage that is asked for of the next slot."""
        found = self._slot_damage.get(self.history.finished)
        if self._frame_damage:
            names, left = self._next_names(), []
            for frame, nth, data in self._frame_damage:
                if frame not in names:
                    left.append((frame, nth, data))
                elif nth:
                    left.append((frame, nth - 1, data))
                elif found is None:
                    found = data
            self._frame_damage = left
        return found

    def _call(self, hook: Callable[..., Result], *arguments: object) -> Result:
        self._hook_thread = get_ident()
        try:
            return hook(*arguments)
        finally:
            self._hook_thread = None

    def _hear(self, handler: Handler, received: Received) -> None:
        """Calls a handler with a message that arrived, and notes its answers."""
        answers = self._call(answers_of, handler, received.data)
        if not received.functional:
            node, at = self.nodes[received.target], self.time
            for data, wait in answers:
                at += 1000 * wait
                self._noted.append((at, node, received.source, data))

    def _send_noted(self) -> None:
        """Sends the answers whose time has come."""
        self._noted.sort(key=lambda noted: noted[0])
        while self._noted and self._noted[0][0] <= self.time:
            _, node, target, data = self._noted.pop(0)
            node.send(target, data)


class SlotsTurn:
    """In a block of it no other thread makes slots, and what comes of them is in a `Run` of their
    own. Raises `LinsimError` in a hook, and if another thread makes slots for longer than an answer
    may take."""

    def __init__(self, cluster: Cluster) -> None:
        self.cluster = cluster
        self.lock = threading.RLock()

    def __enter__(self) -> Run:
        cluster = self.cluster
        cluster.refuse_in_hook()
        if not self.lock.acquire(timeout=cluster.live.seconds):
            raise LinsimError(f"another thread makes slots ({cluster.place()})")
        return cluster.history.begin()

    def __exit__(self, *_: object) -> None:
        self.cluster.history.begin()
        self.lock.release()
