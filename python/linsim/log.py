"""What the log with names says of a run: its slots, its messages, and the time."""
from __future__ import annotations

import copy
import operator
from collections import deque
from dataclasses import dataclass, field, replace
from typing import Any, Callable, Deque, Dict, Iterable, List, NamedTuple, Optional, Tuple, Union

__tracebackhide__ = True                # pytest shows the lines of tests alone

ALL = 126                               # the address of all responders (functional addressing)
REQUEST, RESPONSE = 0x3C, 0x7D          # protected identifiers of the diagnostic frames
REQUEST_NAME, RESPONSE_NAME = "MasterReq", "SlaveResp"
SLEEP = 0                               # the first data byte of the sleep frame

ROW = (str, bytes, bytearray)           # the types of one row of bytes
Data = Union[str, bytes, bytearray, Iterable[int]]
Value = Any                             # of a scalar an int, of an array its bytes


def as_bytes(data: Data) -> bytes:
    """Bytes, of bytes, of hexadecimal digits as in scripts (`"22 F1 90"`), or of numbers from 0 to
    255."""
    if isinstance(data, (bytes, bytearray)):
        return bytes(data)
    if isinstance(data, str):
        return bytes.fromhex(data)
    if is_integer(data):
        raise TypeError(f"no bytes: {data}")
    return bytes(iter(data))                # (not of its memory, as of an array of words)


def is_integer(it: object) -> bool:
    """Whether it is an int, or of a type that stands for one, as those of numpy."""
    if isinstance(it, int):
        return True
    try:
        operator.index(it)                  # type: ignore[arg-type]
    except TypeError:                       # also of an array of numpy, which has __index__
        return False
    return True


def count_of(number: int, what: str) -> int:
    """The number. Raises TypeError if it isn't an integer, and ValueError if it is below 0."""
    number = operator.index(number)
    if number < 0:
        raise ValueError(f"expected a number of {what} from 0 on, not {number}")
    return number


def hex_of(data: Data) -> str:
    """Bytes as scripts have them."""
    return as_bytes(data).hex().upper() or "-"


def bytes_of(text: str) -> bytes:
    """The bytes of a field of a log."""
    return b"" if text == "-" else bytes.fromhex(text)


def value_of(text: str) -> Value:
    """The value of a field of a log: a scalar's number, or an array's bytes."""
    return bytes_of(text[1:]) if text.startswith("x") else int(text)


def field_of(value: Value) -> str:
    """A raw value as scripts have it."""
    if isinstance(value, (bytes, bytearray)):
        return "x" + hex_of(value)
    if not is_integer(value):
        raise TypeError(f"a raw value is an int or bytes, not {value!r}; .physical takes numbers"
                        " and texts")
    return format(operator.index(value), "d")


@dataclass(frozen=True)
class Message:
    """A message that was accepted: of this host, to a node or to `"all"` responders. Numbers count
    the messages of a host from 1. `functional` tells a message to all responders from one to a
    responder that is called `all`."""
    source: str
    target: str
    number: int
    data: bytes
    functional: bool = field(default=False, compare=False)      # to all responders


@dataclass(frozen=True)
class Received:
    """A message that a node received, with the time in microseconds; `functional` where it went to
    all responders."""
    source: str
    target: str
    data: bytes
    time: int
    functional: bool = False


class RefusedStep(NamedTuple):
    """A step that was refused: its line with names, the refusal's number and name."""
    step: str
    number: int
    name: str                           # of the entry: a frame, MasterReq, SlaveResp or -


@dataclass
class Slot:
    """A frame slot."""
    number: int                         # of those that were finished, from 0
    time: int                           # at its start, in microseconds
    table: str
    entry: int
    header: Optional[int]               # the protected identifier; None where no header is sent
    name: str                           # of the entry: a frame, MasterReq, SlaveResp, service, -
    member: str = ""                    # of a sporadic frame, the frame that is sent
    service: bool = False               # whether its frame is one of node configuration
    due: List[str] = field(default_factory=list)
    answers: Dict[str, bytes] = field(default_factory=dict)     # by node, with the checksum
    hurt: Optional[bytes] = None        # what was seen in place of the response, where damaged
    seen: str = ""                      # silent, none, good, damaged, collided
    data: Optional[bytes] = None        # of a good response, without its checksum
    frame: Optional[str] = None         # that a good response carries
    signals: Dict[str, Value] = field(default_factory=dict)     # of that frame, raw
    message: Optional[Message] = None   # of which it carries a frame, damaged or not; no service
    end: int = 0                        # microseconds

    def is_of(self, frame: str) -> bool:
        """Whether it is an entry's of this name, or carries a frame of this name."""
        return frame in (self.name, self.member, self.frame)


@dataclass
class Run:
    """What came of some slots, and of the steps that were made in them by hooks and rules."""
    slots: List[Slot] = field(default_factory=list)
    received: List[Received] = field(default_factory=list)
    sent: List[Message] = field(default_factory=list)
    lost: Dict[Message, str] = field(default_factory=dict)      # with the cause
    refused: List[RefusedStep] = field(default_factory=list)


class History:
    """Follows the lines of a log with names.

    It has two rules of LIN of its own. A diagnostic frame carries the oldest message of its host
    that is neither sent nor lost, unless it is the sleep frame or the slot is for a service. A
    request frame with the address 126 is for all responders (a responder may be called `all`, as
    the log calls them).
    """

    def __init__(self, nodes: Iterable[str]) -> None:
        self.time, self.asleep, self.finished = 0, False, 0
        self.received: List[Received] = []
        self.run = Run()
        self.newest: Optional[Message] = None           # the message that was accepted last
        self.losses: Dict[Message, str] = {}            # all lost messages, with the cause
        self._waiting: Dict[str, Deque[Message]] = {node: deque() for node in nodes}
        self._slot: Slot                                # the last one that was opened
        self._arrived: List[Tuple[str, str, bytes]] = []        # in the slot that is finished
        self._functional = False                        # whether the last message went to all
        self._step = ""                                 # the last line that is a step

    def copy(self) -> History:
        """Another one that has followed the same lines, with a new `Run`."""
        other = copy.copy(self)
        other.received, other.losses = list(self.received), dict(self.losses)
        other.run, other._arrived = Run(), list(self._arrived)
        other._waiting = {node: deque(waiting) for node, waiting in self._waiting.items()}
        if hasattr(self, "_slot"):                      # it may be open
            other._slot = replace(self._slot, due=list(self._slot.due),
                                  answers=dict(self._slot.answers))
        return other

    @property
    def opened(self) -> Slot:
        """The slot that was opened last."""
        return self._slot

    def begin(self) -> Run:
        """What comes from here on is in this new `Run`, and no longer in the one before."""
        self.run = Run()
        return self.run

    def is_waiting(self, message: Message) -> bool:
        """Whether the message is neither sent nor lost."""
        waiting = self._waiting[message.source]
        return bool(waiting) and waiting[0].number <= message.number

    def take(self, log: List[str]) -> None:
        """Follows the lines of an answer."""
        replies = self._replies
        for number, line in enumerate(log):
            fields = line.split(" ")
            if fields[0] == ">":
                reply = replies.get(fields[1])
                if reply:                               # (a later program may say more)
                    reply(self, fields[2:])
            else:
                self._step = line
                if fields[1] in ("hurt", "wake"):
                    following = log[number + 1] if number + 1 < len(log) else ""
                    if not following.startswith("> refused "):
                        self._done(fields[1:])

    def _done(self, step: List[str]) -> None:
        """A step that has no reply of its own."""
        if step[0] == "hurt":
            self._slot.hurt = bytes_of(step[1])
        else:
            self.asleep = False

    def _accepted(self, fields: List[str]) -> None:
        target, data = self._step.split(" ")[3:5]
        to = "all" if target == str(ALL) else target
        self.newest = Message(fields[0], to, int(fields[1]), bytes_of(data), to != target)
        self._waiting[fields[0]].append(self.newest)

    def _opened(self, fields: List[str]) -> None:
        table, entry, header, name, *members = fields
        self._slot = Slot(self.finished, self.time, table, int(entry),
                          None if header == "-" else int(header, 16), name, " ".join(members))

    def _service(self, _: List[str]) -> None:
        self._slot.service = True

    def _due(self, fields: List[str]) -> None:
        self._slot.due.append(fields[0])

    def _put(self, fields: List[str]) -> None:
        node, response = fields[0], bytes_of(fields[1])
        self._slot.answers[node] = response
        header = self._slot.header
        if self._slot.service:
            return
        if header == RESPONSE or header == REQUEST and response[0] != SLEEP:
            self._slot.message = self._waiting[node][0]

    def _seen(self, fields: List[str]) -> None:
        self._slot.seen = fields[0]
        if fields[0] == "good":
            self._slot.data = bytes_of(fields[1])[:-1]

    def _frame(self, fields: List[str]) -> None:
        self._slot.frame = fields[0]
        self._slot.signals = dict(zip(fields[1::2], map(value_of, fields[2::2])))

    def _transport(self, _: List[str]) -> None:
        self._slot.frame = self._slot.name
        data = self._slot.data or b""
        self._functional = self._slot.header == REQUEST and data[:1] == bytes([ALL])

    def _message(self, fields: List[str]) -> None:
        self._arrived.append((fields[0], fields[1], bytes_of(fields[2])))

    def _sent(self, fields: List[str]) -> None:
        self.run.sent.append(self._waiting[fields[0]].popleft())

    def _lost(self, fields: List[str]) -> None:
        message = self._waiting[fields[0]].popleft()
        self.run.lost[message] = self.losses[message] = fields[2]

    def _asleep(self, _: List[str]) -> None:
        self.asleep = True

    def _refused(self, fields: List[str]) -> None:
        self.run.refused.append(RefusedStep(self._step, int(fields[0]), fields[1]))

    def _time(self, fields: List[str]) -> None:
        """The last line of a slot that was finished."""
        self.time = self._slot.end = int(fields[0])
        self.finished += 1
        self.run.slots.append(self._slot)
        if self._arrived:
            received = [Received(*it, self.time, self._functional) for it in self._arrived]
            self._arrived.clear()
            self.received += received
            self.run.received += received

    _replies: Dict[str, Callable[[History, List[str]], None]] = {
        "accepted": _accepted, "slot": _opened, "service": _service, "due": _due, "put": _put,
        "seen": _seen, "frame": _frame, "transport": _transport, "message": _message,
        "sent": _sent, "lost": _lost, "asleep": _asleep, "refused": _refused, "time": _time,
    }
