"""Nodes with their hosts, and signals."""
from __future__ import annotations

import operator
import re
from decimal import Decimal
from itertools import islice
from typing import TYPE_CHECKING, Any, Callable, Iterable, List, Optional, Tuple, Union

from .errors import BadLine, LinsimError, NoAnswer
from .log import (ALL, REQUEST_NAME, RESPONSE_NAME, ROW, Data, Message, Value, as_bytes, count_of,
                  field_of, hex_of, is_integer, value_of)
from .values import Physical, text_of

__tracebackhide__ = True                # pytest shows the lines of tests alone

if TYPE_CHECKING:
    from .cluster import Cluster

# An answer, with the milliseconds to wait before it; `(ms, answer)` is the older order.
Pair = Union[Tuple[Data, int], Tuple[int, Data]]
Handler = Callable[[bytes], Union[None, str, bytes, bytearray, Pair, Iterable[Union[Data, Pair]]]]
Match = Callable[[bytes, bytes], bool]
NEGATIVE, PENDING = 0x7F, 0x78          # a negative response, response pending (ISO 14229-1)
MOST_PENDING = 100                      # so many of these in a row, and a request still waits
MOST_ANSWERS = 10_000                   # so many of a handler to one message
COMMENT = re.compile(r"(?:^|[ \t])#")   # where a comment of a line of a script starts
POSITIVE = 0x40                         # what a positive response adds to the service
# How many bytes of a request its positive response repeats, by the service, and the services whose
# first such byte is a subfunction: its bit 7 suppresses the response, and isn't repeated.
REPEATED = {0x10: 1, 0x11: 1, 0x19: 1, 0x22: 2, 0x27: 1, 0x28: 1, 0x2E: 2, 0x2F: 2, 0x31: 3,
            0x36: 1, 0x3E: 1, 0x85: 1}
WITH_SUBFUNCTION = (0x10, 0x11, 0x19, 0x27, 0x28, 0x31, 0x3E, 0x85)


def is_answer(request: bytes, response: bytes) -> bool:
    """Whether a message can be the response to a request (ISO 14229-1): a negative response to its
    service, or a positive one that repeats the request's identifier or subfunction as far as it is
    long. For the services 40 to 7F and from C0 on, each message can; for no bytes, none."""
    if not request:
        return False
    service = request[0]
    if service >= 0xC0 or POSITIVE <= service < 0x80:
        return True
    if response[:1] == bytes([NEGATIVE]):
        return response[1:2] == request[:1]
    if response[:1] != bytes([service + POSITIVE]):
        return False
    repeated = request[1:1 + REPEATED.get(service, 0)]
    if service in WITH_SUBFUNCTION and repeated:
        repeated = bytes([repeated[0] & 0x7F]) + repeated[1:]
    return repeated.startswith(response[1:1 + len(repeated)])


def answers_of(handler: Handler, data: bytes) -> List[Tuple[bytes, int]]:
    """Calls the handler with a message. Returns its answers, each with the milliseconds to wait
    before it."""
    answers: Any = handler(data)
    if answers is None:
        return []
    if isinstance(answers, ROW) or is_pair(answers):
        answers = [answers]
    found = [(as_bytes(it), wait)
             for it, wait in map(waited, islice(answers, MOST_ANSWERS + 1))]
    if len(found) > MOST_ANSWERS:
        raise LinsimError(f"a handler returns more than {MOST_ANSWERS} answers")
    return found


def is_pair(answer: Any) -> bool:
    """Whether it is an answer with a number of milliseconds, in either order."""
    return isinstance(answer, tuple) and len(answer) == 2 and (
        is_integer(answer[0]) != is_integer(answer[1]))


def waited(answer: Any) -> Tuple[Data, int]:
    """Returns the answer, and the milliseconds to wait before it."""
    if not is_pair(answer):
        return answer, 0
    wait, data = answer if is_integer(answer[0]) else reversed(answer)
    return data, count_of(wait, "ms")


def without_comment(text: str, cluster: Cluster) -> None:
    """Raises `BadLine` if a part of the text would be a comment of a script's line, and so be
    ignored."""
    if COMMENT.search(text):
        raise BadLine(text, "a field that begins with # starts a comment", cluster.place())


class Signal:
    """A signal as a node has it: what it wrote, where it publishes the signal, and else what it
    heard last.

    A signal compares its raw value with numbers, bytes and other signals, and its text with texts:
    `signal == 600`, `signal == "opening"`. It has no truth value and no hash.
    """

    def __init__(self, node: Node, name: str) -> None:
        self.node, self.name = node, node.cluster.known("signal", name)

    def __repr__(self) -> str:
        return f"<signal {self.name} of {self.node.name}>"

    @property
    def raw(self) -> Value:
        """The raw value: a scalar's number, or an array's bytes, its lowest byte first. A write
        raises `Refused` if the node doesn't publish the signal (NotPublisher) or the value doesn't
        fit it (BadValue), and `BadLine` if no signal can have the value: a number outside 0 to
        65535, or more than 8 bytes."""
        return value_of(self._asked()[0])

    @raw.setter
    def raw(self, value: Value) -> None:
        self._write(field_of(value))

    @property
    def text(self) -> Optional[str]:
        """The text of the value as the program writes it (`"50.5 %"`, `"opening"`), or None if the
        value has no encoding."""
        return self._asked()[1]

    @property
    def physical(self) -> Union[Decimal, str, None]:
        """The physical value, exactly and without its unit; the text of a logical value, of digits
        or of characters; None if the value has no encoding. A write takes a number, or a text with
        or without its unit, and raises `BadLine` with the nearest values if no raw value has it. A
        float stands for the shortest decimal that Python writes for it."""
        raw, text = self._asked()
        meaning = self.node.cluster.meanings.get(self.name)
        if text is None or meaning is None or not meaning.is_number(value_of(raw)):
            return text
        return Decimal(text.split(" ")[0])

    @physical.setter
    def physical(self, value: Physical) -> None:
        self._write_text(f"= {text_of(value)}")

    def set_nearest(self, value: Physical) -> None:
        """Writes the raw value whose physical value is nearest, the lower of two."""
        self._write_text(f"~ {text_of(value)}")

    def _write_text(self, value: str) -> None:
        meaning = self.node.cluster.meanings.get(self.name)
        if meaning is None or not meaning.has_hash:     # otherwise all of it is the value
            without_comment(value, self.node.cluster)
        self._write(value)

    def _write(self, value: str) -> None:
        node = self.node
        node.cluster.step(f"h:{node.name} write {node.name} {self.name} {value}")

    def _asked(self) -> Tuple[str, Optional[str]]:
        """Returns the raw value as scripts have it, and its text."""
        raw, _, text = self.node.cluster.ask(f"signal {self.node.name} {self.name}").partition(" ")
        return raw, text or None

    def __eq__(self, other: object) -> bool:
        if isinstance(other, str):
            raw, text = self._asked()
            cluster = self.node.cluster
            return text == other or cluster.texts.is_of(self.name, value_of(raw), other,
                                                        cluster.place)
        mine, theirs = self._raws(other)
        return bool(mine == theirs)

    def __lt__(self, other: object) -> bool:
        return self._ordered(operator.lt, other)

    def __le__(self, other: object) -> bool:
        return self._ordered(operator.le, other)

    def __gt__(self, other: object) -> bool:
        return self._ordered(operator.gt, other)

    def __ge__(self, other: object) -> bool:
        return self._ordered(operator.ge, other)

    def __bool__(self) -> bool:
        raise TypeError(f"{self!r} has no truth value; use .raw or .physical")

    def __hash__(self) -> int:
        raise TypeError(f"{self!r} has no hash, because its value changes; use .raw or .physical")

    def _ordered(self, order: Callable[[Value, Value], bool], other: object) -> bool:
        mine, theirs = self._raws(other)
        if isinstance(mine, bytes):
            raise TypeError(f"{self!r} has bytes, which have no order; use .raw")
        return order(mine, theirs)

    def _raws(self, other: object) -> Tuple[Value, Value]:
        """Returns the raw value, and what it compares with: both are numbers, or both are bytes."""
        mine, theirs = self.raw, other.raw if isinstance(other, Signal) else other
        if isinstance(mine, int) and is_integer(theirs):
            return mine, operator.index(theirs)
        if isinstance(mine, bytes) and isinstance(theirs, (bytes, bytearray)):
            return mine, theirs
        kind = "a number" if isinstance(mine, int) else "bytes"
        raise TypeError(f"{self!r} has {kind} and doesn't compare with {other!r};"
                        " use .raw or .physical")


class Node:
    """A node of the cluster, with its host. `number` is its number in scripts, `nad` its diagnostic
    address, None where it has none."""

    def __init__(self, cluster: Cluster, name: str, number: int, nad: Optional[int]) -> None:
        self.cluster, self.name, self.number, self.nad = cluster, name, number, nad
        self.handlers: List[Handler] = []

    def __repr__(self) -> str:
        return f"<node {self.name}>"

    __iter__ = __contains__ = None          # by __getitem__ they would look for a signal 0

    def __getitem__(self, signal: str) -> Signal:
        return Signal(self, signal)

    def __setitem__(self, signal: str, value: Value) -> None:
        """Writes the raw value."""
        Signal(self, signal).raw = value

    def host(self, step: str) -> None:
        """Makes a step of the node's host."""
        self.cluster.line(f"h:{self.name} {step}")

    @property
    def waiting(self) -> int:
        """How many messages of the host wait."""
        return int(self.cluster.ask(f"waiting {self.name}"))

    def send(self, to: Union[str, int], data: Data) -> Message:
        """Hands a message over to the transport. `to` is a node's name, or `ALL` for all
        responders. Refused with no room (QueueFull) and where no such message can go."""
        if to != ALL:
            self.cluster.known("node", to)
        cluster = self.cluster
        with cluster.turn:
            cluster.step(f"h:{self.name} send {self.name} {to} {hex_of(data)}")
            assert cluster.history.newest
            return cluster.history.newest

    def close(self) -> None:
        """The host sends nothing more; what waits still goes."""
        self.host(f"close {self.name}")

    def timeout(self, way: str) -> Message:
        """The message that is begun to this responder (`"down"`) or by it (`"up"`) is given up
        (N_As, N_Cr of ISO 17987-2): the message that is lost. Refused where none is begun."""
        with self.cluster.turn:
            self.cluster.line(f"timeout {self.name} {way}")
            return next(reversed(self.cluster.history.run.lost))

    def on_message(self, handler: Handler) -> Handler:
        """Calls `handler(data)` with each message that the node receives, after the slot in which
        it arrived. Bytes that it returns are sent back at once, and of a pair `(bytes, ms)` so many
        milliseconds later; of a list of answers, each is sent so much later than the one before.
        What went to all responders isn't answered."""
        self.handlers.append(handler)
        return handler

    def when(self, pattern: str, *answers: Union[Data, Pair]) -> None:
        """A rule of the program: the responder answers a message that fits by itself. In a pattern
        `..` is any byte, and `*` at its end any bytes. An answer is bytes, or a text in which `$K`
        is byte K of the message; or `(answer, ms)`, to wait before it. Without answers the message
        isn't answered."""
        if not isinstance(pattern, str):
            raise TypeError(f"a pattern is a text such as '22F190*', not {pattern!r}")
        texts = []
        for answer in answers:
            data, wait = waited(answer)
            text = data if isinstance(data, str) else hex_of(data)
            texts.append(f"{text} after {wait} ms" if wait else text)
        tail = "answer " + " then ".join(texts) if texts else "silent"
        without_comment(f"{pattern} {tail}", self.cluster)
        self.cluster.line(f"when {self.name} {pattern} {tail}")

    def request(self, to: str, data: Data, timeout_ms: int = 1000, pending_ms: int = 5000,
                match: Optional[Match] = is_answer) -> bytes:
        """Sends a request, runs slots until its response arrives here, and returns the response.

        A response is a message of `to` that arrives after the request was sent completely, and for
        which `match(request, response)` is true. By default that is `is_answer`; with None each
        message of `to` matches. Messages that don't match stay in `received`. Raises `NoAnswer` if
        no response arrives in `timeout_ms` of the schedule (P2 of ISO 14229-2), if the request
        isn't sent in this time, or if it is lost. Each response pending (7F, the request's first
        byte, 78) gives `pending_ms` from then (P2*), up to 100 of them. A request that wasn't sent
        stays in the queue.
        """
        data = as_bytes(data)
        timeout_ms, pending_ms = count_of(timeout_ms, "ms"), count_of(pending_ms, "ms")
        self.cluster.refuse_in_hook()
        if not isinstance(to, str):
            raise TypeError(f"a request goes to one node, by its name, and not to {to!r}")
        pending = bytes([NEGATIVE, *data[:1], PENDING])
        with self.cluster.turn:             # (slots of other threads may bring the response)
            wait = Wait(self, to, self.send(to, data), match)
        limit = timeout_ms
        for _ in range(MOST_PENDING + 1):
            answer = wait.run(limit)
            if answer != pending:
                return answer
            limit = pending_ms
        raise NoAnswer(f"{to} answers {hex_of(data)} with response pending alone"
                       f" ({self.cluster.place()})")


class Wait:
    """The wait for the response to a message."""

    def __init__(self, node: Node, to: str, message: Message, match: Optional[Match]) -> None:
        self.cluster, self.node, self.to = node.cluster, node, to
        self.message, self.match, self.history = message, match, node.cluster.history
        self.looked = len(self.history.received)
        self.others: List[bytes] = []           # messages of `to` that are no response to it
        self.found: Optional[bytes] = None

    def run(self, ms: int) -> bytes:
        """Runs slots until the next response arrives, and returns it."""
        self.found = None
        self.cluster.run(ms=ms, until=self._is_over)
        if not self._is_over() or self.found is None:
            raise NoAnswer(f"{self._why(ms)}{self._told()} ({self.cluster.place()})")
        return self.found

    def _is_over(self) -> bool:
        """Whether the response is there, or the request is lost."""
        history = self.history
        if self.looked < len(history.received):
            self._look()
        return self.found is not None or bool(history.losses) and self.message in history.losses

    def _look(self) -> None:
        """Looks at the messages that arrived since the last look, up to a response. While the
        request waits, they belong to earlier requests."""
        received = self.history.received
        waits = self.history.is_waiting(self.message)
        while self.found is None and self.looked < len(received):
            it = received[self.looked]
            self.looked += 1
            if (it.source, it.target) != (self.to, self.node.name):
                continue
            if not waits and (self.match is None or self.match(self.message.data, it.data)):
                self.found = it.data
            else:
                self.others.append(it.data)

    def _why(self, ms: int) -> str:
        """Why there is no response."""
        data, history = hex_of(self.message.data), self.history
        is_down = self.node.number == 0
        if self.message in history.losses:
            return f"{data} to {self.to} was lost: {history.losses[self.message]}"
        if history.is_waiting(self.message):
            told = f"{data} to {self.to} wasn't sent in {ms} ms: {self.cluster.ask('idle')}"
            return told + self._lacking(REQUEST_NAME if is_down else RESPONSE_NAME)
        told = f"{self.to} doesn't answer {data} in {ms} ms"
        return told + self._lacking(RESPONSE_NAME if is_down else REQUEST_NAME)

    def _lacking(self, name: str) -> str:
        """Names the schedule table if it has no such slot."""
        table = self.cluster.table
        has = any(of == table and it == name
                  for (of, _), (it, _) in self.cluster.entries.items())
        return "" if has else f", and {table} has no {name}"

    def _told(self) -> str:
        others = ", ".join(map(hex_of, self.others))
        return f" (no response to it: {others})" if others else ""
