"""What raw values mean: numbers and texts, as the lines of bench scripts take them."""
from __future__ import annotations

import re
from dataclasses import dataclass, field
from decimal import Decimal
from typing import Callable, Dict, List, Optional, Tuple, Union

from .errors import BadLine
from .log import Value, field_of, value_of
from .process import Answer, Live

__tracebackhide__ = True                # pytest shows the lines of tests alone

Physical = Union[int, float, Decimal, str]
MOST_DIGITS = 400                       # more than any float has; no value has so many


@dataclass
class Meaning:
    """The encoding of a signal: the texts of its logical values, by the raw value, the first and
    the last raw value of each physical range, and whether a text or a unit contains `#`."""
    values: Dict[int, str] = field(default_factory=dict)
    ranges: List[Tuple[int, int]] = field(default_factory=list)
    has_hash: bool = False

    def is_number(self, raw: Value) -> bool:
        """Whether the raw value means a number: a range has it, and no logical value is it."""
        return isinstance(raw, int) and raw not in self.values and any(
            first <= raw <= last for first, last in self.ranges)


def text_of(value: Physical) -> str:
    """A physical value as scripts have it: a text, or a number without an exponent."""
    if isinstance(value, str):
        return value
    exact = Decimal(float.__repr__(value)) if isinstance(value, float) else Decimal(value)
    return format(exact, "f") if abs(exact.adjusted()) < MOST_DIGITS else str(exact)


class Texts:
    """Compares raw values with texts. The program decides, in a process of its own that `start`
    starts, so the cluster's own run doesn't change."""

    def __init__(self, start: Callable[[], Live]) -> None:
        self._start = start
        self.publishers: Dict[str, str] = {}                        # by the signal
        self._raws: Dict[Tuple[str, str], Optional[Value]] = {}     # by the signal and the text

    def is_of(self, signal: str, raw: Value, text: str, where: Callable[[], str]) -> bool:
        """Whether the raw value has this text. Raises `BadLine` if no value of the signal has the
        text."""
        text = " ".join(text.split())
        if (signal, text) not in self._raws:
            self._raws[signal, text] = self._raw_of(signal, text, where)
        only = self._raws[signal, text]
        if only is not None:
            return bool(raw == only)
        written, expected = f"{self._write(signal)} {field_of(raw)}", f"{signal} = {text}"
        return self._made(written, lambda node: f"expect signal {node} {expected}").kind == "ok"

    def _raw_of(self, signal: str, text: str, where: Callable[[], str]) -> Optional[Value]:
        """Returns the only raw value with this text, or None if several values have it."""
        answer = self._made(f"{self._write(signal)} = {text}")
        if answer.kind == "ok":
            written, *told = answer.log
            if "#" not in text or f"> value {signal} {text}" in told:
                return value_of(written.split(" ")[4])
            raise BadLine(f"{signal} == {text!r}", f"{signal} has no value {text}", where())
        if re.fullmatch(rf"\d+ values of {signal} have the text {re.escape(text)}", answer.text):
            return None
        raise BadLine(f"{signal} == {text!r}", answer.text, where())

    def _write(self, signal: str) -> str:
        return " ".join(["write", *self.publishers.get(signal, "").split(), signal])

    def _made(self, write: str, then: Optional[Callable[[str], str]] = None) -> Answer:
        """Makes a write in a new process, and then a line that names its node. The last answer."""
        live = self._start()
        try:
            answer = live.ask(write)
            return live.ask(then(answer.log[0].split(" ")[2])) if then else answer
        finally:
            live.kill()
