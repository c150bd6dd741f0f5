"""The co-process: lines to `linsim live`, and its answers."""
from __future__ import annotations

import errno
import os
import re
import select
import subprocess
import threading
import time
import weakref
from typing import Callable, Dict, Generic, Iterable, List, Optional, Sequence, TypeVar, Union

from .errors import (BadLine, Ended, LinsimError, Refused, SlotLimit, StartError, TimeLimit, Unmet,
                     start_error)
from .log import count_of

__tracebackhide__ = True                # pytest shows the lines of tests alone

Program = Union[str, "os.PathLike[str]", Sequence[str]]

PACKAGED = os.path.join(os.path.dirname(os.path.abspath(__file__)), "bin", "linsim")
# The system has no files, processes or memory left: the program's path isn't the cause.
EXHAUSTED = (errno.EMFILE, errno.ENFILE, errno.EAGAIN, errno.ENOMEM)
SECONDS = 60.0      # the time limit of an answer where no other is given
MOST_SECONDS = 1e6  # what the system's calls take
# A fork would take answers that aren't its own.
FORKED = "the program belongs to the process that started it"
LAST_LINE = re.compile(r"(ok|is|refused|expected|bad line|slot limit)(?::? (.*))?")
MARK = re.compile(r"\s*(mark|back)\s+([A-Za-z_][A-Za-z0-9_]*)\s*(?:#.*)?")
START = "start"     # the mark at the beginning
State = TypeVar("State")


class Marks(Generic[State]):
    """What was so at each mark, in the order of the marks. The first one is the beginning."""

    def __init__(self, start: State) -> None:
        self._states: Dict[str, State] = {START: start}

    def put(self, name: str, state: State) -> None:
        """Sets a mark. One of this name moves here."""
        self._states.pop(name, None)
        self._states[name] = state

    def back(self, name: str) -> State:
        """Returns what was so at a mark, and removes those that were set after it."""
        names = list(self._states)
        for later in names[names.index(name) + 1:]:
            del self._states[later]
        return self._states[name]


class Answer:
    """What came of a line: the lines of the `log`, and how it ended: `kind` is `"ok"`, `"is"`,
    `"refused"`, `"expected"`, `"bad line"` or `"slot limit"`, and `text` what stands behind it."""
    __slots__ = ("line", "log", "kind", "text")

    def __init__(self, line: str, log: List[str], last: str) -> None:
        self.line, self.log = line, log
        if last == "ok":                    # most lines
            self.kind, self.text = last, ""
            return
        found = LAST_LINE.fullmatch(last)
        if not found:
            raise LinsimError(f"{line}: an answer of no known form: {last}")
        self.kind, self.text = found[1], found[2] or ""

    def check(self, where: Callable[[], str] = str) -> Answer:
        """Itself. Raises `BadLine`, `SlotLimit`, `Unmet` or `Refused` where it is that, which tell
        what `where` gives."""
        if self.kind in ("ok", "is"):
            return self
        if self.kind == "bad line":
            raise BadLine(self.line, self.text, where())
        if self.kind == "slot limit":
            raise SlotLimit(self.line, where())
        if self.kind == "expected":
            what, _, got = self.text.partition(": ")
            raise Unmet(what, got, where())
        if self.kind == "refused":
            number, _, name = self.text.partition(" ")
            raise Refused(self.line, int(number), name, where())
        return self


def command(program: Optional[Program] = None) -> List[str]:
    """The words that start the program: a path, or several words. If it is None, the path in the
    environment's LINSIM, or else the program that came with the package, or else `linsim` on the
    path."""
    if program is None:
        brought = PACKAGED if os.path.exists(PACKAGED) else "linsim"
        program = os.environ.get("LINSIM") or brought
    if isinstance(program, (str, os.PathLike)):
        return [os.fspath(program)]
    if not program:
        raise ValueError("the program is a path, or at least one word")
    return list(program)


def located(program: Optional[Program]) -> List[str]:
    """Returns the words that start the program, from any folder."""
    first, *words = command(program)
    return [os.path.abspath(first) if os.sep in os.fsdecode(first) else first, *words]


def limit_of(seconds: float) -> float:
    """Returns the time limit of an answer. Raises TypeError if it isn't a number, and ValueError if
    it isn't above 0."""
    if not seconds > 0:
        raise ValueError(f"expected a number of seconds above 0, not {seconds}")
    return min(float(seconds), MOST_SECONDS)


def options_of(table: Optional[str], capacity: Optional[int], configuration: bool) -> List[str]:
    """Returns the options of a command for these settings."""
    return [*([] if table is None else ["--table", table]),
            *([] if capacity is None else ["--capacity", str(count_of(capacity, "messages"))]),
            *(["--configuration"] if configuration else [])]


def path_of(file: Union[str, bytes, os.PathLike[str]]) -> str:
    """Returns the file's name as an argument, which is no option even if it begins with `-`."""
    name = os.fsdecode(file)
    return os.path.join(".", name) if name.startswith("-") else name


def not_started(words: List[str], why: OSError) -> StartError:
    """What to raise if the system can't start the program."""
    hint = "; set LINSIM to the program's path, or give program="
    text = f"{words[0]} can't be started: {why.strerror}"
    return StartError(None, text if why.errno in EXHAUSTED else text + hint)


def check(ldf: str, program: Optional[Program] = None, seconds: float = SECONDS,
          configuration: bool = False) -> List[str]:
    """The lines of `linsim check`: frames, slots, and what the values of signals mean. Warnings are
    ignored. Raises `LdfError` with the file, line and column of each fault, and otherwise
    `StartError` or `TimeLimit`."""
    words = command(program) + ["check", path_of(ldf), "--frames", "--slots", "--signals",
                                "--physical", "--where"]
    words += options_of(None, None, configuration)
    seconds = limit_of(seconds)
    try:
        done = subprocess.run(words, stdin=subprocess.DEVNULL, stdout=subprocess.PIPE,
                              stderr=subprocess.PIPE, timeout=seconds, check=False)
    except OSError as why:
        raise not_started(words, why) from None
    except subprocess.TimeoutExpired:
        raise TimeLimit(f"check {ldf}", seconds) from None
    if done.returncode:
        raise start_error(path_of(ldf), done.returncode, done.stderr.decode(errors="replace"))
    return done.stdout.decode(errors="replace").splitlines()


def end(process: subprocess.Popen[bytes], errors: int, parent: int) -> None:
    """Ends the process, and lets go of what it held; but not in a fork of its parent."""
    if os.getpid() == parent:
        process.kill()
        process.wait()
        for file in (process.stdin, process.stdout):
            if file:
                file.close()
        os.close(errors)


class Live:
    """`linsim live FILE` in a process of its own, which ends with this object and with Python.

    `form` is `"log"` or `"named"`. With `configuration`, node configuration commands are sent
    (`--configuration`). An answer that isn't whole after `seconds` by the clock raises
    `TimeLimit`. After that, and after each other exception in the middle of answers, the process
    is ended. `lines` has the lines that make the run: all but questions, bad ones and marks, and
    without those that `back` has undone. A line and its answer belong to one thread; other threads
    wait.
    """

    def __init__(self, ldf: Union[str, os.PathLike[str]], table: Optional[str] = None,
                 form: str = "named", *, capacity: Optional[int] = None,
                 configuration: bool = False, program: Optional[Program] = None,
                 seconds: float = SECONDS) -> None:
        words = command(program) + ["live", path_of(ldf), "--to", form]
        if form == "named":
            words.append("--physical")
        words += options_of(table, capacity, configuration)
        self.seconds = limit_of(seconds)
        self.lines: List[str] = []
        self._marks = Marks(0)              # how many lines there were at each mark
        self._turn = threading.RLock()
        self._start(words)
        self._parent = os.getpid()
        self._end = weakref.finalize(self, end, self._process, self._errors, self._parent)
        assert self._process.stdin and self._process.stdout
        self._in, self._out = self._process.stdin.fileno(), self._process.stdout.fileno()
        os.set_blocking(self._in, False)
        self._reading, self._both = select.poll(), select.poll()
        self._reading.register(self._out, select.POLLIN)
        self._both.register(self._out, select.POLLIN)
        self._both.register(self._in, select.POLLOUT)
        self._read = bytearray(b"\n")       # from the LF on that ended the last answer
        self._searched = 0                  # before this no last line begins in it
        try:
            self.ask("")                    # the program has read the LDF, or has ended
        except Ended as ended:
            raise start_error(path_of(ldf), ended.status, ended.text) from None
        except TimeLimit:
            raise TimeLimit(f"live {path_of(ldf)}", self.seconds) from None
        self.lines.clear()

    def _start(self, words: List[str]) -> None:
        """Starts the process. Its standard error goes to memory, so no folder is needed."""
        try:
            self._errors = os.memfd_create("linsim", os.MFD_CLOEXEC)
        except OSError as why:
            raise not_started(words, why) from None
        try:
            self._process = subprocess.Popen(words, stdin=subprocess.PIPE, stdout=subprocess.PIPE,
                                             stderr=self._errors, bufsize=0)
        except OSError as why:
            os.close(self._errors)
            raise not_started(words, why) from None
        except BaseException:               # words that no program can have
            os.close(self._errors)
            raise

    def ask(self, line: str) -> Answer:
        """The answer to one line."""
        return self.ask_all([line])[0]

    def ask_all(self, lines: Iterable[str]) -> List[Answer]:
        """The answers to several lines, which are written ahead of them."""
        lines = list(lines)
        text = "\n".join(lines) + "\n" if lines else ""
        if text.count("\n") != len(lines):
            raise ValueError("a line has no line feed")
        unwritten = memoryview(text.encode())
        answers: List[Answer] = []
        if os.getpid() != self._parent:
            raise LinsimError(FORKED)
        with self._turn:
            if not self._end.alive:
                raise LinsimError("the program was ended")
            try:
                for line in lines:
                    limit = time.monotonic() + self.seconds
                    answer = self._take(line) if answers else None
                    while answer is None:
                        unwritten = self._exchange(line, unwritten, limit)
                        answer = self._take(line)
                    answers.append(answer)
            except BaseException:
                self.kill()
                raise
        return answers

    def close(self) -> int:
        """Ends the lines, and waits for the program's end. Its exit status: 0; 6 where an
        expectation wasn't met, 1 where a line was bad or met the limit of slots. Raises
        `TimeLimit` where it doesn't end in time."""
        if os.getpid() != self._parent:
            raise LinsimError(FORKED)
        with self._turn:
            if self._end.alive:
                limit = time.monotonic() + self.seconds
                assert self._process.stdin
                self._process.stdin.close()
                try:
                    while self._more("the end of the lines", self._reading, limit):
                        pass
                    self._wait("the end of the lines", limit)
                finally:
                    self.kill()
            return self._process.returncode

    def kill(self) -> None:
        """Ends the program at once, whatever it does. A thread that waits for an answer gets
        `Ended`."""
        if os.getpid() == self._parent:
            self._process.kill()
            with self._turn:
                self._end()

    def _take(self, line: str) -> Optional[Answer]:
        """The next answer, where it was read to its end."""
        read = self._read
        start = read.find(b"\n# ", self._searched)
        self._searched = start if start >= 0 else max(len(read) - 2, 0)
        ended = read.find(b"\n", start + 3) if start >= 0 else -1
        if ended < 0:
            return None
        log = read[1:start].decode(errors="replace").split("\n") if start else []
        answer = Answer(line, log, read[start + 3:ended].decode(errors="replace"))
        del read[:ended]
        self._searched = 0
        if answer.kind not in ("is", "bad line"):
            self._keep(line)
        return answer

    def _keep(self, line: str) -> None:
        """Keeps a line that makes the run; of a mark its place, and of `back` the lines before it."""
        mark = MARK.fullmatch(line)
        if mark is None:
            self.lines.append(line)
        elif mark[1] == "mark":
            self._marks.put(mark[2], len(self.lines))
        else:
            del self.lines[self._marks.back(mark[2]):]

    def _exchange(self, line: str, unwritten: memoryview, limit: float) -> memoryview:
        """Writes of what is unwritten what the pipe takes, and reads what there is. So neither
        process ever waits for the other one to read. What is left to be written."""
        if unwritten:
            try:
                unwritten = unwritten[os.write(self._in, unwritten):]
            except BlockingIOError:
                pass
            except BrokenPipeError:         # what it said before it ended is still to be read
                unwritten = unwritten[:0]
        if self._more(line, self._both if unwritten else self._reading, limit) == b"":
            self._wait(line, limit)
            text = os.pread(self._errors, os.fstat(self._errors).st_size, 0)
            raise Ended(line, self._process.returncode, text.decode(errors="replace"))
        return unwritten

    def _wait(self, line: str, limit: float) -> None:
        """Waits for the end of the process."""
        try:
            self._process.wait(max(limit - time.monotonic(), 0))
        except subprocess.TimeoutExpired:
            raise TimeLimit(line, self.seconds) from None

    def _more(self, line: str, poll: select.poll, limit: float) -> Optional[bytes]:
        """Waits until the program wrote more or reads on. What it wrote, which is kept: none at
        its end, None where it only reads."""
        ready = poll.poll(max(limit - time.monotonic(), 0) * 1000)
        if not ready:
            raise TimeLimit(line, self.seconds)
        if poll is self._both and self._out not in dict(ready):
            return None
        piece = os.read(self._out, 1 << 16)
        self._read += piece
        return piece
