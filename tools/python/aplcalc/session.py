"""A session of the calculator in a process of its own."""
import contextlib
import os
import selectors
import shutil
import subprocess
import threading
import time
from typing import IO, Any, Generator, Iterable, Iterator, List, Optional, Tuple, Union

from .errors import Busy, InvalidLine, ProgramEnded, ProgramMissing, SessionOver, TimedOut
from .reports import BLANKS, WS_FULL

READ_SIZE = 1 << 20
SEND_SIZE = 1 << 16
MARK_SIZE = 12
FULL_MARK = (WS_FULL + "\n" + BLANKS + "'").encode()
Program = Union[str, "os.PathLike[str]"]


def find_program() -> str:
    """The calculator: the variable APLCALC, or else the one that this package was installed with, or else the one on the PATH."""
    named = os.environ.get("APLCALC")
    if named:
        return named
    package = os.path.dirname(os.path.realpath(__file__))
    for beside in ("../../../../bin/aplcalc", "../../../aplcalc"):
        candidate = os.path.normpath(os.path.join(package, beside))
        if os.path.isfile(candidate) and os.access(candidate, os.X_OK):
            return candidate
    found = shutil.which("aplcalc")
    if found is None:
        raise ProgramMissing("aplcalc is not on the PATH, and the variable APLCALC doesn't name it")
    return found


def encoded(line: str) -> bytes:
    """The bytes of a line, which must be one."""
    if "\n" in line:
        raise InvalidLine("a line feed is in the line: send one line at a time")
    try:
        return line.encode("utf-8", "surrogateescape")
    except UnicodeEncodeError as error:
        raise InvalidLine("the line has no UTF-8: %s" % error) from error


def decoded(answer: bytes) -> str:
    return answer.decode("utf-8", "surrogateescape")


class Session:
    """Lines go in, and what each line writes comes back. One call at a time: a call during another one raises Busy."""

    def __init__(self, program: Optional[Program] = None, workers: Optional[int] = None, piece: Optional[int] = None,
                 schedule: Optional[str] = None, timeout: Optional[float] = None) -> None:
        """Starts the calculator.

        program is the calculator's path; find_program tells where it is looked for without one. workers, piece and schedule are the
        calculator's own options. timeout is how many seconds each call may take.
        """
        self.timeout = timeout
        self._turn = threading.Lock()
        self._over: Optional[str] = None
        options = [("--workers", workers), ("--piece", piece), ("--schedule", schedule)]
        words = [os.fspath(find_program() if program is None else program)]
        for option, value in options:
            words += [] if value is None else [option, str(value)]
        self._said: IO[bytes] = open(os.memfd_create("aplcalc"), "w+b")
        try:
            self._process = subprocess.Popen(words, stdin=subprocess.PIPE, stdout=subprocess.PIPE, stderr=self._said, bufsize=0)
        except OSError as error:
            self._said.close()
            raise ProgramMissing("%s can't be started: %s" % (words[0], error.strerror)) from error
        assert self._process.stdin is not None and self._process.stdout is not None
        self._stdin, self._stdout = self._process.stdin, self._process.stdout
        os.set_blocking(self._stdin.fileno(), False)

    def text(self, line: str, timeout: Optional[float] = None) -> str:
        """Exactly what a line writes, with each line end: '' for an assignment, and all lines of a report."""
        with self._call(timeout) as deadline:
            return self._ask([line], deadline)[0]

    def texts(self, lines: Iterable[str]) -> Iterator[str]:
        """What each of the lines writes, one after the other, up to a line )OFF.

        The lines are sent ahead of the answers. So the session is over where you leave the iterator before its end, and the timeout is for
        all of them together.
        """
        with self._call(None) as deadline, contextlib.closing(self._answers(map(encoded, lines), deadline)) as answers:
            for answer in answers:
                yield decoded(answer)

    @property
    def is_over(self) -> bool:
        """Whether the session is known to have ended, so that each further call raises SessionOver."""
        return self._over is not None

    def close(self) -> int:
        """Ends the session where it has not ended, and gives the calculator's exit status."""
        with self._one_at_a_time():
            self._end("the session was closed")
            return self._process.returncode

    def kill(self) -> None:
        """Ends the calculator at once, from any thread. A call that is under way raises ProgramEnded."""
        self._process.kill()

    @contextlib.contextmanager
    def _one_at_a_time(self) -> Iterator[None]:
        if not self._turn.acquire(blocking=False):
            raise Busy("another call of this calculator is under way: use one calculator for each thread, or a lock")
        try:
            yield
        finally:
            self._turn.release()

    @contextlib.contextmanager
    def _call(self, timeout: Optional[float]) -> Iterator[Optional[float]]:
        """A call's turn and its deadline. Where it is broken off, the calculator is too, since its answer would come to the next call."""
        with self._one_at_a_time():
            if self._over is not None:
                raise SessionOver(self._over)
            allowed = self.timeout if timeout is None else timeout
            yield None if allowed is None else time.monotonic() + allowed

    def _ask(self, lines: List[str], deadline: Optional[float]) -> List[str]:
        """What each of the lines writes, in one exchange."""
        with contextlib.closing(self._answers(iter([encoded(line) for line in lines]), deadline)) as answers:
            return [decoded(answer) for answer in answers]

    def _answers(self, lines: Iterator[bytes], deadline: Optional[float]) -> Generator[bytes, None, None]:
        """What each line writes. After each one a text that nobody can foresee is sent, and its own answer tells where the line's ends."""
        mark = os.urandom(MARK_SIZE).hex().encode()
        outgoing, incoming = _Outgoing(lines, mark), _Incoming(mark)
        try:
            yield from self._exchange(outgoing, incoming, deadline)
        except BaseException:
            if outgoing.pending or incoming.answered < outgoing.lines:
                self._break_off()
            raise

    def _exchange(self, outgoing: "_Outgoing", incoming: "_Incoming", deadline: Optional[float]) -> Iterator[bytes]:
        """Writes and reads at once, so that neither side waits for the other for ever."""
        with selectors.DefaultSelector() as selector:
            selector.register(self._stdout, selectors.EVENT_READ)
            if outgoing.fill():
                selector.register(self._stdin, selectors.EVENT_WRITE)
            while outgoing.pending or incoming.answered < outgoing.lines:
                for key, _ in self._ready(selector, deadline):
                    if key.fileobj is self._stdin:
                        if not self._write(outgoing):
                            selector.unregister(self._stdin)
                    elif not incoming.read(self._stdout.fileno()):
                        yield self._last_answer(incoming)
                        return
                yield from incoming.answers()

    def _ready(self, selector: selectors.BaseSelector, deadline: Optional[float]) -> List[Tuple[Any, int]]:
        """The pipes that can be used; waits for one until the deadline."""
        ready = selector.select(None if deadline is None else max(0.0, deadline - time.monotonic()))
        if not ready and deadline is not None and time.monotonic() >= deadline:
            self._over = "the session was ended, since a call took too long"
            raise TimedOut("the calculator had not answered in time, and was ended")
        return ready

    def _write(self, outgoing: "_Outgoing") -> bool:
        """Writes what the pipe takes. Whether there is more to write; where the calculator reads no more, there is not."""
        try:
            outgoing.sent(os.write(self._stdin.fileno(), outgoing.pending))
        except BrokenPipeError:
            outgoing.drop()
        return outgoing.fill()

    def _last_answer(self, incoming: "_Incoming") -> bytes:
        """What the line wrote that ended the calculator: )OFF, or else it has failed."""
        status = self._process.wait()
        if status == 0:
            self._end("the session was ended by )OFF")
            return bytes(incoming.received)
        raise ProgramEnded(status, self._end("the calculator had ended with status %d" % status))

    def _break_off(self) -> None:
        if self._over is None or self._process.poll() is None:
            self._process.kill()
            self._end(self._over or "the session was ended, since a call was broken off")

    def _end(self, reason: str) -> str:
        """Closes all that is open, waits for the calculator, and gives what it said on standard error."""
        self._over = self._over or reason
        if self._said.closed:
            return ""
        self._stdin.close()
        self._process.wait()
        self._stdout.close()
        with self._said:
            self._said.seek(0)
            return self._said.read().decode("utf-8", "replace").strip()


class _Outgoing:
    """What is still to be written: lines, each with the line of the mark after it."""

    def __init__(self, lines: Iterator[bytes], mark: bytes) -> None:
        self.pending = memoryview(b"")
        self.lines = 0
        self._rest = lines
        self._end = b"\n'" + mark + b"'\n"

    def fill(self) -> bool:
        """Takes further lines where nothing is pending. Whether there is something to write."""
        if not self.pending:
            block, size = [], 0
            for line in self._rest:
                block += [line, self._end]
                size += len(line) + len(self._end)
                if size >= SEND_SIZE:
                    break
            self.lines += len(block) // 2
            self.pending = memoryview(b"".join(block))
        return bool(self.pending)

    def sent(self, count: int) -> None:
        self.pending = self.pending[count:]

    def drop(self) -> None:
        self.pending, self._rest = memoryview(b""), iter(())


class _Incoming:
    """What was read and not yet handed on."""

    def __init__(self, mark: bytes) -> None:
        self.received = bytearray()
        self.answered = 0
        self._mark = mark
        self._searched = 0

    def read(self, descriptor: int) -> bool:
        """Whether there was anything: at the end there is not."""
        chunk = os.read(descriptor, READ_SIZE)
        self.received += chunk
        return bool(chunk)

    def answers(self) -> Iterator[bytes]:
        """The answers that are whole. Where memory is out, the mark's own answer may be a report of it."""
        while True:
            mark = self.received.find(self._mark, self._searched)
            end = self.received.find(b"\n", mark) if mark >= 0 else -1
            if end < 0:
                self._searched = mark if mark >= 0 else max(0, len(self.received) - len(self._mark))
                return
            is_report = self.received[mark - 1:mark] == b"'"
            answer = bytes(self.received[:mark - len(FULL_MARK) if is_report else mark])
            del self.received[:end + 1]
            self._searched = 0
            self.answered += 1
            yield answer
