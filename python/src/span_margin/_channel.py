"""The process of a session, and the thread that writes its requests and reads its answers.

Python runs signal handlers in the main thread, so a handler that raises (Ctrl-C, a deadline) interrupts callers, and never the thread of a
channel. A caller that is interrupted inside of a lock may keep it for ever. So the thread shares no lock with callers, which
`Condition`, `Event`, `Future` and `queue.Queue` have: only `queue.SimpleQueue`, and single operations on dicts and attributes, which no
other thread sees half done. The thread and the process are started without `threading.Thread`, which has an `Event`.
"""
import _thread
import os
import re
import select
import signal
import subprocess
import tempfile
import time
import weakref
from queue import Empty, SimpleQueue
from collections import deque
from typing import IO, Callable, Deque, Dict, List, NamedTuple, Optional, Sequence, Union, cast

from span_margin._amounts import UNKNOWN, Money
from span_margin._errors import SessionEnded, SpanError, error_of_status
from span_margin._program import SLICE, Deadline, not_run, text_of

CHUNK = 1 << 16  # at most so many bytes are read at once, which is what a pipe holds
PATIENCE = 10.0  # how many seconds a process has to end after the end of its input
LAST = re.compile(rb"(?:done|refused),([0-9]{1,20})[,\n]")  # how the last line of an answer begins
ENDS = re.compile(rb"\n" + LAST.pattern)
LINE_END = ord("\n")
LONGEST_LAST = 8192  # bytes; a rejection may have the name of a file
OF_ONE, OF_ALL = 1 << 24, 1 << 28  # bytes; no answer about one account is longer, or about all accounts
KEYS = 100000  # so many fills with keys are kept
NO_MEMORY = "memory"  # why a request is refused that may be sent again
MANY, PAUSE = 64, 0.0005  # after each read, how many missing answers are worth how many seconds, so that few reads take them all
CHANNEL, CALLER = "channel", "caller"  # who has claimed a request


class Expected(NamedTuple):
    """The answer that a request must have.

    last     how its last line begins, up to the id of the parameter set in use
    others   how each other line begins up to there, after the end of the line before it; None: in any way
    empty    whether it may have no line
    of_set   whether lines have the id of the set
    most     how many bytes it may have
    """

    last: bytes
    others: Optional[Sequence[bytes]] = ()
    empty: bool = False
    of_set: bool = True
    most: int = OF_ONE

    def fits(self, printed: bytes, begin: int, end: int, set_id: bytes) -> bool:
        """Whether the lines in this range are as expected. Before the range there is the end of a line."""
        if begin == end:
            return self.empty
        last = printed.rfind(b"\n", begin - 1, end - 1)  # the end of the line before the last one
        rest = set_id + b"," if self.of_set else b""
        if printed[end - 1] != LINE_END or not printed.startswith(self.last + rest, last + 1):
            return False
        if self.others is None:
            return True
        lines = printed.count(b"\n", begin, last + 1)
        for front in self.others:
            if not lines:
                break
            lines -= printed.count(front + rest, begin - 1, last)
        return not lines


class OfAnyAccounts(Expected):
    """R and T lines. The last one is a T line."""

    def fits(self, printed: bytes, begin: int, end: int, set_id: bytes) -> bool:
        line = re.compile(rb"\n(?:R|(T)),[^,\n]*,%b,[^\n]*(?=\n)" % re.escape(set_id))
        found, at = None, begin - 1
        while at < end - 1:
            found = line.match(printed, at, end)
            if not found:
                return False
            at = found.end()
        return found is None or found[1] is not None


class InUse(NamedTuple):
    """A parameter set: its id, the currency of amounts under it, and the content of its file. The id of one that was not read yet is
    empty if the package cannot read it in the file."""

    set: str = ""
    money: Money = UNKNOWN
    content: bytes = b""


class Key(NamedTuple):
    """The key of a fill, and the fill in a form that does not depend on the order of its legs."""

    name: str
    fill: str


class First(NamedTuple):
    """A fill that has a key, and what became of it."""

    fill: str
    answers: List[bytes]
    refused: Dict[int, str]
    set: str
    money: Money


class Request:
    """Lines for the program with their ends, what their answers must be, and what became of them.

    lines, expected    the lines with their ends, and the answer of each
    used               the parameter set that is used if the request is accepted
    finish             is called when the request needs its files no longer
    key                the key of a fill, which is carried out once
    wake               is called by the thread of the channel when the request is complete, if `wait` is not used
    answers, refused   the lines of each answer without the last one; and why an answer, by its index, has none
    differs            whether the key is the one of another fill
    set, money         the id and the currency of the parameter set in use
    content            the content of its file, if `keeps_content` is set
    end                why the session ended before the answers were complete
    """

    wake: Optional[Callable[[], None]] = None
    refused: Dict[int, str] = {}
    set, money, content = "", UNKNOWN, b""
    end: Optional["End"] = None
    complete = drops = differs = keeps_content = False

    def __init__(
        self,
        lines: Sequence[str],
        expected: Sequence[Expected],
        used: Optional[InUse] = None,
        finish: Optional[Callable[[], None]] = None,
        key: Optional[Key] = None,
    ) -> None:
        self.lines, self.expected, self.used, self.finish, self.key = lines, expected, used, finish, key
        self.answers: List[bytes] = []
        self._woken: "SimpleQueue[None]" = SimpleQueue()
        self._claim: Dict[None, str] = {}

    def claim(self, owner: str) -> bool:
        """Whether the request belongs to this owner: the channel sends it, the caller withdraws it. The first call decides."""
        return self._claim.setdefault(None, owner) == owner

    @property
    def sent(self) -> bool:
        """Whether the channel has taken the request."""
        return self._claim.get(None) == CHANNEL

    def leave(self, drop: bool) -> None:
        """Withdraws the request if the channel has not taken it. Otherwise drops its answers, or keeps them for `Session.left`."""
        self.drops = drop
        if self.claim(CALLER) and self.finish:
            self.finish()

    def wait(self, deadline: Deadline, most: Optional[float] = None) -> bool:
        """Waits until the request is complete or its time is up. Looks again after `most` seconds at the latest."""
        while not self.complete:
            rest = deadline.left()
            if rest == 0:
                return False
            if most is not None:
                rest = most if rest is None else min(most, rest)
            try:
                self._woken.get(timeout=rest)
            except Empty:
                pass
        return True

    def close(self, end: Optional["End"] = None) -> None:
        """Completes the request. The thread of the channel calls it."""
        if self.complete:
            return
        self.end = end
        try:
            if self.finish:
                self.finish()
        except OSError:
            pass  # a temporary file could not be removed
        self.complete = True
        if self.wake:
            self.wake()
        else:
            self._woken.put(None)


class End(NamedTuple):
    """Why a session has ended: what it said, and the status of its process, or None if it was closed."""

    line: str = ""
    status: Optional[int] = None
    error: Optional[SpanError] = None  # in place of SessionEnded

    def of_call(self) -> SpanError:
        """The error of a call."""
        return SessionEnded(self.line, self.status)

    def of_opening(self) -> SpanError:
        """The error of the opening."""
        if self.error or self.status is None:
            return self.error or self.of_call()
        return error_of_status(self.status, self.line)


class Mismatch(Exception):
    """The program printed what is no answer to its request."""


class Pipes:
    """The pipes of a process: requests go in, and answers come out. Only the thread of the channel uses them."""

    def __init__(self, process: "subprocess.Popen[bytes]") -> None:
        self._stdin, self._stdout = cast(IO[bytes], process.stdin).fileno(), cast(IO[bytes], process.stdout).fileno()
        os.set_blocking(self._stdin, False)
        self._both = select.poll()
        self._both.register(self._stdin, select.POLLOUT)
        self._both.register(self._stdout, select.POLLIN)

    def exchange(self, data: bytes, first: int, last: int, most: int) -> bytes:
        """Writes requests with these numbers and reads their answers, both at the same time. Returns the answers, after the end of a line.

        Raises EOFError if the process ends before, and Mismatch if `most` bytes have no end of an answer.
        """
        rest = self._write(data)
        parts, end = [b"\n"], b"\ndone,%d\n" % last
        tail, number = b"\n", first - 1  # the end of what was read, and the number of the last answer in it
        newest, since = number, 0  # the number of an answer whose end was seen, and how much was read since
        while number < last:
            if rest and all(descriptor != self._stdout for descriptor, _ in self._both.poll()):
                rest = self._write(rest)
                continue
            printed = os.read(self._stdout, CHUNK)
            if not printed:
                raise EOFError
            parts.append(printed)
            if printed.endswith(end):
                break
            seen, since = tail + printed, since + len(printed)
            tail = seen[-LONGEST_LAST:]
            if since > most // 2:
                numbers = [int(it) for it in ENDS.findall(seen)[-1:]]
                if numbers and newest < numbers[0] <= last:
                    newest, since = numbers[0], 0
            if since > most:
                raise Mismatch(f"the session printed {since} bytes without the end of an answer")
            if printed.endswith(b"\n"):
                found = LAST.match(tail, tail.rfind(b"\n", 0, -1) + 1)
                number = int(found[1]) if found else number
                if last - number > MANY:
                    time.sleep(PAUSE)
        return b"".join(parts)

    def _write(self, data: Union[bytes, memoryview]) -> Union[bytes, memoryview]:
        """Writes what the pipe takes now. Returns the rest."""
        try:
            written = os.write(self._stdin, data)
            while written < len(data):
                data = memoryview(data)[written:]
                written = os.write(self._stdin, data)
        except BlockingIOError:
            return data
        except BrokenPipeError:
            pass  # the end of the answers will tell that the process has ended
        return b""


class Channel:
    """A session of the program. Any number of threads may use it. It answers one request after the other."""

    def __init__(self, command: Sequence[str], opening: Request) -> None:
        self.used = InUse()
        self.end: Optional[End] = None
        self.closing = False  # `close` was called
        self._busy = True  # a request is being answered
        self.command = command
        self._pid = os.getpid()
        self._requests: "SimpleQueue[Optional[Request]]" = SimpleQueue()  # None ends the session
        self._ended: "SimpleQueue[None]" = SimpleQueue()
        self._opening = self._current = opening
        self._number = 0  # of the next answer
        self._first: Dict[str, First] = {}  # the fills that have keys, by their keys
        self._keys: Deque[str] = deque()  # the keys, the oldest first
        self._process: Optional["subprocess.Popen[bytes]"] = None
        self._errors: Optional[IO[bytes]] = None
        _channels.add(self)

    # --- For callers ---

    def start(self) -> None:
        """Starts the thread, which starts the process. The request of the opening is complete when the session is open, or has ended."""
        if self._opening.claim(CHANNEL):
            _thread.start_new_thread(self._run, ())

    def put(self, request: Request) -> None:
        """Sends a request. It is complete when its answers are there. Raises an error if the session has ended."""
        self.check()
        if not request.lines:
            request.close()
            return
        self._requests.put(request)
        if self.end and not request.complete:  # perhaps the thread does not take it any more
            raise self.end.of_call()

    def check(self) -> None:
        """Raises an error if the session has ended."""
        if self._pid != os.getpid():
            raise SessionEnded("a session can be used only in the process that opened it")
        if self.closing or self.end:
            raise (self.end or End()).of_call()

    def close(self, wait: bool = True, kill: bool = False) -> None:
        """Ends the session and its process at once. Requests that are not answered end with SessionEnded. A process that is idle ends by
        itself, unless `kill` is set."""
        if self._pid != os.getpid():
            return
        self.closing = True
        self._requests.put(None)
        if (self._busy or kill) and self.is_alive() and self._process:
            _kill(self._process)
        latest = time.monotonic() + PATIENCE + 2
        while wait and self._opening.sent and not self.end and time.monotonic() < latest:
            try:
                self._ended.get(timeout=SLICE)
            except Empty:
                pass

    def is_alive(self) -> bool:
        """Whether the process of the session lives, in this process."""
        if self.end or not self._process or self._pid != os.getpid():
            return False
        try:
            return os.waitid(os.P_PID, self._process.pid, os.WEXITED | os.WNOHANG | os.WNOWAIT) is None
        except ChildProcessError:
            return False

    # --- The thread ---

    def _run(self) -> None:
        """Answers requests until the session ends, and ends all others with the same error."""
        end = End()
        try:
            end = self._serve()
        except BaseException as error:  # such as out of memory: no caller may wait for ever
            end = End(f"{type(error).__name__}: {error}", 1)
        finally:
            self.end = End() if self.closing else end
            self._current.close(self.end)
            self._drain(self.end)
            self._ended.put(None)

    def _serve(self) -> End:
        """Runs the process until it or the session ends. Returns why."""
        self._errors = tempfile.TemporaryFile(buffering=0)
        try:
            # (in a process group of its own, so that Ctrl-C in a terminal does not end the session)
            process = self._process = subprocess.Popen(
                self.command, bufsize=0, stdin=subprocess.PIPE, stdout=subprocess.PIPE, stderr=self._errors, start_new_session=True
            )
        except OSError as error:
            return End(error=not_run(self.command[0], error))
        # (after the start of the process, which would inherit this) Signals reach only threads whose wait they may interrupt.
        signal.pthread_sigmask(signal.SIG_BLOCK, signal.valid_signals())
        said = ""
        try:
            self._answer_all(Pipes(process))
        except EOFError:
            pass
        except Mismatch as error:
            said = str(error)
            _kill(process)
        finally:
            if self.closing and self._busy:
                _kill(process)
            status = _stop(process)
        with self._errors as file:
            file.seek(0)
            return End(said or text_of(file.read()).rstrip("\n"), status)

    def _answer_all(self, pipes: Pipes) -> None:
        """Reads the answer of the opening, and sends all requests, one after the other, until the session is closed."""
        request: Optional[Request] = self._opening
        while request:
            self._current = request
            if request is self._opening or request.claim(CHANNEL):
                # (`close` sets `closing` and looks at `_busy`. Here it is the other way round, so that one of them sees the other's.)
                self._busy = True
                if self.closing:
                    return
                self._answer_once(request, pipes)
                self._busy = False
            request.close()
            request = self._requests.get()

    def _answer_once(self, request: Request, pipes: Pipes) -> None:
        """Answers a request. A fill with the key of an earlier one gets its answer, and is not sent."""
        key = request.key
        first = self._first.get(key.name) if key else None
        if not first:
            self._answer(request, pipes)
            if key and request.refused.get(0) != NO_MEMORY:
                self._first[key.name] = First(key.fill, request.answers, request.refused, request.set, request.money)
                self._keys.append(key.name)
                if len(self._keys) > KEYS:
                    del self._first[self._keys.popleft()]
        elif key and first.fill == key.fill:
            _, request.answers, request.refused, request.set, request.money = first
        else:
            request.differs = True

    def _answer(self, request: Request, pipes: Pipes) -> None:
        """Sends a request, and reads, checks and adds its answers. Raises Mismatch if something else was printed."""
        first, begin, set_id = self._number, 1, self.used.set.encode("utf-8", "replace")
        self._number += len(request.lines)
        most = max(it.most for it in request.expected)
        printed = pipes.exchange("".join(request.lines).encode("utf-8", "surrogatepass"), first, self._number - 1, most)
        for at, expected in enumerate(request.expected):
            done = b"done,%d\n" % (first + at)
            end = printed.find(done, begin)
            if end >= begin and expected.fits(printed, begin, end, set_id):
                request.answers.append(b"" if request.drops else printed[begin:end])
                begin = end + len(done)
            else:
                begin = self._refusal(request, at, printed, begin)
        if begin != len(printed):
            raise Mismatch(f"the session printed more than its answers: {text_of(printed[begin : begin + 100])!r}")
        if request.used and not request.refused:
            self.used = request.used._replace(set=text_of(request.answers[0]).split(",")[1])
        request.set, request.money = self.used.set, self.used.money
        if request.keeps_content:
            request.content = self.used.content

    def _refusal(self, request: Request, at: int, printed: bytes, begin: int) -> int:
        """Adds a rejection, which begins here. Returns its end."""
        number = self._number - len(request.lines) + at
        front = b"refused,%d," % number
        if not printed.startswith(front, begin):
            of = request.lines[at].rstrip("\n") or "the opening"
            raise Mismatch(f"the session answered {text_of(printed[begin : begin + 200])!r} to request {number}, {of}")
        end = printed.index(b"\n", begin)
        request.refused = request.refused or {}
        request.refused[at] = text_of(printed[begin + len(front) : end])
        request.answers.append(b"")
        return end + 1

    def _drain(self, end: End) -> None:
        """Ends all requests that nobody will send."""
        while True:
            try:
                request = self._requests.get_nowait()
            except Empty:
                return
            if request:
                request.close(end)

    def forget(self) -> None:
        """In a child made by a fork: closes its copies of the pipes, so that the session of the parent can end."""
        process = self._process
        for file in (self._errors, process and process.stdin, process and process.stdout):
            if file:
                file.close()


def _stop(process: "subprocess.Popen[bytes]") -> int:
    """Closes both pipes and waits for the process to end. Kills it if it is stopped, or does not end in time. Returns its status."""
    for file in (process.stdin, process.stdout):
        cast(IO[bytes], file).close()
    latest = time.monotonic() + PATIENCE
    while time.monotonic() < latest and not _is_stopped(process):
        try:
            return process.wait(SLICE)
        except subprocess.TimeoutExpired:
            pass
    _kill(process)
    return process.wait()


def _is_stopped(process: "subprocess.Popen[bytes]") -> bool:
    """Whether a signal has stopped a process, so that it does not see the end of its input."""
    try:
        return os.waitid(os.P_PID, process.pid, os.WSTOPPED | os.WNOHANG | os.WNOWAIT) is not None
    except ChildProcessError:
        return False


def _kill(process: "subprocess.Popen[bytes]") -> None:
    """Kills a process and those that it has started, as a script does that runs the program. Takes no lock of `process`."""
    try:
        os.killpg(process.pid, signal.SIGKILL)
    except OSError:
        pass  # it has ended


_channels: "weakref.WeakSet[Channel]" = weakref.WeakSet()


def _forget_all() -> None:
    for channel in list(_channels):
        channel.forget()


os.register_at_fork(after_in_child=_forget_all)
