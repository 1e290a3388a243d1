"""Errors: a fault line of the program and its parts, as an exception."""
import errno
import os
import re
import signal
import stat
from typing import Any, Dict, Optional, Tuple, Type

_FAULT = re.compile(
    r"(?P<file>(?:next )?(?:parameters|positions|orders|request|book|workers)): (?P<code>[A-Z]\d+) (?P<name>\w+)"
    r"(?: at record (?P<record>\d+)| at field (?P<field>\d+))?"
    r"(?: account (?P<account>[!-~]+))?(?: order (?P<order>[!-~]+))?(?: contract (?P<contract>[!-~]+))?"
)
_FIRST_PAIR = {"TRY": 3, "FILL": 2}
LONGEST_FILE = 67108864  # bytes of a file that the program reads
NO_FILE = 6  # the status of the program if a file cannot be read
_OF_SYSTEM = ("errno", "strerror", "filename")  # what an OSError has outside of its `__dict__`


class SpanError(Exception):
    """What the program rejected, or why it could not be run. In the text of an error, characters that cannot be shown are escapes.

    line      what the program printed, without the line end
    status    its exit status; None if a session rejected one request and goes on
    file      what has the fault: parameters, next parameters, positions, next positions, orders, request; None if nothing is named
    code      the code of the fault, such as B1
    name      its name, such as UnknownContract
    record    the number of the record, from 1; None in a session
    field     of a request: the number of the field, from 1, or 0 for the whole request
    account, order, contract    what the line names, or what the request named
    """

    def __init__(self, line: str, status: Optional[int] = None) -> None:
        Exception.__init__(self, line, status)  # and not OSError.__init__, to which a pair is errno and strerror
        self.line = line
        self.status = status
        self.file: Optional[str] = None
        self.code: Optional[str] = None
        self.name: Optional[str] = None
        self.record: Optional[int] = None
        self.field: Optional[int] = None
        self.account: Optional[str] = None
        self.order: Optional[str] = None
        self.contract: Optional[str] = None
        fault = match_fault(line)
        if fault:
            self.file, self.code, self.name = fault["file"], fault["code"], fault["name"]
            self.record, self.field = number_of(fault["record"]), number_of(fault["field"])
            self.account, self.order, self.contract = fault["account"], fault["order"], fault["contract"]

    def __str__(self) -> str:
        return visible(self._text())

    def _text(self) -> str:
        """What the text of the error is made of."""
        return self.line

    def __reduce__(self) -> Tuple[Any, ...]:
        return _again, (type(self), self.args, self._state())

    def _state(self) -> Dict[str, Any]:
        """The attributes that a copy has."""
        names = _OF_SYSTEM if isinstance(self, OSError) else ()
        return {**vars(self), **{name: getattr(self, name) for name in names}}


def _again(kind: Type[SpanError], args: Tuple[Any, ...], state: Dict[str, Any]) -> SpanError:
    """An error that was pickled or copied. Nothing is found out again, such as why a file cannot be read."""
    error: SpanError = (OSError if issubclass(kind, OSError) else Exception).__new__(kind)
    error.args = args
    for name, value in state.items():
        setattr(error, name, value)
    return error


class UsageError(SpanError):
    """Status 2: the program does not accept an argument, such as a number of workers over 16 or an account that is not a name.

    `line` is all that the program printed. The text of the error is its first line.
    """

    def _text(self) -> str:
        return self.line.partition("\n")[0]


class ParametersError(SpanError):
    """Status 3: the parameter file is rejected."""


class PositionsError(SpanError):
    """Status 4: the position file or the order file is rejected, or it lacks the account that was asked for."""


class OutOfMemoryError(SpanError, MemoryError):
    """Status 5: the program ran out of memory. It is a MemoryError."""


class FileError(SpanError, OSError):
    """Status 6: a file cannot be read. It is an OSError.

    filename  the name of the file
    reason    why the operating system cannot open it, such as "No such file or directory"; None if it can
    errno, strerror    the number of the reason, such as errno.ENOENT, and the reason; None if there is no reason
    """

    def __init__(self, line: str, status: Optional[int] = None) -> None:
        super().__init__(line, status)
        self.filename: str = line[len("file: ") :]
        self.errno, self.strerror = why_not_readable(self.filename)  # type: ignore[assignment]
        self.reason: Optional[str] = self.strerror

    def _text(self) -> str:
        return f"{self.line}: {self.reason}" if self.reason else self.line


class RollError(SpanError):
    """Status 7: an internal error of a roll, which is not expected. The files are not at fault."""


class RequestError(SpanError):
    """A session rejected a request, which changed nothing. The session goes on.

    request   the request, such as `FILL,RIVER-01,CLX5,10`
    """

    def __init__(self, line: str, status: Optional[int] = None, request: str = "") -> None:
        super().__init__(line, status)
        self.request = request
        fields = request.split(",")
        first = _FIRST_PAIR.get(fields[0], 2)  # the index of the first contract
        self.account = fields[first - 1] if len(fields) >= first else None
        self.order = fields[1] if fields[0] == "TRY" else None
        at = (self.field or 0) - 1
        if first <= at < len(fields):
            self.contract = fields[at - (at - first) % 2]

    def _text(self) -> str:
        fields = self.request.split(",")
        return f"{self.line}: {fields[self.field - 1]}" if self.field and self.field <= len(fields) else self.line


class SessionEnded(SpanError, ConnectionError):
    """The session has ended, or was closed; then `status` is None. `line` is what it printed on standard error, which may be nothing. It
    is a ConnectionError."""

    def _text(self) -> str:
        if self.status is None:
            return "the session is closed"
        return f"the session ended {how(self.status)}" + (f": {self.line}" if self.line else "")


class ProgramError(SpanError):
    """There is no program, it has another version, a signal ended it, or this package cannot read what it printed."""


class TimedOut(SpanError, TimeoutError):
    """A call took longer than its timeout. The program of a command was killed. It is a TimeoutError.

    request   the request of a session whose answer was not awaited; None for a command
    sent      whether the program may have carried it out
    """

    def __init__(self, line: str, request: Optional[str] = None, sent: bool = True) -> None:
        super().__init__(line)
        self.request = request
        self.sent = sent
        self._left: Any = None  # what knows the outcome of a request

    def outcome(self, timeout: Optional[float] = 0) -> Any:
        """What became of a request of a session. None for a command, and for an error that was pickled or copied."""
        return None if self._left is None else self._left.outcome(timeout)

    def _state(self) -> Dict[str, Any]:
        return {**super()._state(), "_left": None}


class FileChangedError(SpanError):
    """The parameter file was replaced while the program ran, so the currency of the result is not known. Sessions do not raise it.

    filename   the name of the file
    """

    def __init__(self, filename: str) -> None:
        super().__init__(f"{filename} was replaced while span read it")
        self.args = (filename,)
        self.filename = filename


class CurrencyError(SpanError, TypeError):
    """Amounts in two currencies were added, subtracted or compared. It is a TypeError."""


_OF_STATUS: Dict[int, Type[SpanError]] = {
    2: UsageError,
    3: ParametersError,
    4: PositionsError,
    5: OutOfMemoryError,
    NO_FILE: FileError,
    7: RollError,
}
_OF_FRONT: Dict[str, Type[SpanError]] = {
    "parameters": ParametersError,
    "positions": PositionsError,
    "memory": OutOfMemoryError,
    "file": FileError,
}


def match_fault(line: str) -> Optional["re.Match[str]"]:
    """The parts of a fault line, or None if the line is not one."""
    return _FAULT.fullmatch(line)


def visible(text: str) -> str:
    """A text with escapes such as \\x1b for the characters that cannot be shown, so that a name in it controls no terminal and no log."""
    return text if text.isprintable() else "".join(it if it.isprintable() else ascii(it)[1:-1] for it in text)


def number_of(digits: Optional[str]) -> Optional[int]:
    return None if digits is None else int(digits)


def why_not_readable(name: str) -> Tuple[Optional[int], Optional[str]]:
    """Why a file cannot be read, as the number and the words of the operating system. Both are None if it can be read."""
    try:
        descriptor = os.open(name, os.O_RDONLY | os.O_NONBLOCK | os.O_CLOEXEC)
    except OSError as error:
        return error.errno, error.strerror
    except ValueError as error:
        return errno.EINVAL, str(error)
    try:
        about = os.fstat(descriptor)
        if stat.S_ISDIR(about.st_mode):
            return errno.EISDIR, os.strerror(errno.EISDIR)
        if stat.S_ISREG(about.st_mode) and about.st_size > LONGEST_FILE:
            return errno.EFBIG, f"longer than {LONGEST_FILE} bytes"
        return None, None
    finally:
        os.close(descriptor)


def error_of_status(status: int, line: str) -> SpanError:
    """The error of a run that ended with this status, which is not 0, and printed this line on standard error."""
    return _OF_STATUS.get(status, ProgramError)(line or f"span ended {how(status)}", status)


def error_of_request(what: str, request: str) -> SpanError:
    """The error of a request that a session rejected: `what` is the rest of its line."""
    kind = _OF_FRONT.get(what.split(":")[0])
    return kind(what) if kind else RequestError(what, request=request)


def how(status: int) -> str:
    """How a process ended. A negative status means that a signal ended it."""
    if status >= 0:
        return f"with status {status}"
    try:
        return f"by signal {signal.Signals(-status).name}"
    except ValueError:
        return f"by signal {-status}"
