"""Files for the program: a path as it is, and bytes or rows as a file in a private temporary directory."""
import csv
import os
import re
import secrets
import select
import shutil
import stat
import tempfile
from numbers import Rational, Real
from types import TracebackType
from typing import Any, Callable, Iterable, Iterator, List, Mapping, Optional, Sequence, Sized, SupportsBytes, Tuple, Type, Union

from span_margin._amounts import Money
from span_margin._errors import LONGEST_FILE, NO_FILE, FileChangedError, FileError, SpanError
from span_margin._program import SLICE, Deadline

Row = Union[Sequence[object], Mapping[str, object]]
# What calls accept as a file: its path, its content, or its rows as tuples, dicts or a data frame.
Source = Union[str, "os.PathLike[str]", bytes, bytearray, memoryview, SupportsBytes, Iterable[Row]]

POSITION = ("account", "contract", "quantity")
ORDER = ("order", "account", "contract", "quantity")
PARAMETER: Tuple[str, ...] = ()  # records of parameters have no columns in common
_CONTENT = re.compile(r'[^\r\n]*[\r\n]|"?[A-Z0-9_-]+"?(,"?[A-Z0-9_.-]*"?){2,}\Z')
_PREFIX = 65536  # so many bytes of a parameter file are looked at here: the SET record is the first
_PART = 1 << 20  # so many bytes of a file are read at once
_SET = re.compile(r"SET,([A-Z0-9_-]{1,16}),[0-9]{1,18},([A-Z]{3})")
_QUOTED = re.compile('[",\r\n]')
_OWN_STREAMS = ("/dev/stdin", "/dev/fd/", "/proc/self/fd/")


class Inputs:
    """The files of one call, or of one session. What is not a path is written into a private directory, which `close` removes."""

    _directory: Optional[str] = None
    _count = 0
    _pid = 0

    def __init__(
        self, deadline: Deadline = Deadline(), status: Optional[int] = NO_FILE, check: Callable[[], None] = lambda: None
    ) -> None:
        """`status` is the one of an error about a file. `check` raises an error if the files are not wanted any more."""
        self.deadline, self._status, self._check = deadline, status, check
        self._pid = os.getpid()

    def __enter__(self) -> "Inputs":
        return self

    def __exit__(self, kind: Optional[Type[BaseException]], error: Optional[BaseException], trace: Optional[TracebackType]) -> None:
        self.close()

    def __del__(self) -> None:
        if self._pid == os.getpid():  # and not in a child made by a fork
            self.close()

    def close(self) -> None:
        """Removes the private directory."""
        if self._directory:
            shutil.rmtree(self._directory, ignore_errors=True)
            self._directory = None

    def place(self, name: str) -> str:
        """The path of a new file in the private directory, which only this user can read."""
        if self._directory is None:
            # (named before it is made, so that it is removed even if a signal handler raises between the two)
            self._directory = os.path.abspath(os.path.join(tempfile.gettempdir(), f"span-{secrets.token_hex(8)}"))
            os.mkdir(self._directory, 0o700)
        self._count += 1
        return os.path.join(self._directory, f"{self._count}-{name}")

    def file(self, source: Source, columns: Sequence[str], name: str) -> str:
        """The path of a file with this source. If it is in the private directory, `name` is the end of its name.

        Raises ValueError for content that is given as a str.
        """
        given = path_or_content(source, columns)
        if isinstance(given, str) and _can_be_named(given):
            return given
        return self.write(self.content(given, columns), name)

    def content(self, source: Source, columns: Sequence[str]) -> bytes:
        """The content of a source. A file is read up to its end, so that a pipe waits for a writer.

        Raises FileError if the file cannot be read, or is longer than the program accepts.
        """
        given = path_or_content(source, columns)
        if isinstance(given, bytes):
            return given
        wanted = [given]

        def is_wanted() -> bool:
            self._check()
            return bool(wanted) and self.deadline.left() != 0

        return self.deadline.call(lambda path: _read(path, is_wanted, self._status), given, self._check, wanted.clear)

    def write(self, content: bytes, name: str) -> str:
        """The path of a new file with this content."""
        path = self.place(name)
        with open(path, "wb") as file:
            file.write(content)
        return path


def path_or_content(source: Source, columns: Sequence[str]) -> Union[str, bytes]:
    """The path of a file, or its content if a source is not a path. Raises ValueError for content that is given as a str."""
    if isinstance(source, (str, os.PathLike)):
        if isinstance(source, str) and _is_content(source):
            raise ValueError(f"a str is the path of a file, and {source[:40]!r} is content: pass bytes, as text.encode(), or a path")
        return os.fspath(source)
    if isinstance(source, (bytes, bytearray, memoryview, SupportsBytes)):
        return bytes(source)
    return csv_of(source, columns)


def _is_content(text: str) -> bool:
    """Whether a text is the content of a file rather than its path: it looks like lines of CSV, and there is no such file."""
    return bool(_CONTENT.match(text)) and not os.path.lexists(text)


def _can_be_named(path: str) -> bool:
    """Whether the program can open the path. It accepts only paths in UTF-8, and does not have the file descriptors of this process."""
    try:
        path.encode()
    except UnicodeEncodeError:
        return False
    return not path.startswith(_OWN_STREAMS)


def _read(path: str, is_wanted: Callable[[], bool], status: Optional[int]) -> bytes:
    """The content of a file, as long as it is wanted. Raises FileError if it cannot be read, or is too long."""
    try:
        descriptor = os.open(path, os.O_RDONLY | os.O_NONBLOCK | os.O_CLOEXEC)
        try:
            content = b"".join(_parts(descriptor, is_wanted))
        finally:
            os.close(descriptor)
    except SpanError:
        raise
    except (OSError, ValueError) as error:
        raise FileError(f"file: {path}", status) from error
    if len(content) > LONGEST_FILE:
        raise FileError(f"file: {path}", status)
    return content


def _parts(descriptor: int, is_wanted: Callable[[], bool]) -> Iterator[bytes]:
    """What can be read, up to the end of the file or one byte more than the program accepts.

    It waits neither for the writer of a pipe nor in `read`: a reader that was left behind there would take what a later writer writes for
    a later reader.
    """
    ready, rest = select.poll(), LONGEST_FILE + 1
    ready.register(descriptor, select.POLLIN)
    while rest:
        # (A pipe is not ready before a writer has opened it. When all writers have closed it, it is ready, and at its end.)
        is_ready = ready.poll(SLICE * 1000)
        if not is_wanted():
            break
        try:
            part = os.read(descriptor, min(rest, _PART)) if is_ready else None
        except BlockingIOError:  # another reader was faster
            continue
        if part == b"":
            break
        if part:
            rest -= len(part)
            yield part


def set_record(path: str) -> Optional[Tuple[str, str]]:
    """The id and the currency of the SET record of a regular file, or None. It never waits for a pipe, and opens none."""
    try:
        if not stat.S_ISREG(os.stat(path).st_mode):
            return None
        with open(os.open(path, os.O_RDONLY | os.O_NONBLOCK | os.O_CLOEXEC), "rb") as file:
            prefix = file.read(_PREFIX) if stat.S_ISREG(os.fstat(file.fileno()).st_mode) else b""
    except (OSError, ValueError):
        return None
    return set_record_in(prefix)


def set_record_in(content: bytes) -> Optional[Tuple[str, str]]:
    """The id and the currency of the first record of a parameter file with this content, or with this beginning; or None."""
    prefix = content[:_PREFIX]
    begin = prefix[3:] if prefix.startswith(b"\xef\xbb\xbf") else prefix
    line, end, _ = begin.lstrip(b"\r\n").replace(b"\r", b"\n").partition(b"\n")
    if not end and len(prefix) == _PREFIX:
        return None
    try:
        fields = next(csv.reader([line.decode("ascii"), "?"]))  # (which ends no record, unless a quote is open)
    except (ValueError, StopIteration, csv.Error):
        return None
    found = _SET.fullmatch(",".join(fields))
    return (found[1], found[2]) if found and len(fields) == 4 else None


class SetFile:
    """A parameter file, and the id and the currency of its SET record before the program read it; None if it is not a regular file."""

    def __init__(self, path: str, digits: Optional[int], deadline: Deadline) -> None:
        self.path, self._digits, self._deadline = path, digits, deadline
        self._before = deadline.call(set_record, path)

    @property
    def set_id(self) -> Optional[str]:
        return self._before and self._before[0]

    @property
    def money(self) -> Money:
        """The currency of amounts under the set."""
        return Money(self._before and self._before[1], self._digits)

    def has_still(self, set_id: Optional[str]) -> bool:
        """Whether the set in the file is the one that it was before, with this id, which the program printed. None: it printed none."""
        if self._before is None:
            return True
        now = set_record(self.path) or self._before
        return now == self._before and set_id in (None, now[0])

    def check(self, set_id: Optional[str]) -> None:
        """Raises FileChangedError if the file does not have this set any more, or did not have it before."""
        if not self._deadline.call(lambda _: self.has_still(set_id), self.path):
            raise FileChangedError(self.path)


def replace(path: Union[str, "os.PathLike[str]"], content: bytes) -> None:
    """Writes a file under another name in the same directory, and then renames it."""
    target = os.path.realpath(path)
    if os.path.lexists(target) and not os.path.isfile(target):
        raise ValueError(f"{os.fspath(path)!r} exists, and is not a file")
    draft = os.path.join(os.path.dirname(target), f".span-{secrets.token_hex(8)}")
    try:
        with open(draft, "xb") as file:
            file.write(content)
            file.flush()
            os.fsync(file.fileno())
        os.replace(draft, target)
    except BaseException:
        if os.path.exists(draft):
            os.remove(draft)
        raise


def need_legs(legs: Sized) -> None:
    """Raises ValueError if an order or a fill has no legs."""
    if not legs:
        raise ValueError("an order needs at least one leg, such as {\"CLZ5\": 1}")


def csv_of(rows: Any, columns: Sequence[str]) -> bytes:
    """Rows as a CSV file. Only the columns are checked here. The program checks their content."""
    lines = []
    for number, row in enumerate(_fields(rows, columns), 1):
        if not row and columns is ORDER:
            raise ValueError(f"order row {number} is empty")
        _need_no_float(number, columns, row)
        # (a record with one empty field is not an empty line)
        lines.append(",".join(map(_field, row)) or '""')
    return "".join(f"{line}\r\n" for line in lines).encode("utf-8", "surrogatepass")


def _field(value: object) -> str:
    """A field of a CSV file. (The module csv of Python 3.10 writes no NUL, which the program rejects like other bytes.)"""
    text = "" if value is None else str(value)
    return '"' + text.replace('"', '""') + '"' if _QUOTED.search(text) else text


def _fields(rows: Any, columns: Sequence[str]) -> Iterator[Sequence[object]]:
    """The fields of each row. Rows are sequences, dicts with these columns, or a data frame with these columns."""
    if hasattr(rows, "columns"):
        _need(columns, rows.columns)
        yield from zip(*(rows[column] for column in columns))
        return
    for row in rows:
        if isinstance(row, Mapping):
            _need(columns, row)
            yield [row[column] for column in columns]
        elif isinstance(row, (str, bytes)):
            raise TypeError(f"a row is a sequence of fields or a dict, not {row!r}")
        else:
            yield list(row)


def _need_no_float(number: int, columns: Sequence[str], row: Iterable[object]) -> None:
    """Raises TypeError if a field of a row is a float, of Python or of numpy. Its text would have a point, which no field may have."""
    for column, value in zip(columns, row):
        if not isinstance(value, (str, int)) and isinstance(value, Real) and not isinstance(value, Rational):
            raise TypeError(
                f"row {number}: {column} is a float, {value}; give text or a whole number (a column of a data frame has floats if a value "
                'is missing: read it with dtype=str or dtype="Int64")')


def _need(columns: Sequence[str], there: Iterable[str]) -> None:
    """Raises an error if one of the columns is missing."""
    if not columns:
        raise TypeError("a record of parameters is a sequence of fields: records have no columns in common")
    names: List[str] = list(there)
    missing = [column for column in columns if column not in names]
    if missing:
        raise ValueError(f"there is no column {missing[0]}: the columns are {', '.join(columns)}")
