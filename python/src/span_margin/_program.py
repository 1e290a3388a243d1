"""The program `span`: where it is, which version it has, and how it is run."""
import os
import queue
import re
import shutil
import subprocess
import threading
import time
from _thread import start_new_thread  # (in `Thread.start`, an exception of a signal handler may become a RuntimeError)
from pathlib import Path
from typing import Any, Callable, Dict, List, NamedTuple, Optional, Sequence, Tuple, TypeVar, Union, cast

from span_margin._errors import ProgramError, TimedOut

MAJOR = 1  # the major version of the programs that this package knows
SESSIONS = (1, 3)  # the first version with `span session`
OWN = Path(__file__).resolve().parent / "bin" / "span"  # in a wheel that contains the program
# In a clone, the program that `./dev prove` builds.
_CLONE = Path(__file__).resolve().parents[3] / "crates" / "span" / "out" / "span"
GRACE = 1.0  # how many seconds a process that was killed has to end
SLICE = 0.05  # how often a thread looks again at what no queue tells it
Answer = TypeVar("Answer")
_versions: Dict[Tuple[str, int, int], Tuple[int, int, int]] = {}


class Run(NamedTuple):
    """How a run of the program ended, and what it printed."""

    status: int
    stdout: bytes
    stderr: str


class Deadline:
    """When a call has to end. Without a number of seconds it never has to."""

    def __init__(self, seconds: Optional[float] = None) -> None:
        if seconds is not None and not seconds >= 0:
            raise ValueError(f"a timeout is a number of seconds, not {seconds!r}")
        self.seconds: Optional[float] = None if seconds is None or seconds > threading.TIMEOUT_MAX else seconds
        self._ends = None if self.seconds is None else time.monotonic() + self.seconds

    def left(self) -> Optional[float]:
        """How many seconds are left; None if there is no end."""
        return None if self._ends is None else max(self._ends - time.monotonic(), 0)

    def stop(self) -> None:
        """Ends the time of a call in another thread, which is not wanted any more."""
        self.seconds, self._ends = 0, time.monotonic()

    def passed(self) -> TimedOut:
        """The error of a call that took longer."""
        return TimedOut(f"span did not end within {self.seconds:g} seconds")

    def call(
        self, function: Callable[[str], Answer], path: str, check: Callable[[], None] = lambda: None,
        stop: Optional[Callable[[], None]] = None,
    ) -> Answer:
        """What a function of a file returns. A thread of its own calls it, since a dead file system may block it for ever.

        `check` is called from time to time while this waits. It raises an error if the answer is not wanted any more. `stop` is called if
        the answer is not awaited, and makes the function end soon.
        """
        answers: "queue.SimpleQueue[Tuple[Any, Optional[BaseException]]]" = queue.SimpleQueue()

        def work() -> None:
            try:
                answers.put((function(path), None))
            except BaseException as error:
                answers.put((None, error))

        start_new_thread(work, ())
        found = None
        try:
            while found is None:
                rest = self.left()
                if rest == 0:
                    raise self.passed()
                check()
                found = _wait(answers, SLICE if rest is None else min(rest, SLICE))
        finally:
            if found is None and stop:
                stop()
                _wait(answers, 2 * SLICE)
        if found[1] is not None:
            raise found[1]
        return cast(Answer, found[0])


def find(named: Union[str, "os.PathLike[str]", None] = None) -> str:
    """The path of the program: `named`, or else the first of what the environment variable SPAN names, the program in the wheel, the one in
    PATH, and the one in the clone.

    Raises ProgramError if there is none.
    """
    where = "the argument program" if named else "SPAN in the environment"
    named = named or os.environ.get("SPAN")
    if not named and os.access(OWN, os.X_OK):
        return str(OWN)
    found = shutil.which(named or "span")
    if found:
        return os.path.abspath(found)
    if named:
        raise ProgramError(f"{where} is {named}, which is not a program")
    if os.access(_CLONE, os.X_OK):
        return str(_CLONE)
    raise ProgramError("there is no program span: SPAN in the environment does not name it, and it is not in the package or in PATH")


def version(program: str, deadline: Deadline = Deadline()) -> Tuple[int, int, int]:
    """The three numbers of the version that `span --version` prints.

    Raises ProgramError if it prints another text, or a major version that this package does not know.
    """
    try:
        about = os.stat(program)
    except OSError as error:
        raise not_run(program, error) from error
    key = (program, about.st_mtime_ns, about.st_ino)
    if key not in _versions:
        _versions[key] = _read_version(program, deadline)
    return _versions[key]


def _read_version(program: str, deadline: Deadline) -> Tuple[int, int, int]:
    said = text_of(run([program, "--version"], deadline).stdout)
    found = re.match(r"span (\d+)\.(\d+)\.(\d+)\b", said)
    if not found:
        raise ProgramError(f"{program} --version did not print a version of span")
    numbers = (int(found[1]), int(found[2]), int(found[3]))
    if numbers[0] != MAJOR:
        raise ProgramError(f"{program} is version {found[0][5:]}, and this package is for version {MAJOR}")
    return numbers


def command(
    *words: str, least: Tuple[int, int] = (MAJOR, 0), program: Union[str, "os.PathLike[str]", None] = None, deadline: Deadline = Deadline()
) -> List[str]:
    """A command line of the program with these arguments. Raises ProgramError if its version is below `least`."""
    found = find(program)
    numbers = version(found, deadline)
    if numbers[:2] < least:
        have, want = ".".join(map(str, numbers)), ".".join(map(str, least))
        raise ProgramError(f"{found} is version {have}, and this call needs {want} or later")
    return [found, *words]


def run(line: Sequence[str], deadline: Deadline = Deadline()) -> Run:
    """Runs a command line, and waits for its end. If the wait ends in any other way, the process is killed.

    Raises TimedOut if the process does not end in time.
    """
    started: "List[subprocess.Popen[bytes]]" = []
    failed: List[BaseException] = []
    ready: "queue.SimpleQueue[None]" = queue.SimpleQueue()

    def start() -> None:
        try:
            pipe = subprocess.PIPE
            started.append(subprocess.Popen(line, stdin=subprocess.DEVNULL, stdout=pipe, stderr=pipe))
        except BaseException as error:
            failed.append(error)
        ready.put(None)

    try:
        # In another thread, where no signal handler raises: this thread would forget a process that began and was not returned yet.
        start_new_thread(start, ())
        ready.get()
        for error in failed:
            raise not_run(line[0], error) if isinstance(error, OSError) else error
        stdout, stderr = started[0].communicate(timeout=deadline.left())
        return Run(started[0].returncode, stdout, text_of(stderr).rstrip("\n"))
    except subprocess.TimeoutExpired:
        raise deadline.passed() from None
    finally:
        if not started and not failed:
            _wait(ready, GRACE)
        for process in started:
            _end(process)


def _wait(answers: "queue.SimpleQueue[Answer]", seconds: Optional[float]) -> Optional[Answer]:
    """The first of the answers, or None if it does not come in time."""
    try:
        return answers.get(timeout=seconds)
    except queue.Empty:
        return None


def _end(process: "subprocess.Popen[bytes]") -> None:
    """Kills a process that has not ended, and closes its pipes. A process that a dead file system keeps alive is left to a thread."""
    is_alive = process.returncode is None
    if is_alive:
        process.kill()
    for stream in (process.stdout, process.stderr):
        if stream:
            stream.close()
    if is_alive:
        try:
            process.wait(GRACE)
        except subprocess.TimeoutExpired:
            start_new_thread(process.wait, ())


def text_of(printed: bytes) -> str:
    """What the program printed, as text."""
    return printed.decode("utf-8", "replace")


def not_run(program: str, error: OSError) -> ProgramError:
    return ProgramError(f"{program} cannot be run: {error.strerror}")
