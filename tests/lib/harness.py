"""Shared code of the test suites in Python: counting checks, running commands, and small disks.

A suite is a script `tests/NAME PROGRAM`. It makes one `Suite`, runs its tests with `test`, `single` or `concurrently`, and ends with
`sys.exit(suite.result())`, which prints `N passed, M failed` as the last line.
"""
import contextlib
import io
import multiprocessing
import os
import pathlib
import re
import shutil
import signal
import subprocess
import sys
import tempfile
import time
import traceback
from concurrent.futures import ProcessPoolExecutor
from typing import Any, Callable, Dict, Iterator, List, NamedTuple, NoReturn, Sequence, Tuple

LIB = pathlib.Path(__file__).resolve().parent
ROOT = LIB.parent.parent
TIMEOUT = 120  # seconds that one command may take


def leave(*_: object) -> NoReturn:
    """Ends the suite with status 2 on HUP, INT and TERM. Temporary files are removed, and another signal does not stop that."""
    for number in (signal.SIGHUP, signal.SIGINT, signal.SIGTERM):
        signal.signal(number, signal.SIG_IGN)
    sys.exit(2)


# A command inherits ignored signals, such as HUP under nohup, and a shell cannot catch these. It does not inherit handlers.
for each in (signal.SIGHUP, signal.SIGINT, signal.SIGTERM):
    signal.signal(each, leave)
if signal.getsignal(signal.SIGQUIT) == signal.SIG_IGN:
    signal.signal(signal.SIGQUIT, signal.SIG_DFL)


class Answer(NamedTuple):
    """The exit status of a command and its output. A signal N gives the status -N."""

    status: int
    stdout: bytes
    stderr: bytes


class Skipped(Exception):
    """Raised by a test that cannot run on this machine. Its text says what is missing."""


class Suite:
    """Counts the checks of a suite and prints each one that fails."""

    def __init__(self) -> None:
        self.passed, self.failed, self.skipped = 0, 0, 0

    def check(self, name: str, holds: object, found: object = "") -> None:
        """Counts one check. `found` is printed if it does not hold."""
        if holds:
            self.passed += 1
        else:
            self.failed += 1
            print(f"FAILED: {name}" + (f": {found}" if found != "" else ""), flush=True)

    def equal(self, name: str, found: object, expected: object) -> None:
        """Checks that two values are equal, and prints both if they are not."""
        self.check(name, found == expected, f"{shown(found)}, expected {shown(expected)}")

    def test(self, function: Callable[..., None], *arguments: Any) -> None:
        """Runs one test. An exception that leaves it is one failed check. `Skipped` is counted separately."""
        self.ends(function.__name__, function, self, *arguments)

    def single(self, name: str, function: Callable[..., None], *arguments: Any, **named: Any) -> None:
        """Runs one test that is a single check: it holds if no exception leaves the function."""
        if self.ends(name, function, *arguments, **named):
            self.passed += 1

    def ends(self, name: str, function: Callable[..., None], *arguments: Any, **named: Any) -> bool:
        """Runs a function, counts an exception that leaves it, and returns whether there was none."""
        try:
            found = failure(function, *arguments, **named)
        except Skipped as reason:
            self.skipped += 1
            print(f"SKIPPED: {name}: {reason}", flush=True)
            return False
        if found:
            self.check(name, False, found)
        return not found

    def concurrently(self, tests: Sequence[Tuple[Any, ...]], by: str = "single") -> List[int]:
        """Runs tests in processes of their own, one for each processor. Each is given by the arguments of `single`, or of the method `by`.
        Returns how many checks each of them made."""
        waiting[:], checks = [(by, *test) for test in tests], []
        with ProcessPoolExecutor(len(os.sched_getaffinity(0)), multiprocessing.get_context("fork")) as pool:
            try:
                for passed, failed, skipped in pool.map(counts_of, range(len(tests))):
                    self.passed, self.failed, self.skipped = self.passed + passed, self.failed + failed, self.skipped + skipped
                    checks.append(passed + failed)
            except BaseException:  # such as a signal that ends the suite
                for process in multiprocessing.active_children():
                    process.terminate()
                raise
        return checks

    def result(self) -> int:
        """Prints the last line and returns the exit status of the suite."""
        if self.skipped:
            print(f"{self.skipped} skipped")
        print(f"{self.passed} passed, {self.failed} failed")
        return 1 if self.failed or not self.passed else 0


waiting: List[Tuple[Any, ...]] = []  # the tests of `Suite.concurrently`; its processes are forks, so they have it


def counts_of(at: int) -> Tuple[int, int, int]:
    """Runs one of these tests, and returns what it counted."""
    suite, (by, *test) = Suite(), waiting[at]
    try:
        getattr(suite, by)(*test)
    except SystemExit as left:  # after a signal; the process must not begin another test
        os._exit(2 if left.code is None else int(left.code))
    return suite.passed, suite.failed, suite.skipped


def failure(function: Callable[..., None], *arguments: Any, **named: Any) -> str:
    """The exception that leaves a function, with the lines of the function's file that it passed, or nothing if there is none."""
    try:
        function(*arguments, **named)
    except Skipped:
        raise
    except Exception as error:  # an exception in a test must not end the suite
        trace, file = traceback.extract_tb(error.__traceback__), function.__code__.co_filename
        lines = ", ".join(str(frame.lineno) for frame in trace if frame.filename == file)
        return f"line {lines}: {type(error).__name__}: {error}"
    return ""


def same(found: object, expected: object, name: str = "found") -> None:
    """Ends a test that is a single check if two values differ. Bytes are shown from the first that differs."""
    if found != expected:
        at = len(os.path.commonprefix((found, expected))) if isinstance(found, bytes) and isinstance(expected, bytes) else 0
        if isinstance(found, bytes) and isinstance(expected, bytes) and at:
            name, found, expected = f"{name} from byte {at}", found[at:], expected[at:]
        raise AssertionError(f"{name}: {shown(found)}, expected {shown(expected)}")


def wait_for(holds: Callable[[], object], seconds: float = TIMEOUT) -> None:
    """Waits until a condition holds."""
    end = time.monotonic() + seconds
    while not holds():
        assert time.monotonic() < end, f"nothing happened for {seconds} seconds"
        time.sleep(0.01)


def lines_of(data: bytes) -> List[bytes]:
    """The lines of bytes, each with its end. Only a newline ends one."""
    return list(io.BytesIO(data))


def matching(pattern: bytes, data: bytes) -> List[bytes]:
    """The lines that begin with a pattern."""
    return [line for line in lines_of(data) if re.match(pattern, line)]


def first_line(data: bytes) -> bytes:
    return b"".join(lines_of(data)[:1])


def read(name: "os.PathLike[str] | str") -> bytes:
    return pathlib.Path(name).read_bytes()


def write(name: Any, *parts: bytes) -> Any:
    """Writes a file of these parts, and returns its name."""
    pathlib.Path(name).write_bytes(b"".join(parts))
    return name


def check_order(faults: bytes) -> None:
    """Raises an exception unless these are lines of `span faults` in the right order: first the faults of the parameters, sorted by record,
    or by rule and record, then the faults of the positions, each once. Faults of one file are of one kind."""
    form = re.compile(rb"(parameters: [PC]|positions: [QB])(\d+) [A-Za-z]+ at record (\d+)( account [A-Z0-9_-]+)?\n")
    found = []
    for line in lines_of(faults):
        parts = form.fullmatch(line)
        assert parts and (parts[1][-1:] == b"B") == bool(parts[4]), f"unknown form: {shown(line)}"
        found.append((parts[1], int(parts[2]) if parts[1][-1:] in b"CB" else 0, int(parts[3])))
    kinds = {kind for kind, _, _ in found}
    same(found, sorted({*found}), "faults")
    assert len(kinds) == len({kind[:9] for kind in kinds}) and not (b"positions: B" in kinds and len(kinds) > 1), kinds


def account(record: bytes) -> bytes:
    """The first field of a record."""
    return record.rstrip(b"\n").split(b",")[0]


def grouped(records: Sequence[bytes]) -> Dict[bytes, List[bytes]]:
    """The records of each account, in the order of their first ones."""
    found: Dict[bytes, List[bytes]] = {}
    for record in records:
        found.setdefault(account(record), []).append(record)
    return found


def shown(value: object) -> str:
    """A value in printed form, shortened to 400 characters."""
    text = repr(value)
    return text if len(text) <= 400 else text[:200] + " .. " + text[-200:]


def program_of(arguments: Sequence[str], at: int = 1) -> pathlib.Path:
    """The path of a program, by default PROGRAM, the first argument of a suite. Ends the suite with status 2 if it is not a program."""
    if len(arguments) <= at or not os.path.isfile(arguments[at]) or not os.access(arguments[at], os.X_OK):
        print(f"tests/{os.path.basename(arguments[0])}: argument {at} must be a built program", file=sys.stderr)
        sys.exit(2)
    return pathlib.Path(arguments[at]).resolve()


def run(command: Sequence[Any], given: bytes = b"", timeout: "float | None" = TIMEOUT, **options: Any) -> Answer:
    """Runs a command to its end, with `given` on its standard input and the other options of `subprocess.run`."""
    options.setdefault("stdout", subprocess.PIPE)
    options.setdefault("stderr", subprocess.PIPE)
    if "stdin" not in options:
        options["input"] = given
    done = subprocess.run([os.fspath(word) for word in command], timeout=timeout, check=False, **options)
    return Answer(done.returncode, done.stdout or b"", done.stderr or b"")


def awk(script: pathlib.Path, *files: Any, given: bytes = b"", **variables: object) -> bytes:
    """The output of an awk script, which must succeed."""
    words = [word for name, value in variables.items() for word in ("-v", f"{name}={value}")]
    answer = run(["awk", *words, "-f", script, *files], given, env={**os.environ, "LC_ALL": "C"})
    assert not answer.status and not answer.stderr, f"{script.name}: {shown(answer)}"
    return answer.stdout


@contextlib.contextmanager
def room() -> Iterator[pathlib.Path]:
    """A temporary directory, which is the working directory until it is removed."""
    before = os.getcwd()
    with tempfile.TemporaryDirectory() as place:
        os.chdir(place)
        try:
            yield pathlib.Path(place)
        finally:
            os.chdir(before)


def in_a_room(test: Callable[..., None], *arguments: Any) -> None:
    """Runs a test in a directory of its own, in which the directory `examples` has the files of examples/."""
    with room():
        shutil.copytree(ROOT / "examples", "examples")
        test(*arguments)


@contextlib.contextmanager
def started(command: Sequence[Any], **options: Any) -> "Iterator[subprocess.Popen[bytes]]":
    """A command that runs concurrently with the test, with the options of `subprocess.Popen`. It is stopped when the block ends."""
    with subprocess.Popen([os.fspath(word) for word in command], **options) as process:
        try:
            yield process
        finally:
            process.terminate()


def needs(*commands: str) -> None:
    """Skips the test if one of these commands is missing."""
    for command in commands:
        if not shutil.which(command):
            raise Skipped(f"there is no {command}")


@contextlib.contextmanager
def small_disk(size: int) -> Iterator[pathlib.Path]:
    """A directory on a file system of its own with `size` bytes. Skips the test if none can be mounted."""
    needs("mount", "umount")
    with tempfile.TemporaryDirectory() as place:
        if run(["mount", "-t", "tmpfs", "-o", f"size={size}", "tmpfs", place]).status != 0:
            raise Skipped("no tmpfs can be mounted, which usually needs root")
        try:
            yield pathlib.Path(place)
        finally:
            run(["umount", place])
