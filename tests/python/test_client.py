"""The client object Span: its own program, timeouts that kill the program, files that are replaced, and arguments that are wrong."""
import copy
import dataclasses
import errno
import os
import pickle
import random
import signal
import subprocess
import sys
import threading
import time
from pathlib import Path
from typing import Any, Callable, List
from unittest import mock

import span_margin as span
from shared import EXAMPLES, NEXT, ORDERS, PARAMS, POSITIONS, Case
from span_margin import _calls, _inputs, _program

SLEEP = 20  # seconds that a program sleeps, which no call may wait for
CALLS: List[Callable[..., Any]] = [
    lambda client, **named: client.margin(PARAMS, POSITIONS, **named),
    lambda client, **named: client.explain(PARAMS, POSITIONS, **named),
    lambda client, **named: client.whatif(PARAMS, POSITIONS, ORDERS, **named),
    lambda client, **named: client.roll(PARAMS, NEXT, POSITIONS, **named),
    lambda client, **named: client.check(PARAMS, **named),
    lambda client, **named: client.faults(PARAMS, POSITIONS, **named),
]


class Clients(Case):
    def test_two_programs(self) -> None:
        """Two clients use their own programs, and the module a third."""
        for name, version in (("one", 1), ("two", 2)):
            os.rename(self.use_program(f"echo OK,PROGRAM-{version},1,2,3,4,5,6"), name)
        one, two = span.Span(program="./one"), span.Span(Path("two").resolve())
        self.use_program("echo OK,PROGRAM-3,1,2,3,4,5,6")
        os.mkdir("below")
        os.chdir("below")
        for _ in range(2):
            self.assertEqual([it.check(PARAMS).set for it in (one, two, span)], ["PROGRAM-1", "PROGRAM-2", "PROGRAM-3"])
        self.assertEqual(repr(one), f"Span(program='{self.room}/one', timeout=None, digits=None)")

    def test_program_of_a_client(self) -> None:
        path = self.use_program("exit 5")
        self.use(SPAN="", PATH=f"{self.room}:{os.environ['PATH']}")
        self.error(span.OutOfMemoryError, span.Span("stand-in").check, PARAMS)
        self.error(span.OutOfMemoryError, span.Span(str(path)).check, PARAMS)
        for name in ("missing", "./missing", str(PARAMS), "."):
            error = self.error(span.ProgramError, span.Span(program=name).check, PARAMS)
            self.assertTrue("which is not a program" in str(error) and "argument program" in str(error), str(error))

    def test_functions_are_methods(self) -> None:
        for name in ("margin", "explain", "whatif", "roll", "check", "faults"):
            self.assertIs(getattr(span, name).__self__, _calls.default)
            self.assertEqual(getattr(span, name).__func__, getattr(span.Span, name))
            again = pickle.loads(pickle.dumps(getattr(span, name)))
            self.assertEqual((again.__self__, again.__func__), (_calls.default, getattr(span.Span, name)))
        client = span.Span("/bin/x", 2.5, 3)
        self.assertEqual((pickle.loads(pickle.dumps(client)), copy.copy(client), client), (client,) * 3)
        self.error(dataclasses.FrozenInstanceError, setattr, client, "timeout", 1)

    def test_digits(self) -> None:
        self.use_output("statement-broker.csv")
        for client, major in ((span.Span(), "13312.87"), (span.Span(digits=3), "1331.287"), (span.Span(digits=0), "1331287")):
            amount = client.margin(PARAMS, POSITIONS)["RIVER-01"].total
            self.assertEqual((str(amount.major()), amount.currency, str(amount.major(1))), (major, "USD", "133128.7"))
        self.error(ValueError, span.Span, digits=-1)

    def test_statement_without_accounts(self) -> None:
        self.use_program("exit 0")
        for result in (span.margin(PARAMS, b""), span.explain(PARAMS, b""), span.whatif(PARAMS, b"", b"")):
            self.assertEqual((len(result), result.set, result.currency), (0, "D20251114", "USD"))


class Timeouts(Case):
    def late(self, call: Callable[..., Any], *arguments: Any, **named: Any) -> span.TimedOut:
        """The error of a call that takes longer than its timeout, and much less than its program."""
        before = time.monotonic()
        error = self.error(span.TimedOut, call, *arguments, **named)
        self.assertLess(time.monotonic() - before, SLEEP / 2)
        return error

    def gone(self) -> None:
        """Checks that the program, which wrote its id into a file, was killed and reaped."""
        number = int(Path("pid").read_text())
        self.error(ProcessLookupError, os.kill, number, 0)

    def killed(self, call: Callable[..., Any], *arguments: Any) -> span.TimedOut:
        """The error of a call with a timeout, which is long enough for the program to start. The program is gone."""
        for timeout in (0.2, 1, 5):
            error = self.late(call, *arguments, timeout=timeout)
            self.assertEqual(str(error), f"span did not end within {timeout} seconds")
            if os.path.exists("pid") and Path("pid").read_text():
                break
        self.gone()
        os.remove("pid")
        return error

    def test_each_call(self) -> None:
        self.use_program(f"echo $$ >pid; exec sleep {SLEEP}")
        for call in CALLS:
            error = self.killed(call, span)
            self.assertEqual((error.status, error.request, error.sent), (None, None, True))
            self.assertEqual((error.outcome(), error.outcome(timeout=1)), (None, None))
            self.assertIsInstance(error, TimeoutError)

    def test_of_the_client(self) -> None:
        path = self.use_program(f"echo $$ >pid; exec sleep {SLEEP}")
        self.late(span.Span(timeout=0.2).margin, PARAMS, POSITIONS)
        self.killed(span.Span(timeout=60).margin, PARAMS, POSITIONS)
        path.write_text(path.read_text().replace(f"sleep {SLEEP}", "sleep 0.4; exit 5").replace("exec", ""))
        self.error(span.OutOfMemoryError, span.Span(timeout=0.1).margin, PARAMS, POSITIONS, timeout=float("inf"))
        self.late(span.margin, PARAMS, POSITIONS, timeout=0)

    def test_wrong_timeouts(self) -> None:
        self.use_program("exit 5")
        for timeout in (-1, float("nan")):
            self.error(ValueError, span.check, PARAMS, timeout=timeout)
            self.error(ValueError, span.Span, timeout=timeout)
        self.error(TypeError, span.check, PARAMS, timeout="1")
        self.error(span.OutOfMemoryError, span.check, PARAMS, timeout=10**30)

    def test_large_output_in_time(self) -> None:
        self.use_program("yes T,A,D20251114,1 | head -n 200000")
        self.assertEqual(bytes(span.margin(PARAMS, POSITIONS, timeout=60)), b"T,A,D20251114,1\n" * 200000)

    def test_program_that_prints_for_ever(self) -> None:
        self.use_program("echo $$ >pid; exec yes")
        self.killed(span.margin, PARAMS, POSITIONS)

    def test_child_that_keeps_the_pipes(self) -> None:
        self.use_program(f"echo $$ >pid; sleep {SLEEP} & sleep {SLEEP}")
        self.killed(span.margin, PARAMS, POSITIONS)

    def test_version_that_never_comes(self) -> None:
        Path("program").write_text(f"#!/bin/sh\nexec sleep {SLEEP}\n")
        os.chmod("program", 0o755)
        self.late(span.Span(program="./program", timeout=0.2).check, PARAMS)

    def test_pipe_that_nobody_writes(self) -> None:
        os.mkfifo("pipe")
        for files in (("pipe", POSITIONS), (PARAMS, "pipe")):
            with self.subTest(files):
                self.use_program('echo $$ >pid; cat "$4" "$5" >cat')
                self.killed(span.margin, *files)
        os.link("pipe", os.fsdecode(b"\xff"))
        self.late(span.margin, PARAMS, os.fsdecode(b"\xff"), timeout=0.2)
        for name in ("pipe", os.fsdecode(b"\xff")):  # ends the threads and children that still wait
            os.close(os.open(name, os.O_RDWR | os.O_NONBLOCK))

    def test_dead_file_system(self) -> None:
        """Looking at the parameter file never ends."""
        self.use_program("exit 0")
        ends = threading.Event()
        self.addCleanup(ends.set)
        with mock.patch.object(_inputs, "set_record", side_effect=lambda _: ends.wait()):
            self.late(span.margin, PARAMS, POSITIONS, timeout=0.2)

    def test_program_that_cannot_be_killed(self) -> None:
        """A dead file system holds the program: the call ends, and a thread reaps the program when it ends."""
        self.use_program("echo $$ >pid; exec sleep 2.5")
        with mock.patch.object(subprocess.Popen, "kill"), mock.patch.object(_program, "GRACE", 0.1):
            before = time.monotonic()
            self.error(span.TimedOut, span.margin, PARAMS, POSITIONS, timeout=0.5)
            self.assertLess(time.monotonic() - before, 2)
        number = int(Path("pid").read_text())
        os.kill(number, 0)
        for _ in range(100):
            time.sleep(0.1)
            if not os.path.exists(f"/proc/{number}"):
                break
        self.gone()

    def test_interrupted(self) -> None:
        """After Ctrl-C, and after a signal handler that raises another error, the program is gone."""
        self.use_program(f"echo $$ >pid; exec sleep {SLEEP}")

        def interrupt(*_: Any) -> None:
            raise kind

        before = signal.signal(signal.SIGALRM, interrupt)
        self.addCleanup(signal.signal, signal.SIGALRM, before)
        for kind in (KeyboardInterrupt, RuntimeError):
            for timeout in (None, 60):
                for seconds in (0.3, 2, 6):
                    began = time.monotonic()
                    signal.setitimer(signal.ITIMER_REAL, seconds)
                    self.error(kind, span.margin, PARAMS, POSITIONS, timeout=timeout)
                    self.assertLess(time.monotonic() - began, SLEEP / 2)
                    if os.path.exists("pid") and Path("pid").read_text():
                        break
                self.gone()
                os.remove("pid")

    def test_interrupted_at_random_times(self) -> None:
        """Whenever an interrupt comes, even while the program is being started, no process is left."""
        self.use_program("echo T,A,D20251114,1; exec sleep 0.01")
        span.margin(PARAMS, POSITIONS)
        chance, interrupted = random.Random(78), 0

        def interrupt(*_: Any) -> None:
            raise KeyboardInterrupt

        before = signal.signal(signal.SIGALRM, interrupt)
        self.addCleanup(signal.signal, signal.SIGALRM, before)
        for _ in range(100):
            try:
                try:
                    signal.setitimer(signal.ITIMER_REAL, chance.uniform(0.0001, 0.03))
                    span.margin(PARAMS, POSITIONS)
                finally:
                    signal.setitimer(signal.ITIMER_REAL, 0)
            except KeyboardInterrupt:
                interrupted += 1
            self.error(ChildProcessError, os.waitpid, -1, os.WNOHANG)
        self.assertGreater(interrupted, 20)

    def test_control_c(self) -> None:
        self.use_program(f"echo $$ >pid; exec sleep {SLEEP}")
        script = "import sys, span_margin as span; span.margin(sys.argv[1], sys.argv[2])"
        client = subprocess.Popen([sys.executable, "-B", "-c", script, PARAMS, POSITIONS], stderr=subprocess.PIPE)
        while not (os.path.exists("pid") and Path("pid").read_text()):
            time.sleep(0.01)
        before = time.monotonic()
        client.send_signal(signal.SIGINT)
        self.assertIn(b"KeyboardInterrupt", client.communicate()[1])
        self.assertLess(time.monotonic() - before, SLEEP / 2)
        self.gone()

    def test_no_descriptors_are_left(self) -> None:
        def count() -> int:
            return len(os.listdir("/proc/self/fd"))

        self.use_program(f"exec sleep {SLEEP}")
        before = count()
        for _ in range(3):
            self.late(span.margin, PARAMS.read_bytes(), POSITIONS, timeout=0.05)
        self.assertEqual(count(), before)

    def test_temporary_files(self) -> None:
        place = self.use_temporary_directory()
        self.use_program(f"exec sleep {SLEEP}")
        self.late(span.margin, PARAMS.read_bytes(), POSITIONS.read_bytes(), timeout=0.1)
        self.assertEqual(os.listdir(place), [])


class Replaced(Case):
    """A parameter file that is replaced while the program runs."""

    def call(self, *, before: bytes = PARAMS.read_bytes(), after: bytes = PARAMS.read_bytes(), call: str = "margin") -> Any:
        Path("set.csv").write_bytes(before)
        Path("after.csv").write_bytes(after)
        printed = {"margin": "statement-broker.csv", "explain": "explanation-broker.csv", "whatif": "changes-broker.csv"}[call]
        self.use_program(f"cp after.csv set.csv; cat '{EXAMPLES}/{printed}'")
        return getattr(span, call)("set.csv", POSITIONS, *([ORDERS] if call == "whatif" else []))

    def test_other_set(self) -> None:
        for call in ("margin", "explain", "whatif"):
            self.assertEqual(self.call(call=call).currency, "USD")
            following, euros = NEXT.read_bytes(), PARAMS.read_bytes().replace(b",USD", b",EUR")
            for change in ({"after": following}, {"before": following}, {"before": following, "after": following}, {"after": euros}):
                with self.assertRaises(span.FileChangedError) as caught:
                    self.call(call=call, **change)
                error = caught.exception
                self.assertEqual((error.filename, str(error)), ("set.csv", "set.csv was replaced while span read it"))

    def test_gone(self) -> None:
        Path("set.csv").write_bytes(PARAMS.read_bytes())
        self.use_program(f"rm set.csv; cat '{EXAMPLES}/statement-broker.csv'")
        self.assertEqual(span.margin("set.csv", POSITIONS).currency, "USD")

    def test_roll(self) -> None:
        for name, path in (("today.csv", PARAMS), ("next.csv", NEXT)):
            Path(name).write_bytes(path.read_bytes())
        output = f"cat '{EXAMPLES}/statement-roll.csv'"
        self.use_program(output)
        roll = span.roll("today.csv", "next.csv", POSITIONS)
        self.assertEqual((roll.today["RIVER-01"].total.currency, roll.next.currency, roll.currency), ("USD", "USD", "USD"))
        for change, name in (("cp next.csv today.csv", "today.csv"), ("cp today.csv next.csv", "next.csv")):
            Path("today.csv").write_bytes(PARAMS.read_bytes())
            Path("next.csv").write_bytes(NEXT.read_bytes())
            self.use_program(f"{change}; {output}")
            self.assertEqual(self.error(span.FileChangedError, span.roll, "today.csv", "next.csv", POSITIONS).filename, name)

    def test_pipe_is_not_touched(self) -> None:
        os.mkfifo("pipe")
        self.use_output("statement-broker.csv")
        opened = []
        writer = threading.Thread(target=lambda: opened.append(os.open("pipe", os.O_WRONLY)), daemon=True)
        writer.start()
        statement = span.margin("pipe", POSITIONS)
        self.assertEqual((statement.currency, statement["RIVER-01"].total.currency, opened), (None, None, []))
        self.error(ValueError, statement["RIVER-01"].total.major)
        self.assertEqual(str(statement["RIVER-01"].total.major(2)), "13312.87")
        self.assertEqual(str(span.Span(digits=2).margin("pipe", POSITIONS)["RIVER-01"].total.major()), "13312.87")
        reader = os.open("pipe", os.O_RDONLY | os.O_NONBLOCK)
        writer.join()
        os.close(reader)
        os.close(opened[0])


class WrongArguments(Case):
    """What raises a ValueError before a program is run."""

    def setUp(self) -> None:
        super().setUp()
        self.use_program("touch ran; exit 5")

    def wrong(self, call: Callable[..., Any], *arguments: Any) -> str:
        error = self.error(ValueError, call, *arguments)
        self.assertFalse(os.path.exists("ran"))
        return str(error)

    def test_content_as_a_path(self) -> None:
        for content in ("RIVER-01,CLZ5,6\n", "RIVER-01,CLZ5,6", "A,B,1\r\nC,D,2", "FIRST,A,CLZ5,-1", '"A",CLZ5,1', "SET,D1,1,USD",
                        POSITIONS.read_text(), "a\nb", "\n", "A,B,\n"):
            for files in ((PARAMS, content), (content, POSITIONS), (PARAMS, POSITIONS, content)):
                call = span.margin if len(files) == 2 else span.whatif
                self.assertIn("pass bytes, as text.encode(), or a path", self.wrong(call, *files))

    def test_paths_that_look_like_content(self) -> None:
        for name in ("A,B,1", "a\nb", "A\r", "RIVER-01,CLZ5,6\n"):
            Path(name).write_bytes(b"")
            self.error(span.OutOfMemoryError, span.margin, PARAMS, name)
            os.remove(name)
            self.error(span.OutOfMemoryError, span.margin, PARAMS, Path(name))
        for name in ("positions.csv", "A,B", "a,b,c", "./A,B,1", "A,B/C,1", "positions,today,1.csv", "", "A B,C,1"):
            self.error(span.OutOfMemoryError, span.margin, PARAMS, name)

    def test_empty_order(self) -> None:
        for rows in ([()], [("A", "RIVER-01", "CLZ5", 1), []], ([] for _ in range(1))):
            self.assertIn("is empty", self.wrong(span.whatif, PARAMS, POSITIONS, rows))
        for legs in ({}, (), []):
            self.assertIn("at least one leg", self.wrong(_inputs.need_legs, legs))
        _inputs.need_legs({"CLZ5": 0})
        self.error(span.OutOfMemoryError, span.whatif, PARAMS, POSITIONS, [])
        self.error(span.OutOfMemoryError, span.margin, PARAMS, [()])


class ErrorsOfPython(Case):
    """Errors are also those that callers of other libraries catch, and survive pickling and copying."""

    def test_classes(self) -> None:
        for kind, other in ((span.FileError, OSError), (span.OutOfMemoryError, MemoryError), (span.SessionEnded, ConnectionError),
                            (span.TimedOut, TimeoutError), (span.CurrencyError, TypeError), (span.FileChangedError, span.SpanError)):
            self.assertTrue(issubclass(kind, other) and issubclass(kind, span.SpanError))
        for error in (span.SessionEnded("file: output", 6), span.TimedOut("late", "MARGIN")):
            self.assertEqual((error.errno, error.strerror, error.filename), (None, None, None))

    def test_file(self) -> None:
        os.mkdir("directory")
        with open("long", "wb") as file:
            file.truncate(64 * 2**20 + 1)
        for name, number, reason in (("missing", errno.ENOENT, "No such file or directory"), ("directory", errno.EISDIR, "Is a directory"),
                                     (f"{PARAMS}/x", errno.ENOTDIR, "Not a directory"),
                                     ("long", errno.EFBIG, "longer than 67108864 bytes")):
            self.use_program(f"echo 'file: {name}' >&2; exit 6")
            with self.assertRaises(OSError) as caught:
                span.margin(name, POSITIONS)
            error = caught.exception
            self.assertIs(type(error), span.FileError)
            self.assertEqual((error.errno, error.strerror, error.filename, error.reason), (number, reason, name, reason))
            self.assertEqual((str(error), error.status), (f"file: {name}: {reason}", 6))
        self.assertEqual((span.FileError(f"file: {PARAMS}", 6).errno, span.FileError("file: a\0b").errno), (None, errno.EINVAL))

    def test_usage(self) -> None:
        self.use_program("printf 'error: first\\n\\nUsage: second\\n' >&2; exit 2")
        error = self.error(span.UsageError, span.check, PARAMS)
        self.assertEqual((str(error), error.line), ("error: first", "error: first\n\nUsage: second"))

    def test_copies(self) -> None:
        left = span.TimedOut("late", "FILL,A,CLZ5,1", sent=False)
        left._left = mock.Mock(outcome=lambda timeout: ("accepted", timeout))
        self.assertEqual(left.outcome(3), ("accepted", 3))
        refused = span.RequestError("request: B1 UnknownContract at field 3", request="FILL,A,CLX5,1")
        fault = span.RowFault("tiers", "tiers", 1, "C4", "DuplicateTier")
        faults = span.ParameterSetError([fault], "parameters: C4 DuplicateTier at record 2")
        for error in (span.FileError("file: missing", 6), span.OutOfMemoryError("memory", 5), span.SessionEnded("file: output", 6),
                      span.SessionEnded(""), left, span.FileChangedError("set.csv"), span.CurrencyError("mixed"), refused, faults,
                      span.PositionsError("positions: B1 UnknownContract at record 2 account Y", 4), span.UsageError("a\nb", 2),
                      span.ProgramError("x"), span.RollError("shelf", 7), span.ParametersError("parameters: P1 NoSet at record 0", 3)):
            for same in (pickle.loads(pickle.dumps(error)), pickle.loads(pickle.dumps(error, 2)), copy.copy(error), copy.deepcopy(error)):
                self.assertEqual((type(same), str(same), same.args), (type(error), str(error), error.args))
                self.assertEqual({**vars(same), "_left": None}, {**vars(error), "_left": None})
                if isinstance(error, OSError):
                    self.assertEqual((same.errno, same.strerror, same.filename), (error.errno, error.strerror, error.filename))
        self.assertEqual(pickle.loads(pickle.dumps(left)).outcome(), None)

    def test_copy_asks_nothing(self) -> None:
        """A copy has the reason that was found, although the file is there now."""
        error = span.FileError("file: missing", 6)
        Path("missing").touch()
        self.assertEqual((copy.copy(error).reason, pickle.loads(pickle.dumps(error)).errno), ("No such file or directory", errno.ENOENT))
