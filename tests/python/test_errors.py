"""Errors: each status and each form of a fault line, files that cannot be read, and wrong programs."""
import os
import pickle
import shutil
import subprocess
import sys
from pathlib import Path
from unittest import mock

import span_margin as span
from shared import FAULTY_PARAMS, FAULTY_POSITIONS, NEXT, PARAMS, POSITIONS, Case, SessionCase, lines_of
from span_margin import _program


class Statuses(Case):
    def test_usage(self) -> None:
        for workers in (0, 17, -1):
            error = self.error(span.UsageError, span.margin, PARAMS, POSITIONS, workers=workers)
            self.assertEqual((error.status, error.code), (2, None))
            self.assertTrue(error.line)
        self.error(span.UsageError, span.Session, PARAMS, POSITIONS, workers=17)
        for account in ("", "a", "A B", "A,B", "SEVENTEEN-LETTERS", "A\nB"):
            self.error(span.UsageError, span.explain, PARAMS, POSITIONS, account=account)

    def test_parameters(self) -> None:
        error = self.error(span.ParametersError, span.margin, FAULTY_PARAMS, POSITIONS)
        self.assertEqual((error.status, error.file, error.code, error.name, error.record), (3, "parameters", "P6", "BadNumber", 3))
        self.assertEqual((str(error), error.line), ("parameters: P6 BadNumber at record 3",) * 2)
        self.assertEqual((error.field, error.account, error.order), (None, None, None))
        self.error(span.ParametersError, span.check, FAULTY_PARAMS)
        self.assertEqual(self.error(span.ParametersError, span.roll, PARAMS, FAULTY_PARAMS, POSITIONS).file, "next parameters")

    def test_positions(self) -> None:
        error = self.error(span.PositionsError, span.margin, PARAMS, FAULTY_POSITIONS)
        self.assertEqual((error.status, error.file, error.code, error.record), (4, "positions", "Q2", 1))
        error = self.error(span.PositionsError, span.margin, PARAMS, b"X,CLZ5,1\nY,NONE,2\n")
        self.assertEqual((error.code, error.name, error.record, error.account), ("B1", "UnknownContract", 2, "Y"))
        without = "".join(f"{line}\n" for line in lines_of(NEXT) if not line.startswith("CONTRACT,MCLF6,")).encode()
        error = self.error(span.PositionsError, span.roll, PARAMS, without, POSITIONS)
        self.assertEqual((error.file, error.code, error.account), ("next positions", "B1", "RIVER-01"))

    def test_account(self) -> None:
        error = self.error(span.PositionsError, span.explain, PARAMS, POSITIONS, account="NOBODY")
        self.assertEqual((error.status, error.code, error.name, error.account, error.record), (4, "E1", "UnknownAccount", "NOBODY", None))

    def test_orders(self) -> None:
        orders = [("FIRST", "RIVER-01", "CLZ5", 1), ("SECOND", "RIVER-01", "CLX5", 1)]
        error = self.error(span.PositionsError, span.whatif, PARAMS, POSITIONS, orders)
        self.assertEqual((error.file, error.code, error.record, error.order, error.account), ("orders", "B1", 2, "SECOND", None))
        error = self.error(span.PositionsError, span.whatif, PARAMS, POSITIONS, [("A", "B")])
        self.assertEqual((error.file, error.code, error.record, error.order), ("orders", "O1", 1, None))

    def test_other_statuses(self) -> None:
        for line, status, kind in (
            ("memory", 5, span.OutOfMemoryError),
            ("file: output", 6, span.FileError),
            ("book: K4 NoMoreBatches", 7, span.RollError),
            ("shelf", 7, span.RollError),
            ("", 9, span.ProgramError),
        ):
            with self.subTest(line):
                self.use_program(f'[ -z "{line}" ] || echo "{line}" >&2; exit {status}')
                for call in (span.margin, span.faults, span.Session):
                    error = self.error(kind, call, PARAMS, POSITIONS)
                    self.assertEqual((error.status, error.line), (status, line or f"span ended with status {status}"))
                self.use(SPAN=os.environ["SPAN_REAL"])

    def test_signal(self) -> None:
        self.use_program("kill -KILL $$")
        for call in (span.margin, span.Session):
            error = self.error(span.ProgramError, call, PARAMS, POSITIONS)
            self.assertEqual((error.status, str(error)), (-9, "span ended by signal SIGKILL"))

    def test_other_output(self) -> None:
        self.use_program("echo R,A,B; echo hello")
        for call in (span.margin, span.explain, span.faults):
            self.error(span.ProgramError, call, PARAMS, POSITIONS)

    def test_pickled(self) -> None:
        for call, arguments in ((span.margin, (PARAMS, b"Y,NONE,2")), (span.check, ("missing",)), (span.check, (FAULTY_PARAMS,))):
            with self.assertRaises(span.SpanError) as caught:
                call(*arguments)
            raised = caught.exception
            again = pickle.loads(pickle.dumps(raised))
            self.assertEqual((type(again), str(again), vars(again)), (type(raised), str(raised), vars(raised)))


class Files(Case):
    def reason(self, name: str) -> str:
        """Why a file cannot be read. The reason is the same for a parameter file, a position file, and a session."""
        errors = [self.error(span.FileError, call, *files) for call, files in (
            (span.margin, (PARAMS, name)), (span.margin, (name, POSITIONS)), (span.faults, (name,)), (span.Session, (PARAMS, name)))]
        for error in errors:
            self.assertEqual((error.status, error.filename, error.line), (6, name, f"file: {name}"))
            self.assertEqual(str(error), f"file: {name}: {error.reason}")
        self.assertEqual(len({error.reason for error in errors}), 1)
        return str(errors[0].reason)

    def test_missing(self) -> None:
        self.assertEqual(self.reason("missing"), "No such file or directory")
        self.assertEqual(self.reason("missing/below"), "No such file or directory")
        self.assertEqual(self.reason(f"{PARAMS}/below"), "Not a directory")

    def test_directory(self) -> None:
        self.assertEqual(self.reason("."), "Is a directory")

    def test_too_long(self) -> None:
        with open("long", "wb") as file:
            file.truncate(64 * 2**20 + 1)
        self.assertEqual(self.reason("long"), "longer than 67108864 bytes")

    def test_no_permission(self) -> None:
        if os.geteuid() == 0:
            self.skipTest("root may read every file")
        Path("closed").touch(0)
        self.assertEqual(self.reason("closed"), "Permission denied")

    def test_name_of_the_longest(self) -> None:
        self.assertEqual(self.reason("n" * 300), "File name too long")

    def test_missing_with_a_name_that_is_not_text(self) -> None:
        error = self.error(span.FileError, span.margin, PARAMS, os.fsdecode(b"\xff"))
        self.assertEqual(error.reason, "No such file or directory")

    def test_vanishes(self) -> None:
        shutil.copy(POSITIONS, "positions")
        self.use_program('rm "$5"; exec "$SPAN_REAL" "$@"')
        error = self.error(span.FileError, span.margin, PARAMS, "positions")
        self.assertEqual((error.filename, error.reason), ("positions", "No such file or directory"))

    def test_same_pipe_twice(self) -> None:
        os.mkfifo("pipe")
        self.use_program('cat "$SPAN_EXAMPLE" >pipe & exec "$SPAN_REAL" "$@"')
        self.use(SPAN_EXAMPLE=str(PARAMS))
        error = self.error(span.FileError, span.margin, "pipe", "pipe")
        self.assertEqual((error.filename, error.reason, str(error)), ("pipe", None, "file: pipe"))


class Texts(SessionCase):
    """No text of an error has characters that control a terminal, or that begin a new line of a log."""

    def shown(self, error: BaseException, *escapes: str) -> None:
        self.assertTrue(str(error).isprintable(), ascii(str(error)))
        for escape in escapes:
            self.assertIn(escape, str(error))

    def test_requests(self) -> None:
        desk = self.session()
        escapes = {"A\x1b[31m": r"A\x1b[31m", "A\0": r"\x00", "A\x85B": r"\x85", "A\u202eB": r"\u202e", "\x7f": r"\x7f"}
        for name, escape in escapes.items():
            error = self.error(span.RequestError, desk.margin, name)
            self.shown(error, escape)
            self.assertEqual((error.request, error.account), (f"MARGIN,{name}", name))
            self.shown(pickle.loads(pickle.dumps(error)), escape)
            self.shown(self.error(span.RequestError, desk.try_order, "RIVER-01", {name: 1}), escape)
        self.assertTrue(str(self.error(span.RequestError, desk.margin, "Z\u00fcrich")).endswith(": Z\u00fcrich"))
        self.shown(self.error(ValueError, desk.cheapest_close, "RIVER-01", 0, only=["A\x1b"]), r"A\x1b")

    def test_files(self) -> None:
        self.shown(self.error(span.FileError, span.margin, PARAMS, Path("a\x1b\nb")), r"a\x1b\nb")
        self.shown(self.error(span.FileError, span.margin, PARAMS, os.fsdecode(b"\xff")), r"\udcff")
        self.shown(self.error(ValueError, span.margin(PARAMS, POSITIONS).write, "/dev/../dev"), "'/dev/../dev'")

    def test_rows(self) -> None:
        parameters = span.ParameterSet("D1", "USD")
        self.shown(self.error(ValueError, parameters.add_tiers, [("CL",)], source="a\x1b\nb"), r"a\x1b\nb row 1")
        parameters.add_commodities([("CL", 1, "SUM"), ("CL", 1, "\x1b")], source="a\x1b\nb")
        error = self.error(span.ParameterSetError, parameters.check)
        self.assertEqual(str(error).split("\n"), [r"a\x1b\nb row 2: P5 BadName in method: '\x1b'"])

    def test_programs(self) -> None:
        self.use_program(r"printf 'T,A\033[2J,D20251114,x\n'")
        statement = span.margin(PARAMS, POSITIONS)
        self.assertTrue(repr(statement).isprintable())
        self.shown(self.error(span.ProgramError, lambda: statement[0].total), r"\x1b")
        for status, kind in ((2, span.UsageError), (4, span.PositionsError), (9, span.ProgramError)):
            self.use_program(rf"printf 'no\033[2J\nsecond\n' >&2; exit {status}")
            error = self.error(kind, span.margin, PARAMS, POSITIONS)
            self.shown(error, r"no\x1b[2J")
            self.assertEqual(error.line, "no\x1b[2J\nsecond")
            self.use(SPAN=os.environ["SPAN_REAL"])

    def test_of_the_command(self) -> None:
        words = [sys.executable, "-m", "span_margin", "cheapest-close", PARAMS, POSITIONS, "RIVER-01", "1", "--only", "A\x1b[2J"]
        done = subprocess.run(words, check=False, stderr=subprocess.PIPE, text=True)
        self.assertEqual((done.returncode, done.stderr), (2, "python -m span_margin: RIVER-01 does not hold 'A\\x1b[2J'\n"))


class Program(Case):
    def test_named_by_the_environment(self) -> None:
        self.assertEqual(_program.find(), os.environ["SPAN"])
        self.use(SPAN=str(self.room / "missing"))
        self.assertIn("SPAN", str(self.error(span.ProgramError, span.check, PARAMS)))
        self.use(SPAN=str(PARAMS))
        self.error(span.ProgramError, span.check, PARAMS)

    def test_in_path(self) -> None:
        os.symlink(os.environ["SPAN"], "span")
        self.use(SPAN="", PATH=f"{self.room}:{os.environ['PATH']}")
        self.assertEqual(_program.find(), str(self.room / "span"))
        self.assertEqual(span.check(PARAMS).set, "D20251114")

    def test_of_the_checkout(self) -> None:
        package = self.room / "python" / "src" / "span_margin"
        shutil.copytree(Path(span.__file__).parent, package)
        built = self.room / "crates" / "span" / "out" / "span"
        built.parent.mkdir(parents=True)
        os.symlink(os.environ["SPAN"], built)
        script = "from span_margin import _program; print(_program.find())"
        said = subprocess.check_output([sys.executable, "-B", "-c", script], env={"PYTHONPATH": str(package.parent)}, text=True)
        self.assertEqual(said, f"{built}\n")

    def test_none(self) -> None:
        self.use(SPAN="", PATH="/nowhere")
        with mock.patch.object(_program, "_CLONE", Path("/nowhere/span")):
            self.assertIn("there is no program span", str(self.error(span.ProgramError, span.check, PARAMS)))

    def test_versions(self) -> None:
        self.use_program("exit 5", version="2.0.0")
        self.assertIn("version 2.0.0", str(self.error(span.ProgramError, span.check, PARAMS)))
        self.use_program("exit 5", version="0.9.0")
        self.error(span.ProgramError, span.check, PARAMS)
        self.use_program("exit 5", version="1.2.9")
        self.error(span.OutOfMemoryError, span.check, PARAMS)
        self.assertIn("1.3 or later", str(self.error(span.ProgramError, span.Session, PARAMS, POSITIONS)))
        self.use_program("exit 5", version="1.10.0")
        self.error(span.OutOfMemoryError, span.Session, PARAMS, POSITIONS)

    def test_another_program(self) -> None:
        for script in ("#!/bin/sh\necho hello", "#!/nowhere\n", "#!/bin/sh\nexit 1", "no program at all"):
            with self.subTest(script):
                Path("other").write_text(script)
                os.chmod("other", 0o755)
                self.use(SPAN="./other")
                self.error(span.ProgramError, span.check, PARAMS)

    def test_version_is_the_same(self) -> None:
        self.assertEqual(_program.version(_program.find()), tuple(int(it) for it in span.__version__.split(".")))
