"""Shared code of the tests of the package: the example files, directories, and programs that stand in for span."""
import dataclasses
import os
import random
import stat
import tempfile
import unittest
from pathlib import Path
from typing import Any, Dict, Iterator, List, Tuple, Type, TypeVar, Union
from unittest import mock

import span_margin as span
from lib.random_files import Files, joined

EXAMPLES = Path(__file__).resolve().parents[2] / "examples"
PARAMS, NEXT, VALUE = EXAMPLES / "params.csv", EXAMPLES / "params-next.csv", EXAMPLES / "params-value.csv"
POSITIONS, HEDGER = EXAMPLES / "positions-broker.csv", EXAMPLES / "positions-hedger.csv"
ORDERS = EXAMPLES / "orders-broker.csv"
FAULTY_PARAMS, FAULTY_POSITIONS = EXAMPLES / "params-faults.csv", EXAMPLES / "positions-faults.csv"
Error = TypeVar("Error", bound=BaseException)


def line_of(word: str, make: Any, line: Any) -> str:
    """The line that span printed for an object, without the end, from the fields of the class `make`."""
    cells = [getattr(line, field.name) for field in dataclasses.fields(make)]
    if make is span.Sums:
        cells[-1:] = cells[-1]
    return ",".join((word, *(str(cell) for cell in cells if cell is not None)))


def statement_lines(statement: span.Statement) -> List[str]:
    """The lines that span printed for a statement."""
    found = []
    for account in statement:
        found += [line_of("R", span.CommodityMargin, it) for it in account]
        found.append(line_of("T", span.AccountTotal, account))
    return found


def lines_of(path: Union[str, Path]) -> List[str]:
    """The lines of a file."""
    return Path(path).read_text(encoding="utf-8").split("\n")[:-1]


class Case(unittest.TestCase):
    """A test in a new working directory, `self.room`, which is removed after the test."""

    def setUp(self) -> None:
        room = tempfile.TemporaryDirectory()
        self.addCleanup(room.cleanup)
        self.addCleanup(os.chdir, os.getcwd())
        os.chdir(room.name)
        self.room = Path(room.name)

    def enter(self, patch: Any) -> None:
        """Starts a patch until the test ends."""
        patch.start()
        self.addCleanup(patch.stop)

    def use(self, **variables: str) -> None:
        """Sets environment variables until the test ends."""
        self.enter(mock.patch.dict(os.environ, variables))

    def use_temporary_directory(self) -> Path:
        """Makes a new directory for temporary files, and returns it."""
        place = self.room / "temporary"
        place.mkdir()
        self.enter(mock.patch.object(tempfile, "tempdir", str(place)))
        return place

    def use_program(self, script: str, version: str = "1.3.0") -> Path:
        """Replaces span by a shell script, in which `$SPAN_REAL` is the built program."""
        path = self.room / "stand-in"
        path.write_text(f'#!/bin/sh\n[ "$1" = --version ] && echo "span {version} (stand-in)" && exit\n{script}\n', encoding="utf-8")
        path.chmod(path.stat().st_mode | stat.S_IXUSR)
        self.use(SPAN=str(path), SPAN_REAL=os.environ["SPAN"])
        return path

    def use_output(self, name: str, version: str = "1.3.0") -> bytes:
        """Replaces span by a program that prints a file of the examples, and returns the content of the file."""
        self.use_program(f"cat '{EXAMPLES}/{name}'", version)
        return (EXAMPLES / name).read_bytes()

    def error(self, kind: Type[Error], call: Any, *arguments: Any, **named: Any) -> Error:
        """The error of exactly this class, which a call raises."""
        with self.assertRaises(kind) as caught:
            call(*arguments, **named)
        self.assertIs(type(caught.exception), kind)
        return caught.exception


class SessionCase(Case):
    """A test that opens sessions, which are closed after the test."""

    def session(self, params: Any = PARAMS, positions: Any = POSITIONS, **named: Any) -> span.Session:
        desk = span.Session(params, positions, **named)
        self.addCleanup(desk.close)
        return desk

    def stand_in(self, script: str, **named: Any) -> span.Session:
        """A session of a program that opens it and then runs a script."""
        self.use_program(f"echo OK,D20251114,0,0,0,0,0,0; echo done,0; {script}")
        return self.session(**named)


def random_sessions(case: SessionCase, seed: int, count: int) -> Iterator[Tuple[random.Random, span.Session, List[str]]]:
    """Sessions without positions under random parameter sets, with the contracts of each set. The seed chooses the sets."""
    chance = random.Random(seed)
    for _ in range(count):
        files = Files(chance)
        with case.session(joined(files.params), b"") as desk:
            yield chance, desk, [record[1] for record in files.params if record[0] == "CONTRACT"]


def fill_random(chance: random.Random, desk: span.Session, contracts: List[str], most: int, lots: int) -> Dict[str, int]:
    """Gives the account A up to `most` contracts, and as many lots in all as `lots`, or one of each. Returns what it holds."""
    held = chance.sample(contracts, min(len(contracts), chance.randint(1, most)))
    legs = {contract: chance.choice((-1, 1)) for contract in held}
    for _ in range(lots - len(held)):
        contract = chance.choice(held)
        legs[contract] += 1 if legs[contract] > 0 else -1
    before = {it.contract: -it.quantity for it in desk.positions() if it.account == "A"}
    if before:
        desk.fill("A", before)
    desk.fill("A", legs)
    return legs
