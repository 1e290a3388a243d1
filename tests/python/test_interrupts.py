"""Calls of a session that are interrupted: at random times by a signal, and at each line that they run. No later call gets a wrong
answer, none waits for ever, and each fill that was sent has its outcome."""
import gc
import os
import random
import signal
import statistics
import sys
import time
import traceback
from pathlib import Path
from types import FrameType
from typing import Any, Callable, Optional, Set
from unittest import mock

import span_margin as span
from shared import NEXT, PARAMS, POSITIONS, SessionCase

ACCOUNTS = ("RIVER-01", "CRACK-02", "GRAIN-03", "STRANGLE-04", "CONVERT-05", "OPTIONS-06", "FLAT-07")
CALLS = 3000  # with deadlines at random times
LONGEST = 5.0  # seconds; no call of these tests takes so long


class Deadline(Exception):
    """Raised by a signal handler, as a recipe for deadlines does."""


class Deadlines(SessionCase):
    """Calls that an alarm interrupts at a random time of their round trip."""

    def setUp(self) -> None:
        super().setUp()
        self.addCleanup(signal.signal, signal.SIGALRM, signal.signal(signal.SIGALRM, self.ring))
        self.addCleanup(signal.setitimer, signal.ITIMER_REAL, 0)

    is_armed = False

    def ring(self, *_: Any) -> None:
        if self.is_armed:  # (a signal that another thread gets may come late)
            raise Deadline

    def within(self, seconds: float, call: Callable[[], Any]) -> Any:
        """The result of a call, or None if the alarm rang first. `rang_inside`: the call had begun, and had no result yet."""
        self.rang_inside, self.is_armed = False, True
        try:
            try:
                signal.setitimer(signal.ITIMER_REAL, seconds)
                return call()
            finally:
                self.is_armed = False
                signal.setitimer(signal.ITIMER_REAL, 0)
        except Deadline as error:  # (the alarm rings once, so it cannot ring here again)
            asked = [frame for frame, _ in traceback.walk_tb(error.__traceback__) if frame.f_code.co_name == "_ask"]
            self.rang_inside = any(frame.f_locals.get("told") is None for frame in asked)
            return None

    @staticmethod
    def usual(call: Callable[[], Any]) -> float:
        """How many seconds a call usually takes."""
        seconds = []
        for _ in range(100):
            begun = time.perf_counter()
            call()
            seconds.append(time.perf_counter() - begun)
        return statistics.median(seconds)

    def test_random_deadlines(self) -> None:
        desk, chance = self.session(timeout=LONGEST), random.Random(1)
        answers = {it: desk.margin(it) for it in ACCOUNTS}
        usual, calls, interrupted = self.usual(lambda: desk.margin(ACCOUNTS[0])), 0, 0
        while calls < CALLS or interrupted < CALLS // 3:
            first, second = chance.choice(ACCOUNTS), chance.choice(ACCOUNTS)
            got = self.within(chance.uniform(1e-6, 2 * usual), lambda: desk.margin(first))
            calls, interrupted = calls + 1, interrupted + (got is None)
            self.assertIn(got, (None, answers[first]))
            self.assertEqual(desk.margin(second), answers[second])
        self.assertEqual(desk.left, ())

    def test_fills_with_random_deadlines(self) -> None:
        desk, chance = self.session(timeout=LONGEST), random.Random(2)
        usual, known, interrupted = self.usual(lambda: desk.fill("NEW", {"CLZ5": 0})), 0, 0
        while interrupted < 300:
            got = self.within(chance.uniform(1e-6, 2 * usual), lambda: desk.fill("NEW", {"CLZ5": 1}))
            known, interrupted = known + (got is not None), interrupted + (got is None)
            if got is None:
                outcomes = [it.outcome(timeout=LONGEST).state for it in desk.left]
                held = sum(it.quantity for it in desk.positions() if it.account == "NEW")
                if not self.rang_inside:  # perhaps the call had just returned
                    known = held - len(outcomes)
                self.assertEqual((set(outcomes) - {"accepted"}, held), (set(), known + len(outcomes)))
        self.assertEqual({it.request for it in desk.left}, {"FILL,NEW,CLZ5,1"})
        self.assertGreater(len(desk.left), 30)

    def test_fills_with_keys(self) -> None:
        """An interrupted fill that is asked for again is carried out once, also if the interrupt came as the call returned."""
        desk, chance, interrupted = self.session(timeout=LONGEST), random.Random(6), 0
        usual = self.usual(lambda: desk.fill("NEW", {"CLZ5": 0}))
        for number in range(1000):
            got = self.within(chance.uniform(1e-6, 2 * usual), lambda: desk.fill("NEW", {"CLZ5": 1}, key=f"K{number}"))
            interrupted += got is None
            self.assertIn(got, (None, desk.fill("NEW", {"CLZ5": 1}, key=f"K{number}")))
            self.assertEqual(sum(it.quantity for it in desk.positions() if it.account == "NEW"), number + 1)
        self.assertGreater(interrupted, 100)

    def test_many_orders(self) -> None:
        desk, orders = self.session(), [("RIVER-01", {"CLZ5": number}) for number in range(1, 10001)]
        for turn in range(5):
            self.assertIsNone(self.within(0.01 * (turn + 1), lambda: [desk.try_orders(orders) for _ in range(100)]))
            self.assertEqual(desk.margin("RIVER-01").total, 1331287)

    def test_opening(self) -> None:
        usual, chance = self.usual(lambda: span.Session(PARAMS, POSITIONS).close()), random.Random(3)
        for _ in range(100):
            desk = self.within(chance.uniform(1e-6, 1.5 * usual), lambda: span.Session(PARAMS, POSITIONS))
            if desk:
                self.assertEqual(desk.margin("RIVER-01").total, 1331287)
                self.within(chance.uniform(1e-6, usual), desk.close)
                desk.close()
        del desk
        self.check_children()

    def test_copies(self) -> None:
        """The process of a copy ends with its call."""
        desk, chance = self.session(), random.Random(5)
        calls = [lambda: desk.attribution("GRAIN-03"), lambda: desk.cheapest_close("RIVER-01", 1000000, tries=100)]
        answers, own, interrupted = [call() for call in calls], str(desk._channel._process.pid), 0
        while interrupted < 30:
            which = chance.randrange(2)
            got = self.within(chance.uniform(1e-4, 0.05), calls[which])
            interrupted += got is None
            self.assertIn(got, (None, answers[which]))
            self.check_children(own)
        self.assertEqual([call() for call in calls], answers)

    def check_children(self, *own: str) -> None:
        """Checks that all processes of sessions end, but these."""
        gc.collect()
        latest = time.monotonic() + LONGEST
        while children() - {*own} and time.monotonic() < latest:
            time.sleep(0.01)
        self.assertEqual(children(), {*own})


def children() -> Set[str]:
    """The process numbers of the children of this process."""
    found: Set[str] = set()
    for path in Path("/proc/self/task").glob("*/children"):
        try:
            found.update(path.read_text().split())
        except OSError:
            pass  # the thread has ended
    return found


class Injected(KeyboardInterrupt):
    """What Ctrl-C raises, at a chosen line."""


class EachLine(SessionCase):
    """Calls that are interrupted at their first line, at their second line, and so on, also of the library calls that they make."""

    def interrupt(self, call: Callable[[], Any], line: int) -> bool:
        """Calls, and raises an exception at the start of the line with this number, from 1. Whether the call has so many lines."""
        count = 0

        def trace(frame: FrameType, event: str, _: Any) -> Optional[Callable[..., Any]]:
            nonlocal count
            if event == "line" and frame.f_code.co_filename != __file__:
                count += 1
                if count == line:
                    sys.settrace(None)
                    raise Injected
            return trace

        with mock.patch.object(sys, "unraisablehook"):  # what would print an exception in a finalizer
            sys.settrace(trace)
            try:
                call()
            except Injected:
                return True
            finally:
                sys.settrace(None)
        # (an exception in a finalizer is swallowed, so a call may end although its line was reached)
        return count >= line

    def each_line(self, call: Callable[[], Any], after: Callable[[int], None], most: int = 100000) -> None:
        """Interrupts a call at each of its lines, and calls `after` each time."""
        line = 1
        while line <= most and self.interrupt(call, line):
            after(line)
            line += 1
        self.assertGreater(line, 10)

    def test_questions(self) -> None:
        desk = self.session(timeout=LONGEST)
        answers = {it: desk.margin(it) for it in ACCOUNTS}

        def after(line: int) -> None:
            account = ACCOUNTS[line % len(ACCOUNTS)]
            self.assertEqual(desk.margin(account), answers[account])

        for name, call in {
            "margin": lambda: desk.margin("RIVER-01"),
            "statement": lambda: desk.margin(),
            "explain": lambda: desk.explain("RIVER-01"),
            "try_order": lambda: desk.try_order("RIVER-01", {"CLZ5": 1, "CLF6": -1}),
            "try_orders": lambda: desk.try_orders([("RIVER-01", {"CLZ5": 1})] * 3),
            "refused": lambda: self.assertRaises(span.RequestError, desk.margin, "NOBODY"),
            "positions": lambda: desk.positions(),
        }.items():
            with self.subTest(name):
                self.each_line(call, after)
        self.assertEqual(desk.left, ())

    def test_fill(self) -> None:
        desk, returned = self.session(timeout=LONGEST), 0

        def fill() -> None:
            nonlocal returned
            desk.fill("NEW", {"CLZ5": 1})
            returned += 1

        def after(_: int) -> None:
            outcomes = [it.outcome(timeout=LONGEST).state for it in desk.left]
            self.assertEqual(set(outcomes) - {"accepted"}, set())
            self.assertEqual(sum(it.quantity for it in desk.positions() if it.account == "NEW"), returned + len(outcomes))

        self.each_line(fill, after)
        self.assertGreater(len(desk.left), 3)

    def test_fills_with_keys(self) -> None:
        desk, key = self.session(timeout=LONGEST), 1

        def fill() -> None:
            desk.fill("NEW", {"CLZ5": 1}, key=f"K{key}")

        def after(line: int) -> None:
            nonlocal key
            fill()
            self.assertEqual(sum(it.quantity for it in desk.positions() if it.account == "NEW"), line)
            key = line + 1

        self.each_line(fill, after)
        self.assertGreater(len(desk.left), 3)

    def test_new_set(self) -> None:
        desk, files = self.session(timeout=LONGEST), (PARAMS.read_bytes(), NEXT.read_bytes())
        place = self.use_temporary_directory()

        def after(_: int) -> None:
            for left in desk.left:
                self.assertEqual(left.outcome(timeout=LONGEST).state, "accepted")
            answer = desk.margin("RIVER-01")
            self.assertEqual((answer.set, int(answer.total)), (desk.set, {"D20251114": 1331287, "D20251117": 1509294}[desk.set]))

        self.each_line(lambda: desk.use_set(files[1]), after)
        self.assertEqual(desk.use_set(files[0]).set, "D20251114")
        desk.close()
        gc.collect()
        self.assertEqual(os.listdir(place), [])

    def test_copies(self) -> None:
        desk, line = self.session(), 1
        own, before = children(), open_files()
        quiet = desk.attribution("GRAIN-03")
        while self.interrupt(lambda: desk.attribution("GRAIN-03"), line):
            self.wait_for_the_end(before, own)
            line += 1 + line // 8
        self.assertGreater(line, 1000)
        self.assertEqual(desk.attribution("GRAIN-03"), quiet)

    def test_opening_and_close(self) -> None:
        before = open_files()

        def open_and_close() -> None:
            desk = span.Session(PARAMS, POSITIONS)
            desk.margin("RIVER-01")
            desk.close()

        self.each_line(open_and_close, lambda _: None)
        self.wait_for_the_end(before)

    def test_opening_with_content(self) -> None:
        place, files = self.use_temporary_directory(), (PARAMS.read_bytes(), POSITIONS.read_bytes())
        before = open_files()
        self.each_line(lambda: span.Session(*files).close(), lambda _: None, most=400)
        self.wait_for_the_end(before)
        self.assertEqual(os.listdir(place), [])

    def wait_for_the_end(self, files: int, own: Set[str] = frozenset()) -> None:  # type: ignore[assignment]
        """Waits until no process of a session is left but these, and no more files are open than before."""
        latest = time.monotonic() + LONGEST
        while (children() - own or open_files() > files) and time.monotonic() < latest:
            gc.collect()
            time.sleep(0.01)
        self.assertEqual((children(), open_files()), (set(own), files))


def open_files() -> int:
    return len(list(Path("/proc/self/fd").iterdir()))
