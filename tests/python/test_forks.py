"""Sessions of a process that is forked: a child cannot use them, and does not keep them open."""
import multiprocessing
import os
import signal
import time
from typing import Callable

import span_margin as span
from shared import SessionCase


def nap(seconds: float) -> None:
    time.sleep(seconds)


class Forks(SessionCase):
    def in_child(self, call: Callable[[], None]) -> int:
        """The exit status of a forked child that calls this: 0, or 1 if it raised SessionEnded, or 2 for another error."""
        number = os.fork()
        if number == 0:
            status = 2
            try:
                call()
                status = 0
            except span.SessionEnded:
                status = 1
            finally:
                os._exit(status)
        return os.waitstatus_to_exitcode(os.waitpid(number, 0)[1])

    def test_a_pool_is_alive_at_close(self) -> None:
        desk = self.session()
        with multiprocessing.get_context("fork").Pool(2) as pool:
            pool.map(nap, [0.0, 0.0])
            process, begun = desk._channel._process, time.monotonic()
            desk.close()
            self.assertLess(time.monotonic() - begun, 5)
            self.assertEqual(process.returncode, 0)

    def test_a_child_uses_the_session(self) -> None:
        desk = self.session()
        before = desk.margin("RIVER-01")
        for call in (lambda: desk.margin("RIVER-01"), lambda: desk.fill("RIVER-01", {"CLZ5": 1}), lambda: desk.positions()):
            self.assertEqual(self.in_child(call), 1)
        self.assertEqual(desk.margin("RIVER-01"), before)

    def test_a_child_closes_the_session(self) -> None:
        desk = self.session()
        self.assertEqual(self.in_child(desk.close), 0)
        self.assertEqual(self.in_child(lambda: self.assertTrue(desk.closed)), 0)
        self.assertEqual((desk.closed, desk.margin("RIVER-01").total), (False, 1331287))

    def test_a_child_ends(self) -> None:
        desk = self.session()
        for _ in range(20):
            number = os.fork()
            if number == 0:
                os.kill(os.getpid(), signal.SIGKILL)
            os.waitpid(number, 0)
            self.assertEqual(desk.margin("RIVER-01").total, 1331287)

    def test_a_child_has_its_own_session(self) -> None:
        desk = self.session()

        def work() -> None:
            with self.session() as own:
                own.fill("RIVER-01", {"CLZ5": -2})
                self.assertEqual(own.margin("RIVER-01").total, 1848446)

        self.assertEqual(self.in_child(work), 0)
        self.assertEqual(desk.margin("RIVER-01").total, 1331287)
