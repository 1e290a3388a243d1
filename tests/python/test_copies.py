"""Attribution and the cheapest close while others trade: each answer is the one of a quiet session with the positions that it names, and no
process of a copy is left."""
import asyncio
import os
import random
import signal
import threading
import time
from typing import Any, Awaitable, Callable, Dict, List, Tuple, Union
from unittest import mock

import span_margin as span
from shared import NEXT, PARAMS, SessionCase, lines_of
from span_margin import _attribution, _closing
from test_interrupts import LONGEST, children

CALLS = 40  # of each kind, while others trade
LOTS = 5
PAUSE = 0.01  # seconds between trades, so that the threads of this process share a processor
MANY = 20000  # random orders, which take long
Answer = Union[span.Attribution, span.CheapestClose]


def accounts() -> List[Tuple[str, str, int]]:
    """Accounts of 3, 9 and 20 contracts, which hold CLZ5 and CLF6."""
    names = [line.split(",")[1] for line in lines_of(PARAMS) if line.startswith("CONTRACT,")]
    chance = random.Random(98)
    rows = []
    for account, count in (("THREE", 3), ("NINE", 9), ("TWENTY", 20)):
        held = ["CLZ5", "CLF6", *chance.sample([it for it in names if it not in ("CLZ5", "CLF6")], count - 2)]
        rows += [(account, contract, chance.choice((-4, -2, 3, 6))) for contract in held]
    return rows


class Case(SessionCase):
    def setUp(self) -> None:
        super().setUp()
        self.enter(mock.patch.object(_attribution, "PAIRS", 3))
        self.enter(mock.patch.object(_closing, "MOST_COMBINATIONS", 200))
        self.rows = accounts()
        self.targets: Dict[str, int] = {}
        self.expected: Dict[Any, Answer] = {}
        with span.Session(PARAMS, self.rows) as desk:
            for account in desk.margin():
                self.targets[account.account] = account.total * 6 // 10

    def ask(self, desk: Any, turn: int) -> Any:
        """The question with this number: an attribution or a close of one of the accounts. (The time of a search has no limit here.)"""
        account = ("THREE", "NINE", "TWENTY")[turn // 2 % 3]
        if turn % 2:
            return desk.cheapest_close(account, self.targets[account], tries=60, seconds=10**6)
        return desk.attribution(account)

    def check(self, turn: int, answer: Answer) -> None:
        """The answer is the one of a quiet session with these positions."""
        key = (turn % 6, answer.set, tuple(answer.positions.items()))
        if key not in self.expected:
            held = [(answer.account, contract, quantity) for contract, quantity in answer.positions.items()]
            with span.Session({"D20251114": PARAMS, "D20251117": NEXT}[answer.set], held) as desk:
                self.expected[key] = self.ask(desk, turn)
        self.assertEqual(answer, self.expected[key])

    def check_states(self) -> None:
        """Others did trade: answers were for several states."""
        self.assertGreater(len(self.expected), 6)


class Trades(Case):
    """Each of the accounts is traded and comes back to its positions, and the set changes and comes back."""

    def trades(self) -> List[Tuple[str, Any]]:
        more, less = {"CLZ5": LOTS}, {"CLZ5": -LOTS}
        return [("THREE", more), ("NINE", more), ("THREE", less), ("NINE", less), ("TWENTY", {"CLF6": LOTS}), ("OTHER", more),
                ("", NEXT), ("TWENTY", {"CLF6": -LOTS}), ("OTHER", less), ("", PARAMS)]

    def test_session(self) -> None:
        desk, failed, done = self.session(PARAMS, self.rows), [], threading.Event()

        def trade() -> None:
            try:
                while not done.is_set():
                    for account, what in self.trades():
                        time.sleep(PAUSE)
                        if account:
                            desk.fill(account, what)
                        else:
                            desk.use_set(what)
            except Exception as error:
                failed.append(error)

        thread = threading.Thread(target=trade)
        thread.start()
        try:
            for turn in range(2 * CALLS):
                self.check(turn, self.ask(desk, turn))
        finally:
            done.set()
            thread.join()
        self.assertEqual(failed, [])
        self.check_states()

    def test_coroutines(self) -> None:
        async def trade(desk: span.AsyncSession) -> None:
            while True:
                for account, what in self.trades():
                    await asyncio.sleep(PAUSE)
                    await (desk.fill(account, what) if account else desk.use_set(what))

        async def work() -> List[Answer]:
            async with span.AsyncSession(PARAMS, self.rows) as desk:
                trading = asyncio.ensure_future(trade(desk))
                answers: List[Answer] = []
                while len(answers) < 2 * CALLS:
                    answers += await asyncio.gather(*(self.ask(desk, len(answers) + turn) for turn in range(8)))
                self.assertFalse(trading.done())
                trading.cancel()
                return answers

        for turn, answer in enumerate(asyncio.run(work())):
            self.check(turn, answer)
        self.check_states()

    def test_trades_of_the_caller(self) -> None:
        """A fill between the question and the answer changes nothing in the answer, and the session goes on meanwhile."""
        desk = self.session(PARAMS, self.rows)
        quiet, answered = desk.attribution("NINE"), _attribution.answered

        def late(*arguments: Any) -> Any:
            desk.fill("NINE", {"CLZ5": LOTS})
            desk.use_set(NEXT)
            return answered(*arguments)

        with mock.patch.object(_attribution, "answered", late):
            self.assertEqual(desk.attribution("NINE"), quiet)
        self.assertEqual((desk.set, desk.attribution("NINE").positions["CLZ5"]), ("D20251117", quiet.positions["CLZ5"] + LOTS))


class Ends(Case):
    """A copy ends with its call and with the session, whatever ends them."""

    def only(self, *desks: Any) -> None:
        """Checks that only the processes of these sessions are left."""
        latest, own = time.monotonic() + LONGEST, {str(desk._channel._process.pid) for desk in desks}
        while children() != own and time.monotonic() < latest:
            time.sleep(0.01)
        self.assertEqual(children(), own)

    def test_after_each_answer(self) -> None:
        place = self.use_temporary_directory()
        desk = self.session(PARAMS, self.rows)
        for turn in range(6):
            self.ask(desk, turn)
        self.only(desk)
        for wrong in (lambda: desk.attribution("NINE", "due"), lambda: desk.cheapest_close("NINE", 1, only=["NONE"])):
            self.error(ValueError, wrong)
        with mock.patch.object(_attribution, "PAIRS", MANY):
            self.error(span.TimedOut, lambda: desk.attribution("TWENTY", timeout=0.5))
        self.only(desk)
        self.assertEqual((os.listdir(place), desk._copies), ([], {}))

    def copy_of(self, desk: Any) -> Any:
        """The copy that a call in another thread uses, when it is open."""
        latest = time.monotonic() + LONGEST
        while time.monotonic() < latest:
            for found in list(desk._copies.values()):
                copy = found()
                if copy and copy._channel and copy._channel._process and copy._opening.request.complete:
                    return copy
            time.sleep(0.001)
        raise AssertionError("there is no copy")

    def while_asking(self, desk: Any, meanwhile: Callable[[Any], None]) -> List[BaseException]:
        """The errors of a call that would take long in another thread, while something is done with its copy."""
        errors: List[BaseException] = []

        def ask() -> None:
            try:
                desk.attribution("TWENTY")
            except BaseException as error:
                errors.append(error)

        with mock.patch.object(_attribution, "PAIRS", MANY):
            thread = threading.Thread(target=ask)
            thread.start()
            meanwhile(self.copy_of(desk))
            thread.join()
        return errors

    def test_session_is_closed(self) -> None:
        desk = self.session(PARAMS, self.rows)
        (error,) = self.while_asking(desk, lambda _: desk.close())
        self.assertEqual((type(error), str(error)), (span.SessionEnded, "the session is closed"))
        self.only()

    def test_copy_is_killed(self) -> None:
        """The error is not the one of an ended session, which goes on."""
        desk = self.session(PARAMS, self.rows)
        (error,) = self.while_asking(desk, lambda copy: os.kill(copy._channel._process.pid, signal.SIGKILL))
        self.assertEqual((type(error), error.status), (span.ProgramError, -signal.SIGKILL))  # type: ignore[attr-defined]
        self.assertEqual(desk.attribution("THREE").account, "THREE")
        self.only(desk)

    def test_other_explanation(self) -> None:
        """A program that was replaced meanwhile, and explains the account otherwise, is noticed."""
        desk = self.session(PARAMS, self.rows)
        explained = "T,THREE,D20251114,5"
        desk._channel.command[0] = str(self.use_program(
            f"echo OK,D20251114,0,0,0,0,0,0; echo done,0; read line; echo {explained}; echo done,1; read line"))
        self.assertIn("otherwise", str(self.error(span.ProgramError, desk.attribution, "THREE")))

    def test_fork(self) -> None:
        """A child that is forked during a call cannot use the copy, and does not end it."""
        desk, answered = self.session(PARAMS, self.rows), _attribution.answered
        quiet, statuses = desk.attribution("NINE"), []

        def forked(*arguments: Any) -> Any:
            number = os.fork()
            if number:
                statuses.append(os.waitstatus_to_exitcode(os.waitpid(number, 0)[1]))
            return answered(*arguments)

        with mock.patch.object(_attribution, "answered", forked):
            parent = os.getpid()
            try:
                found = desk.attribution("NINE")
            except span.SessionEnded:
                os._exit(3 if os.getpid() != parent else 4)
            finally:
                if os.getpid() != parent:
                    os._exit(5)
        self.assertEqual((found, statuses), (quiet, [3]))
        self.only(desk)


class Cancelled(Case):
    def run_in(self, work: Callable[[span.AsyncSession], Awaitable[Any]]) -> None:
        async def whole() -> None:
            async with span.AsyncSession(PARAMS, self.rows) as desk:
                await work(desk)
                self.assertEqual(desk._copies, {})
            await asyncio.sleep(0)

        asyncio.run(whole())
        latest = time.monotonic() + LONGEST
        while children() and time.monotonic() < latest:
            time.sleep(0.01)
        self.assertEqual(children(), set())

    def test_at_random_times(self) -> None:
        chance = random.Random(98)

        async def work(desk: span.AsyncSession) -> None:
            begun = time.monotonic()
            await desk.attribution("NINE")
            usual, cancelled = time.monotonic() - begun, 0
            for turn in range(40):
                task = asyncio.ensure_future(self.ask(desk, turn))
                await asyncio.sleep(chance.uniform(0, usual))
                task.cancel()
                await asyncio.wait([task])
                cancelled += task.cancelled()
            self.assertGreater(cancelled, 10)
            latest = time.monotonic() + LONGEST
            while desk._copies and time.monotonic() < latest:
                await asyncio.sleep(0.01)
            self.assertEqual((await desk.attribution("NINE")).account, "NINE")

        self.run_in(work)

    def test_stopped_programs(self) -> None:
        """A call that is cancelled leaves no thread that waits, if the process of the session is stopped, or the one of the copy."""

        async def work() -> None:
            desk = await span.AsyncSession(PARAMS, self.rows).open()
            process = desk._channel._process
            before = len(os.listdir("/proc/self/task"))
            os.kill(process.pid, signal.SIGSTOP)
            with self.assertRaises(asyncio.TimeoutError):
                await asyncio.wait_for(desk.attribution("NINE"), 0.1)
            os.kill(process.pid, signal.SIGCONT)
            with mock.patch.object(_attribution, "PAIRS", MANY):
                task = asyncio.ensure_future(desk.attribution("TWENTY"))
                while not any(found() and found()._channel and found()._channel._process for found in desk._copies.values()):
                    await asyncio.sleep(0.001)
                (found,) = desk._copies.values()
                os.kill(found()._channel._process.pid, signal.SIGSTOP)
                await asyncio.sleep(0.1)
                task.cancel()
                await asyncio.wait([task])
            latest = time.monotonic() + LONGEST
            while len(os.listdir("/proc/self/task")) > before and time.monotonic() < latest:
                await asyncio.sleep(0.01)
            self.assertEqual((desk._copies, len(os.listdir("/proc/self/task"))), ({}, before))
            process.kill()  # (and no close: the loop ends although nobody closed the session)

        begun = time.monotonic()
        asyncio.run(work())
        self.assertLess(time.monotonic() - begun, 2 * LONGEST)

