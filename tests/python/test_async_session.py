"""Sessions in asyncio: each method against `Session`, coroutines that are cancelled, loops that are closed, and timeouts."""
import asyncio
import gc
import os
import random
import time
from pathlib import Path
from typing import Any, Awaitable, Callable, List

import span_margin as span
from shared import NEXT, PARAMS, POSITIONS, SessionCase

ACCOUNTS = ("RIVER-01", "CRACK-02", "GRAIN-03", "STRANGLE-04", "CONVERT-05", "OPTIONS-06", "FLAT-07")
LONGEST = 5.0  # seconds; no call of these tests takes so long


class AsyncCase(SessionCase):
    def run_in(self, work: Callable[[span.AsyncSession], Awaitable[Any]], **named: Any) -> Any:
        """What a coroutine returns that gets a session."""

        async def whole() -> Any:
            async with span.AsyncSession(PARAMS, POSITIONS, **named) as desk:
                return await work(desk)

        return asyncio.run(whole())


class Answers(AsyncCase):
    def test_each_method(self) -> None:
        plain = self.session()

        async def work(desk: span.AsyncSession) -> None:
            self.assertEqual(await desk.margin(), plain.margin())
            self.assertEqual(await desk.margin("RIVER-01"), plain.margin("RIVER-01"))
            self.assertEqual(await desk.explain("RIVER-01"), plain.explain("RIVER-01"))
            self.assertEqual(await desk.try_order("RIVER-01", {"CLZ5": -2}), plain.try_order("RIVER-01", {"CLZ5": -2}))
            orders: List[Any] = [("RIVER-01", {"CLZ5": number}) for number in range(1, 50)]
            self.assertEqual(await desk.try_orders(orders), plain.try_orders(orders))
            orders[5:5] = [("RIVER-01", {"NONE": 1})]
            self.assertEqual(sum(isinstance(it, span.SpanError) for it in await desk.try_orders(orders, return_errors=True)), 1)
            self.assertEqual((await desk.fill("RIVER-01", {"CLZ5": -2})).total, plain.fill("RIVER-01", {"CLZ5": -2}).total)
            self.assertEqual((await desk.use_set(NEXT.read_bytes())).set, plain.use_set(NEXT).set)
            self.assertEqual(bytes(await desk.positions()), bytes(plain.positions()))
            with self.assertRaises(span.RequestError):
                await desk.margin("NOBODY")

        self.run_in(work)

    def test_many_questions(self) -> None:
        """The methods that ask many questions answer as in a `Session`, next to other calls."""
        plain = self.session()

        async def work(desk: span.AsyncSession) -> None:
            shares, close, margin = await asyncio.gather(
                desk.attribution("RIVER-01"), desk.cheapest_close("RIVER-01", 1000000, most={"HOZ5": 0}), desk.margin("CRACK-02"))
            self.assertEqual(shares, plain.attribution("RIVER-01"))
            self.assertEqual((close.legs, close.is_met), (plain.cheapest_close("RIVER-01", 1000000, most={"HOZ5": 0}).legs, True))
            self.assertEqual(margin, plain.margin("CRACK-02"))
            with self.assertRaises(span.RequestError):
                await desk.attribution("NOBODY")
            with self.assertRaises(span.TimedOut):
                await desk.attribution("RIVER-01", timeout=0)
            with self.assertRaises(ValueError):
                await desk.cheapest_close("RIVER-01", 1, "due")

        self.run_in(work)

    def test_pipe(self) -> None:
        """A new set that waits for the writer of a pipe does not stop the loop, and can be cancelled. A later call gets all of the file."""
        os.mkfifo("pipe")

        async def work(desk: span.AsyncSession) -> None:
            for ends in (lambda task: task.cancel(), lambda task: None):
                task = asyncio.ensure_future(desk.use_set("pipe", timeout=0.5))
                await asyncio.sleep(0.1)
                self.assertEqual((await desk.margin("RIVER-01")).total, 1331287)
                ends(task)
                with self.assertRaises((asyncio.CancelledError, span.TimedOut)):
                    await task
                task = asyncio.ensure_future(desk.use_set("pipe"))
                writing = asyncio.get_running_loop().run_in_executor(None, Path("pipe").write_bytes, PARAMS.read_bytes())
                self.assertEqual((await task).set, "D20251114")
                await writing
            task = asyncio.ensure_future(desk.use_set("pipe"))
            await asyncio.sleep(0.1)
            await desk.close()
            with self.assertRaises(span.SessionEnded):
                await task

        self.run_in(work)

    def test_many_questions_are_cancelled(self) -> None:
        """The thread of a coroutine that is cancelled asks no more, and the session goes on."""

        async def work(desk: span.AsyncSession) -> None:
            task = asyncio.ensure_future(desk.cheapest_close("CRACK-02", 1, tries=10**9, seconds=10**6, only=["CLZ5"]))
            await asyncio.sleep(0)
            task.cancel()
            with self.assertRaises(asyncio.CancelledError):
                await task
            self.assertEqual((await desk.margin("RIVER-01")).total, 1331287)

        self.run_in(work)  # (which waits for the thread)

    def test_two_hundred_coroutines(self) -> None:
        plain = self.session()
        answers = {it: plain.margin(it) for it in ACCOUNTS}

        async def ask(desk: span.AsyncSession, number: int) -> None:
            account = ACCOUNTS[number % len(ACCOUNTS)]
            for turn in range(5):
                self.assertEqual(await desk.margin(account), answers[account])
                order = await desk.try_order(account, {"CLZ5": number + turn}, f"N{number}")
                self.assertEqual((order.order, order.account), (f"N{number}", account))

        async def work(desk: span.AsyncSession) -> None:
            await asyncio.gather(*(ask(desk, number) for number in range(200)))

        self.run_in(work)

    def test_ends(self) -> None:
        async def work() -> None:
            desk = span.AsyncSession(PARAMS, POSITIONS)
            self.assertTrue(desk.closed)
            with self.assertRaises(span.SessionEnded):
                await desk.margin()
            self.assertIs(await desk.open(), desk)
            self.assertEqual(repr(desk), "<AsyncSession, set D20251114>")
            await desk.close()
            await desk.close()
            for call in (desk.margin, desk.positions):
                with self.assertRaises(span.SessionEnded):
                    await call()
            with self.assertRaises(span.PositionsError):
                await span.AsyncSession(PARAMS, b"A,NONE,1\n").open()

        asyncio.run(work())


class Left(AsyncCase):
    def test_cancelled(self) -> None:
        plain, chance = self.session(), random.Random(4)
        answers = {it: plain.margin(it) for it in ACCOUNTS}

        async def work(desk: span.AsyncSession) -> int:
            cancelled = 0
            for _ in range(1000):
                task = asyncio.ensure_future(desk.margin(chance.choice(ACCOUNTS)))
                await asyncio.sleep(chance.uniform(0, 2e-4))
                task.cancel()
                account = chance.choice(ACCOUNTS)
                self.assertEqual(await desk.margin(account), answers[account])
                cancelled += task.cancelled()
            return cancelled

        self.assertGreater(self.run_in(work, timeout=LONGEST), 100)

    def test_cancelled_fills(self) -> None:
        async def work(desk: span.AsyncSession) -> None:
            tasks = [asyncio.ensure_future(desk.fill("NEW", {"CLZ5": 1})) for _ in range(200)]
            await asyncio.sleep(0.001)
            for task in tasks:
                task.cancel()
            results = await asyncio.gather(*tasks, return_exceptions=True)
            returned = sum(isinstance(it, span.AccountTotal) for it in results)
            positions = await desk.positions()
            self.assertEqual({it.outcome().state for it in desk.left} - {"accepted"}, set())
            self.assertEqual(sum(it.quantity for it in positions if it.account == "NEW"), returned + len(desk.left))

        self.run_in(work)

    def test_loop_is_closed(self) -> None:
        desk, loop = span.AsyncSession(PARAMS, POSITIONS), asyncio.new_event_loop()
        loop.set_exception_handler(lambda *_: None)  # it would print that a task was destroyed
        loop.run_until_complete(desk.open())
        task = loop.create_task(desk.margin("RIVER-01"))
        loop.run_until_complete(asyncio.sleep(0))
        task.cancel()
        loop.close()

        async def work() -> None:
            self.assertEqual((await desk.margin("RIVER-01")).total, 1331287)
            await desk.close()

        asyncio.run(work())
        del task
        gc.collect()

    def test_timeout(self) -> None:
        self.use_program("echo OK,D20251114,0,0,0,0,0,0; echo done,0; read request; sleep 60")

        async def work(desk: span.AsyncSession) -> None:
            with self.assertRaises(span.TimedOut) as caught:
                await desk.fill("A", {"CLZ5": 1}, timeout=0.3)
            self.assertEqual((caught.exception.sent, caught.exception.outcome().state), (True, "not yet"))
            with self.assertRaises(span.TimedOut) as caught:
                await desk.margin("A", timeout=0.05)
            self.assertFalse(caught.exception.sent)
            self.assertEqual([it.request for it in desk.left], ["FILL,A,CLZ5,1"])

        begun = time.monotonic()
        self.run_in(work)
        self.assertLess(time.monotonic() - begun, 5)

    def test_opening_is_cancelled(self) -> None:
        self.use_program("sleep 60")

        async def work() -> None:
            desk = span.AsyncSession(PARAMS, POSITIONS)
            with self.assertRaises(asyncio.TimeoutError):
                await asyncio.wait_for(desk.open(), 0.1)
            with self.assertRaises(span.TimedOut):
                await span.AsyncSession(PARAMS, POSITIONS, timeout=0.1).open()
            self.assertTrue(desk.closed)

        begun = time.monotonic()
        asyncio.run(work())
        self.assertLess(time.monotonic() - begun, 5)
