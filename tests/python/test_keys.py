"""Fills with keys: each is carried out once; other fills with the same key, rejections, fills in flight, and old keys."""
import asyncio
import random
import threading
from unittest import mock

import span_margin as span
from shared import PARAMS, POSITIONS, SessionCase


class Case(SessionCase):
    def held(self, desk: span.Session, account: str = "NEW") -> int:
        return sum(it.quantity for it in desk.positions() if it.account == account)


class Keys(Case):
    def test_repeated(self) -> None:
        desk = self.session()
        first = desk.fill("NEW", {"CLZ5": 1, "HOZ5": 2}, key="A")
        desk.fill("NEW", {"CLZ5": 10})
        self.assertEqual(desk.fill("NEW", {"HOZ5": 2, "CLZ5": True}, key="A"), first)
        self.assertEqual((desk.fill("NEW", {"CLZ5": 1, "HOZ5": 2}, key="A").total.currency, self.held(desk)), ("USD", 13))
        self.assertNotEqual(desk.fill("NEW", {"CLZ5": 1, "HOZ5": 2}, key="B"), first)
        self.assertEqual(self.held(desk), 16)

    def test_another_fill(self) -> None:
        desk = self.session()
        desk.fill("NEW", {"CLZ5": 1}, key="A")
        for account, legs in (("NEW", {"CLZ5": 2}), ("NEWER", {"CLZ5": 1}), ("NEW", {"CLF6": 1}), ("NEW", {"CLZ5": 1, "CLF6": 1})):
            self.assertIn("'A'", str(self.error(ValueError, desk.fill, account, legs, key="A")))
        self.assertEqual((self.held(desk), desk.left), (1, ()))

    def test_after_a_new_set(self) -> None:
        """A repeated key has the result of its time."""
        desk = self.session()
        first = desk.fill("NEW", {"CLZ5": 1}, key="A")
        desk.use_set(PARAMS.read_bytes().replace(b"SET,D20251114,1,USD", b"SET,LATER,1,JPY"))
        again = desk.fill("NEW", {"CLZ5": 1}, key="A")
        self.assertEqual((again, again.set, again.total.currency, self.held(desk)), (first, "D20251114", "USD", 1))

    def test_rejections(self) -> None:
        """A rejection is the first result, too. A fill that is no request has none."""
        desk = self.session()
        for _ in range(2):
            self.assertEqual(self.error(span.RequestError, desk.fill, "NEW", {"CLZ5": 100001}, key="A").code, "B2")
        self.error(ValueError, desk.fill, "NEW", {"CLZ5": 1}, key="A")
        self.error(span.RequestError, desk.fill, "A,B", {"CLZ5": 1}, key="B")
        self.assertEqual(desk.fill("NEW", {"CLZ5": 1}, key="B").account, "NEW")
        for key, kind in ((1, TypeError), (b"A", TypeError), ("", ValueError)):
            self.error(kind, desk.fill, "NEW", {"CLZ5": 1}, key=key)
        self.assertEqual(self.held(desk), 1)

    def test_memory(self) -> None:
        desk = self.stand_in("read a; echo refused,1,memory; read b; echo T,A,D20251114,5; echo done,2; "
                             "read c; echo T,A,D20251114,7; echo done,3")
        self.error(span.OutOfMemoryError, desk.fill, "A", {"CLZ5": 1}, key="K")
        self.assertEqual([desk.fill("A", {"CLZ5": 1}, key="K").total for _ in range(2)], [5, 5])
        self.assertEqual(desk.margin("A").total, 7)

    def test_in_flight(self) -> None:
        """The second call waits for the answer to the first one, and is not sent."""
        desk = self.stand_in("read a; sleep 1; echo T,A,D20251114,5; echo done,1; read b; echo T,A,D20251114,7; echo done,2")
        error = self.error(span.TimedOut, lambda: desk.fill("A", {"CLZ5": 1}, key="K", timeout=0.3))
        self.assertEqual((error.sent, [it.key for it in desk.left]), (True, ["K"]))
        self.error(span.TimedOut, lambda: desk.fill("A", {"CLZ5": 1}, key="K", timeout=0.1))
        self.assertEqual(desk.fill("A", {"CLZ5": 1}, key="K").total, 5)
        self.assertEqual((desk.margin("A").total, error.outcome().result.total), (7, 5))

    def test_withdrawn(self) -> None:
        desk = self.stand_in("read a; sleep 1; echo T,A,D20251114,3; echo done,1; read b; echo T,A,D20251114,5; echo done,2")
        self.error(span.TimedOut, lambda: desk.margin("A", timeout=0.1))
        error = self.error(span.TimedOut, lambda: desk.fill("A", {"CLZ5": 1}, key="K", timeout=0.1))
        self.assertEqual((error.sent, error.outcome().state), (False, "not sent"))
        self.assertEqual(desk.fill("A", {"CLZ5": 1}, key="K").total, 5)

    def test_last_keys(self) -> None:
        self.enter(mock.patch("span_margin._channel.KEYS", 3))
        desk = self.session()
        for key in "ABCD":
            desk.fill("NEW", {"CLZ5": 1}, key=key)
        for key in "BCD":
            desk.fill("NEW", {"CLZ5": 1}, key=key)
        self.assertEqual(self.held(desk), 4)
        desk.fill("NEW", {"CLZ5": 2}, key="A")
        self.assertEqual((self.held(desk), len(desk._channel._first), len(desk._channel._keys)), (6, 3, 3))

    def test_threads(self) -> None:
        """Twenty threads fill with the same keys."""
        desk, answers = self.session(), []
        work = lambda: answers.append([desk.fill("NEW", {"CLZ5": 1}, key=f"K{number}").total for number in range(50)])  # noqa: E731
        threads = [threading.Thread(target=work) for _ in range(20)]
        for thread in threads:
            thread.start()
        for thread in threads:
            thread.join()
        self.assertEqual((self.held(desk), len(answers), len(set(map(tuple, answers)))), (50, 20, 1))

    def test_coroutines(self) -> None:
        async def work() -> None:
            async with span.AsyncSession(PARAMS, POSITIONS) as desk:
                chance = random.Random(98)
                for number in range(100):
                    tasks = [asyncio.ensure_future(desk.fill("NEW", {"CLZ5": 1}, key=f"K{number}")) for _ in range(3)]
                    await asyncio.sleep(chance.uniform(0, 3e-4))
                    for task in tasks:
                        task.cancel()
                    await asyncio.wait(tasks)
                    await desk.fill("NEW", {"CLZ5": 1}, key=f"K{number}")
                    with self.assertRaises(ValueError):
                        await desk.fill("NEW", {"CLZ5": 2}, key=f"K{number}")
                self.assertEqual(sum(it.quantity for it in await desk.positions() if it.account == "NEW"), 100)

        asyncio.run(work())
