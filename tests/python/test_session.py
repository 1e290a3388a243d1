"""Sessions: every call against the commands, requests that are rejected, names that would be other requests, threads, and ends."""
import copy
import gc
import os
import pickle
import random
import re
import shutil
import signal
import subprocess
import threading
import time
import unittest.mock
from pathlib import Path
from typing import Any, Dict, List, Optional, Tuple

import span_margin as span
from shared import FAULTY_PARAMS, NEXT, ORDERS, PARAMS, POSITIONS, VALUE, SessionCase, lines_of

MANY = 10000  # orders that one call evaluates
CONTRACTS = ("CLZ5", "CLF6", "HOZ5", "ZCZ5", "RBH6")


class Case(SessionCase):
    """A test of sessions."""

    def refused(self, code: Optional[str], field: int, call: Any, *arguments: Any) -> span.RequestError:
        """The error of a call that is rejected for this fault."""
        error = self.error(span.RequestError, call, *arguments)
        self.assertEqual((error.code, error.field, error.file, error.record, error.status), (code, field, "request", None, None))
        self.assertEqual(error.line, f"request: {code} {error.name} at field {field}")
        return error


class Answers(Case):
    def test_margin(self) -> None:
        statement = span.margin(PARAMS, POSITIONS)
        desk = self.session(workers=2)
        self.assertEqual(desk.margin(), statement)
        for account in statement:
            self.assertEqual(desk.margin(account.account), account)
        self.assertEqual(desk.set, "D20251114")

    def test_explain(self) -> None:
        desk = self.session(VALUE)
        for account in span.explain(VALUE, POSITIONS):
            self.assertEqual(desk.explain(account.account), account)

    def test_try_order(self) -> None:
        desk = self.session()
        before = desk.margin()
        for order in span.whatif(PARAMS, POSITIONS, ORDERS):
            legs: Dict[str, int] = {}
            for name, account, contract, quantity in (line.split(",") for line in lines_of(ORDERS)):
                if name == order.order:
                    legs[contract] = legs.get(contract, 0) + int(quantity)
            self.assertEqual(desk.try_order(order.account, legs, order.order), order)
        self.assertEqual(desk.try_order("RIVER-01", {"CLZ5": -2}).order, "TRY")
        self.assertEqual(desk.margin(), before)

    def test_fill(self) -> None:
        desk = self.session(VALUE)
        tried = desk.try_order("RIVER-01", {"CLZ5": -2, "CLF6C62": 3})
        total = desk.fill("RIVER-01", {"CLZ5": -2, "CLF6C62": 3})
        self.assertEqual((total.total, total.due, total.set), (tried.after, tried.due_after, "D20251114V"))
        self.assertEqual(desk.fill("NEW", {"ZSN6": 5}).account, "NEW")
        self.assertEqual([it.account for it in desk.margin()][-1], "NEW")

    def test_positions(self) -> None:
        desk = self.session()
        desk.fill("FLAT-07", {"CLZ5": 10, "CLF6": -10})
        positions = desk.positions()
        self.assertEqual(positions.set, "D20251114")
        self.assertEqual([(it.contract, it.quantity) for it in positions if it.account == "FLAT-07"], [("CLZ5", 10), ("CLF6", -10)])
        for given in (positions, bytes(positions), positions.to_dicts()):
            self.assertEqual(span.margin(PARAMS, given), desk.margin())
        self.assertEqual(len(positions), len(positions.to_dicts()))

    def test_empty(self) -> None:
        desk = self.session(PARAMS, b"")
        self.assertEqual((desk.margin().set, len(desk.margin()), len(desk.positions())), ("D20251114", 0, 0))

    def test_use_set(self) -> None:
        desk = self.session()
        self.assertEqual(desk.use_set(NEXT), span.check(NEXT))
        self.assertEqual((desk.set, desk.margin("RIVER-01").set, desk.positions().set), ("D20251117",) * 3)
        self.assertEqual(desk.margin(), span.margin(NEXT, POSITIONS))
        self.assertEqual(desk.use_set(VALUE.read_bytes()).set, "D20251114V")
        self.assertEqual(desk.use_set([line.split(",") for line in lines_of(PARAMS)]).set, "D20251114")
        self.assertEqual(desk.margin(), span.margin(PARAMS, POSITIONS))

    def test_random_fills(self) -> None:
        desk, kept, chance = self.session(), [line.split(",") for line in lines_of(POSITIONS)], random.Random(66)
        for _ in range(30):
            account = chance.choice(["RIVER-01", "GRAIN-03", "NEW-1", "NEW-2"])
            legs = {it: chance.randint(-50, 50) for it in chance.sample(CONTRACTS, 3)}
            kept += [[account, contract, str(quantity)] for contract, quantity in legs.items()]
            desk.fill(account, legs)
        self.assertEqual(desk.margin(), span.margin(PARAMS, kept))


class ManyOrders(Case):
    def orders(self, count: int) -> List[Any]:
        chance = random.Random(66)
        return [("RIVER-01", {chance.choice(CONTRACTS): chance.randint(-99, 99)}, f"ORDER-{number}") for number in range(count)]

    def test_ten_thousand(self) -> None:
        desk, orders = self.session(), self.orders(MANY)
        tried = desk.try_orders(orders)
        rows = [(name, account, contract, quantity) for account, legs, name in orders for contract, quantity in legs.items()]
        self.assertEqual(tried, span.whatif(PARAMS, POSITIONS, rows))
        self.assertEqual(tried["ORDER-7"], desk.try_order(*orders[7]))

    def test_few(self) -> None:
        desk = self.session()
        self.assertEqual((len(desk.try_orders([])), desk.try_orders([], return_errors=True)), (0, []))
        (one,) = desk.try_orders([("RIVER-01", {"CLZ5": -2})])
        self.assertEqual(one, desk.try_order("RIVER-01", {"CLZ5": -2}))
        self.assertEqual(len(desk.try_orders((it, {"CLZ5": 1}) for it in ("RIVER-01", "FLAT-07"))), 2)

    def test_refused_among_them(self) -> None:
        desk = self.session()
        orders: List[Any] = self.orders(200)
        orders[50:50] = [("RIVER-01", {"CLX5": 1}), ("A,B", {"CLZ5": 1})]
        orders.append(("RIVER-01", {"CLZ5": 10**7}))
        tried = desk.try_orders(orders, return_errors=True)
        self.assertEqual({at: it.code for at, it in enumerate(tried) if isinstance(it, span.RequestError)}, {50: "B1", 51: "X4", 202: "X6"})
        self.assertEqual([it for it in tried if isinstance(it, span.TriedOrder)], list(desk.try_orders(self.orders(200))))
        self.assertEqual(self.error(span.RequestError, desk.try_orders, orders).contract, "CLX5")
        self.assertEqual(desk.margin("RIVER-01").total, 1331287)

    def test_wrong_types(self) -> None:
        desk = self.session()
        for orders in ([("RIVER-01", {"CLZ5": 1.0})], [("RIVER-01", {"CLZ5": "1"})], [("RIVER-01",)], [(1, {"CLZ5": 1})], 5):
            self.error(TypeError, desk.try_orders, orders)
        self.error(TypeError, desk.fill, "RIVER-01", {"CLZ5": 0.5})
        self.assertEqual(desk.try_order("RIVER-01", {"CLZ5": True}).account, "RIVER-01")
        for call in (lambda: desk.fill("RIVER-01", {}), lambda: desk.try_orders([("RIVER-01", {})]), lambda: desk.margin(timeout=-1)):
            self.error(ValueError, call)


class Refused(Case):
    def test_faults(self) -> None:
        desk = self.session()
        before = desk.margin()
        error = self.refused("E1", 2, desk.margin, "NOBODY")
        self.assertEqual((error.account, str(error)), ("NOBODY", "request: E1 UnknownAccount at field 2: NOBODY"))
        self.refused("E1", 2, desk.explain, "NOBODY")
        error = self.refused("B1", 6, desk.try_order, "RIVER-01", {"CLZ5": 1, "CLX5": 2}, "BUY")
        self.assertEqual((error.order, error.account, error.contract), ("BUY", "RIVER-01", "CLX5"))
        error = self.refused("X6", 6, desk.fill, "RIVER-01", {"CLZ5": 1, "CLF6": 10**6 + 1})
        self.assertEqual((error.order, error.account, error.contract), (None, "RIVER-01", "CLF6"))
        self.refused("X5", 4, desk.fill, "RIVER-01", {"CLZ5": 10**18})
        self.refused("B2", 3, desk.fill, "RIVER-01", {"CLZ5": 100000})
        self.refused("X3", 0, desk.try_order, "RIVER-01", {f"C{number}": 1 for number in range(65)})
        self.refused("X1", 0, desk.margin, "A" * 5000)
        self.assertEqual(desk.margin(), before)

    def test_limits(self) -> None:
        desk = self.session(PARAMS, [(f"A{number}", "CLZ5", 1) for number in range(4096)])
        self.refused("Q5", 2, desk.fill, "ONE-MORE", {"CLZ5": 1})
        self.assertEqual(desk.try_order("ONE-MORE", {"CLZ5": 1}).before, 0)

    def test_hostile_names(self) -> None:
        desk = self.session()
        before = desk.positions()
        names = (
            "", "a", "A B", "Ä", "\ud800", "A\0", '"A"', "SEVENTEEN-LETTERS", "A,CLZ5,1", "A\n", "A\r", "A\nMARGIN", "A\r\nPOSITIONS", ",",
        )
        for name in names:
            with self.subTest(ascii(name)):
                self.refused("X4", 2, desk.margin, name)
                self.refused("X4", 2, desk.explain, name)
                self.refused("X4", 2, desk.fill, name, {"CLZ5": 1})
                self.refused("X4", 3, desk.fill, "RIVER-01", {name: 1})
                self.refused("X4", 2, desk.try_order, "RIVER-01", {"CLZ5": 1}, name)
                self.refused("X4", 3, desk.try_order, name, {"CLZ5": 1})
        for name in ("-", "--HELP", "_", "007", "NA"):
            desk.fill(name, {"CLZ5": 1})
            self.assertEqual(desk.fill(name, {"CLZ5": -1}).account, name)
        self.assertEqual(desk.positions().positions[: len(before)], before.positions)

    def test_sets(self) -> None:
        desk = self.session()
        error = self.error(span.ParametersError, desk.use_set, FAULTY_PARAMS)
        self.assertEqual((error.code, error.record, error.status, error.file), ("P6", 3, None, "parameters"))
        without = "".join(f"{line}\n" for line in lines_of(NEXT) if not line.startswith("CONTRACT,MCLF6,")).encode()
        error = self.error(span.PositionsError, desk.use_set, without)
        self.assertEqual((error.code, error.account, error.contract, error.record), ("B1", "RIVER-01", "MCLF6", None))
        for name, reason in (("missing", "No such file or directory"), (".", "Is a directory")):
            self.assertEqual(self.error(span.FileError, desk.use_set, name).reason, reason)
        self.assertEqual((desk.set, desk.margin()), ("D20251114", span.margin(PARAMS, POSITIONS)))

    def test_names_of_sets(self) -> None:
        place = self.use_temporary_directory()
        desk = self.session()
        # (the last path is too long for a request, and for the system if it is not relative)
        deep = "/".join(["d" * 253] * 16)
        os.makedirs(deep)
        for name in ("a,b", "-", "a b", "a\nb", "a\r", "ä", os.fsdecode(b"\xff"), f"{deep[:2000]}x", f"{deep}/set.csv"):
            with self.subTest(ascii(name)[:30]):
                shutil.copy(NEXT, name)
                self.assertEqual(desk.use_set(name).set, "D20251117")
                os.remove(name)
                self.assertEqual(desk.use_set(PARAMS).set, "D20251114")
        self.assertEqual(os.listdir(place), [])

    def test_relative_to_the_caller(self) -> None:
        desk = self.session()
        os.mkdir("below")
        shutil.copy(NEXT, "below/set.csv")
        os.chdir("below")
        self.assertEqual(desk.use_set("set.csv").set, "D20251117")


class Threads(Case):
    def test_shared(self) -> None:
        desk = self.session()
        expected = {it: desk.try_order("RIVER-01", {it: 1}) for it in CONTRACTS}
        statement, wrong = desk.margin(), []

        def work(contract: str) -> None:
            for turn in range(40):
                if desk.try_order("RIVER-01", {contract: 1}) != expected[contract]:
                    wrong.append(contract)
                if turn % 10 == 0 and list(desk.try_orders([("RIVER-01", {it: 1}) for it in CONTRACTS * 9])) != list(expected.values()) * 9:
                    wrong.append("many")
                if turn % 20 == 0 and desk.margin() != statement:
                    wrong.append("margin")

        threads = [threading.Thread(target=work, args=(contract,)) for contract in CONTRACTS]
        for thread in threads:
            thread.start()
        for thread in threads:
            thread.join()
        self.assertEqual(wrong, [])

    def test_fills(self) -> None:
        desk = self.session()
        threads = [threading.Thread(target=lambda: [desk.fill("NEW", {"CLZ5": 1}) for _ in range(50)]) for _ in range(4)]
        for thread in threads:
            thread.start()
        for thread in threads:
            thread.join()
        self.assertEqual([it.quantity for it in desk.positions() if it.account == "NEW"], [200])

    def test_twenty_at_once(self) -> None:
        desk, wrong = self.session(), []
        answers = {it.account: it for it in desk.margin()}

        def work(seed: int) -> None:
            chance = random.Random(seed)
            for _ in range(100):
                account, quantity = chance.choice(list(answers)), chance.randint(1, 99)
                name = f"{account[:5]}-{quantity}"
                order = desk.try_order(account, {"CLZ5": quantity}, name)
                if desk.margin(account) != answers[account] or (order.order, order.account) != (name, account):
                    wrong.append(account)

        threads = [threading.Thread(target=work, args=(seed,)) for seed in range(20)]
        for thread in threads:
            thread.start()
        for thread in threads:
            thread.join()
        self.assertEqual(wrong, [])

    def test_closed_by_another(self) -> None:
        desk, ends = self.session(), []

        def work() -> None:
            try:
                while True:
                    desk.try_orders([("RIVER-01", {"CLZ5": 1})] * 100)
            except span.SessionEnded:
                ends.append(True)

        threads = [threading.Thread(target=work) for _ in range(3)]
        for thread in threads:
            thread.start()
        time.sleep(0.2)
        desk.close()
        for thread in threads:
            thread.join()
        self.assertEqual(ends, [True] * 3)


class Currencies(Case):
    def params(self, currency: str, set_id: str = "D20251114") -> bytes:
        return PARAMS.read_bytes().replace(b"SET,D20251114,1,USD", f"SET,{set_id},1,{currency}".encode())

    def test_currency(self) -> None:
        desk = self.session()
        amounts = [
            desk.margin("RIVER-01").total, desk.margin()["RIVER-01"].total, desk.explain("RIVER-01").total,
            desk.fill("NEW", {"CLZ5": 1}).total,
            desk.try_order("RIVER-01", {"CLZ5": 1}).change, desk.try_orders([("RIVER-01", {"CLZ5": 1})])["TRY"].change,
        ]
        self.assertEqual({it.currency for it in amounts}, {"USD"})
        desk.use_set(self.params("JPY", "NEXT"))
        total = desk.margin("RIVER-01").total
        self.assertEqual((total.currency, str(total.major())), ("JPY", "1331287"))
        self.error(span.CurrencyError, lambda: total + amounts[0])

    def test_of_a_client(self) -> None:
        with span.Span(program=os.environ["SPAN"], timeout=60, digits=3).session(PARAMS, POSITIONS) as desk:
            self.assertEqual(str(desk.margin("RIVER-01").total.major()), "1331.287")
            desk.use_set(NEXT)
            self.assertEqual(str(desk.margin("RIVER-01").total.major()), "1509.294")

    def test_of_a_pipe(self) -> None:
        os.mkfifo("pipe")
        threading.Thread(target=lambda: Path("pipe").write_bytes(PARAMS.read_bytes())).start()
        desk = self.session("pipe")
        self.assertEqual((desk.margin("RIVER-01").total, desk.margin("RIVER-01").total.currency), (1331287, "USD"))

    def test_file_is_replaced(self) -> None:
        """The program reads what the package has read, also if the file is replaced between the two."""
        Path("set.csv").write_bytes(self.params("USD"))
        Path("next.csv").write_bytes(self.params("EUR", "LATER"))
        desk = self.stand_in("read -r line; cp next.csv set.csv; $SPAN_REAL check ${line#SET,}; echo done,1; read a; "
                             "echo T,A,D20251114,5; echo done,2; read b")
        self.assertEqual((desk.use_set("set.csv").set, desk.set, desk.margin("A").total.currency), ("D20251114", "D20251114", "USD"))


class Files(Case):
    """Parameter files that are pipes, have no end, or are too long. A session that does not get one goes on."""

    def setUp(self) -> None:
        super().setUp()
        os.mkfifo("pipe")
        self.place = self.use_temporary_directory()

    def write(self, content: bytes, parts: int = 1) -> threading.Thread:
        """Writes a content into the pipe, in parts, in another thread."""

        def work() -> None:
            with open("pipe", "wb", buffering=0) as file:
                size = -(-len(content) // parts)
                for begin in range(0, len(content), size):
                    time.sleep(0.1)
                    file.write(content[begin : begin + size])

        thread = threading.Thread(target=work)
        thread.start()
        self.addCleanup(thread.join)
        return thread

    def check(self, desk: span.Session) -> None:
        self.assertEqual((desk.set, desk.margin("RIVER-01").total, desk.left), ("D20251114", 1331287, ()))
        self.assertEqual(os.listdir(self.place), [])

    def interrupt(self, call: Any) -> None:
        """A call that an alarm interrupts."""

        def ring(*_: Any) -> None:
            raise KeyboardInterrupt

        before = signal.signal(signal.SIGALRM, ring)
        self.addCleanup(signal.signal, signal.SIGALRM, before)
        signal.setitimer(signal.ITIMER_REAL, 0.3)
        self.error(KeyboardInterrupt, call)

    def test_waits_for_a_writer(self) -> None:
        desk = self.session()
        self.write(NEXT.read_bytes(), parts=3)
        self.assertEqual(desk.use_set("pipe").set, "D20251117")
        self.assertEqual((desk.margin("RIVER-01").total, desk.margin("RIVER-01").total.currency), (1509294, "USD"))

    def test_without_a_writer(self) -> None:
        """A call that gave up takes nothing from a later writer."""
        desk, params, following = self.session(), PARAMS.read_bytes(), NEXT.read_bytes()
        for _ in range(3):
            self.error(span.TimedOut, lambda: desk.use_set("pipe", timeout=0.2))
            self.check(desk)
            self.write(following)
            self.assertEqual(desk.use_set("pipe").set, "D20251117")
            self.interrupt(lambda: desk.use_set("pipe"))
            self.write(params)
            self.assertEqual(desk.use_set("pipe").set, "D20251114")
            self.check(desk)

    def test_opening(self) -> None:
        self.error(span.TimedOut, lambda: span.Session("pipe", POSITIONS, timeout=0.2))
        self.interrupt(lambda: span.Session("pipe", POSITIONS))
        self.write(PARAMS.read_bytes(), parts=2)
        self.check(self.session("pipe"))

    def test_closed_meanwhile(self) -> None:
        desk, errors = self.session(), []
        thread = threading.Thread(target=lambda: errors.append(self.error(span.SessionEnded, desk.use_set, "pipe")))
        thread.start()
        time.sleep(0.1)
        desk.close()
        thread.join()
        self.assertEqual([str(it) for it in errors], ["the session is closed"])
        self.error(span.SessionEnded, desk.use_set, "pipe")

    def test_without_an_end(self) -> None:
        desk = self.session()
        self.assertEqual(self.error(span.FileError, desk.use_set, "/dev/zero").status, None)
        self.check(desk)
        self.assertEqual(self.error(span.FileError, span.Session, "/dev/zero", POSITIONS).status, 6)

    def test_too_long(self) -> None:
        """The longest file is read, and one that is longer by a byte is not, nor a longer pipe."""
        desk, params = self.session(), PARAMS.read_bytes()
        with open("long", "wb") as file:
            file.truncate((1 << 26) + 1)
        self.assertIn("longer than", self.error(span.FileError, desk.use_set, "long").reason)
        with unittest.mock.patch("span_margin._inputs.LONGEST_FILE", len(params)):
            self.assertEqual(desk.use_set(PARAMS).set, "D20251114")
            with open("long", "wb") as file:
                file.write(params + b"\n")
            self.error(span.FileError, desk.use_set, "long")
            self.write(params)
            self.assertEqual(desk.use_set("pipe").set, "D20251114")
            self.write(params + b"\n")
            self.error(span.FileError, desk.use_set, "pipe")
        self.check(desk)


class Timeouts(Case):
    """A stand-in answers late or not at all."""

    LATE = "n=0; while read line; do n=$((n + 1)); sleep 1; echo T,A,D20251114,$n; echo done,$n; done"

    def test_question(self) -> None:
        desk = self.stand_in(self.LATE)
        begun = time.monotonic()
        error = self.error(span.TimedOut, lambda: desk.margin("A", timeout=0.3))
        self.assertLess(time.monotonic() - begun, 0.95)
        self.assertEqual((error.request, error.sent, error.outcome().state), ("MARGIN,A", True, "not yet"))
        self.assertIsInstance(error, TimeoutError)
        self.assertEqual(desk.margin("A").total, 2)
        self.assertEqual((error.outcome(timeout=None).state, desk.left), ("accepted", ()))

    def test_time_in_the_queue_counts(self) -> None:
        desk = self.stand_in(self.LATE, timeout=0.5)
        self.error(span.TimedOut, desk.margin, "A")
        error = self.error(span.TimedOut, lambda: desk.fill("A", {"CLZ5": 1}, timeout=0.01))
        self.assertEqual((error.request, error.sent, error.outcome().state), ("FILL,A,CLZ5,1", False, "not sent"))
        self.assertEqual((desk.left, desk.margin("A", timeout=5).total), ((), 2))

    def test_fill(self) -> None:
        desk = self.stand_in("read line; sleep 60")
        error = self.error(span.TimedOut, lambda: desk.fill("A", {"CLZ5": 1}, timeout=0.3))
        (left,) = desk.left
        self.assertEqual((left.request, left.sent, left.outcome().state), ("FILL,A,CLZ5,1", True, "not yet"))
        desk.close()
        self.assertEqual(error.outcome().state, "unknown")
        self.assertIsInstance(left.outcome().error, span.SessionEnded)

    def test_outcomes(self) -> None:
        desk = self.stand_in("read a; sleep 1; echo T,A,D20251114,5; echo done,1; read b; sleep 1; echo refused,2,memory; read c")
        fills = [self.error(span.TimedOut, lambda: desk.fill("A", {"CLZ5": 1}, timeout=0.3))]
        outcome = fills[0].outcome(timeout=5)
        self.assertEqual((outcome.state, outcome.result.total, outcome.error), ("accepted", 5, None))
        fills.append(self.error(span.TimedOut, lambda: desk.fill("A", {"CLZ5": 1}, timeout=0.3)))
        outcome = fills[1].outcome(timeout=5)
        self.assertEqual((outcome.state, outcome.result, type(outcome.error)), ("refused", None, span.OutOfMemoryError))
        self.assertEqual(len(desk.left), 2)

    def test_opening(self) -> None:
        self.use_program("sleep 60")
        begun = time.monotonic()
        error = self.error(span.TimedOut, lambda: span.Session(PARAMS, POSITIONS, timeout=0.1))
        self.assertLess(time.monotonic() - begun, 5)
        self.assertIsNone(pickle.loads(pickle.dumps(error)).outcome())

    def test_files_stay_until_they_are_read(self) -> None:
        place = self.use_temporary_directory()
        desk = self.stand_in("read -r line; sleep 1; cat ${line#SET,}; echo done,1; read b")
        error = self.error(span.TimedOut, lambda: desk.use_set(b"OK,D2,0,0,0,0,0,0\n", timeout=0.3))
        self.assertEqual(len(os.listdir(place)), 1)
        outcome = error.outcome(timeout=5)
        self.assertEqual((outcome.state, outcome.result.set, desk.set), ("accepted", "D2", "D2"))
        self.assertEqual(os.listdir(place), [])


class Mismatches(Case):
    """A stand-in gives answers to other requests: the session ends, and nothing is returned."""

    def test_of_each_call(self) -> None:
        calls: List[Any] = [
            (lambda desk: desk.margin("A"),
             ["T,B,D20251114,5", "R,B,D20251114,CL,1,1,1,1,1,1,1\\nT,A,D20251114,5", "OK,A,1,1,1,1,1,1", "",
              "T,A,OTHER,5", "T,A,D20251114V,5", "R,A,OTHER,CL,1,1,1,1,1,1,1\\nT,A,D20251114,5"]),
            (lambda desk: desk.explain("A"),
             ["T,B,D20251114,5", "HELD,B,D20251114,CL\\nT,A,D20251114,5", "CHANGE,A,B\\nT,A,D20251114,5",
              "HELD,A,OTHER,CL\\nT,A,D20251114,5"]),
            (lambda desk: desk.try_order("A", {"C": 1}, "N"),
             ["ORDER,M,A,D20251114,1,2,1", "ORDER,N,B,D20251114,1,2,1", "T,A,D20251114,5", "", "ORDER,N,A,OTHER,1,2,1"]),
            (lambda desk: desk.try_orders([("A", {"C": 1})]), ["CHANGE,TRY,B,D20251114,CL,1,2,1\\nORDER,TRY,A,D20251114,1,2,1"]),
            (lambda desk: desk.fill("A", {"C": 1}),
             ["T,B,D20251114,5", "R,A,D20251114,CL,1\\nT,A,D20251114,5", "T,AA,D20251114,5", "", "T,A,OTHER,5"]),
            (lambda desk: desk.use_set(PARAMS), ["T,A,D20251114,5", "OK,D1,1,1,1,1,1,1\\nOK,D1,1,1,1,1,1,1", "", "OK,OTHER,1,1,1,1,1,1"]),
            (lambda desk: desk.margin(),
             ["R,A,D20251114,CL,1,1,1,1,1,1,1", "T,A,D20251114,5\\nHELD,A\\nT,B,D20251114,5", "T,A,OTHER,5",
              "T,D20251114,OTHER,5\\nT,B,D20251114,5", "R,A,OTHER,CL,1,1,1,1,1,1,1\\nT,A,D20251114,5"]),
        ]
        for number, (call, answers) in enumerate(calls):
            for answer in answers:
                with self.subTest(f"{number} {answer}"):
                    text = f"{answer}\\ndone,1\\n" if answer else "done,1\\n"
                    desk = self.stand_in(f"read request; printf '{text}'; read request")
                    self.assertIn("the session answered", self.error(span.SessionEnded, call, desk).line)
                    self.error(span.SessionEnded, desk.margin)
                    self.assertTrue(desk.closed)

    def test_answer_before_its_request(self) -> None:
        self.use_program("printf 'OK,D20251114,0,0,0,0,0,0\\ndone,0\\nT,A,D20251114,5\\ndone,1\\n'; read request; sleep 60")
        self.assertIn("more than its answers", self.error(span.ProgramError, span.Session, PARAMS, POSITIONS).line)

    def test_other_set_is_opened(self) -> None:
        """The id that the program prints is not the one of the file."""
        self.use_program("echo OK,OTHER,0,0,0,0,0,0; echo done,0; sleep 60")
        self.assertIn("OTHER", self.error(span.ProgramError, span.Session, PARAMS, POSITIONS).line)

    def test_without_an_end(self) -> None:
        """A program that prints for ever is ended, also if it prints ends of answers, or if nobody waits any more."""
        orders = [("A", {"CLZ5": 1})] * 100
        for call in (lambda desk: desk.margin("A"), lambda desk: desk.try_orders(orders), lambda desk: desk.fill("A", {"CLZ5": 1})):
            for line in ("T,A,D20251114,5", "done,1"):
                desk = self.stand_in(f"read request; exec yes {line}")
                self.assertIn("the session", self.error(span.SessionEnded, call, desk).line)
                self.assertTrue(desk.closed)
        desk = self.stand_in("read request; sleep 0.3; exec yes T,A,D20251114,5")
        self.error(span.TimedOut, lambda: desk.margin("A", timeout=0.1))
        self.assertIn("without the end", self.error(span.SessionEnded, desk.margin, "A").line)

    def test_lines_with_a_rejection(self) -> None:
        desk = self.stand_in("read request; echo T,A,D20251114,5; echo refused,1,memory; sleep 60")
        self.error(span.SessionEnded, desk.margin, "A")


class Speed(Case):
    """The package against a client that writes and reads the pipe itself. Rates are printed. The bounds are on processor
    time, which is nearly the same on a busy machine."""

    def rates(self, rounds: int, count: int) -> Tuple[float, float, float]:
        """How many questions the package and the plain client ask in a second, each in its best round, and the least
        processor time of a question of the package."""
        desk, request, best, spent = self.session(), b"MARGIN,RIVER-01\n", [0.0, 0.0], []
        command = [os.environ["SPAN"], "session", str(PARAMS), str(POSITIONS)]
        with subprocess.Popen(command, bufsize=0, stdin=subprocess.PIPE, stdout=subprocess.PIPE) as plain:

            def ask() -> None:
                os.write(plain.stdin.fileno(), request)
                while not re.search(rb"^done,.*\n\Z", os.read(plain.stdout.fileno(), 65536), re.MULTILINE):
                    pass

            os.read(plain.stdout.fileno(), 65536)
            for _ in range(rounds):
                for number, call in enumerate((lambda: desk.margin("RIVER-01"), ask)):
                    begun, before = time.perf_counter(), time.process_time()
                    for _ in range(count):
                        call()
                    best[number] = max(best[number], count / (time.perf_counter() - begun))
                    if call is not ask:
                        spent.append((time.process_time() - before) / count)
            plain.stdin.close()
        return best[0], best[1], min(spent)

    def test_one_at_a_time(self) -> None:
        ours, plain, spent = self.rates(rounds=10, count=200)
        print(f"questions a second, one at a time: {ours:.0f}; of a client that uses the pipe itself: {plain:.0f}", flush=True)
        print(f"one at a time: {spent * 1e6:.1f} microseconds of processor time each", flush=True)
        self.assertLess(spent, 600e-6)

    def test_many(self) -> None:
        desk, orders = self.session(), [("RIVER-01", {"CLZ5": number % 99 + 1}, f"O{number}") for number in range(5000)]
        spent = []
        for _ in range(5):
            begun = time.process_time()
            desk.try_orders(orders)
            spent.append((time.process_time() - begun) / len(orders))
        print(f"many orders at once: {min(spent) * 1e6:.1f} microseconds of processor time each", flush=True)
        self.assertLess(min(spent), 80e-6)


class Ends(Case):
    def test_closed(self) -> None:
        with span.Session(PARAMS, POSITIONS) as desk:
            process = desk._channel._process
            self.assertEqual((desk.closed, repr(desk)), (False, "<Session, set D20251114>"))
        self.assertEqual(process.returncode, 0)
        desk.close()
        self.assertEqual((desk.closed, repr(desk)), (True, "<Session, closed>"))
        error = self.error(span.SessionEnded, desk.margin)
        self.assertEqual((error.status, str(error)), (None, "the session is closed"))
        self.assertEqual(desk.set, "D20251114")

    def test_collected(self) -> None:
        desk = span.Session(PARAMS, POSITIONS)
        channel = desk._channel
        del desk
        gc.collect()
        latest = time.monotonic() + 10
        while channel.end is None and time.monotonic() < latest:
            time.sleep(0.01)
        self.assertEqual(channel._process.returncode, 0)

    def test_not_pickled(self) -> None:
        desk = self.session()
        for copied in (pickle.dumps, copy.copy, copy.deepcopy):
            self.assertIn("running process", str(self.error(TypeError, copied, desk)))

    def test_killed(self) -> None:
        desk = self.session()
        os.kill(desk._channel._process.pid, signal.SIGKILL)
        for _ in range(2):
            error = self.error(span.SessionEnded, desk.margin, "RIVER-01")
            self.assertEqual((error.status, str(error)), (-signal.SIGKILL, "the session ended by signal SIGKILL"))
        self.error(span.SessionEnded, desk.try_orders, [("RIVER-01", {"CLZ5": 1})] * 100000)

    def test_killed_while_many_are_tried(self) -> None:
        desk = self.session()
        timer = threading.Timer(0.1, os.kill, (desk._channel._process.pid, signal.SIGKILL))
        timer.start()
        with self.assertRaises(span.SessionEnded):
            while True:
                desk.try_orders([("RIVER-01", {"CLZ5": 1})] * MANY)
        timer.join()

    def test_says_why(self) -> None:
        desk = self.stand_in("read request; echo file: output >&2; exit 6")
        error = self.error(span.SessionEnded, desk.margin)
        self.assertEqual((error.status, error.line, str(error)), (6, "file: output", "the session ended with status 6: file: output"))

    def test_prints_much(self) -> None:
        desk = self.stand_in("read request; head -c 1000000 /dev/zero | tr '\\0' x >&2; echo done,1; read request; exit 3")
        self.assertEqual(len(desk.margin()), 0)
        self.assertEqual(len(self.error(span.SessionEnded, desk.margin).line), 1000000)

    def test_memory(self) -> None:
        desk = self.stand_in("read request; echo refused,1,memory; read request; echo done,2")
        error = self.error(span.OutOfMemoryError, desk.margin)
        self.assertEqual((error.status, error.line), (None, "memory"))
        self.assertEqual(len(desk.margin()), 0)

    def test_wrong_number(self) -> None:
        desk = self.stand_in("read request; echo done,2; read request; echo done,2")
        self.assertIn("done,2", self.error(span.SessionEnded, desk.margin).line)
        self.error(span.SessionEnded, desk.margin)

    def test_died_between_calls(self) -> None:
        desk = self.session()
        os.kill(desk._channel._process.pid, signal.SIGKILL)
        latest = time.monotonic() + 10
        while not desk.closed and time.monotonic() < latest:
            time.sleep(0.01)
        self.assertTrue(desk.closed)
        self.error(span.SessionEnded, desk.margin)

    def test_closed_while_another_waits(self) -> None:
        desk = self.stand_in("sleep 60")
        errors: List[span.SessionEnded] = []
        thread = threading.Thread(target=lambda: errors.append(self.error(span.SessionEnded, desk.margin)))
        thread.start()
        time.sleep(0.1)
        begun = time.monotonic()
        desk.close()
        thread.join()
        self.assertEqual((len(errors), time.monotonic() - begun < 5), (1, True))

    def test_stopped(self) -> None:
        """A process that a signal has stopped is killed. It would not end for a long time otherwise."""
        with unittest.mock.patch("span_margin._channel.PATIENCE", 3600):
            desk = self.session()
            process = desk._channel._process
            os.kill(process.pid, signal.SIGSTOP)
            desk.close()
        self.assertEqual(process.returncode, -signal.SIGKILL)

    def test_does_not_end(self) -> None:
        with unittest.mock.patch("span_margin._channel.PATIENCE", 0.1):
            desk = self.stand_in("exec >&-; exec sleep 60")
            self.assertEqual(self.error(span.SessionEnded, desk.margin).status, -signal.SIGKILL)

    def test_not_opened(self) -> None:
        place = self.use_temporary_directory()
        error = self.error(span.PositionsError, span.Session, PARAMS, b"A,NONE,1\n")
        self.assertEqual((error.status, error.code, error.account), (4, "B1", "A"))
        self.error(span.ParametersError, span.Session, FAULTY_PARAMS, POSITIONS)
        self.error(TypeError, span.Session)
        self.assertEqual(os.listdir(place), [])

    def test_files_go_once_it_is_open(self) -> None:
        place = self.use_temporary_directory()
        desk = self.session(PARAMS.read_bytes(), POSITIONS.read_bytes())
        self.assertEqual(os.listdir(place), [])
        self.assertEqual(desk.margin("RIVER-01").total, 1331287)

    def test_no_descriptors_are_left(self) -> None:
        def count() -> int:
            return len(list(Path("/proc/self/fd").iterdir()))

        before = count()
        for _ in range(3):
            with span.Session(PARAMS, POSITIONS) as desk:
                desk.try_orders([("RIVER-01", {"CLZ5": 1})] * 10)
            self.error(span.PositionsError, span.Session, PARAMS, b"A,NONE,1\n")
        gc.collect()
        self.assertEqual(count(), before)
