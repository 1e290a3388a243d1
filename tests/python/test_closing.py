"""The cheapest order that closes positions: it meets the target, is the cheapest, and one lot does not improve it; limits, errors."""
import csv
import io
import itertools
import json
import pickle
import random
from decimal import Decimal
from typing import Any, Dict, Iterator, List, NamedTuple, Optional
from unittest import mock

import span_margin as span
from shared import PARAMS, VALUE, SessionCase, fill_random, random_sessions
from span_margin import _closing


class Question(NamedTuple):
    """An account A of a session, what it holds, and what is asked about it."""

    desk: span.Session
    legs: Dict[str, int]
    target: int
    cost: Optional[Dict[str, int]]
    of: str

    def answer(self, **named: Any) -> span.CheapestClose:
        return self.desk.cheapest_close("A", self.target, self.of, cost=self.cost, **named)  # type: ignore[arg-type]

    def price(self, lots: Dict[str, int]) -> int:
        return sum(abs(count) * (1 if self.cost is None else self.cost[contract]) for contract, count in lots.items())

    def after(self, all_lots: List[Dict[str, int]]) -> List[int]:
        """The amount after each order."""
        tried = self.desk.try_orders([("A", lots) for lots in all_lots])
        return [int((it.after if self.of == "total" else it.due_after) or 0) for it in tried]


class Case(SessionCase):
    def questions(self, seed: int, count: int) -> Iterator[Question]:
        """Questions about random accounts of up to 5 contracts and 12 lots."""
        for chance, desk, contracts in random_sessions(self, seed, (count + 4) // 5):
            for _ in range(5):
                legs = fill_random(chance, desk, contracts, 5, 12)
                margin = desk.margin("A")
                of = "total" if margin.due is None else chance.choice(("total", "due"))
                target = chance.randint(0, int(getattr(margin, of)))
                yield Question(desk, legs, target, chance.choice((None, {it: chance.randint(0, 9) for it in legs})), of)

    def check(self, question: Question, found: span.CheapestClose) -> None:
        """The order meets the target, as the program prints it. Each leg closes a part of a position."""
        self.assertTrue(found.is_met)
        self.assertLessEqual(found.after, question.target)
        lots = {leg.contract: leg.quantity for leg in found.legs}
        for leg in found.legs:
            self.assertEqual(leg.held, question.legs[leg.contract])
            self.assertTrue(0 < -leg.quantity * (1 if leg.held > 0 else -1) <= abs(leg.held))
        self.assertEqual((found.lots, found.cost), (sum(map(abs, lots.values())), question.price(lots)))
        if lots:
            self.assertEqual(question.after([lots]), [found.after])
            self.assertEqual(found.order, question.desk.try_order("A", lots))
        else:
            self.assertEqual((found.after, found.order), (found.before, None))

    def check_one_lot(self, question: Question, found: span.CheapestClose) -> None:
        """No lot can be taken back, and none be exchanged for a cheaper one."""
        lots = {contract: 0 for contract in question.legs}
        lots.update({leg.contract: leg.quantity for leg in found.legs})
        step = {contract: -1 if quantity > 0 else 1 for contract, quantity in question.legs.items()}
        others = []
        for contract in (it for it in lots if lots[it]):
            less = {**lots, contract: lots[contract] - step[contract]}
            others.append(less)
            others += [{**less, other: less[other] + step[other]} for other in less if less[other] != -question.legs[other]]
        others = [it for it in others if any(it.values()) and (question.price(it), sum(map(abs, it.values()))) < (found.cost, found.lots)]
        self.assertEqual([after for after in question.after(others) if after <= question.target], [])


class Cheapest(Case):
    def test_is_the_cheapest_of_all(self) -> None:
        for question in self.questions(84, 100):
            found = question.answer()
            self.check(question, found)
            ranges = [range(0, -quantity, -1 if quantity > 0 else 1) for quantity in question.legs.values()]
            ranges = [[*it, -quantity] for it, quantity in zip(ranges, question.legs.values())]  # type: ignore[misc]
            every = [dict(zip(question.legs, it)) for it in itertools.product(*ranges) if any(it)]
            costs = [question.price(lots) for lots, after in zip(every, question.after(every)) if after <= question.target]
            self.assertEqual(found.cost, 0 if found.before <= question.target else min(costs))
            self.assertTrue(found.is_optimal)

    def test_search(self) -> None:
        """Without the evaluation of all orders, the result is nearly always as cheap, and never improved by one lot."""
        same = count = 0
        for question in self.questions(85, 100):
            expected = question.answer()
            with mock.patch.object(_closing, "MOST_COMBINATIONS", 0):
                found = question.answer()
            self.check(question, found)
            self.check_one_lot(question, found)
            same, count = same + (found.cost == expected.cost), count + 1
        self.assertEqual(count, 100)
        self.assertGreaterEqual(same, 90)

    def test_examples(self) -> None:
        desk = self.session()
        for account in desk.margin():
            held = {it.contract: it.quantity for it in desk.positions() if it.account == account.account and it.quantity}
            for part in (0, 20, 50, 90):
                found = desk.cheapest_close(account.account, account.total * part // 100)
                self.assertTrue(found.is_met and found.after <= found.target)
                self.assertTrue(all(leg.held == held[leg.contract] for leg in found.legs))
                if found.order:
                    self.assertEqual((found.order.before, found.order.after), (account.total, found.after))
        self.assertEqual([(leg.contract, leg.quantity) for leg in desk.cheapest_close("RIVER-01", 1000000).legs], [("HOZ5", 1)])

    def test_limits_of_a_search(self) -> None:
        """A search that may evaluate nothing more still finds an order that one lot does not improve."""
        with mock.patch.object(_closing, "MOST_COMBINATIONS", 0):
            for question in self.questions(86, 10):
                for limits in ({"tries": 0}, {"seconds": 0.0}):
                    found = question.answer(**limits)
                    self.check(question, found)
                    self.check_one_lot(question, found)

    def test_large_positions(self) -> None:
        positions = [("A", "CLZ5", 90000), ("A", "CLF6", -70000), ("A", "HOZ5", -100000), ("A", "ZCZ5", 5)]
        desk = self.session(PARAMS, positions)
        total = desk.margin("A").total
        question = Question(desk, {contract: quantity for _, contract, quantity in positions}, total // 3, None, "total")
        found = question.answer()
        self.check(question, found)
        self.check_one_lot(question, found)
        self.assertFalse(found.is_optimal)


class Limits(Case):
    def test_met_already(self) -> None:
        found = self.session().cheapest_close("RIVER-01", 10**9)
        self.assertEqual((found.is_met, found.is_optimal, found.legs, found.cost, found.after), (True, True, (), 0, found.before))
        self.assertEqual(self.session().cheapest_close("FLAT-07", 0).legs, ())

    def test_everything(self) -> None:
        found = self.session(VALUE).cheapest_close("STRANGLE-04", 0, "due")
        self.assertEqual((found.after, found.lots), (0, 64))

    def test_only(self) -> None:
        found = self.session().cheapest_close("RIVER-01", 1200000, only=["CLZ5", "CLF6C66"])
        self.assertTrue({leg.contract for leg in found.legs} <= {"CLZ5", "CLF6C66"})

    def test_none(self) -> None:
        """If no order meets the target, the result is the one with the lowest total."""
        desk = self.session()
        found = desk.cheapest_close("RIVER-01", 100000, only=["HOZ5", "HOF6"])
        orders = [{"HOZ5": one, "HOF6": other} for one in range(2) for other in range(3) if one or other]
        self.assertEqual((found.is_met, found.is_optimal), (False, True))
        self.assertEqual(found.after, min(it.after for it in desk.try_orders([("RIVER-01", legs) for legs in orders])))
        with mock.patch.object(_closing, "MOST_COMBINATIONS", 0):
            searched = desk.cheapest_close("RIVER-01", 100000, only=["HOZ5", "HOF6"])
        self.assertEqual((searched.is_met, searched.is_optimal, searched.after), (False, False, found.after))
        nothing = desk.cheapest_close("RIVER-01", 0, only=[])
        self.assertEqual((nothing.is_met, nothing.legs, nothing.after), (False, (), nothing.before))

    def test_most(self) -> None:
        desk = self.session()
        found = desk.cheapest_close("CRACK-02", 4000000, most={"CLF6": 2, "RBF6": 0})
        self.assertTrue(all(abs(leg.quantity) <= {"CLF6": 2, "RBF6": 0}.get(leg.contract, 99) for leg in found.legs))
        self.assertEqual(desk.cheapest_close("RIVER-01", 0, most=dict.fromkeys(["CLZ5"], 99)).after, 0)

    def test_prices(self) -> None:
        desk = self.session()
        prices = {it.contract: Decimal("1.25") for it in desk.positions()}
        found = desk.cheapest_close("RIVER-01", 600000, cost=prices)
        self.assertEqual(found.cost, found.lots * Decimal("1.25"))
        self.assertEqual(found.lots, desk.cheapest_close("RIVER-01", 600000).lots)
        free = desk.cheapest_close("RIVER-01", 600000, cost={**prices, "HOF6": 0, "HOZ5": Decimal("0.0")})
        self.assertEqual(free.cost, sum(leg.cost for leg in free.legs))
        self.assertLess(free.cost, found.cost)
        self.assertEqual({leg.price for leg in free.legs if leg.commodity == "HO"}, {0})

    def test_more_contracts_than_legs(self) -> None:
        """An order has at most 64 legs, so that a target may be out of reach."""
        params, names = PARAMS.read_bytes(), []
        for line in params.decode().splitlines():
            fields = line.split(",")
            if fields[0] == "CONTRACT":
                names += [fields[1], f"{fields[1]}-B"]
                params += f"CONTRACT,{fields[1]}-B,{','.join(fields[2:])}\n".encode()
        chance = random.Random(87)
        desk = self.session(params, [("A", name, chance.choice((-2, 1))) for name in names[:70]])
        total = desk.margin("A").total
        for target in (total * 8 // 10, 0):
            found = desk.cheapest_close("A", target, tries=3000)
            self.assertLessEqual(len(found.legs), 64)
            self.assertEqual(found.is_met, found.after <= target)
        self.assertFalse(found.is_met)

    def test_errors(self) -> None:
        desk = self.session()
        self.assertEqual(self.error(span.RequestError, desk.cheapest_close, "NOBODY", 1).code, "E1")
        unheld, few = {"CLX5": 1}, {"CLZ5": 1}
        for wrong in ({"only": unheld}, {"most": unheld}, {"most": {"CLZ5": -1}}, {"cost": few}, {"of": "due"}, {"of": "price"}):
            self.error(ValueError, desk.cheapest_close, "RIVER-01", 1, **wrong)
        prices = {it.contract: 1 for it in desk.positions()}
        for price in (-1, Decimal("NaN"), Decimal("-0.5")):
            self.error(ValueError, desk.cheapest_close, "RIVER-01", 1, cost={**prices, "CLZ5": price})
        self.error(TypeError, desk.cheapest_close, "RIVER-01", 1, cost={**prices, "CLZ5": 0.5})
        self.error(TypeError, desk.cheapest_close, "RIVER-01", 1.5)
        self.error(span.TimedOut, desk.cheapest_close, "RIVER-01", 1, timeout=0)


class Texts(Case):
    def test_texts(self) -> None:
        found = self.session().cheapest_close("RIVER-01", 600000)
        rows = list(csv.DictReader(io.StringIO(found.to_csv())))
        self.assertEqual([(row["contract"], int(row["quantity"])) for row in rows], [(it.contract, it.quantity) for it in found.legs])
        (row,) = csv.DictReader(io.StringIO(found.to_csv("orders")))
        self.assertEqual((row["account"], int(row["after"]), row["is_met"]), ("RIVER-01", found.after, "True"))
        data = json.loads(found.to_json())
        self.assertEqual((data["target"], len(data["legs"]), data["order"]["after"]), (600000, len(found.legs), found.after))
        self.assertEqual(pickle.loads(pickle.dumps(found)), found)
        self.assertEqual((found.before.currency, found.target.currency), ("USD", "USD"))
        self.assertEqual((row["currency"], data["currency"], data["order"]["currency"]), ("USD", "USD", "USD"))
        self.assertNotIn("currency", rows[0])
