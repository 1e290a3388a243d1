"""Attribution: shares add up, are means over all orders, agree with samples and with walks; groups, tables, errors."""
import csv
import io
import itertools
import json
import os
import pickle
import random
import threading
import unittest
from fractions import Fraction
from importlib.util import find_spec
from pathlib import Path
from typing import Dict, Iterator, List, Tuple
from unittest import mock

import span_margin as span
from shared import PARAMS, POSITIONS, VALUE, SessionCase, fill_random, lines_of, random_sessions
from span_margin import _attribution
from span_margin.report._shares import attribution_of


def amount_of(margin: span.AccountMargin, of: str) -> int:
    return int(getattr(margin, of))


def values_of_sets(desk: span.Session, legs: Dict[str, int], of: str) -> Dict[Tuple[str, ...], int]:
    """The total or due of an account that holds some of the positions, from an order for an account that holds nothing."""
    sets = [it for count in range(1, len(legs) + 1) for it in itertools.combinations(legs, count)]
    tried = desk.try_orders([("NOBODY", {contract: legs[contract] for contract in it}) for it in sets])
    values = {it: int((order.after if of == "total" else order.due_after) or 0) for it, order in zip(sets, tried)}
    return {(): 0, **values}


def means(values: Dict[Tuple[str, ...], int], contracts: List[str]) -> Dict[str, Fraction]:
    """What each contract adds to the value, as a mean over all orders, one after the other."""
    sums = dict.fromkeys(contracts, Fraction(0))
    orders = list(itertools.permutations(contracts))
    for order in orders:
        for at, contract in enumerate(order):
            before, after = (tuple(it for it in contracts if it in order[:count]) for count in (at, at + 1))
            sums[contract] += values[after] - values[before]
    return {contract: amount / len(orders) for contract, amount in sums.items()}


def many_contracts() -> Tuple[bytes, List[str]]:
    """The parameter set of the examples with two copies of each contract, and the names of all contracts."""
    lines, names = [], []
    for line in lines_of(PARAMS):
        fields = line.split(",")
        copies = [fields[1], f"{fields[1]}-B"] if fields[0] == "CONTRACT" else fields[1:2]
        names += copies if fields[0] == "CONTRACT" else []
        lines += [",".join((fields[0], name, *fields[2:])) for name in copies]
    return "".join(f"{line}\n" for line in lines).encode(), names


class Case(SessionCase):
    def limits(self, **limits: int) -> None:
        """Replaces limits of the module until the test ends."""
        for name, value in limits.items():
            patch = mock.patch.object(_attribution, name, value)
            patch.start()
            self.addCleanup(patch.stop)

    def check_sums(self, desk: span.Session, found: span.Attribution) -> None:
        """Shares add up to the total or due, and parts to the requirements. Marginals are what orders print."""
        margin = desk.margin(found.account)
        self.assertEqual((found.amount, found.set), (amount_of(margin, found.of), margin.set))
        self.assertEqual(sum(it.share for it in found.shares), found.amount)
        requirements = {it.commodity: it.requirement for it in margin}
        if found.of == "due":
            requirements["due_minus_total"] = margin.due - margin.total
        self.assertEqual(found.columns, requirements)
        for column in requirements:
            self.assertEqual(sum(it.parts[column] for it in found.shares), requirements[column])
        for it in found.shares:
            self.assertEqual(sum(it.parts.values()), it.share)
            order = desk.try_order(found.account, {it.contract: -it.quantity})
            self.assertEqual(it.marginal, order.change if found.of == "total" else order.due_change)

    def random_accounts(self, seed: int, count: int, most: int) -> Iterator[Tuple[span.Session, Dict[str, int], str]]:
        """Sessions with a random account A, what it holds, and each amount that can be attributed."""
        for chance, desk, contracts in random_sessions(self, seed, count):
            legs = fill_random(chance, desk, contracts, most, chance.choice((0, 9, 40)))
            for of in ("total", "due")[: 1 if desk.margin("A").due is None else 2]:
                yield desk, legs, of


class Shares(Case):
    def test_add_up(self) -> None:
        for account in span.margin(VALUE, POSITIONS):
            for params, of in ((PARAMS, "total"), (VALUE, "total"), (VALUE, "due")):
                desk = self.session(params)
                self.check_sums(desk, desk.attribution(account.account, of))

    def test_random_accounts(self) -> None:
        for desk, _, of in self.random_accounts(84, 30, 9):
            self.check_sums(desk, desk.attribution("A", of))

    def test_means_over_all_orders(self) -> None:
        for desk, legs, of in self.random_accounts(85, 20, 5):
            found = desk.attribution("A", of)
            expected = means(values_of_sets(desk, legs, of), list(legs))
            self.assertEqual({it.contract: it.quantity for it in found.shares}, legs)
            for contract, mean in expected.items():
                self.assertLess(abs(found[contract].share - mean), 1)

    def test_one_contract(self) -> None:
        desk = self.session(PARAMS, b"A,CLZ5,3\n")
        (share,) = desk.attribution("A").shares
        self.assertEqual((share.share, share.marginal, share.standard_error), (desk.margin("A").total, -share.share, None))

    def test_no_contract(self) -> None:
        found = self.session().attribution("FLAT-07")
        self.assertEqual((found.amount, found.shares, found.columns, found.by_commodity), (0, (), {}, {}))

    def test_rounding(self) -> None:
        """A row is rounded by largest remainder in columns that are connected, and has nothing in others."""
        rows = [{"A": 6, "B": 3}, {"A": 4, "B": 1}, {"B": 6}, {"C": 5}, {"C": 5}]
        found = _attribution.rounded(rows, 10, ["A", "B", "C"])
        self.assertEqual([tuple(it.values()) for it in found], [(1, 0, 0), (0, 0, 0), (0, 1, 0), (0, 0, 1), (0, 0, 0)])
        chance = random.Random(86)
        for _ in range(200):
            count, columns = chance.randint(1, 6), ["A", "B", "C", "D"][: chance.randint(1, 4)]
            rows = [{it: chance.choice((0, chance.randint(-99, 99))) for it in columns} for _ in range(count)]
            for column in columns:  # each column has a whole sum
                rows[0][column] -= sum(row[column] for row in rows) % 7
            found = _attribution.rounded(rows, 7, columns)
            for column in columns:
                self.assertEqual(7 * sum(row[column] for row in found), sum(row[column] for row in rows))
            for row, cells in zip(rows, found):
                self.assertLess(abs(Fraction(sum(row.values()), 7) - sum(cells.values())), 1)
                self.assertTrue(any(row.values()) or not any(cells.values()))


class Samples(Case):
    def test_agree_with_exact_shares(self) -> None:
        for desk, _, of in self.random_accounts(87, 15, 8):
            expected = desk.attribution("A", of)
            with mock.patch.object(_attribution, "MOST_EXACT", 0):
                found = desk.attribution("A", of, seed=5)
            self.check_sums(desk, found)
            self.assertEqual((expected.orders, expected.seed, found.orders, found.seed), (None, None, 200, 5))
            self.assertEqual((expected.is_exact, found.is_exact), (True, False))
            for share in expected.shares:
                other = found[share.contract]
                self.assertLessEqual(abs(share.share - other.share), 4 * (other.standard_error or 0) + 1)
                self.assertEqual((share.standard_error, share.marginal), (None, other.marginal))

    def test_walks_agree_with_orders(self) -> None:
        self.limits(MOST_EXACT=0, PAIRS=4, BLOCK=3)
        for desk, _, of in self.random_accounts(88, 10, 9):
            expected = desk.attribution("A", of)
            with mock.patch.object(_attribution, "MOST_LEGS", 0):
                self.assertEqual(desk.attribution("A", of), expected)

    def test_seeds(self) -> None:
        self.limits(MOST_EXACT=0, PAIRS=4)
        desk = self.session()
        self.assertEqual(desk.attribution("RIVER-01", seed=1), desk.attribution("RIVER-01", seed=1))
        self.assertNotEqual(desk.attribution("RIVER-01", seed=1).shares, desk.attribution("RIVER-01", seed=2).shares)
        self.assertEqual(desk.attribution("RIVER-01").seed, 0)
        self.error(TypeError, desk.attribution, "RIVER-01", seed=1.5)

    def test_standard_error(self) -> None:
        """The rounded-up root of the variance of the mean of half of each number."""
        with mock.patch.object(_attribution, "PAIRS", 4):
            for numbers, expected in (([8, 8, 8, 8], 0), ([0, 0, 0, 8], 1), ([0, 0, 80, 80], 12)):
                variance = sum(Fraction(it - Fraction(sum(numbers), 4), 2) ** 2 for it in numbers) / (4 * 3)
                found = _attribution.standard_error(sum(numbers), sum(it * it for it in numbers))
                self.assertEqual(found, expected)
                self.assertTrue(variance <= found**2 and (found == 0 or variance > (found - 1) ** 2))


class ManyContracts(Case):
    """Accounts with more contracts than an order has legs."""

    def setUp(self) -> None:
        super().setUp()
        self.limits(PAIRS=3)
        self.params, names = many_contracts()
        chance = random.Random(89)
        self.positions = [("A", name, chance.choice((-3, -1, 2, 5))) for name in names[:70]]

    def test_sets_of_all_kinds(self) -> None:
        with open("params.csv", "wb") as file:
            file.write(self.params)
        found = []
        for params in (self.params, "params.csv", [line.split(",") for line in self.params.decode().splitlines()]):
            desk = self.session(params, self.positions)
            found.append(desk.attribution("A"))
            self.check_sums(desk, found[-1])
        self.assertEqual(found[0], found[1])
        self.assertEqual(found[0], found[2])
        self.assertEqual((len(found[0].shares), found[0].orders), (70, 6))

    def test_new_set(self) -> None:
        desk = self.session(self.params, self.positions)
        desk.use_set(self.params.replace(b"SET,D20251114,", b"SET,LATER,").replace(b",6000,", b",7000,"))
        self.check_sums(desk, desk.attribution("A"))
        self.assertEqual(desk.attribution("A").set, "LATER")

    def test_file_that_is_replaced_later(self) -> None:
        with open("params.csv", "wb") as file:
            file.write(self.params)
        desk = self.session("params.csv", self.positions)
        os.remove("params.csv")
        self.check_sums(desk, desk.attribution("A"))

    def test_pipe(self) -> None:
        os.mkfifo("pipe")
        writer = threading.Thread(target=lambda: Path("pipe").write_bytes(self.params))
        writer.start()
        self.addCleanup(writer.join)
        desk = self.session("pipe", self.positions, timeout=60)
        self.check_sums(desk, desk.attribution("A"))


class Answers(Case):
    def test_groups(self) -> None:
        found = self.session().attribution("RIVER-01")
        self.assertEqual(list(found.by_commodity), ["CL", "HO"])
        self.assertEqual(sum(found.by_commodity.values()), found.amount)
        self.assertEqual(found.by_commodity["HO"], found["HOZ5"].share + found["HOF6"].share)
        groups = {it.contract: "hedge" if it.quantity < 0 else "rest" for it in found.shares}
        self.assertEqual(found.by(groups)["hedge"], sum(it.share for it in found.shares if it.quantity < 0))
        del groups["HOF6"]
        self.assertEqual(str(self.error(ValueError, found.by, groups)), "HOF6 has no group")
        self.error(KeyError, found.__getitem__, "NONE")

    def test_texts(self) -> None:
        found = self.session(VALUE).attribution("RIVER-01", "due")
        rows = list(csv.DictReader(io.StringIO(found.to_csv())))
        self.assertEqual([row["contract"] for row in rows], [it.contract for it in found.shares])
        self.assertEqual(sum(int(row["share"]) for row in rows), found.amount)
        self.assertEqual(sum(int(row["HO"]) for row in rows), found.columns["HO"])
        self.assertEqual(rows[0]["standard_error"], "")
        sums = list(csv.DictReader(io.StringIO(found.to_csv("commodities"))))
        self.assertEqual({row["commodity"]: int(row["share"]) for row in sums}, found.by_commodity)
        data = json.loads(found.to_json())
        self.assertEqual((data["amount"], data["of"], data["shares"][0]["parts"]), (found.amount, "due", found.shares[0].parts))
        self.assertEqual(pickle.loads(pickle.dumps(found)), found)
        self.error(ValueError, found.to_csv, "orders")

    @unittest.skipUnless(find_spec("pandas"), "there is no pandas")
    def test_pandas(self) -> None:
        found = self.session().attribution("RIVER-01")
        frame = found.to_pandas()
        self.assertEqual((int(frame["share"].sum()), str(frame["share"].dtype), len(frame)), (found.amount, "int64", len(found.shares)))
        self.assertTrue(frame["standard_error"].isna().all())

    def test_currency(self) -> None:
        found = self.session().attribution("RIVER-01")
        self.assertEqual((found.amount.currency, found.shares[0].share.currency, found.by_commodity["CL"].currency), ("USD",) * 3)
        self.assertEqual((found.currency, list(found.to_dict().items())[-1]), ("USD", ("currency", "USD")))
        for kind in ("shares", "commodities"):
            rows = list(csv.DictReader(io.StringIO(found.to_csv(kind))))
            self.assertEqual((list(rows[0])[-1], {row["currency"] for row in rows}), ("currency", {"USD"}))
        (line,) = found.to_json().encode().splitlines()
        self.assertEqual((attribution_of(line), attribution_of(line).currency), (found, "USD"))

    def test_errors(self) -> None:
        desk = self.session()
        self.assertEqual(self.error(span.RequestError, desk.attribution, "NOBODY").code, "E1")
        for of in ("due", "value", ""):
            self.error(ValueError, desk.attribution, "RIVER-01", of)
        self.error(span.TimedOut, desk.attribution, "RIVER-01", timeout=0)
        desk.close()
        self.error(span.SessionEnded, desk.attribution, "RIVER-01")

    def test_positions(self) -> None:
        desk = self.session()
        held = {it.contract: it.quantity for it in desk.positions() if it.account == "RIVER-01"}
        self.assertEqual((desk.attribution("RIVER-01").positions, desk.cheapest_close("RIVER-01", 0).positions), (held, held))
