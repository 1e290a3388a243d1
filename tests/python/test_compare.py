"""Comparisons of two explanations: everything adds up, and what changed is found."""
import csv
import io
import json
import pickle
import random
import unittest
from importlib.util import find_spec
from typing import Any

import span_margin as span
from lib.random_files import Files, joined
from shared import NEXT, PARAMS, POSITIONS, VALUE, Case, lines_of


class Sums(Case):
    def check(self, found: span.Comparison) -> None:
        """The steps of commodities add up to the changes of requirements, these to totals, and these to the sum of all."""
        for account in found.accounts:
            for it in account.commodities:
                self.assertEqual(sum(it.steps), it.requirement.change)
                before, after = (each.margin.requirement if each else 0 for each in (it.before, it.after))
                self.assertEqual(it.requirement.change, after - before)
            self.assertEqual(sum(it.requirement.change for it in account.commodities), account.total.change)
            self.assertEqual([sum(step) for step in zip([0] * 5, *(it.steps for it in account.commodities))], list(account.steps))
            for name, figure in account.figures.items():
                self.assertEqual(figure.change, (figure.after or 0) - (figure.before or 0), name)
        self.assertEqual(sum(account.total.change for account in found.accounts), found.total.change)
        self.assertEqual(found.total.after, sum(account.total for account in found.after))

    def test_examples(self) -> None:
        few = b"RIVER-01,CLZ5,4\nNEW,HOZ5,1\n"
        for params, positions in ((PARAMS, POSITIONS), (NEXT, POSITIONS), (NEXT, few), (PARAMS, b""), (VALUE, POSITIONS)):
            before, after = span.explain(PARAMS, POSITIONS), span.explain(params, positions)
            self.check(span.compare(before, after))
            self.check(span.compare(after, before))

    def test_random_files(self) -> None:
        chance = random.Random(84)
        for _ in range(25):
            first = Files(chance)
            second = Files(chance, like=first)
            both = [span.explain(joined(it.params).replace(b",EUR", b",USD"), joined(it.positions)) for it in (first, second)]
            self.check(span.compare(*both))

    def test_no_change(self) -> None:
        explanation = span.explain(PARAMS, POSITIONS)
        found = span.compare(explanation, explanation)
        self.assertEqual({it.presence for it in found.accounts}, {"no change"})
        for account in found.accounts:
            for it in account.commodities:
                self.assertEqual((it.is_same, it.arrays, it.rates, it.figures, it.positions), (True, "same", (), (), ()))
        self.assertEqual([len(found.to_csv(kind).splitlines()) for kind in ("positions", "rates", "figures", "sums")], [1] * 4)


class Changes(Case):
    def compared(self, params: Any, *more: str) -> span.Comparison:
        """The broker's positions against the same with more records, under another set."""
        positions = "".join(f"{line}\n" for line in (*lines_of(POSITIONS), *more)).encode()
        return span.compare(span.explain(PARAMS, POSITIONS), span.explain(params, positions))

    def test_accounts(self) -> None:
        found = self.compared(PARAMS, "RIVER-01,CLZ5,-2", "NEW,CLZ5,2")
        self.assertEqual(
            {it.account: it.presence for it in found.accounts if it.presence != "no change"}, {"RIVER-01": "", "NEW": "only after"}
        )
        self.assertEqual([it.account for it in found.ranked][:2], ["NEW", "RIVER-01"])
        self.assertEqual((found["NEW"].total.before, found["NEW"].before), (None, None))
        back = span.compare(found.after, found.before)
        self.assertEqual((back["NEW"].presence, back["NEW"].total.change), ("only before", -found["NEW"].total.change))
        self.error(KeyError, found.__getitem__, "NOBODY")
        self.error(KeyError, found["NEW"].__getitem__, "HO")

    def test_positions(self) -> None:
        found = self.compared(PARAMS, "RIVER-01,CLZ5,-2", "RIVER-01,CLG6,2", "RIVER-01,CLH6P55,1")["RIVER-01"]["CL"]
        changes = {it.contract: (it.what, it.before, it.after, it.change) for it in found.positions}
        self.assertEqual(
            changes, {"CLZ5": ("changed", 6, 4, -2), "CLG6": ("closed", -2, None, 2), "CLH6P55": ("opened", None, 1, 1)}
        )
        self.assertEqual((found.unchanged, found.arrays, found.is_same), (5, "positions", False))

    def test_values_of_positions(self) -> None:
        lines = [line.split(",") for line in lines_of(VALUE)]
        dearer = [[*line[:-1], str(int(line[-1]) + 7)] if line[1] == "CLF6C62" else line for line in lines]
        found = span.compare(span.explain(VALUE, POSITIONS), span.explain(dearer, POSITIONS))
        (change,) = found["RIVER-01"]["CL"].positions
        self.assertEqual((change.contract, change.what, change.change, change.value_change), ("CLF6C62", "value", 0, 3 * 7))
        self.assertEqual((found.measure, found["RIVER-01"].figures["due"].change, found["RIVER-01"].total.change), ("due", -21, 0))
        self.assertEqual(found.due.change if found.due else None, sum(it.figures["due"].change for it in found.accounts))

    def test_rates(self) -> None:
        found = self.compared(NEXT)["RIVER-01"]["CL"]
        self.assertEqual({it.name: (it.before, it.after, it.change) for it in found.rates}, {
            "calendar spread 1: rate": (42000, 49000, 7000), "credit 2 with HO: basis points": (7400, 6900, -500),
            "short options: rate": (6000, 7000, 1000),
        })
        self.assertEqual((found.arrays, found.unchanged), ("changed", 7))
        self.assertEqual(self.compared(NEXT, "RIVER-01,CLZ5,1")["RIVER-01"]["CL"].arrays, "unknown")

    def test_method_and_deltas(self) -> None:
        lines = [line.split(",") for line in lines_of(PARAMS)]
        for line in lines:
            if line[:2] == ["COMMODITY", "CL"]:
                line[3] = "MAX" if line[3] == "SUM" else "SUM"
            if line[:2] == ["CONTRACT", "CLF6C62"]:
                line[5] = "0.5"
        rates = {it.name: it for it in self.compared(lines)["RIVER-01"]["CL"].rates}
        method = rates["short options: counted by"]
        self.assertEqual(({method.before, method.after}, method.change, method.is_same), ({"SUM", "MAX"}, None, False))
        self.assertIn("month 202601: delta, same positions", rates)

    def test_one_account(self) -> None:
        with span.Session(PARAMS, POSITIONS) as desk:
            before = desk.explain("RIVER-01")
            desk.fill("RIVER-01", {"CLZ5": -2})
            found = span.compare(before, desk.explain("RIVER-01"))
        self.assertEqual([(it.account, it.total.change) for it in found.accounts], [("RIVER-01", 517159)])

    def test_currencies(self) -> None:
        euros = span.explain(PARAMS.read_bytes().replace(b",USD", b",EUR"), POSITIONS)
        dollars = span.explain(PARAMS, POSITIONS)
        error = self.error(span.CurrencyError, span.compare, dollars, euros)
        self.assertEqual(str(error), "an explanation in USD and one in EUR cannot be compared")
        self.error(span.CurrencyError, span.compare, dollars["RIVER-01"], euros["RIVER-01"])
        following = span.explain(NEXT, POSITIONS)
        for before, after, currency in (
            (dollars, following, "USD"), (dollars, span.Explanation(bytes(following)), None),
            (span.Explanation(bytes(dollars)), span.Explanation(bytes(following)), None),
        ):
            found = span.compare(before, after)
            self.assertEqual((found.currency, found.to_dict()["currency"], json.loads(found.to_json())["currency"]), (currency,) * 3)
            for kind in ("accounts", "commodities", "positions", "sums"):
                rows = list(csv.DictReader(io.StringIO(found.to_csv(kind))))
                self.assertEqual({row["currency"] for row in rows}, {currency or ""} if rows else set())
            of_figures = {row["name"]: row["currency"] for row in csv.DictReader(io.StringIO(found.to_csv("figures")))}
            self.assertEqual((of_figures["price risk"], of_figures["weight of credits"]), (currency or "", ""))


class Texts(Case):
    def test_texts(self) -> None:
        found = span.compare(span.explain(PARAMS, POSITIONS), span.explain(NEXT, POSITIONS))
        rows = list(csv.DictReader(io.StringIO(found.to_csv())))
        self.assertEqual({row["account"]: int(row["total_change"]) for row in rows}, {it.account: it.total.change for it in found.accounts})
        self.assertEqual(rows[0]["due_before"], "")
        for kind in ("commodities", "positions", "rates", "figures", "sums"):
            self.assertTrue(found.to_csv(kind).startswith("account,commodity,"))
        data = json.loads(found.to_json())
        self.assertEqual((data["set_before"], data["set_after"], data["total"]["change"]), ("D20251114", "D20251117", found.total.change))
        self.assertEqual(data["accounts"][0]["commodities"][0]["rates"][0]["change"], 7000)
        self.assertEqual(pickle.loads(pickle.dumps(found)).to_json(), found.to_json())
        self.error(ValueError, found.to_csv, "scan")

    def test_exact_changes(self) -> None:
        """Changes have no digits that both figures lack."""
        found = span.compare(span.explain(PARAMS, POSITIONS), span.explain(NEXT, POSITIONS))
        for line in csv.DictReader(io.StringIO(found.to_csv("figures"))):
            self.assertNotRegex(line["change"], r"\..*0$|\.$")

    @unittest.skipUnless(find_spec("pandas"), "there is no pandas")
    def test_pandas(self) -> None:
        found = span.compare(span.explain(PARAMS, POSITIONS), span.explain(NEXT, POSITIONS))
        self.assertEqual(int(found.to_pandas()["total_change"].sum()), found.total.change)
        self.assertEqual(len(found.to_pandas("rates")), len(found.to_csv("rates").splitlines()) - 1)
