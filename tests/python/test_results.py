"""Results: the bytes that span printed, lines that become objects when they are asked for, names, and data frames."""
import copy
import csv
import dataclasses
import hashlib
import io
import json
import os
import pickle
import threading
import time
import unittest
from decimal import Decimal
from pathlib import Path
from typing import Any, Callable, Dict, Iterator, List, Tuple
from unittest import mock

import span_margin as span
from shared import EXAMPLES, NEXT, ORDERS, PARAMS, POSITIONS, Case
from span_margin import _lines, _results
from span_margin._amounts import UNKNOWN, Money
from span_margin._cached import cached

try:
    import pandas
except ImportError:
    pandas = None

ACCOUNTS, COMMODITIES = 4096, 64  # of a large statement
DOLLARS = Money("USD")


def content(name: str) -> bytes:
    return (EXAMPLES / name).read_bytes()


STATEMENT, VALUES, ROLL = content("statement-broker.csv"), content("statement-value.csv"), content("statement-roll.csv")
EXPLANATION, CHANGES, FAULTS = content("explanation-broker.csv"), content("changes-broker.csv"), content("faults.txt")
RIVER, RIVER_REASONS = STATEMENT[: STATEMENT.index(b"R,CRACK")], EXPLANATION[: EXPLANATION.index(b"HELD,CRACK")]
HEDGE = b"".join(line for line in CHANGES.splitlines(True) if b",HEDGE," in line)


def all_results() -> List[Tuple[Any, bytes]]:
    """A result of each kind, with the bytes that it is made of."""
    made: List[Tuple[Callable[..., Any], bytes]] = [
        (_results.statement, STATEMENT),
        (_results.statement, VALUES),
        (_results.statement, b""),
        (_results.account_margin, RIVER),
        (_results.explanation, EXPLANATION),
        (_results.account_explanation, RIVER_REASONS),
        (_results.tried_orders, CHANGES),
        (_results.tried_order, HEDGE),
        (_results.account_total, b"T,A,D1,5\n"),
        (_results.account_total, b"T,A,D1,5,-3,8,0\n"),
    ]
    found = [(make(printed, DOLLARS), printed) for make, printed in made]
    found += [
        (_results.roll(ROLL, DOLLARS, DOLLARS), ROLL),
        (_results.set_counts(b"OK,D1,1,2,3,4,5,6\n"), b"OK,D1,1,2,3,4,5,6\n"),
        (_results.faults(FAULTS), FAULTS),
        (_results.positions(POSITIONS.read_bytes(), "D1"), POSITIONS.read_bytes()),
    ]
    return found


class Bytes(Case):
    def test_what_was_printed(self) -> None:
        for result, printed in all_results():
            with self.subTest(result):
                self.assertEqual((bytes(result), result.text), (printed, printed.decode()))
                self.assertEqual(result.sha256, hashlib.sha256(printed).hexdigest())

    def test_of_calls(self) -> None:
        for name, call in (
            ("statement-broker.csv", lambda: span.margin(PARAMS, POSITIONS)),
            ("explanation-broker.csv", lambda: span.explain(PARAMS, POSITIONS)),
            ("changes-broker.csv", lambda: span.whatif(PARAMS, POSITIONS, ORDERS)),
            ("statement-roll.csv", lambda: span.roll(PARAMS, NEXT, POSITIONS)),
            ("faults.txt", lambda: span.faults(PARAMS, POSITIONS)),
        ):
            self.assertEqual((self.use_output(name), name), (bytes(call()), name))
        self.use_program("echo OK,D1,1,2,3,4,5,6")
        self.assertEqual(bytes(span.check(PARAMS)), b"OK,D1,1,2,3,4,5,6\n")

    def test_written(self) -> None:
        before = os.umask(0o027)
        self.addCleanup(os.umask, before)
        for result, printed in all_results():
            Path("old").write_bytes(b"another")
            os.symlink("old", "link")
            for name in ("new", "old", "link", self.room / "path"):
                result.write(name)
                self.assertEqual((Path(name).read_bytes(), Path(name).stat().st_mode & 0o777), (printed, 0o640))
            self.assertTrue(Path("link").is_symlink())
            self.assertEqual(sorted(os.listdir()), ["link", "new", "old", "path"])
            os.remove("link")

    def test_written_whole_or_not_at_all(self) -> None:
        result = _results.statement(STATEMENT, UNKNOWN)
        Path("old").write_bytes(b"another")
        synced = []
        with mock.patch("os.fsync", side_effect=lambda _: synced.append(Path("old").read_bytes())):
            result.write("old")
        self.assertEqual((synced, Path("old").read_bytes()), ([b"another"], STATEMENT))
        Path("old").write_bytes(b"another")
        with mock.patch("os.fsync", side_effect=OSError(28, "No space left on device")):
            self.error(OSError, result.write, "old")
        self.assertEqual((os.listdir(), Path("old").read_bytes()), (["old"], b"another"))
        self.error(FileNotFoundError, result.write, "missing/file")
        self.error(ValueError, result.write, ".")

    def test_equal(self) -> None:
        for result, printed in all_results():
            for same in (pickle.loads(pickle.dumps(result)), copy.copy(result), copy.deepcopy(result)):
                self.assertEqual((same, hash(same), bytes(same), type(same)), (result, hash(result), printed, type(result)))
        margins = [_results.statement(printed, UNKNOWN) for printed in (STATEMENT, STATEMENT[:-1] + b"0\n", RIVER)]
        self.assertEqual([it == margins[0] for it in margins], [True, False, False])
        self.assertNotEqual(_results.statement(RIVER, UNKNOWN), _results.account_margin(RIVER, UNKNOWN))
        self.assertNotEqual(margins[0], STATEMENT)
        self.assertEqual(len({*margins, *margins}), 3)

    def test_copies_keep_the_currency(self) -> None:
        again = pickle.loads(pickle.dumps(_results.statement(b"", DOLLARS, "D1")))
        self.assertEqual((again.set, again.currency), ("D1", "USD"))
        again = pickle.loads(pickle.dumps(_results.roll(ROLL, DOLLARS, Money("JPY"))))
        self.assertEqual((again.today.currency, again.next.currency, again.currency), ("USD", "JPY", None))
        self.assertEqual(again.next["RIVER-01"].total.currency, "JPY")

    def test_frozen(self) -> None:
        for result, _ in all_results():
            for name in ("set", "_printed", "another"):
                with self.assertRaises(dataclasses.FrozenInstanceError):
                    setattr(result, name, "X")
                with self.assertRaises(dataclasses.FrozenInstanceError):
                    delattr(result, name)

    def test_repr(self) -> None:
        self.assertEqual(repr(_results.account_margin(RIVER, UNKNOWN)), "<AccountMargin of 3 lines, the last T,RIVER-01,D20251114,1331287>")
        self.assertEqual(repr(_results.statement(b"", UNKNOWN)), "<Statement of 0 lines>")


class Lines(Case):
    def parsed(self, call: Callable[[], Any]) -> int:
        """How many lines a call makes objects of."""
        with mock.patch.object(_results, "object_of", side_effect=_lines.object_of) as made:
            call()
        return int(made.call_count)

    def test_made_when_asked_for(self) -> None:
        statement = _results.statement(STATEMENT, DOLLARS)
        self.assertEqual(self.parsed(lambda: (len(statement), statement.set, bytes(statement), statement["CRACK-02"], list(statement))), 0)
        self.assertEqual(self.parsed(lambda: statement["CRACK-02"].total), 1)
        self.assertEqual(self.parsed(lambda: (statement["CRACK-02"].set, statement["CRACK-02"].due)), 0)
        self.assertEqual(self.parsed(lambda: statement["CRACK-02"]["RB"].credit), 3)
        order = _results.tried_order(HEDGE, DOLLARS)
        self.assertEqual(self.parsed(lambda: (order.change, order.due_change)), 1)
        self.assertEqual(self.parsed(lambda: order["ZC"].change), 2)

    def test_unreadable_when_asked_for(self) -> None:
        for end in (b",D1,CL,1,14,2,3,4,5", b",D1,CL,1,14,2,3,4,5,x", b",D1,CL,1,14,2,3,4,5,6,7", b"", b",D1,CL,1.5,14,2,3,4,5,6"):
            wrong = b"R,B" + end
            statement = _results.statement(b"R,A,D1,CL,1,14,2,3,4,5,6\nT,A,D1,6\n" + wrong + b"\nT,B,D1,7\nT,C,D1,x\n", UNKNOWN)
            self.assertEqual((len(statement), statement["A"]["CL"].requirement, statement["B"].total), (3, 6, 7))
            self.assertIn(wrong.decode(), str(self.error(span.ProgramError, lambda: statement["B"].commodities)))
            self.error(span.ProgramError, lambda: statement["C"].total)
            for convert in (statement.to_dicts, statement.to_json):
                self.error(span.ProgramError, convert)
            if pandas:
                self.assertIn(wrong.decode(), str(self.error(span.ProgramError, statement.to_pandas)))
                self.assertIn("T,C,D1,x", str(self.error(span.ProgramError, statement.to_pandas, "accounts")))

    def test_strict_forms(self) -> None:
        """A number, a name or a word in another form than the program prints is an error."""
        good = {
            "R": "A,D1,CL,1,14,2,3,4,5,6", "T": "A,D1,6,-7,8,9", "HELD": "A,D1,CL,CLZ5,F,202512,-6", "SCAN": "A,D1,CL,1,14,13,0.5",
            "INTRA": "A,D1,CL,1,A,2.5,3,4", "SHORT": "A,D1,CL,1,2,SUM,3",
        }
        wrong = [
            ("R", "CL,1", text) for text in ("CL,01", "CL,+1", "CL, 1", "CL,1_0", "CL,-1", "CL,1.0", "CL,", "C L,1", "C\x1b,1", "\xc4,1")
        ] + [("R", ",14,", ",17,"), ("T", "-7", "-0"), ("T", "6,-7", "6,7,-7"), ("HELD", ",F,", ",X,"), ("HELD", "202512", "20251"),
             ("SCAN", "0.5", "0.50"), ("SCAN", "0.5", "5E-1"), ("SCAN", "0.5", ".5"), ("INTRA", ",A,2", ",C,2"), ("SHORT", "SUM", "sum")]
        for word, line in good.items():
            self.assertEqual(_lines.values_of(f"{word},{line}")[0], _lines.FORMS[word])
        for word, old, new in wrong:
            line = f"{word},{good[word].replace(old, new)}"
            with self.subTest(line):
                self.assertNotEqual(line, f"{word},{good[word]}")
                self.error(span.ProgramError, _lines.object_of, line)
                self.assertIsNone(_lines.own_fields_of(line, "A,D1,CL,"))

    def test_words_at_once(self) -> None:
        for make, printed in (
            (_results.statement, b"hello\n"),
            (_results.statement, b"\n"),
            (_results.statement, b"T,A,D1,1"),
            (_results.statement, b"T,A,D1,1\nR,B,D1,CL,1,14,2,3,4,5,6\n"),
            (_results.statement, b"T,A,D1,1\n\nT,B,D1,1\n"),
            (_results.statement, b"T,A,D1,1\nHELD,B,D1,CL,CLZ5,F,202512,3\nT,B,D1,1\n"),
            (_results.statement, b"T,A,D1,1\nT,B,D1,1\nT,C"),
            (_results.account_margin, b""),
            (_results.account_margin, b"T,A,D1,1\nT,B,D1,1\n"),
            (_results.account_margin, RIVER[:-1]),
            (_results.explanation, HEDGE),
            (_results.explanation, EXPLANATION[:-1]),
            (_results.explanation, EXPLANATION[: EXPLANATION.rindex(b"\nR,") + 1]),
            (_results.account_explanation, EXPLANATION),
            (_results.tried_orders, STATEMENT),
            (_results.tried_orders, CHANGES[: CHANGES.rindex(b"ORDER,")][: CHANGES.rindex(b"CHANGE,") + 5]),
            (_results.tried_order, b""),
            (_results.tried_order, CHANGES),
            (_results.tried_order, HEDGE[:-1]),
            (_results.tried_order, HEDGE[: HEDGE.index(b"ORDER,")]),
            (_results.tried_order, b"hello\n" + HEDGE),
            (_results.tried_order, HEDGE + HEDGE),
            (_results.account_total, b""),
            (_results.account_total, RIVER),
            (_results.account_total, b"T,A,D1,007\n"),
            (_results.account_total, b"T,A,D1,1,2\n"),
            (_results.account_total, b"T,A,D1,x\n"),
        ):
            with self.subTest(make=make.__name__, printed=printed[-60:]):
                self.error(span.ProgramError, make, printed, UNKNOWN)
        for make, printed in (
            (_results.set_counts, b"OK,D1,1,2,3\n"),
            (_results.set_counts, b"T,A,D1,1\n"),
            (_results.faults, STATEMENT),
            (_results.faults, FAULTS[:-1]),
        ):
            self.error(span.ProgramError, make, printed)
        self.error(span.ProgramError, _results.positions, b"A,B\n", "D1")
        self.error(span.ProgramError, _results.positions, b"A,B,1", "D1")
        self.error(span.ProgramError, _results.roll, STATEMENT, UNKNOWN, UNKNOWN)
        self.error(span.ProgramError, _results.tried_orders_of, [HEDGE, b"", HEDGE], UNKNOWN)
        self.error(span.ProgramError, _results.tried_orders_of, [HEDGE, HEDGE[:20], HEDGE[20:]], UNKNOWN)

    def test_reasons_that_are_missing(self) -> None:
        for word in (b"SUMS", b"SCAN", b"CREDIT", b"SHORT"):
            lines = [line for line in RIVER_REASONS.splitlines(True) if not line.startswith(word)]
            explanation = _results.account_explanation(b"".join(lines), UNKNOWN)
            self.assertEqual(explanation.total, 1331287)
            self.error(span.ProgramError, lambda: explanation.commodities)


class Names(Case):
    def test_consistent(self) -> None:
        for result, names in (
            (_results.statement(STATEMENT, UNKNOWN), "RIVER-01 CRACK-02 GRAIN-03 STRANGLE-04 CONVERT-05 OPTIONS-06 FLAT-07".split()),
            (_results.account_margin(RIVER, UNKNOWN), ["CL", "HO"]),
            (_results.explanation(EXPLANATION, UNKNOWN), None),
            (_results.account_explanation(RIVER_REASONS, UNKNOWN), ["CL", "HO"]),
            (_results.tried_orders(CHANGES, UNKNOWN), None),
            (_results.tried_order(HEDGE, UNKNOWN), ["ZC", "ZS"]),
            (_results.roll(ROLL, UNKNOWN, UNKNOWN), ["today", "next"]),
        ):
            items = list(result)
            self.assertEqual(names or result.keys(), result.keys())
            self.assertEqual(result.items(), list(zip(result.keys(), items)))
            self.assertEqual(([result[name] for name in result.keys()], len(result)), (items, len(items)))
            self.assertEqual((result[0], result[-1], result[1:]), (items[0], items[-1], tuple(items[1:])))
            self.assertEqual(dict(result), dict(result.items()))
            self.assertTrue(all(name in result and result.get(name) == result[name] for name in result.keys()))
            self.assertTrue(all(item in result for item in items))
            self.assertFalse("NOBODY" in result or None in result or b"CL" in result)
            self.assertEqual((result.get("NOBODY"), result.get("NOBODY", items[0])), (None, items[0]))
            with self.assertRaises(KeyError):
                result["NOBODY"]
            with self.assertRaises(IndexError):
                result[len(result)]
            self.assertTrue(result)

    def test_without_names(self) -> None:
        for result in (_results.faults(FAULTS), _results.positions(b"A,CLZ5,3\nA,CLF6,-3\n", "D1")):
            items = list(result)
            self.assertEqual((result[0], len(result), items[0] in result, "A" in result), (items[0], len(items), True, False))
            for call in (result.keys, result.items, lambda: result["A"]):  # noqa: B023
                self.error(TypeError, call)
        self.assertFalse(_results.faults(b""))

    def test_same_name_twice(self) -> None:
        tried = _results.tried_orders_of([HEDGE, HEDGE.replace(b"HEDGE", b"OTHER"), HEDGE], UNKNOWN)
        self.assertEqual((len(tried), tried.keys(), tried["OTHER"].change), (3, ["HEDGE", "OTHER", "HEDGE"], -63439))
        self.assertIn("HEDGE", tried)
        for call in (tried.__getitem__, tried.get):
            self.assertIn("HEDGE", str(self.error(KeyError, call, "HEDGE")))

    def test_classes_of_totals(self) -> None:
        margin, order = _results.account_margin(RIVER, UNKNOWN), _results.tried_order(HEDGE, UNKNOWN)
        self.assertIsInstance(margin, span.AccountTotal)
        self.assertIsInstance(order, span.OrderTotal)
        self.assertEqual((margin.account, margin.set, margin.total, margin.excess), ("RIVER-01", "D20251114", 1331287, None))
        self.assertEqual((order.order, order.account, order.before, order.after), ("HEDGE", "GRAIN-03", 2069026, 2005587))
        self.assertTrue(_results.statement(STATEMENT, UNKNOWN)["FLAT-07"])


class Conversions(Case):
    def test_of_parts(self) -> None:
        """A part has the dicts that the whole has for it."""
        for whole, part in (
            (_results.statement(RIVER, UNKNOWN), _results.account_margin(RIVER, UNKNOWN)),
            (_results.explanation(RIVER_REASONS, UNKNOWN), _results.account_explanation(RIVER_REASONS, UNKNOWN)),
            (_results.tried_orders(HEDGE, UNKNOWN), _results.tried_order(HEDGE, UNKNOWN)),
            (_results.statement(b"T,A,D1,5,-3,8,0\n", UNKNOWN), None),
        ):
            self.assertEqual(json.loads(whole.to_json()), json.loads(json.dumps(whole.to_dicts(), default=str)))
            if part is not None:
                self.assertEqual((part.to_dicts(), part.to_json(), [part.to_dict()]), (whole.to_dicts(), whole.to_json(), whole.to_dicts()))

    def test_dicts(self) -> None:
        self.assertEqual(_results.account_total(b"T,A,D1,5\n", UNKNOWN).to_dicts(), [
            {"account": "A", "set": "D1", "total": 5, "value": None, "due": None, "excess": None, "currency": None}])
        self.assertEqual(_results.set_counts(b"OK,D1,1,2,3,4,5,6\n").to_dicts(), [
            {"set": "D1", "commodities": 1, "contracts": 2, "tiers": 3, "intras": 4, "spots": 5, "inters": 6}])
        (hedge,) = _results.tried_order(HEDGE, UNKNOWN).to_dicts()
        self.assertEqual((hedge["change"], [it["change"] for it in hedge["changes"]]), (-63439, [330750, -394189]))
        today, following = _results.roll(ROLL, UNKNOWN, UNKNOWN).to_dicts()
        self.assertEqual((today["roll"], today["set"], following["roll"], following["set"]), ("today", "D20251114", "next", "D20251117"))
        self.assertEqual((today["accounts"][0]["total"], following["accounts"][0]["total"]), (1331287, 1509294))
        self.assertEqual(_results.positions(b"A,CLZ5,-3\n", "D1").to_dicts(), [{"account": "A", "contract": "CLZ5", "quantity": -3}])

    def test_of_an_order_that_was_made_of_parts(self) -> None:
        parts = [order + b"\n" for order in CHANGES.decode().encode().split(b"\n") if order.startswith(b"ORDER")]
        tried = _results.tried_orders_of(parts, DOLLARS)
        self.assertEqual((bytes(tried), len(tried), tried.currency, tried.set), (b"".join(parts), len(parts), "USD", "D20251114"))
        self.assertEqual([bytes(it) for it in tried], parts)


WITHOUT_AMOUNTS = ("months", "inters", "sets", "faults", "positions")  # kinds that have no currency


def dicts_in(value: Any) -> Iterator[Dict[str, Any]]:
    """The dicts in dicts and lists."""
    if isinstance(value, dict):
        yield value
    for it in value.values() if isinstance(value, dict) else value if isinstance(value, list) else ():
        yield from dicts_in(it)


class Currencies(Case):
    def test_last_column(self) -> None:
        """Each kind with amounts has the currency as its last column, in CSV and in data frames, even if no row has an amount."""
        for result, printed in all_results():
            for kind in result._kinds:
                with self.subTest(result, kind=kind):
                    head, *rows = csv.reader(io.StringIO(result.to_csv(kind)))
                    self.assertEqual("currency" in head, kind not in WITHOUT_AMOUNTS)
                    if kind not in WITHOUT_AMOUNTS:
                        self.assertEqual((head[-1], {row[-1] for row in rows}), ("currency", {"USD"} if printed else set()))
                    if pandas:
                        frame = result.to_pandas(kind)
                        self.assertEqual(list(frame.columns), head)
                        self.assertEqual(frame.to_csv(index=False), result.to_csv(kind))

    def test_dicts(self) -> None:
        """The dict of each line with amounts has the currency, and other dicts have none."""
        for result, _ in all_results():
            for found in (result.to_dicts(), json.loads(result.to_json())):
                for it in dicts_in(found):
                    with self.subTest(str(it)[:80]):
                        amounts = {"total", "value", "sums", "scan_risk", "charge", "price_risk", "rate", "before", "requirement"} & {*it}
                        is_line = not {"margin", "roll"} & {*it}
                        self.assertEqual(it.get("currency"), "USD" if amounts and is_line else None)
        self.assertEqual(list(_results.account_total(b"T,A,D1,5\n", DOLLARS).to_dict())[-1], "currency")

    def test_unknown(self) -> None:
        statement = _results.statement(STATEMENT, UNKNOWN)
        self.assertEqual({it["currency"] for it in statement.to_dicts()}, {None})
        self.assertEqual({row["currency"] for row in csv.DictReader(io.StringIO(statement.to_csv()))}, {""})
        if pandas:
            self.assertEqual(list(statement.to_pandas().currency.isna().unique()), [True])

    def test_of_two_statements(self) -> None:
        """Each statement of a roll has its own currency, also in lines that pandas cannot read exactly."""
        large = _results.roll(f"T,A,D1,{2**70}\nT,A,D2,6\n".encode(), DOLLARS, Money("JPY"))
        for roll in (_results.roll(ROLL, DOLLARS, Money("JPY")), large):
            rows = list(csv.DictReader(io.StringIO(roll.to_csv("accounts"))))
            self.assertEqual({(row["roll"], row["currency"]) for row in rows}, {("today", "USD"), ("next", "JPY")})
            self.assertEqual([it["accounts"][0]["currency"] for it in roll.to_dicts()], ["USD", "JPY"])
            if pandas:
                frame = roll.to_pandas("accounts")
                self.assertEqual(list(frame.currency), [row["currency"] for row in rows])
                self.assertEqual(list(frame.columns), list(rows[0]))

    def test_lines(self) -> None:
        """Lines know their currency, and copies of them, too. It does not count when they are compared."""
        explanation = _results.explanation(EXPLANATION, DOLLARS)
        commodity = explanation["RIVER-01"]["CL"]
        for line in (commodity.margin, commodity.held[0], commodity.sums, commodity.scan, commodity.short, explanation["RIVER-01"]):
            self.assertEqual((line.currency, pickle.loads(pickle.dumps(line)).currency), ("USD", "USD"))
        self.assertEqual(commodity.held, _results.explanation(EXPLANATION, UNKNOWN)["RIVER-01"]["CL"].held)
        self.assertFalse(hasattr(commodity.months[0], "currency"))

    def test_hostile_names(self) -> None:
        """Names that CSV has to quote, and that look like formulas, numbers or missing values."""
        names = ('"', '"A"', "'", "=1+1", "-5", "007", "NA", ";", "\\\\", "#", "A\"B")
        printed = "".join(f"R,{it},{it},{it},1,14,2,3,4,5,6\nT,{it},{it},6\n" for it in names).encode()
        for kind, width in (("accounts", 7), ("commodities", 11)):
            rows = list(csv.reader(io.StringIO(_results.statement(printed, DOLLARS).to_csv(kind))))
            self.assertEqual([row[:2] for row in rows[1:]], [[it, it] for it in names])
            self.assertEqual({len(row) for row in rows}, {width})
        wrong = _results.statement(b"T,A,D1,5\nT,A\rB,D1,5\n", DOLLARS)
        self.error(span.ProgramError, wrong.to_csv, "accounts")
        self.error(span.ProgramError, _results.faults(b"positions: B1 UnknownContract at record 2 account A\rB\n").to_csv)

    def test_unknown_kind(self) -> None:
        for result, _ in all_results():
            self.assertIn("the kinds are", str(self.error(ValueError, result.to_csv, "nothing")))


@unittest.skipUnless(pandas, "there is no pandas")
class Frames(Case):
    def same(self, result: Any, kind: str, lines: List[Any]) -> Any:
        """Checks a data frame against the objects of its lines, and returns it."""
        frame = result.to_pandas(kind)
        names = [field.name for field in dataclasses.fields(lines[0])]
        for name in names[:-1] if names[-1] == "sums" else names:
            cells = [None if cell is pandas.NA else cell for cell in frame[name]]
            self.assertEqual(cells, [getattr(line, name) for line in lines], (kind, name))
        self.assertEqual(len(frame), len(lines))
        return frame

    def test_each_kind(self) -> None:
        statements = [_results.statement(printed, DOLLARS) for printed in (STATEMENT, VALUES)]
        for statement in (*statements, _results.account_margin(RIVER, DOLLARS)):
            whole = [statement] if isinstance(statement, span.AccountMargin) else list(statement)
            totals = [account._last for account in whole]
            commodities = [it for account in whole for it in account]
            frames = [self.same(statement, "accounts", totals), self.same(statement, "commodities", commodities)]
            self.assertEqual({str(frames[0].total.dtype), str(frames[1].requirement.dtype)}, {"int64"})
            self.assertIn(str(frames[0].value.dtype), ("int64" if totals[0].value is not None else "Int64",))
        for explanation in (_results.explanation(EXPLANATION, DOLLARS), _results.account_explanation(RIVER_REASONS, DOLLARS)):
            whole = [explanation] if isinstance(explanation, span.AccountExplanation) else list(explanation)
            for kind in ("held", "sums", "scan", "months", "intras", "spots", "inters", "credit", "short"):
                parts = [getattr(it, kind) for account in whole for it in account]
                self.same(explanation, kind, [it for part in parts for it in (part if isinstance(part, tuple) else (part,))])
        frame = _results.explanation(EXPLANATION, DOLLARS).to_pandas("scan")
        self.assertEqual((frame.price_risk[0], frame.price_risk[0].currency, type(frame.price_risk[0])), (
            Decimal("916325.5"), "USD", DOLLARS.exact))
        self.assertEqual(_results.explanation(EXPLANATION, DOLLARS).to_pandas("sums").sum_14[0], 971600)
        for orders in (_results.tried_orders(CHANGES, DOLLARS), _results.tried_order(HEDGE, DOLLARS)):
            whole = [orders] if isinstance(orders, span.TriedOrder) else list(orders)
            self.same(orders, "orders", [order._last for order in whole])
            self.same(orders, "changes", [change for order in whole for change in order])

    def test_single_lines(self) -> None:
        for total in (_results.account_total(b"T,A,D1,5\n", DOLLARS), _results.account_total(b"T,A,D1,5,-3,8,0\n", DOLLARS)):
            self.same(total, "accounts", [total])
        counts = _results.set_counts(b"OK,D1,1,2,3,4,5,6\n")
        self.assertEqual(list(self.same(counts, "sets", [counts]).dtypes.astype(str)), ["object", *["int64"] * 6])
        faults, positions = _results.faults(FAULTS), _results.positions(POSITIONS.read_bytes(), "D1")
        self.assertEqual(str(self.same(faults, "faults", list(faults)).record.dtype), "int64")
        self.assertEqual(str(self.same(positions, "positions", list(positions)).quantity.dtype), "int64")

    def test_roll(self) -> None:
        roll = _results.roll(ROLL, DOLLARS, DOLLARS)
        frame = roll.to_pandas("accounts")
        self.assertEqual(list(frame.columns), ["roll", "account", "set", "total", "value", "due", "excess", "currency"])
        self.assertEqual(list(frame.total), [it.total for statement in roll for it in statement])
        self.assertEqual(list(frame.roll), ["today"] * 7 + ["next"] * 7)
        self.assertEqual(set(frame[frame.roll == "next"].set), {"D20251117"})
        self.assertEqual(len(roll.to_pandas()), ROLL.count(b"R,"))

    def test_two_versions(self) -> None:
        """The values of a set of version 2 stay whole numbers next to a set of version 1, which has none."""
        large = 2**62 + 1
        roll = _results.roll(b"T,A,D1,5\n" + f"T,A,D2,6,{large},0,{large}\n".encode(), UNKNOWN, UNKNOWN)
        frame = roll.to_pandas("accounts")
        self.assertEqual((list(frame.total), str(frame.total.dtype), str(frame.value.dtype)), ([5, 6], "int64", "Int64"))
        self.assertEqual((frame.value[0], int(frame.value[1]), int(frame.excess[1])), (pandas.NA, large, large))

    def test_exact_and_text(self) -> None:
        large = 2**63 - 1
        names = ("007", "NA", "1E5", "-", "NULL", "TRUE", "0X1F", "2025-11-14")
        printed = "".join(f"R,{it},{it},{it},{large},14,0,0,0,0,{large}\nT,{it},{it},{large}\n" for it in names).encode()
        for kind, column in (("commodities", "scan_risk"), ("accounts", "total")):
            frame = _results.statement(printed, UNKNOWN).to_pandas(kind)
            self.assertEqual((list(frame.account), list(frame.set), str(frame.account.dtype)), (list(names), list(names), "object"))
            self.assertEqual({int(it) for it in frame[column]}, {large})
            self.assertEqual(str(frame[column].dtype), "int64")

    def test_too_large_for_pandas(self) -> None:
        larger = 2**63
        frame = _results.statement(f"T,A,D1,{larger}\nT,B,D1,1\n".encode(), UNKNOWN).to_pandas("accounts")
        self.assertEqual((list(frame.total), str(frame.total.dtype)), ([larger, 1], "object"))

    def test_empty(self) -> None:
        for result, printed in all_results():
            if isinstance(result, span.Statement) and printed:
                for kind in ("commodities", "accounts"):
                    empty = _results.statement(b"", UNKNOWN).to_pandas(kind)
                    self.assertEqual((len(empty), list(empty.columns)), (0, list(result.to_pandas(kind).columns)))
        self.assertEqual(len(_results.roll(b"", UNKNOWN, UNKNOWN).to_pandas()), 0)
        self.assertEqual(len(_results.faults(b"").to_pandas()), 0)
        self.assertEqual(len(_results.positions(b"", "D1").to_pandas()), 0)
        self.assertEqual(len(_results.account_margin(b"T,A,D1,0\n", UNKNOWN).to_pandas()), 0)

    def test_unknown_kind(self) -> None:
        for result, _ in all_results():
            self.assertIn("the kinds are", str(self.error(ValueError, result.to_pandas, "nothing")))


class Slow:
    """An object whose value takes as long as `wait`."""

    def __init__(self, wait: Callable[[], object]) -> None:
        self.wait = wait

    @cached
    def value(self) -> object:
        self.wait()
        return object()


class Cached(Case):
    def test_other_objects(self) -> None:
        """A value that one thread computes keeps no other thread from the values of other objects."""
        begun, end = threading.Event(), threading.Event()

        def wait() -> None:
            begun.set()
            end.wait(60)

        slow = Slow(wait)
        thread = threading.Thread(target=lambda: slow.value)
        thread.start()
        begun.wait(60)
        self.assertIsNotNone(Slow(lambda: None).value)
        self.assertTrue(thread.is_alive())
        end.set()
        thread.join()

    def test_once(self) -> None:
        """If another thread has the value first, its value stays."""
        first = object()
        slow = Slow(lambda: vars(slow).setdefault("value", first))
        self.assertIs(slow.value, first)
        self.assertIs(slow.value, first)


class Large(Case):
    """A statement of 4096 accounts with 64 lines each, which `cat` prints."""

    @classmethod
    def setUpClass(cls) -> None:
        lines = []
        for account in range(ACCOUNTS):
            front, total = f"ACCOUNT-{account:06},D20251114", 0
            for commodity in range(COMMODITIES):
                amount = (account * 7919 + commodity * 104729) % 9999999
                total += amount
                lines.append(f"R,{front},CMDTY-{commodity:03},{amount},{commodity % 16 + 1},{amount // 7},{amount // 11},0,1,{amount}\n")
            lines.append(f"T,{front},{total}\n")
        cls.printed = "".join(lines).encode()

    def fastest(self, call: Callable[[], Any]) -> float:
        """How many seconds of the processor a call takes, in the fastest of some turns."""
        turns = []
        for _ in range(3):
            before = time.process_time()
            call()
            turns.append(time.process_time() - before)
        return min(turns)

    def statement(self) -> span.Statement:
        Path("printed.csv").write_bytes(self.printed)
        self.use_program(f"exec cat '{self.room}/printed.csv'")
        return span.margin(PARAMS, POSITIONS)

    def test_margin_is_fast(self) -> None:
        self.assertEqual(bytes(self.statement()), self.printed)
        seconds = self.fastest(lambda: span.margin(PARAMS, POSITIONS))
        self.assertLess(seconds, 0.3)

    def test_one_account_is_fast(self) -> None:
        statement = self.statement()
        with mock.patch.object(_results, "object_of", side_effect=_lines.object_of) as made:
            self.assertEqual((statement["ACCOUNT-004095"].account, len(statement["ACCOUNT-002048"])), ("ACCOUNT-004095", COMMODITIES))
        self.assertEqual(made.call_count, 1 + COMMODITIES)

    @unittest.skipUnless(pandas, "there is no pandas")
    def test_data_frame_is_fast(self) -> None:
        statement = self.statement()
        frame = statement.to_pandas()
        self.assertEqual((len(frame), set(frame.dtypes.astype(str))), (ACCOUNTS * COMMODITIES, {"object", "int64"}))
        self.assertEqual(frame.requirement.sum(), statement.to_pandas("accounts").total.sum())
        # The file has lines of two lengths, which only a list of names makes readable.
        plain = self.fastest(lambda: pandas.read_csv(io.BytesIO(self.printed), header=None, names=range(11)))
        self.assertLess(self.fastest(statement.to_pandas), 3 * plain)
