"""Calls that run the program once: their results have the figures that span prints, for all forms of input."""
import dataclasses
import json
import os
import pickle
import unittest
import unittest.mock
from decimal import Decimal
from pathlib import Path
from typing import Any, List

import span_margin as span
from shared import (
    EXAMPLES, FAULTY_PARAMS, FAULTY_POSITIONS, HEDGER, NEXT, ORDERS, PARAMS, POSITIONS, VALUE, Case, line_of, lines_of, statement_lines,
)

try:
    import pandas
except ImportError:
    pandas = None

REASONS = {
    "held": ("HELD", span.Held),
    "sums": ("SUMS", span.Sums),
    "scan": ("SCAN", span.Scan),
    "months": ("MONTH", span.Month),
    "intras": ("INTRA", span.Intra),
    "spots": ("SPOT", span.Spot),
    "inters": ("INTER", span.Inter),
    "credit": ("CREDIT", span.Credit),
    "short": ("SHORT", span.Short),
    "margin": ("R", span.CommodityMargin),
}


def explanation_lines(explanation: span.Explanation) -> List[str]:
    """The lines that span printed for an explanation."""
    found = []
    for account in explanation:
        for commodity in account:
            for field, (word, make) in REASONS.items():
                lines = getattr(commodity, field)
                found += [line_of(word, make, it) for it in (lines if isinstance(lines, tuple) else (lines,))]
        found.append(line_of("T", span.AccountTotal, account))
    return found


def rows(path: os.PathLike) -> List[List[str]]:
    return [line.split(",") for line in lines_of(path)]


class Calls(Case):
    def test_statement(self) -> None:
        self.assertEqual(statement_lines(span.margin(PARAMS, POSITIONS)), lines_of(EXAMPLES / "statement-broker.csv"))
        self.assertEqual(statement_lines(span.margin(PARAMS, HEDGER, workers=4)), lines_of(EXAMPLES / "statement-hedger.csv"))
        self.assertEqual(statement_lines(span.margin(VALUE, HEDGER)), lines_of(EXAMPLES / "statement-value.csv"))

    def test_statement_by_names(self) -> None:
        statement = span.margin(PARAMS, POSITIONS)
        self.assertEqual(statement.set, "D20251114")
        self.assertEqual(statement["RIVER-01"].total, 1331287)
        self.assertEqual(statement["RIVER-01"]["CL"].scan_risk, 971600)
        self.assertEqual([it.commodity for it in statement["RIVER-01"]], ["CL", "HO"])
        self.assertEqual([it.account for it in statement][:2], ["RIVER-01", "CRACK-02"])
        self.assertEqual(len(statement), 7)
        self.assertIn("FLAT-07", statement)
        self.assertNotIn("NOBODY", statement)
        self.assertTrue(statement["FLAT-07"])
        with self.assertRaises(KeyError):
            statement["NOBODY"]
        with self.assertRaises(KeyError):
            statement["RIVER-01"]["ZC"]

    def test_no_account(self) -> None:
        statement = span.margin(PARAMS, b"")
        self.assertEqual((statement.set, len(statement), statement.to_dicts(), statement.to_json()), ("D20251114", 0, [], "[]"))

    def test_option_values(self) -> None:
        account = span.margin(VALUE, POSITIONS)["RIVER-01"]
        self.assertEqual((account.value, account.due, account.excess), (346536, 984751, 0))
        self.assertEqual(span.margin(PARAMS, POSITIONS)["RIVER-01"].due, None)

    def test_explanation(self) -> None:
        explanation = span.explain(PARAMS, POSITIONS)
        self.assertEqual(explanation_lines(explanation), lines_of(EXAMPLES / "explanation-broker.csv"))
        self.assertEqual(explanation["RIVER-01"].margin, span.margin(PARAMS, POSITIONS)["RIVER-01"])

    def test_explanation_of_one_account(self) -> None:
        explanation = span.explain(VALUE, POSITIONS, account="OPTIONS-06")
        self.assertEqual([it.account for it in explanation], ["OPTIONS-06"])
        self.assertEqual(sum(it.value for commodity in explanation["OPTIONS-06"] for it in commodity.held), 3307417)
        self.assertEqual(span.explain(PARAMS, POSITIONS, account="RIVER-01")["RIVER-01"]["CL"].scan.price_risk, Decimal("916325.5"))

    def test_whatif(self) -> None:
        tried = span.whatif(PARAMS, POSITIONS, ORDERS, workers=2)
        lines = [[*(line_of("CHANGE", span.Change, it) for it in order), line_of("ORDER", span.OrderTotal, order)] for order in tried]
        self.assertEqual(sum(lines, []), lines_of(EXAMPLES / "changes-broker.csv"))
        self.assertEqual((tried["HEDGE"].change, tried["HEDGE"]["ZS"].change), (-63439, -394189))
        rows = [("COVER", "STRANGLE-04", "CLF6C66", 10), ("COVER", "STRANGLE-04", "CLF6P54", 10)]
        self.assertEqual(span.whatif(VALUE, POSITIONS, rows)["COVER"].due_change, -3295230)

    def test_roll(self) -> None:
        roll = span.roll(PARAMS, NEXT, POSITIONS, workers=2)
        self.assertEqual(statement_lines(roll.today) + statement_lines(roll.next), lines_of(EXAMPLES / "statement-roll.csv"))
        same = span.roll(PARAMS, PARAMS, POSITIONS)
        self.assertEqual(same.today, same.next)
        nothing = span.roll(PARAMS, NEXT, b"")
        self.assertEqual([(statement.set, len(statement)) for statement in nothing], [("D20251114", 0), ("D20251117", 0)])

    def test_check(self) -> None:
        self.assertEqual(span.check(PARAMS), span.SetCounts("D20251114", 5, 48, 12, 16, 5, 5))

    def test_faults(self) -> None:
        self.assertEqual([it.line for it in span.faults(FAULTY_PARAMS, FAULTY_POSITIONS)], lines_of(EXAMPLES / "faults.txt"))
        faults = span.faults(PARAMS, FAULTY_POSITIONS)
        self.assertEqual((faults.faults[0].code, faults.faults[0].record, faults.faults[0].file), ("Q2", 1, "positions"))
        self.assertFalse(span.faults(PARAMS, POSITIONS))
        self.assertEqual(span.faults(PARAMS, b"A,NONE,1\n").faults[0].account, "A")
        self.assertEqual(span.faults(b"").faults, (span.Fault("parameters: P1 NoSet at record 0", "parameters", "P1", "NoSet", 0, None),))


class Results(Case):
    def test_amounts(self) -> None:
        margin = span.margin(PARAMS, POSITIONS)["RIVER-01"]
        self.assertEqual((str(margin.total.major(2)), str(margin["CL"].minimum.major(0))), ("13312.87", "12000"))
        self.assertEqual(str(span.Amount(-10**30 - 1).major(3)), "-1000000000000000000000000000.001")
        self.assertEqual(str(span.ExactAmount("916325.5").major(2)), "9163.255")
        self.assertEqual(sum(it.requirement for it in margin), margin.total)

    def test_frozen(self) -> None:
        with self.assertRaises(dataclasses.FrozenInstanceError):
            span.margin(PARAMS, POSITIONS)["RIVER-01"].total = 0  # type: ignore[misc,assignment]

    def test_pickled(self) -> None:
        for result in (span.margin(PARAMS, POSITIONS), span.explain(VALUE, POSITIONS), span.faults(PARAMS, FAULTY_POSITIONS)):
            self.assertEqual(pickle.loads(pickle.dumps(result)), result)

    def test_dicts_and_json(self) -> None:
        statement = span.margin(VALUE, POSITIONS)
        first = statement.to_dicts()[0]
        self.assertEqual((first["account"], first["due"], first["commodities"][0]["credit"]), ("RIVER-01", 984751, 678080))
        self.assertEqual(json.loads(statement.to_json()), statement.to_dicts())
        scan = json.loads(span.explain(PARAMS, POSITIONS).to_json())[0]["commodities"][0]["scan"]
        self.assertEqual((scan["price_risk"], scan["scan_risk"]), ("916325.5", 971600))

    @unittest.skipUnless(pandas, "there is no pandas")
    def test_pandas(self) -> None:
        statement = span.margin(PARAMS, POSITIONS)
        frame = statement.to_pandas()
        self.assertEqual((len(frame), str(frame.requirement.dtype)), (14, "int64"))
        self.assertEqual(frame.groupby("commodity").requirement.sum()["CL"], 7114709)
        self.assertEqual(statement.to_pandas("accounts").total.sum(), sum(it.total for it in statement))
        explanation = span.explain(VALUE, POSITIONS)
        for kind in ("commodities", "accounts", *(it for it in REASONS if it != "margin")):
            self.assertGreater(len(explanation.to_pandas(kind)), 0, kind)
        self.assertEqual(explanation.to_pandas("sums").sum_14[0], 971600)
        self.assertEqual(list(span.margin(PARAMS, b"").to_pandas().columns), list(frame.columns))
        self.assertEqual(len(span.whatif(PARAMS, POSITIONS, ORDERS).to_pandas("changes")), 11)
        self.assertEqual(span.faults(PARAMS, FAULTY_POSITIONS).to_pandas().code[0], "Q2")
        with self.assertRaises(ValueError):
            statement.to_pandas("held")

    def test_no_pandas(self) -> None:
        with unittest.mock.patch.dict("sys.modules", pandas=None):
            self.error(ModuleNotFoundError, span.margin(PARAMS, POSITIONS).to_pandas)


class Bytes:
    """An object with content."""

    def __bytes__(self) -> bytes:
        return POSITIONS.read_bytes()


class Frame:
    """A data frame of another library: columns by name."""

    columns = ("quantity", "contract", "account", "trader")

    def __getitem__(self, column: str) -> List[Any]:
        at = ("account", "contract", "quantity").index(column)
        return [row[at] for row in rows(POSITIONS)]


class Sources(Case):
    def same(self, positions: Any) -> None:
        """Checks that positions give the statement of the example."""
        self.assertEqual(span.margin(PARAMS, positions), span.margin(PARAMS, POSITIONS))

    def test_content(self) -> None:
        content = POSITIONS.read_bytes()
        for positions in (str(POSITIONS), content, bytearray(content), memoryview(content), Bytes()):
            self.same(positions)
        self.assertEqual(span.check(PARAMS.read_bytes()), span.check(PARAMS))

    def test_rows(self) -> None:
        found = rows(POSITIONS)
        self.same(found)
        self.same((account, contract, int(quantity)) for account, contract, quantity in found)
        self.same([{"trader": "X", "quantity": int(row[2]), "contract": row[1], "account": row[0]} for row in found])
        self.same(Frame())
        self.assertEqual(span.check(rows(PARAMS)), span.check(PARAMS))
        self.assertEqual(span.whatif(PARAMS, POSITIONS, rows(ORDERS)), span.whatif(PARAMS, POSITIONS, ORDERS))

    @unittest.skipUnless(pandas, "there is no pandas")
    def test_data_frame(self) -> None:
        frame = pandas.DataFrame(rows(POSITIONS), columns=["account", "contract", "quantity"])
        self.same(frame)
        self.same(frame.assign(quantity=frame.quantity.astype(int), trader=None)[["trader", "quantity", "contract", "account"]])

    def test_floats(self) -> None:
        """A float is an error that names its row and column, even if it is whole. A parameter record may have one, such as a delta."""
        nan = float("nan")
        for rows_of, where in (
            ([("A", "CLZ5", 1), ("B", "CLZ5", 1.0)], "row 2: quantity is a float, 1.0"),
            ([{"account": 7.0, "contract": "CLZ5", "quantity": 1}], "row 1: account is a float, 7.0"),
            ([("A", nan, 1)], "row 1: contract is a float, nan"),
        ):
            self.assertIn(where, str(self.error(TypeError, span.margin, PARAMS, rows_of)))
        orders = [("HEDGE", "RIVER-01", "CLZ5", 1), ("HEDGE", "RIVER-01", "CLF6", -1.5)]
        self.assertIn("row 2: quantity is a float, -1.5", str(self.error(TypeError, span.whatif, PARAMS, POSITIONS, orders)))
        self.same((account, contract, Decimal(quantity)) for account, contract, quantity in rows(POSITIONS))
        deltas = [[*row[:5], float(row[5]), *row[6:]] if row[0] == "CONTRACT" else row for row in rows(PARAMS)]
        self.assertEqual(span.check(deltas), span.check(PARAMS))

    @unittest.skipUnless(pandas, "there is no pandas")
    def test_floats_of_a_data_frame(self) -> None:
        """A missing value makes a column of floats."""
        frame = pandas.DataFrame([("A", "CLZ5", 1), ("B", "CLZ5", None)], columns=["account", "contract", "quantity"])
        for kind in ("float64", "float32"):
            error = self.error(TypeError, span.margin, PARAMS, frame.astype({"quantity": kind}))
            self.assertIn("row 1: quantity is a float, 1.0", str(error))
        missing = span.margin(PARAMS, frame.fillna(0).astype({"quantity": "Int64"}))
        self.assertEqual([it.account for it in missing], ["A", "B"])

    def test_wrong_rows(self) -> None:
        for positions, error in (
            ([{"account": "A", "contract": "CLZ5"}], ValueError),
            (["A,CLZ5,1"], TypeError),
            ([b"A,CLZ5,1"], TypeError),
            ([1], TypeError),
            (1, TypeError),
            (None, TypeError),
        ):
            with self.subTest(positions):
                self.error(error, span.margin, PARAMS, positions)
        self.error(TypeError, span.check, [{"kind": "SET"}])

    def test_program_judges_rows(self) -> None:
        for row, code in (
            (("A", "CLZ5", True), "Q3"),
            (("A", "CLZ5", None), "Q3"),
            (("A", "CLZ5"), "Q1"),
            ((), "Q1"),
            (("",), "Q1"),
            (("a", "CLZ5", 1), "Q2"),
            (("A,CLZ5,1\nB", "CLZ5", 1), "Q2"),
            (("A\rB", "CLZ5", 1), "Q2"),
            (("A\nB,CLZ5,1\n", "CLZ5", 1), "Q2"),
            (('"A"', "CLZ5", 1), "Q2"),
            (('A"', "CLZ5", 1), "Q2"),
            (("Ä", "CLZ5", 1), "Q2"),
            (("\ud800", "CLZ5", 1), "Q2"),
            (("A\0", "CLZ5", 1), "Q2"),
            (("=1+1", "CLZ5", 1), "Q2"),
            (("A", "CLZ5", 10**6 + 1), "Q4"),
        ):
            with self.subTest(row):
                self.assertEqual(self.error(span.PositionsError, span.margin, PARAMS, [("FIRST", "CLZ5", 1), row]).record, 2)
                self.assertEqual(self.error(span.PositionsError, span.margin, PARAMS, [row]).code, code)

    def test_names_with_dashes(self) -> None:
        positions = [("-", "CLZ5", 1), ("--HELP", "CLZ5", 2), ("-A", "CLF6", 1)]
        statement = span.margin(PARAMS, positions)
        self.assertEqual([it.account for it in statement], ["-", "--HELP", "-A"])
        for account in ("-", "--HELP", "-A"):
            self.assertEqual(span.explain(PARAMS, positions, account=account)[account].margin, statement[account])

    def test_hostile_paths(self) -> None:
        content = POSITIONS.read_bytes()
        for name in ("-", "--help", "--workers=2", "a,b", "a b", "a\nb", "a\rb", 'a"b', "ä", "$(touch x)", "*", os.fsdecode(b"\xff\xfe")):
            with self.subTest(ascii(name)):
                with open(name, "wb") as file:
                    file.write(content)
                self.same(name)
                os.remove(name)
        self.assertEqual(os.listdir(), [])

    def test_own_streams(self) -> None:
        reads, writes = os.pipe()
        os.write(writes, POSITIONS.read_bytes())
        os.close(writes)
        self.same(f"/dev/fd/{reads}")
        os.close(reads)

    def test_private_directory(self) -> None:
        place = self.use_temporary_directory()
        self.use_program('stat -c %a "${5%/*}" >mode; cp "$5" content; exit 4')
        self.error(span.PositionsError, span.margin, PARAMS, [("A", "CLZ5", 1)])
        self.assertEqual(Path("mode").read_text(), "700\n")
        self.assertEqual(Path("content").read_bytes(), b"A,CLZ5,1\r\n")
        self.assertEqual(os.listdir(place), [])


if __name__ == "__main__":
    unittest.main()
