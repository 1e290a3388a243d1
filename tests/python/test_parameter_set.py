"""ParameterSet: the file that it makes from rows, and the row at which each mistake is reported."""
import csv
import math
import os
import pickle
import sqlite3
import unittest
from decimal import Decimal
from pathlib import Path
from typing import Any, Dict, List, NamedTuple, Tuple

from shared import EXAMPLES, PARAMS, POSITIONS, VALUE, Case
from span_margin import ParametersError, ParameterSet, ParameterSetError, margin
from span_margin._columns import tables_of

TABLES = ("commodities", "contracts", "tiers", "intra_spreads", "spot_months", "inter_spreads")
RECORDS = dict(zip(("COMMODITY", "CONTRACT", "TIER", "INTRA", "SPOT", "INTER"), TABLES))
# A fault as the tests compare it: table, row, code and name, column, value.
Found = Tuple[str, int, str, Any, Any]
Tables = Dict[str, List[Any]]


def desk() -> Tables:
    """The tables of a desk, with amounts in dollars, as `csv.DictReader` reads them."""
    found = {}
    for table in TABLES:
        with open(EXAMPLES / f"table-{table.replace('_', '-')}.csv", newline="", encoding="utf-8") as file:
            found[table] = list(csv.DictReader(file))
    return found


def records(path: Path) -> Tables:
    """The records of a parameter file without their kind, by table."""
    found: Tables = {table: [] for table in TABLES}
    with open(path, newline="", encoding="utf-8") as file:
        for record in list(csv.reader(file))[1:]:
            found[RECORDS[record[0]]].append(record[1:])
    return found


def new(tables: Tables, *, set_id: str = "D20251114", currency: str = "USD", version: int = 1, **options: Any) -> ParameterSet:
    """A parameter set of these tables."""
    parameters = ParameterSet(set_id, currency, version=version)
    for table, rows in tables.items():
        getattr(parameters, f"add_{table}")(rows, **options)
    return parameters


def of_desk(tables: Tables) -> ParameterSet:
    return new(tables, major=2)


def faults_of(parameters: ParameterSet) -> List[Found]:
    """The faults that `check` raises, or none."""
    try:
        parameters.check()
    except ParameterSetError as error:
        return [(it.table, it.row, f"{it.code} {it.name}".strip(), it.field, it.value) for it in error.faults]
    return []


class Built(unittest.TestCase):
    """All kinds of rows give the file of the example, byte for byte."""

    expected = PARAMS.read_bytes()

    def test_rows_of_csv_files_in_dollars(self) -> None:
        self.assertEqual(of_desk(desk()).to_bytes(), self.expected)

    def test_sequences_in_the_order_of_the_record(self) -> None:
        self.assertEqual(new(records(PARAMS)).to_bytes(), self.expected)
        self.assertEqual(new(records(PARAMS), set_id="D1").to_bytes(), self.expected.replace(b"D20251114", b"D1"))

    def test_version_2(self) -> None:
        parameters = new(records(VALUE), set_id="D20251114V", version=2)
        self.assertEqual(parameters.to_bytes(), VALUE.read_bytes())
        self.assertEqual(faults_of(parameters), [])

    def test_rows_of_sqlite(self) -> None:
        tables: Tables = {}
        with sqlite3.connect(":memory:") as database:
            database.row_factory = sqlite3.Row
            for table, rows in desk().items():
                columns = list(rows[0])
                database.execute(f"create table {table}({', '.join(columns)})")
                places = ", ".join("?" * len(columns))
                database.executemany(f"insert into {table} values({places})", [[row[it] for it in columns] for row in rows])
                # a different order of columns, since columns are found by name
                tables[table] = database.execute(f"select {', '.join(reversed(columns))} from {table}").fetchall()
        self.assertEqual(of_desk(tables).to_bytes(), self.expected)

    def test_arrays_in_a_table_of_their_own(self) -> None:
        tables = desk()
        apart = ["delta", *(f"v{number}" for number in range(1, 17))]
        tables["arrays"] = [{it: row[it] for it in ["contract", *apart]} for row in reversed(tables["contracts"])]
        tables["contracts"] = [{it: row[it] for it in row if it not in apart} for row in tables["contracts"]]
        self.assertEqual(of_desk(tables).to_bytes(), self.expected)

    def test_data_frame(self) -> None:
        try:
            import pandas
        except ImportError:
            self.skipTest("there is no pandas")
        tables: Dict[str, Any] = {}
        for table in TABLES:
            name = EXAMPLES / f"table-{table.replace('_', '-')}.csv"
            # (empty cells are NaN)
            tables[table] = pandas.read_csv(name, dtype=str)
        self.assertEqual(of_desk(tables).to_bytes(), self.expected)
        # (columns of whole numbers, in which empty cells are pandas.NA)
        numbers = pandas.read_csv(EXAMPLES / "table-inter-spreads.csv").convert_dtypes()
        self.assertEqual(of_desk({**tables, "inter_spreads": numbers}).to_bytes(), self.expected)
        numbers = pandas.read_csv(EXAMPLES / "table-contracts.csv")
        with self.assertRaisesRegex(TypeError, "contracts row 1: delta is a float"):
            of_desk({**tables, "contracts": numbers})
        rounded = new({"contracts": numbers}, major=2, round=4).to_bytes()
        expected = b"".join(it for it in self.expected.splitlines(True) if it.startswith((b"SET", b"CONTRACT")))
        self.assertEqual(rounded, expected.replace(b",0.2920,", b",0.292,"))

    def test_calls_add_up_in_their_order(self) -> None:
        tables = desk()
        parameters = of_desk({table: rows for table, rows in tables.items() if table != "tiers"})
        for row in tables["tiers"]:
            parameters.add_tiers(iter([row]))
        self.assertEqual(parameters.to_bytes(), self.expected)

    def test_is_the_source_of_a_call(self) -> None:
        self.assertEqual(margin(of_desk(desk()), POSITIONS), margin(PARAMS, POSITIONS))


LEG = ("tier", "side", "ratio")
OIL = {"minimum_rate": "60.00", "method": "SUM"}
MONTHS_OF_2030 = {"first_month": "203001", "last_month": "203012"}


class Mistake(NamedTuple):
    """A mistake in the tables of the desk, and its fault: cells that replace cells of a row, or an additional row."""

    about: str
    table: str
    row: int
    cells: Dict[str, Any]
    code: str
    field: Any


MISTAKES = [
    Mistake("decimal comma", "commodities", 2, {"minimum_rate": "75,00"}, "P6 BadNumber", "minimum_rate"),
    Mistake("small letters", "commodities", 3, {"method": "sum"}, "P5 BadName", "method"),
    Mistake("commodity twice", "commodities", 6, {**OIL, "commodity": "CL"}, "C1 DuplicateCommodity", "commodity"),
    Mistake("name too long", "contracts", 9, {"contract": "CLF6P62-0123456789"}, "P5 BadName", "contract"),
    Mistake("contract twice", "contracts", 48, {"contract": "CLZ5"}, "C3 DuplicateContract", "contract"),
    Mistake("unknown commodity", "contracts", 4, {"commodity": "CLX"}, "C2 UnknownCommodity", "commodity"),
    Mistake("type as a word", "contracts", 7, {"type": "Call"}, "P5 BadName", "type"),
    Mistake("month with a dash", "contracts", 8, {"month": "2026-01"}, "P6 BadNumber", "month"),
    Mistake("month 13", "contracts", 8, {"month": "202613"}, "P7 OutOfRange", "month"),
    Mistake("delta in percent", "contracts", 7, {"delta": "38.12"}, "P7 OutOfRange", "delta"),
    Mistake("delta of five decimals", "contracts", 7, {"delta": "0.38125"}, "P6 BadNumber", "delta"),
    Mistake("scale 0", "contracts", 6, {"scale": "0"}, "P7 OutOfRange", "scale"),
    Mistake("loss over its range", "contracts", 20, {"v7": "1000000.01"}, "P7 OutOfRange", "v7"),
    Mistake("array of fifteen values", "contracts", 21, {"v16": None}, "P6 BadNumber", "v16"),
    Mistake("tier 33", "tiers", 3, {"tier": 33}, "P7 OutOfRange", "tier"),
    Mistake("tier twice", "tiers", 13, {**MONTHS_OF_2030, "commodity": "CL", "tier": "02"}, "C4 DuplicateTier", "tier"),
    Mistake("tier that ends before it begins", "tiers", 7, {"last_month": "202512"}, "C5 TierBackwards", "first_month"),
    Mistake("tiers that share a month", "tiers", 3, {"first_month": "202602"}, "C6 TierOverlap", "first_month"),
    Mistake("tier that is not there", "intra_spreads", 3, {"tier2": "7"}, "C7 UnknownTier", "tier2"),
    Mistake("leg twice", "intra_spreads", 1, {"tier3": "01"}, "C8 RepeatedLeg", "tier3"),
    Mistake("one side", "intra_spreads", 2, {"side2": "A"}, "C9 OneSided", None),
    Mistake("priority twice", "intra_spreads", 6, {"priority": "5"}, "C10 DuplicatePriority", "priority"),
    Mistake("fraction of a cent", "intra_spreads", 2, {"rate": "301.255"}, "P6 BadNumber", "rate"),
    Mistake("leg without a ratio", "intra_spreads", 1, {"ratio3": ""}, "P6 BadNumber", "ratio3"),
    Mistake("no legs", "intra_spreads", 4, {f"{it}{leg}": "" for it in LEG for leg in (1, 2)}, "P4 FieldCount", None),
    Mistake("negative rate", "spot_months", 4, {"spread_rate": "-60.00"}, "P7 OutOfRange", "spread_rate"),
    Mistake("spot month twice", "spot_months", 2, {"commodity": "CL"}, "C11 DuplicateSpot", "month"),
    Mistake("side C", "inter_spreads", 3, {"side2": "C"}, "P5 BadName", "side2"),
    Mistake("more than all of a credit", "inter_spreads", 2, {"basis_points": 10001}, "P7 OutOfRange", "basis_points"),
    Mistake("unknown commodity of a leg", "inter_spreads", 1, {"commodity3": "HX"}, "C2 UnknownCommodity", "commodity3"),
    Mistake("commodity twice in a spread", "inter_spreads", 4, {"commodity2": "HO"}, "C8 RepeatedLeg", "commodity2"),
]


TEXTS = """x F A AB SUM -1 0 -0 1 1.0000 1.0001 10 10.0001 32 33 1000 1000.0001 9999 10000 10001 1900 100000000 100000001 -100000001 299912
    300001 189912 202600 202613 1e3 1.23456 9999999999999999999 AAAAAAAAAAAAAAAAA""".split() + [""]


def planted(tables: Tables, *mistakes: Mistake) -> Tables:
    for it in mistakes:
        rows = tables[it.table]
        if it.row > len(rows):
            rows.append({})
        rows[it.row - 1].update(it.cells)
    return tables


class Mistakes(unittest.TestCase):
    """Each mistake is reported at its table, row and column, and at no other."""

    def test_each_mistake(self) -> None:
        for it in MISTAKES:
            with self.subTest(it.about):
                tables = planted(desk(), it)
                value = tables[it.table][it.row - 1].get(it.field)
                self.assertEqual(faults_of(of_desk(tables)), [(it.table, it.row, it.code, it.field, value)])

    def test_each_column_with_texts_that_it_may_not_have(self) -> None:
        """The package finds the column of a fault with the same forms and ranges as the program."""
        examples, tables = records(VALUE), tables_of(2)
        for text in TEXTS:
            # (for a set with read faults, only these are reported)
            parameters, expected = ParameterSet("D1", "usd", version=2), [("set", 1, "P5", "currency")]
            for name, rows in examples.items():
                columns = list(tables[name].columns.items())[: len(rows[0])]
                getattr(parameters, f"add_{name}")([[*rows[0][:at], text, *rows[0][at + 1 :]] for at in range(len(columns))])
                for row, (column, form) in enumerate(columns, 1):
                    expected += [(name, row, code, column) for code in ("P5", "P6", "P7") if form.has(code, text)]
            with self.subTest(text):
                found = [(table, row, fault[:2], column) for table, row, fault, column, _ in faults_of(parameters)]
                # (the rule that the value of a future is 0 involves two columns)
                self.assertEqual([it for it in found if it[3] != "value"], [it for it in expected if it[3] != "value"])

    def test_mistakes_of_several_tables_at_once(self) -> None:
        bad = [it for it in MISTAKES if it.about in ("decimal comma", "name too long", "side C", "negative rate")]
        with self.assertRaises(ParameterSetError) as caught:
            of_desk(planted(desk(), *bad)).check()
        self.assertEqual(
            str(caught.exception).splitlines(),
            [
                "commodities row 2: P6 BadNumber in minimum_rate: '75,00'",
                "contracts row 9: P5 BadName in contract: 'CLF6P62-0123456789'",
                "spot_months row 4: P7 OutOfRange in spread_rate: '-60.00'",
                "inter_spreads row 3: P5 BadName in side2: 'C'",
            ],
        )
        self.assertIsInstance(caught.exception, ParametersError)
        self.assertEqual(str(pickle.loads(pickle.dumps(caught.exception))), str(caught.exception))

    def test_a_tier_that_was_left_out(self) -> None:
        tables = desk()
        del tables["tiers"][9]
        found = [("intra_spreads", row, "C7 UnknownTier", "tier2", "3") for row in (13, 14)]
        self.assertEqual(faults_of(of_desk(tables)), found)

    def test_one_tier_more_than_there_may_be(self) -> None:
        tables = desk()
        months = [f"{year}{month:02}" for year in (2030, 2031, 2032) for month in range(1, 13)]
        tables["tiers"] += [("CL", tier, month, month) for tier, month in enumerate(months[:31], 1)]
        self.assertEqual(faults_of(of_desk(tables)), [("tiers", 12 + 30, "P8 TooMany", None, None)])

    def test_the_set_itself(self) -> None:
        self.assertEqual(faults_of(ParameterSet("D1", "usd")), [("set", 1, "P5 BadName", "currency", "usd")])
        self.assertEqual(faults_of(ParameterSet("D 1", "USD")), [("set", 1, "P5 BadName", "id", "D 1")])
        with self.assertRaisesRegex(ValueError, "version 1 or 2"):
            ParameterSet("D1", "USD", version=3)

    def test_the_value_of_a_future(self) -> None:
        tables = records(VALUE)
        tables["contracts"][1][-1] = "5"
        self.assertEqual(faults_of(new(tables, version=2)), [("contracts", 2, "P7 OutOfRange", "value", "5")])

    def test_arrays_and_contracts_that_do_not_find_each_other(self) -> None:
        array = ["0"] * 17
        parameters = ParameterSet("D1", "USD")
        parameters.add_commodities([("AA", 0, "SUM")])
        parameters.add_contracts([("F1", "AA", "F", 202503, 1), ("F2", "AA", "F", 202503, 1), ("F3", "AA", "F", 202503, 1)])
        parameters.add_contracts([("F3", "AA", "F", 202503, "0", 1, *array[1:])], source="more")
        parameters.add_arrays([("F1", *array), ("F4", *array), ("F1", *array), ("F3", *array)])
        found = [
            ("arrays", 2, "NoContract", "contract", "F4"),
            ("arrays", 3, "SecondArray", "contract", "F1"),
            ("arrays", 4, "SecondArray", "contract", "F3"),
            ("contracts", 2, "NoArray", "contract", "F2"),
            ("contracts", 3, "NoArray", "contract", "F3"),
        ]
        self.assertEqual(faults_of(parameters), found)
        with self.assertRaisesRegex(ParameterSetError, "arrays row 2: NoContract in contract: 'F4'"):
            parameters.to_bytes()

    def test_a_fault_of_an_array_is_at_its_own_row(self) -> None:
        parameters = ParameterSet("D1", "USD")
        parameters.add_commodities([("AA", 0, "SUM")])
        parameters.add_contracts([("F1", "AA", "F", 202503, 1), ("F2", "AA", "X", 202503, 1)], source="contracts.csv")
        parameters.add_arrays([("F2", *["0"] * 17), ("F1", "0", "x", *["0"] * 15)], source="arrays.csv")
        with self.assertRaises(ParameterSetError) as caught:
            parameters.check()
        self.assertEqual(
            str(caught.exception),
            "arrays.csv row 2: P6 BadNumber in v1: 'x'\ncontracts.csv row 2: P5 BadName in type: 'X'",
        )

    def test_a_second_call_has_a_name_of_its_own(self) -> None:
        parameters = ParameterSet("D1", "USD")
        parameters.add_commodities([("AA", 0, "SUM")])
        parameters.add_commodities([("AB", 0, "SUM"), ("A,", 0, "SUM")])
        with self.assertRaisesRegex(ParameterSetError, r"^commodities \(call 2\) row 2: P5 BadName in commodity: 'A,'$"):
            parameters.check()


class Refused(unittest.TestCase):
    """A value that cannot be a record is an error of the call that adds it, and that call adds nothing."""

    def refused(self, kind: Any, text: str, method: str, rows: Any, version: int = 1, **options: Any) -> None:
        parameters = ParameterSet("D1", "USD", version=version)
        before = parameters.to_bytes()
        with self.assertRaises(kind) as caught:
            getattr(parameters, method)(rows, **options)
        self.assertIn(text, str(caught.exception))
        self.assertEqual(parameters.to_bytes(), before)

    def test_columns(self) -> None:
        good: Dict[Any, Any] = {"commodity": "AA", "minimum_rate": 0, "method": "SUM"}
        lacks = {"commodity": "AA", "minimum_rate": 0}
        self.refused(ValueError, "c.csv row 2: no column method", "add_commodities", [good, lacks], source="c.csv")
        other = {**good, "Method": "SUM"}
        self.refused(ValueError, "commodities row 1: unknown column 'Method'", "add_commodities", [other])
        self.refused(ValueError, "row 1: has more fields than the header", "add_commodities", [{**good, None: ["x"]}])
        marked = {"\ufeffcommodity": "AA", "minimum_rate": 0, "method": "SUM"}
        self.refused(ValueError, "row 1: unknown column '\\ufeffcommodity'", "add_commodities", [marked])
        contract = {"contract": "F1", "commodity": "AA", "type": "F", "month": 202503, "scale": 1, "delta": 1}
        self.refused(ValueError, "contracts row 1: no column v1, v2, v3", "add_contracts", [contract])
        spread = {"priority": 1, "basis_points": 1, "commodity1": "AA", "side1": "A", "ratio1": 1, "commodity2": "AB", "side2": "B"}
        self.refused(ValueError, "inter_spreads row 1: no column ratio2", "add_inter_spreads", [spread])

    def test_the_value_of_another_version(self) -> None:
        row = ["F1", "AA", "F", "202503", *["0"] * 18]
        self.refused(ValueError, "contracts row 1: has 23 fields in place of 5 or 22", "add_contracts", [[*row, "0"]])
        self.refused(ValueError, "contracts row 1: has 22 fields in place of 5 or 23", "add_contracts", [row], version=2)
        columns = "contract commodity type month delta scale".split() + [f"v{number}" for number in range(1, 17)]
        named = dict(zip(columns, row))
        self.refused(ValueError, "contracts row 1: unknown column 'value'", "add_contracts", [{**named, "value": "0"}])
        self.refused(ValueError, "contracts row 1: no column value", "add_contracts", [named], version=2)

    def test_numbers_of_fields(self) -> None:
        self.refused(ValueError, "tiers row 2: has 3 fields in place of 4", "add_tiers", [("AA", 1, 202501, 202501), ("AA", 2, 202502)])
        array = ["F1", "AA", "F", "202503", "1", "1", *["0"] * 15]
        self.refused(ValueError, "contracts row 1: has 21 fields", "add_contracts", [array])

    def test_rows_that_are_none(self) -> None:
        self.refused(TypeError, "commodities row 1: is of type str", "add_commodities", ["AA,0,SUM"])
        self.refused(TypeError, "commodities row 1: is of type str", "add_commodities", {"commodity": "AA"})
        self.refused(TypeError, "commodities row 1: is of type int", "add_commodities", [1])

    def test_floats(self) -> None:
        self.refused(TypeError, "rates row 1: minimum_rate is a float", "add_commodities", [("AA", 60.0, "SUM")], source="rates")
        spot = [("AA", 202501, 1, 2), ("AA", 202502, 1, math.inf)]
        self.refused(TypeError, "spot_months row 2: outright_rate is a float", "add_spot_months", spot)
        self.refused(TypeError, "spot_months row 2: outright_rate is a float", "add_spot_months", spot, round={"spread_rate": 0})

    def test_options(self) -> None:
        self.refused(ValueError, "major is -1", "add_commodities", [], major=-1)

    def test_other_types(self) -> None:
        for value in True, b"AA", 1j, ["AA"]:
            self.refused(TypeError, f"row 1: commodity is of type {type(value).__name__}", "add_commodities", [(value, 0, "SUM")])


class Values(unittest.TestCase):
    """The text in a field of the file for a value."""

    def commodity(self, rate: Any, **options: Any) -> str:
        """The minimum rate in the file."""
        parameters = ParameterSet("D1", "USD")
        parameters.add_commodities([("AA", rate, "SUM")], **options)
        return parameters.to_bytes().decode().splitlines()[1].split(",")[2]

    def ratio(self, value: Any, **options: Any) -> str:
        """The ratio of a leg in the file."""
        parameters = ParameterSet("D1", "USD")
        parameters.add_inter_spreads([(1, 5000, "AA", "A", value, "AB", "B", 1)], **options)
        return parameters.to_bytes().decode().splitlines()[1].split(",")[5]

    def test_text_and_decimals_stand_as_they_are(self) -> None:
        self.assertEqual(self.ratio("0.2920"), "0.2920")
        self.assertEqual(self.ratio(7), "7")
        for value, text in ("0.2920", "0.2920"), ("1E+2", "100"), ("1E-4", "0.0001"):
            self.assertEqual(self.ratio(Decimal(value)), text)
        self.assertEqual(self.commodity(Decimal("6000.00")), "6000.00")  # (the program rejects it, since it may be dollars)

    def test_amounts_in_minor_units(self) -> None:
        for value, text in (
            ("301.25", "30125"),
            ("301.2", "30120"),
            ("301", "30100"),
            (301, "30100"),
            (Decimal("-0.05"), "-5"),
            ("0.050", "5"),
            ("000.00", "0"),
            ("301.255", "301.255"),
            ("1e3", "1e3"),
            (" 1", " 1"),
            ("123456789012345678901234567890.12", "12345678901234567890123456789012"),
        ):
            self.assertEqual(self.commodity(value, major=2), text)
        self.assertEqual(self.ratio("1.5", major=2), "1.5")

    def test_floats_are_rounded_half_to_even_from_their_text(self) -> None:
        for value, text in (0.2920, "0.292"), (0.00025, "0.0002"), (0.00035, "0.0004"), (1.0, "1"), (-0.12345, "-0.1234"):
            self.assertEqual(self.ratio(value, round=4), text)
        self.assertEqual(self.commodity(2.675, round=2, major=2), "268")
        self.assertEqual(self.commodity(6000.0, round=4), "6000")
        self.assertEqual(self.commodity(6000.5, round={"minimum_rate": 0}), "6000")
        self.assertEqual(self.commodity(1.7e308, round=4), "17" + "0" * 307)

    def test_what_is_missing_is_an_empty_field(self) -> None:
        for value in None, "", math.nan, Decimal("NaN"):
            self.assertEqual(self.commodity(value), "")
            self.assertEqual(self.commodity(value, round=2, major=2), "")

    def test_empty_legs_are_left_out(self) -> None:
        parameters = ParameterSet("D1", "USD")
        parameters.add_inter_spreads([(1, 5000, "AA", "A", 1, None, "", math.nan, "AB", "B", 1)])
        self.assertEqual(parameters.to_bytes().splitlines()[1], b"INTER,1,5000,AA,A,1,AB,B,1")


class HostileText(unittest.TestCase):
    """A text that is not a valid name is one field of one record: the fault is at its row, and the other rows are unchanged."""

    def test_names(self) -> None:
        for text in (
            "A,B",
            'A"B',
            '"AB"',
            '"',
            "A\nB",
            "A\rB",
            "\r\n",
            "AB\nCOMMODITY,AC,0,SUM",
            '",0,SUM\nCOMMODITY,"AC',
            "\0",
            " AB",
            "AB ",
            "\ufeff",
            "\ud800",
            "A\ud800B",
            "Zürich",
            "A" * 17,
            "",
            "=1+1",
        ):
            with self.subTest(repr(text)):
                rows = [("AA", 0, "SUM"), (text, 0, "SUM"), ("AC", 0, text), ("AD", 0, "SUM")]
                found = [("commodities", 2, "P5 BadName", "commodity", text), ("commodities", 3, "P5 BadName", "method", text)]
                self.assertEqual(faults_of(new({"commodities": rows})), found)

    def test_numbers(self) -> None:
        for text in "1,0", "1\n", '"1"', "\r1", "1\0", "٣", "1_0", "+1", "1e2":
            with self.subTest(repr(text)):
                rows = [("AA", text, "SUM"), ("AB", 0, "SUM")]
                for decimals in 0, 2:
                    parameters = new({"commodities": rows}, major=decimals)
                    self.assertEqual(faults_of(parameters), [("commodities", 1, "P6 BadNumber", "minimum_rate", text)])

    def test_a_fault_is_one_line(self) -> None:
        with self.assertRaises(ParameterSetError) as caught:
            new({"commodities": [("A\nB" * 100, 0, "SUM")]}).check()
        self.assertEqual(len(str(caught.exception).splitlines()), 1)
        self.assertLess(len(str(caught.exception)), 140)


class Written(Case):
    """The files that `write` leaves in a directory."""

    def setUp(self) -> None:
        super().setUp()
        self.path = self.room / "params.csv"

    def names(self) -> List[str]:
        return sorted(os.listdir(self.room))

    def test_a_new_file(self) -> None:
        of_desk(desk()).write(self.path)
        self.assertEqual(self.path.read_bytes(), Built.expected)
        self.assertEqual(self.names(), ["params.csv"])
        mask = os.umask(0)
        os.umask(mask)
        self.assertEqual(self.path.stat().st_mode & 0o777, 0o666 & ~mask)

    def test_a_fault_leaves_the_file_that_is_there(self) -> None:
        self.path.write_bytes(b"last night")
        with self.assertRaises(ParameterSetError):
            of_desk(planted(desk(), MISTAKES[0])).write(str(self.path))
        self.assertEqual(self.path.read_bytes(), b"last night")
        self.assertEqual(self.names(), ["params.csv"])

    def test_a_link_stays_a_link(self) -> None:
        (self.room / "link.csv").symlink_to("params.csv")
        of_desk(desk()).write(self.room / "link.csv")
        self.assertTrue((self.room / "link.csv").is_symlink())
        self.assertEqual(self.path.read_bytes(), Built.expected)

    def test_what_is_no_file(self) -> None:
        os.mkfifo(self.path)
        for place in self.path, self.room:
            with self.assertRaisesRegex(ValueError, "is not a file"):
                of_desk(desk()).write(place)
        self.assertEqual(self.names(), ["params.csv"])
        (self.room / "loop").symlink_to("loop")
        with self.assertRaisesRegex(ValueError, "is not a file"):
            of_desk(desk()).write(self.room / "loop")
        with self.assertRaises(FileNotFoundError):
            of_desk(desk()).write(self.room / "missing" / "params.csv")


if __name__ == "__main__":
    unittest.main()
