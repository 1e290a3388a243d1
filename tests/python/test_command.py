"""The command `python -m span_margin`: tables, JSON lines and CSV of what span prints, and lines that are not span's."""
import contextlib
import csv
import errno
import io
import json
import os
import re
import subprocess
import sys
from decimal import Decimal
from pathlib import Path
from typing import Any, Tuple

import span_margin as span
from span_margin import _streams, report
from span_margin.__main__ import WORDS
from shared import EXAMPLES, NEXT, PARAMS, POSITIONS, VALUE, Case

STATEMENT, EXPLANATION = EXAMPLES / "statement-broker.csv", EXAMPLES / "explanation-broker.csv"


def command(*words: str, given: bytes = b"", **options: Any) -> Tuple[int, str, str]:
    """The exit status of the command, and what it prints on both streams."""
    options = {"stdout": subprocess.PIPE, "stderr": subprocess.PIPE, "input": given, **options}
    done = subprocess.run([sys.executable, "-m", "span_margin", *words], check=False, **options)
    return done.returncode, (done.stdout or b"").decode(), (done.stderr or b"").decode()


def not_done(what: str, verb: str, number: int) -> str:
    """The line about a stream that cannot be read or written."""
    return f"python -m span_margin: the {what} cannot be {verb}: {os.strerror(number)}\n"


FILES = (str(PARAMS), str(POSITIONS))
HELD = ("CLZ5", "CLF6", "CLG6", "CLH6", "MCLF6", "CLF6C62", "CLF6C66", "HOZ5", "HOF6")  # the contracts of RIVER-01


class Command(Case):
    def printed(self, *words: str, given: bytes) -> str:
        status, out, err = command(*words, given=given)
        self.assertEqual((status, err), (0, ""))
        return out

    def test_table(self) -> None:
        given = b"T,RIVER-01,D1,1331287\nR,A,D1,CL,1,14,2,3,4,5,600\nT,A,D1V,5,-600,7,8\n"
        self.assertEqual(self.printed("table", "--major", "2", given=given), "\n".join((
            "account   set     total  value   due  excess  currency",
            "RIVER-01  D1   13312.87",
            "A         D1V      0.05  -6.00  0.07    0.08",
            "",
            "account  set  commodity  scan_risk  active_scenario  intracommodity_charge  delivery_charge  credit  minimum  requirement"
            "  currency",
            "A        D1   CL              0.01               14                   0.02             0.03    0.04     0.05         6.00",
            "")))
        self.assertEqual(self.printed("table", given=b""), "")

    def test_csv(self) -> None:
        rows = list(csv.DictReader(io.StringIO(self.printed("csv", given=STATEMENT.read_bytes()))))
        statement = span.margin(PARAMS, POSITIONS)
        self.assertEqual([row["total"] for row in rows if row["line"] == "T"], [str(it.total) for it in statement])
        self.assertEqual([row["credit"] for row in rows if row["line"] == "R"], [str(line.credit) for it in statement for line in it])
        self.assertEqual({row["credit"] for row in rows if row["line"] == "T"}, {""})
        held = self.printed("csv", "--only", "HELD", "--only", "SPOT", given=EXPLANATION.read_bytes())
        self.assertEqual({row["line"] for row in csv.DictReader(io.StringIO(held))}, {"HELD", "SPOT"})
        self.assertEqual(self.printed("csv", given=b""), "line\n")

    def test_json(self) -> None:
        rows = [json.loads(line) for line in self.printed("json", given=EXPLANATION.read_bytes()).split("\n")[:-1]]
        self.assertEqual(len(rows), len(EXPLANATION.read_bytes().split(b"\n")) - 1)
        scan = next(row for row in rows if row["line"] == "SCAN")
        self.assertEqual((scan["price_risk"], scan["scan_risk"], scan["active_scenario"]), ("916325.5", 971600, 14))
        sums = next(row for row in rows if row["line"] == "SUMS")
        self.assertEqual((sums["sum_1"], sums["sum_14"]), (-57430, 971600))
        (row,) = [json.loads(self.printed("json", "--major", "2", given=b"CREDIT,A,D1,CL,916325.5,2.2828,16892.72\n"))]
        self.assertEqual((row["price_risk"], row["net_delta"]), ("9163.255", "2.2828"))

    def test_currency(self) -> None:
        """Lines have the currency of the parameter file with the id of their set. Others have an empty one, and so have all without it."""
        roll, dollars, euros = (EXAMPLES / "statement-roll.csv").read_bytes(), str(PARAMS), str(self.room / "euros")
        Path(euros).write_bytes(NEXT.read_bytes().replace(b",USD", b",EUR"))
        for words, currencies in (
            ((), {("D20251114", ""), ("D20251117", "")}), (("--params", dollars), {("D20251114", "USD"), ("D20251117", "")}),
            (("--params", euros, "--params", dollars), {("D20251114", "USD"), ("D20251117", "EUR")}),
        ):
            rows = list(csv.DictReader(io.StringIO(self.printed("csv", *words, given=roll))))
            self.assertEqual(({(row["set"], row["currency"]) for row in rows}, list(rows[0])[-1]), (currencies, "currency"))
            objects = [json.loads(line) for line in self.printed("json", *words, given=roll).split("\n")[:-1]]
            self.assertEqual([it["currency"] or "" for it in objects], [row["currency"] for row in rows])
        table = self.printed("table", "--params", dollars, given=b"T,A,D20251114,5\nT,B,D2,6\nMONTH,A,D20251114,CL,202512,1,2\n")
        heads = "account  set        total  currency", "account  set        commodity  month   delta  left"
        first = f"{heads[0]}\nA        D20251114      5  USD\nB        D2             6\n"
        self.assertEqual(table, f"{first}\n{heads[1]}\nA        D20251114  CL         202512      1     2\n")

    def test_wrong_parameter_sets(self) -> None:
        """A file without a SET record, none, and two that say different currencies of one set."""
        Path("euros").write_bytes(PARAMS.read_bytes().replace(b",USD", b",EUR"))
        for status, *words in ((2, "--params", str(POSITIONS)), (2, "--params", str(PARAMS), "--params", "euros"), (6, "--params", "none")):
            for word in (("csv",), ("compare", str(EXPLANATION), str(EXPLANATION))):
                done = command(*word, *words, given=b"T,A,D1,5\n")
                self.assertEqual(done[:2], (status, ""))
                self.assertRegex(done[2], r"\Apython -m span_margin: .*\n\Z")

    def test_compare_of_two_currencies(self) -> None:
        Path("euros").write_bytes(NEXT.read_bytes().replace(b",USD", b",EUR"))
        span.explain(NEXT, POSITIONS).write("after")
        words = ("compare", str(EXPLANATION), "after", "--params", str(PARAMS))
        done = command(*words, "--params", "euros")
        self.assertEqual(done, (2, "", "python -m span_margin: an explanation in USD and one in EUR cannot be compared\n"))
        for more, currency in (((), None), (("--params", str(NEXT)), "USD")):
            self.assertEqual(json.loads(self.printed(*words, *more, "--json", given=b""))["currency"], currency)

    def test_orders(self) -> None:
        changes = (EXAMPLES / "changes-broker.csv").read_bytes()
        self.assertIn("HEDGE", self.printed("table", "--only", "ORDER", given=changes))

    def test_wrong_lines(self) -> None:
        for line in (b"hello", b"", b"R,A", b"T,A,D1,x", b"T,A,D1,1,2,3,4,5", b"t,A,D1,1", b"parameters: P1 NoSet at record 0", b"done,0",
                     b"T,\xff,D1,x", b"SCAN,A,D1,CL,1,2,3,x"):
            with self.subTest(line):
                status, out, err = command("json", given=b"T,A,D1,1\n" + line + b"\n")
                self.assertEqual((status, out), (2, ""))
                self.assertRegex(err, r"\Apython -m span_margin: line 2 is not a line of .*\n\Z")

    def test_cut_off(self) -> None:
        for format_ in ("table", "json", "csv"):
            status, out, err = command(format_, given=b"T,A,D1,1\nT,B,D1,12")
            self.assertEqual((status, out), (2, ""))
            self.assertIn("cut off", err)

    def test_arguments(self) -> None:
        for words in ((), ("xml",), ("csv", "--major", "x"), ("csv", "--major", "-1"), ("csv", "--only", "X"), ("csv", "file")):
            self.assertEqual(command(*words)[:2], (2, ""))
            self.assertEqual(command(*words)[2].count("\n"), 1)

    def test_help(self) -> None:
        """One help lists the words, and each word has its own. All have the same list of exit statuses."""
        status, out, err = command("--help")
        self.assertEqual((status, err), (0, ""))
        self.assertEqual(re.findall(r"^    ([\w-]+)(?: |$)", out, re.M), list(WORDS))
        for word, option in (("table", "--major"), ("json", "--only"), ("csv", "--only"), ("report", "--before"), ("attribution", "--seed"),
                             ("cheapest-close", "--most"), ("compare", "--table")):
            status, text, err = command(word, "--help")
            self.assertEqual((status, err), (0, ""))
            self.assertIn(option, text)
            self.assertEqual(text[text.index("exit status:"):], out[out.index("exit status:"):])

    def test_report(self) -> None:
        """The word makes the page that the function makes, and both reject what is not an explanation."""
        self.use(SOURCE_DATE_EPOCH="1763157600")
        explained = EXPLANATION.read_bytes()
        page = report.page(explained, major=2, params=PARAMS.read_bytes(), title="Friday")
        words = ("report", "--major", "2", "--params", str(PARAMS), "--title", "Friday")
        self.assertEqual(self.printed(*words, given=explained), page)
        self.assertEqual(report.page(span.explain(PARAMS, POSITIONS), major=2, params=PARAMS.read_bytes(), title="Friday"), page)
        self.assertEqual(report.page(explained, before=explained), self.printed("report", "--before", str(EXPLANATION), given=explained))
        message = "the explanation is empty; span prints nothing if it rejects its files"
        self.assertEqual(str(self.error(report.Rejected, report.page, b"")), message)
        self.assertEqual(command("report"), (2, "", f"python -m span_margin: {message}\n"))
        self.assertEqual(command("report", "-o", "none/page.html", given=explained)[0], 6)

    def test_attribution(self) -> None:
        """The words print what the methods return."""
        with span.Session(VALUE, POSITIONS) as desk:
            found = desk.attribution("RIVER-01", "due")
        words = ("attribution", str(VALUE), str(POSITIONS), "RIVER-01", "--of", "due")
        self.assertEqual(self.printed(*words, given=b""), found.to_csv())
        self.assertEqual(self.printed(*words, "--table", "commodities", given=b""), found.to_csv("commodities"))
        self.assertEqual(self.printed(*words, "--json", given=b""), found.to_json() + "\n")

    def test_cheapest_close(self) -> None:
        with span.Session(*FILES) as desk:
            found = desk.cheapest_close("RIVER-01", 1000000, cost={**dict.fromkeys(HELD, 1), "HOZ5": Decimal("2.5")}, most={"HOF6": 1})
        costs = [f"--cost={contract}={'2.5' if contract == 'HOZ5' else 1}" for contract in HELD]
        words = ("cheapest-close", *FILES, "RIVER-01", "1000000", *costs, "--most", "HOF6=1")
        self.assertEqual(self.printed(*words, given=b""), found.to_csv())
        self.assertEqual(self.printed(*words, "--table", "orders", given=b""), found.to_csv("orders"))
        self.assertEqual(json.loads(self.printed(*words, "--json", given=b"")), json.loads(found.to_json()))

    def test_no_close(self) -> None:
        """If no order reaches the target, the status is 1, and the best order is still printed."""
        status, out, err = command("cheapest-close", *FILES, "RIVER-01", "1000", "--only", "HOZ5")
        self.assertEqual((status, out.split("\n")[1]), (1, "RIVER-01,D20251114,HOZ5,HO,-1,1,1,1"))
        message = "no order that was found reaches the target; the lowest total is 948295"
        self.assertEqual(err, f"python -m span_margin: {message}\n")

    def test_compare(self) -> None:
        before, after = (span.explain(params, POSITIONS) for params in (PARAMS, NEXT))
        path = self.use_temporary_directory() / "after"
        after.write(path)
        words, found = ("compare", str(EXPLANATION), str(path), f"--params={PARAMS}", f"--params={NEXT}"), span.compare(before, after)
        for table in ("accounts", "commodities", "positions", "rates", "figures", "sums"):
            self.assertEqual(self.printed(*words, "--table", table, given=b""), found.to_csv(table))
        self.assertEqual(self.printed(*words, given=b""), found.to_csv())
        self.assertEqual(json.loads(self.printed(*words, "--json", given=b"")), json.loads(found.to_json()))

    def test_wrong_questions(self) -> None:
        """A question that cannot be answered ends with one line on standard error, and prints nothing."""
        held = ("cheapest-close", *FILES, "RIVER-01")
        for status, *words in (
            (2, "attribution", *FILES, "NOBODY"), (2, "attribution", *FILES, "RIVER-01", "--of", "due"), (2, "attribution", *FILES),
            (2, *held, "1e6"), (2, *held, "1", "--only", "NONE"), (2, *held, "1", "--most", "CLZ5"), (2, *held, "1", "--cost", "CLZ5=1"),
            (2, *held, "1", "--cost", "CLZ5=NaN"), (2, *held, "1", "--most", "CLZ5=-1"), (2, *held, "1", "--json", "--table", "legs"),
            (2, *held, "1", "--cost", "CLZ5=1e999999999"), (3, "attribution", *FILES[::-1], "RIVER-01"), (6, "compare", "none", "none"),
            (2, "compare", str(EXPLANATION), str(STATEMENT)), (2, "compare", str(EXPLANATION), "/dev/null"),
        ):
            with self.subTest(words):
                done = command(*words)
                self.assertEqual(done[:2], (status, ""))
                self.assertRegex(done[2], r"\Apython -m span_margin.*\n\Z")

    def test_errors_of_span(self) -> None:
        """A word whose call of span fails ends with the status of span, and its line."""

        def call() -> None:
            raise span.PositionsError("positions: B1 UnknownContract at record 2 account Y", 4)

        with self.assertRaises(SystemExit) as ended, contextlib.redirect_stderr(None):
            _streams.finish("python -m span_margin", call)
        self.assertEqual(ended.exception.code, 4)

    def test_output_fails(self) -> None:
        with open("/dev/full", "wb") as full:
            self.assertEqual(command("csv", given=b"T,A,D1,1\n", stdout=full)[0::2], (6, not_done("output", "written", errno.ENOSPC)))
        reads, writes = os.pipe()
        os.close(reads)
        done = command("csv", given=STATEMENT.read_bytes() * 100, stdout=writes)
        self.assertEqual(done[0::2], (6, not_done("output", "written", errno.EPIPE)))
        os.close(writes)

    def test_input_fails(self) -> None:
        with open("/dev/null", "wb") as stream:
            self.assertEqual(command("csv", input=None, stdin=stream), (6, "", not_done("input", "read", errno.EBADF)))
