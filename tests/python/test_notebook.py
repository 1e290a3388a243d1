"""Results in notebooks: their HTML, and the notebook of the examples, which runs from top to bottom."""
import json
import os
import re
import shutil
import subprocess
import unittest
from html.parser import HTMLParser
from pathlib import Path
from typing import Any, List

import span_margin as span
from shared import EXAMPLES, NEXT, ORDERS, PARAMS, POSITIONS, VALUE, SessionCase
from span_margin import _results
from span_margin._amounts import UNKNOWN
from test_results import all_results

NBCONVERT = shutil.which("jupyter-nbconvert")
KERNEL = Path("/usr/share/jupyter/kernels/python3")
VOID = ("path", "circle", "use", "br")


class Pieces(HTMLParser):
    """The text of HTML, whose tags must be closed."""

    def __init__(self, html: str) -> None:
        super().__init__()
        self.open: List[str] = []
        self.text: List[str] = []
        self.feed(html)
        assert not self.open, self.open

    def handle_starttag(self, tag: str, attrs: Any) -> None:
        if tag not in VOID:
            self.open.append(tag)

    def handle_endtag(self, tag: str) -> None:
        if tag not in VOID:
            assert self.open.pop() == tag, tag

    def handle_data(self, data: str) -> None:
        if "style" not in self.open:
            self.text.append(data)


def text_of(result: Any) -> str:
    """The text that a notebook shows of a result."""
    return "".join(Pieces(result._repr_html_()).text)


class Shown(SessionCase):
    def test_totals(self) -> None:
        """Amounts are in major units if the currency is known. Accounts have the order of the statement."""
        statement = span.margin(VALUE, POSITIONS)
        found = text_of(statement)
        for account in statement:
            self.assertIn(f"{account.account}{account.total.major()}{account.value.major()}{account.due.major()}", found)
        self.assertIn("Amounts are in USD.", found)
        self.assertIn("RIVER-011331287", text_of(span.Statement(bytes(span.margin(PARAMS, POSITIONS)))))

    def test_many_accounts(self) -> None:
        positions = [(f"A{number}", "CLZ5", number) for number in range(1, 101)]
        found = text_of(span.margin(PARAMS, positions))
        self.assertIn("40 more accounts are not shown.", found)
        self.assertNotIn("A61", found)
        self.assertIn("Amounts are in", text_of(span.margin(PARAMS, [])))

    def test_account(self) -> None:
        desk = self.session()
        margin = desk.margin("RIVER-01")
        for line in margin:
            self.assertIn(f"{line.commodity}{line.scan_risk.major()}{line.active_scenario}", text_of(margin))
        explanation = desk.explain("RIVER-01")
        found = text_of(explanation)
        self.assertIn("The sixteen scenarios", found)
        for commodity in explanation:
            for amount in commodity.sums.sums:
                self.assertIn(str(amount.major()), found)
        self.assertEqual(text_of(span.explain(PARAMS, POSITIONS, account="RIVER-01")), found)
        self.assertEqual(text_of(span.explain(PARAMS, POSITIONS)), text_of(span.margin(PARAMS, POSITIONS)))

    def test_attribution(self) -> None:
        shares = self.session().attribution("RIVER-01")
        found = text_of(shares)
        for it in shares.shares:
            self.assertIn(f"{it.contract}{it.quantity}{it.share.major()}{it.marginal.major()}", found)
        self.assertIn(f"Total{shares.amount.major()}", found)


    def test_all_results(self) -> None:
        """Each result has a view, whose tags are closed."""
        for result, _ in all_results():
            with self.subTest(result):
                found = text_of(result)
                self.assertTrue(found and "<" not in found, found)

    def test_roll(self) -> None:
        roll = span.roll(PARAMS, NEXT, POSITIONS)
        for today, following in zip(roll.today, roll.next):
            change = (following.total - today.total).major()
            self.assertIn(f"{today.account}{today.total.major()}{following.total.major()}{change}", text_of(roll))
        euros = span.roll(PARAMS, NEXT.read_bytes().replace(b",USD", b",JPY"), POSITIONS)
        self.assertIn("RIVER-0113312.871509294CRACK", text_of(euros))
        self.assertTrue(text_of(euros).endswith("Amounts are in USD and JPY."))
        self.assertTrue(text_of(_results.roll(b"", UNKNOWN, UNKNOWN)))

    def test_orders(self) -> None:
        for params in (PARAMS, VALUE):
            tried = span.whatif(params, POSITIONS, ORDERS)
            found = text_of(tried)
            for order in tried:
                self.assertIn(f"{order.order}{order.account}{order.before.major()}{order.after.major()}{order.change.major()}", found)
                self.assertIn(text_of(order).partition("effect")[2].partition("Amounts")[0], found)
        self.assertIn("There are no orders.", text_of(_results.tried_orders(b"", UNKNOWN)))
        many = _results.tried_orders(b"".join(b"ORDER,O%d,A,D1,1,2,1\n" % number for number in range(61)), UNKNOWN)
        self.assertIn("1 more orders are not shown.", text_of(many))

    def test_close(self) -> None:
        desk = self.session()
        close = desk.cheapest_close("RIVER-01", 1000000, only=["HOZ5"])
        found = text_of(close)
        for words in ("total before13312.87", "target10000.00", "total after9482.95", "HOZ5HO-1111", "none costs less"):
            self.assertIn(words, found)
        self.assertIn("No order reaches the target.", text_of(desk.cheapest_close("RIVER-01", 0, only=["HOZ5"])))
        self.assertNotIn("Contract", text_of(desk.cheapest_close("RIVER-01", 10**9)))

    def test_comparison(self) -> None:
        for before, after in ((PARAMS, NEXT), (VALUE, VALUE)):
            both = span.compare(span.explain(before, POSITIONS), span.explain(after, POSITIONS))
            found = text_of(both)
            for account in both.accounts:
                total = account.total
                self.assertIn(f"{account.account}{total.before.major()}{total.after.major()}{total.change.major()}", found)
            self.assertIn(f"All{both.total.before.major()}{both.total.after.major()}", found)
        unknown = span.compare(both.before, span.Explanation(bytes(both.after)))
        self.assertTrue(text_of(unknown).endswith("Amounts are in minor units of an unknown currency."))
        fewer = span.compare(span.explain(PARAMS, POSITIONS), span.explain(PARAMS, b"NEW,CLZ5,1\n"))
        self.assertIn("only after", text_of(fewer))

    def test_hostile_names(self) -> None:
        """Names are text, and not tags."""
        for result in (
            _results.tried_orders(b"ORDER,<b>,</table>,D1,1,2,1\n", UNKNOWN), _results.positions(b"<b>,</table>,1\n", "D1"),
            _results.roll(b"T,<b>,<i>,1\nT,<b>,<u>,1\n", UNKNOWN, UNKNOWN), _results.account_total(b"T,<b>,D1,1\n", UNKNOWN),
        ):
            self.assertIn("<b>", text_of(result))


class Notebook(unittest.TestCase):
    @unittest.skipUnless(NBCONVERT and KERNEL.is_dir(), "there is no jupyter-nbconvert with a kernel (python3-ipykernel)")
    def test_runs(self) -> None:
        """The notebook of the examples runs, and its results are shown as HTML."""
        room = Path(os.environ.get("TMPDIR", "/tmp")) / f"notebook-{os.getpid()}"
        shutil.copytree(EXAMPLES, room)
        self.addCleanup(shutil.rmtree, room)
        names = "HOME IPYTHONDIR JUPYTER_CONFIG_DIR JUPYTER_DATA_DIR JUPYTER_RUNTIME_DIR"
        places = {name: str(room / name.lower()) for name in names.split()}
        words = [str(NBCONVERT), "--to", "notebook", "--execute", "--output", "done.ipynb", "desk.ipynb"]
        done = subprocess.run(words, cwd=room, env={**os.environ, **places}, stderr=subprocess.PIPE, check=False)
        self.assertEqual(done.returncode, 0, done.stderr.decode()[-2000:])
        cells = json.loads((room / "done.ipynb").read_text(encoding="utf-8"))["cells"]
        shown = ["".join(it["data"].get("text/html", "")) for cell in cells for it in cell.get("outputs", ()) if "data" in it]
        self.assertEqual(len([html for html in shown if re.match('<div class="span-margin">', html)]), 3)
        self.assertIn("('HOZ5', 1)", json.dumps(cells))

    def test_is_stored_without_output(self) -> None:
        notebook = json.loads((EXAMPLES / "desk.ipynb").read_text(encoding="utf-8"))
        self.assertFalse([cell for cell in notebook["cells"] if cell.get("outputs") or cell.get("execution_count")])


if __name__ == "__main__":
    unittest.main()
