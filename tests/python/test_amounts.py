"""Amounts: their currency, which operations keep and never mix, their major units, and copies of them."""
import copy
import operator
import pickle
from decimal import Decimal
from pathlib import Path
from typing import Any

import span_margin as span
from shared import NEXT, PARAMS, POSITIONS, Case
from span_margin._amounts import UNKNOWN, Money
from span_margin._inputs import set_record

USD, EUR = Money("USD"), Money("EUR")
ORDER = (operator.lt, operator.le, operator.gt, operator.ge)


class Currencies(Case):
    def keeps(self, value: Any, expected: Any, currency: Any = "USD") -> None:
        """Checks that a value is an amount with a currency, and equal to a plain number."""
        kind = span.ExactAmount if isinstance(expected, Decimal) else span.Amount
        self.assertIsInstance(value, kind)
        self.assertEqual((value.currency, value, type(expected)(value)), (currency, expected, expected))

    def test_operations_keep_it(self) -> None:
        for make, number in ((USD.amount, 7), (USD.exact, Decimal("7.5"))):
            one = make(number)
            self.assertEqual((one.currency, one), ("USD", number))
            for value, expected in (
                (one + one, 2 * number), (one - one, number - number), (-one, -number), (+one, number), (abs(-one), number),
                (one + 1, number + 1), (1 + one, number + 1), (one - 1, number - 1), (1 - one, 1 - number),
                (one * 3, number * 3), (3 * one, number * 3), (one * True, number), (sum([one, one, one]), 3 * number),
                (sum([one], make(0)), number), (max(one, -one), number), (one + UNKNOWN.amount(2), number + 2),
                (UNKNOWN.amount(2) + one, number + 2), (UNKNOWN.amount(2) - one, 2 - number), (sum([UNKNOWN.amount(1), one]), number + 1),
            ):
                self.keeps(value, expected)
        both = USD.amount(7), USD.exact("0.5")
        sums = (both[0] + both[1], "7.5"), (both[1] + both[0], "7.5"), (both[0] - both[1], "6.5"), (both[1] - both[0], "-6.5")
        for value, expected in sums:
            self.keeps(value, Decimal(expected))
        self.keeps(UNKNOWN.exact("0.5") + both[0], Decimal("7.5"))
        self.keeps(UNKNOWN.amount(1) + both[1], Decimal("1.5"))
        self.keeps(span.Amount(1) + span.Amount(2), 3, None)
        self.keeps(span.ExactAmount("0.5") + 1, Decimal("1.5"), None)

    def test_other_operations_are_plain(self) -> None:
        amount = USD.amount(7)
        for value, kind in ((amount * amount, int), (amount / 2, float), (amount // 2, int), (amount * 0.5, float), (amount % 4, int),
                            (amount * Decimal("0.5"), Decimal), (USD.exact("7.5") / 2, Decimal), (USD.exact(7) * Decimal("0.5"), Decimal)):
            self.assertIs(type(value), kind)
        for other in ("1", None, [], 1j):
            for operation in (operator.add, operator.sub):
                if other != 1j:
                    self.error(TypeError, operation, amount, other)
                    self.error(TypeError, operation, other, amount)
        self.error(TypeError, lambda: amount < "1")
        self.assertFalse(amount == "7")

    def test_never_mixed(self) -> None:
        for one in (USD.amount(7), USD.exact(7)):
            for other in (EUR.amount(7), EUR.exact(7)):
                for operation in (operator.add, operator.sub, *ORDER):
                    for pair in ((one, other), (other, one)):
                        error = self.error(span.CurrencyError, operation, *pair)
                        self.assertIsInstance(error, (TypeError, span.SpanError))
                        self.assertTrue("USD" in str(error) and "EUR" in str(error), str(error))
                self.assertFalse(one == other or other == one)
                self.assertTrue(one != other and other != one)
        self.error(span.CurrencyError, sum, [USD.amount(1), EUR.amount(1)])
        self.error(span.CurrencyError, max, USD.amount(1), EUR.exact(1))
        self.error(span.CurrencyError, sorted, [USD.amount(1), EUR.amount(2)])

    def test_equal(self) -> None:
        for one, other in ((USD.amount(7), 7), (7, USD.amount(7)), (USD.amount(7), UNKNOWN.amount(7)), (USD.amount(7), USD.exact(7)),
                           (USD.exact(7), 7), (USD.amount(7), Money("USD", 3).amount(7)), (USD.exact("7.5"), Decimal("7.5"))):
            self.assertTrue(one == other and not one != other and hash(one) == hash(other))
            self.assertEqual([compare(one, other) for compare in ORDER], [False, True, False, True])
        self.assertEqual([compare(USD.amount(7), 8) for compare in ORDER], [True, True, False, False])
        self.assertEqual([compare(8, USD.amount(7)) for compare in ORDER], [False, False, True, True])
        self.assertEqual([USD.amount(7) == 8, USD.amount(7) != 8, USD.amount(7) < 7.5], [False, True, True])
        self.assertEqual({USD.amount(7): "A", EUR.amount(7): "B"}[EUR.amount(7)], "B")

    def test_copies(self) -> None:
        made = USD.amount(-7), USD.exact("7.50"), Money("JPY").amount(7), Money("USD", 3).exact("1E-8"), UNKNOWN.amount(7), UNKNOWN.exact(7)
        for amount in made:
            pickled = pickle.loads(pickle.dumps(amount)), pickle.loads(pickle.dumps(amount, 2))
            for same in (*pickled, copy.copy(amount), copy.deepcopy(amount)):
                self.assertEqual((type(same), same, str(same)), (type(amount), amount, str(amount)))
        self.assertIs(Money("USD").amount, USD.amount)
        self.assertEqual((repr(USD.amount(7)), str(USD.amount(7)), f"{USD.amount(7):,}"), ("7", "7", "7"))
        self.error(AttributeError, setattr, USD.amount(7), "currency", "EUR")

    def test_money(self) -> None:
        self.assertEqual((USD.currency, USD.digits, UNKNOWN.currency, UNKNOWN.amount), ("USD", None, None, span.Amount))
        self.assertEqual((pickle.loads(pickle.dumps(Money("USD", 3))), hash(Money("USD"))), (Money("USD", 3), hash(USD)))
        self.error(AttributeError, setattr, USD, "currency", "EUR")


class MajorUnits(Case):
    def test_digits(self) -> None:
        for currency, major in (("USD", "12.34"), ("EUR", "12.34"), ("JPY", "1234"), ("KRW", "1234"), ("KWD", "1.234"), ("BHD", "1.234"),
                                ("CLF", "0.1234"), ("XXX", "12.34")):
            self.assertEqual((str(Money(currency).amount(1234).major()), str(Money(currency).exact(1234).major())), (major, major))
        self.assertEqual((str(Money("JPY", 2).amount(1234).major()), Money("JPY", 2).amount.digits), ("12.34", 2))
        self.assertEqual((str(Money("USD").amount(1234).major(0)), str(Money(None, 3).exact("0.5").major())), ("1234", "0.0005"))
        self.assertEqual(str((Money("JPY").amount(1200) + 34).major()), "1234")

    def test_exact(self) -> None:
        self.assertEqual(str(span.Amount(-10**30 - 1).major(3)), "-1000000000000000000000000000.001")
        self.assertEqual(f"{USD.exact('12345678901234567890123456789.123456789').major():f}", "123456789012345678901234567.89123456789")
        self.assertEqual(f"{(USD.exact('0.0000001') * 1).major():f}", "0.000000001")

    def test_unknown_currency(self) -> None:
        for amount in (span.Amount(1234), span.ExactAmount("12.5")):
            self.assertEqual((amount.currency, amount.digits), (None, None))
            self.assertIn("unknown", str(self.error(ValueError, amount.major)))
            self.assertEqual(amount.major(2), amount / Decimal(100))


class SetRecords(Case):
    def record(self, content: bytes) -> Any:
        Path("set.csv").write_bytes(content)
        return set_record("set.csv")

    def test_forms(self) -> None:
        self.assertEqual((set_record(str(PARAMS)), set_record(str(NEXT))), (("D20251114", "USD"), ("D20251117", "USD")))
        for content in (b"SET,D1,1,JPY", b"SET,D1,1,JPY\n", b"SET,D1,2,JPY\r\nCOMMODITY,X,1,SUM\r\n", b"SET,D1,1,JPY\rCOMMODITY,X,1,SUM\r",
                        b"\xef\xbb\xbfSET,D1,1,JPY\n", b"\n\r\n\rSET,D1,1,JPY\n", b"\xef\xbb\xbf\nSET,D1,1,JPY\n",
                        b'"SET","D1","1","JPY"\n',
                        b'SET,"D"1,001,JPY\n', b"SET,D1,1,JPY\n\xff\xfe\0", b"\n" * 60000 + b"SET,D1,1,JPY\n"):
            self.assertEqual(self.record(content), ("D1", "JPY"), content[-40:])

    def test_other_content(self) -> None:
        for content in (b"", b"\n", b"SET", b"SET,D1,1", b"SET,D1,1,JPY,X", b"SET,D1,1,jpy", b"SET,d1,1,JPY", b"SET,D1,1,JPYX",
                        b" SET,D1,1,JPY", b"SET,D1\0,1,JPY\n", b"\n" * 70000 + b"SET,D1,1,JPY\n",
                        b"COMMODITY,X,1,SUM\nSET,D1,1,JPY\n", b'"SET,D1",1,JPY\n', b'"SET,D1,1,JPY"\n', b"\xff\n", b"SET,D1,1,\xe4\n",
                        b'SET,D1,1,"JPY\n"\n', b"\xef\xbb\xbf\xef\xbb\xbfSET,D1,1,JPY\n", b"\n" * (65536 - 12) + b"SET,D1,1,JPYX\n"):
            self.assertIsNone(self.record(content), content[-40:])

    def test_no_file(self) -> None:
        for name in ("missing", ".", "/dev/null", "a\0b", "n" * 5000, "\ud800", f"{PARAMS}/below"):
            self.assertIsNone(set_record(name), name)

    def test_results(self) -> None:
        self.use_output("statement-broker.csv")
        for params in (PARAMS, str(PARAMS), PARAMS.read_bytes(), [line.split(",") for line in PARAMS.read_text().splitlines()]):
            river = span.margin(params, POSITIONS)["RIVER-01"]
            self.assertEqual((river.currency, river.total.currency, river["CL"].credit.currency), ("USD", "USD", "USD"))
            self.assertEqual((str(river.total.major()), str((river.total - river["CL"].requirement).major())), ("13312.87", "7477.94"))
        yen = PARAMS.read_bytes().replace(b",USD", b",JPY")
        self.assertEqual(str(span.margin(yen, POSITIONS)["RIVER-01"].total.major()), "1331287")
        self.error(span.CurrencyError, lambda: span.margin(yen, POSITIONS)["RIVER-01"].total + river.total)
        self.assertNotEqual(span.margin(yen, POSITIONS)["RIVER-01"].total, river.total)
