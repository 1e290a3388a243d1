"""Random files for `span`, and faults in them. The same random numbers give the same files.

Figures are small, and few values occur often, so that spreads compete for the same deltas, scenarios have equal losses, and sums are 0.
Records are shuffled: an account's contracts follow neither the order of the commodities nor the order of their months.
"""
from __future__ import annotations

import random
from pathlib import Path
from typing import NamedTuple, Optional, TypeVar

Record = list[str]  # the fields, in Latin-1
Legs = list[tuple[str, str]]
T = TypeVar("T")

# --- Fields ---


class Form(NamedTuple):
    """What a field holds. A range is in units of the number, for decimals in 10^-4."""

    kind: str
    least: int = 0
    most: int = 0


CC, ACCOUNT, CONTRACT, ORDER, SIDE, MONTH, TYPE, METHOD, CURRENCY = (
    Form(kind) for kind in ("cc", "account", "contract", "order", "side", "month", "type", "method", "currency"))
AMOUNT, VALUE, QUANTITY = Form("whole", 0, 10**8), Form("whole", -10**8, 10**8), Form("whole", -10**6, 10**6)
TIER, PRIORITY, BASIS_POINTS, VERSION = Form("tier", 1, 32), Form("priority", 1, 9999), Form("whole", 0, 10000), Form("whole", 1, 2)
DELTA, SCALE, RATIO = Form("decimal", -10**4, 10**4), Form("decimal", 1, 10**5), Form("decimal", 1, 10**7)
FIELDS = {
    "SET": [Form("set"), VERSION, CURRENCY], "COMMODITY": [CC, AMOUNT, METHOD], "TIER": [CC, TIER, MONTH, MONTH],
    "CONTRACT": [CONTRACT, CC, TYPE, MONTH, DELTA, SCALE, *[VALUE] * 16, AMOUNT], "SPOT": [CC, MONTH, AMOUNT, AMOUNT],
    "INTRA": [CC, PRIORITY, AMOUNT, *[TIER, SIDE, RATIO] * 4], "INTER": [PRIORITY, BASIS_POINTS, *[CC, SIDE, RATIO] * 4],
}
POSITION, ORDERED = [ACCOUNT, CONTRACT, QUANTITY], [ORDER, ACCOUNT, CONTRACT, QUANTITY]
MOST = {"COMMODITY": 128, "INTER": 256, "TIER": 32, "INTRA": 64, "SPOT": 16}  # the limits of records that random files reach
HELD, ACCOUNTS = 1024, 4096  # the contracts that an account may hold, and the accounts of a file
SLOTS = 64  # numbers of commodities, spreads and months that are equal modulo 64 share a slot of the program's indexes
# Forms that records share, and another value of each.
FRESH = {"cc": "NONE", "account": "NONE", "contract": "NONE", "order": "NONE", "tier": "7", "priority": "9", "month": "202602", "side": "B"}
# Texts that some reader takes for a number or a name, texts at the limits of length, and right ones.
WHOLES = ("", "-", "+1", "--1", "1-", "1e3", "1E1", "0x1", "inf", "nan", "1_0", " 1", "1 ", "\t1", "1\v", "1\x85", "1\x00", "\xb2", "1\xb2",
          "\xd9\xa1", "1;2", "007", "002", "-0", "0.0", "1.5", "9" * 18, "9" * 19, "-" + "9" * 18, "-" + "9" * 19, "0" * 17 + "1",
          "0" * 18 + "1")
DECIMALS = ("1.", ".5", "-.5", "-0.0000", "0.00010", "1.23456", "0.5000", "000001", "0000001", "000001.0000", "0000001.5", "-000001.5")
NAMES = ("", "\xff", "\x00", "A B", "a1", "\xc4", "K1\x00", "A" * 16, "A" * 17, "-", "_", "0", "NONE", "A\x85", " A", "A ", "x" * 300)
ODD = {"whole": WHOLES, "tier": WHOLES, "priority": WHOLES, "decimal": WHOLES[:6] + DECIMALS * 2, "type": ("F", "C", "P", "f", "FC"),
       "month": ("190001", "299912", "189912", "300001", "202513", "202500", "20261", "2026011", "-20261", "2026 1", "20260\xb2"),
       "side": ("A", "B", "C", "a", "AB"), "method": ("SUM", "MAX", "sum", "SUMX"), "currency": ("ABC", "usd", "US", "USDX", "US1")}
TORN = ("1\n", "A\n", "1\r", '"', 'A"', 'K"1', '"1', "1,5", "\n", "\xef\xbb\xbf1", "9" * 70000)  # texts that need quotes, or are long
MARK = "\xef\xbb\xbf"  # a byte order mark
BYTES = ("", '"', '""', ",", ",,", "\n", "\r", "\r\n", "\n\n", "\x00", "\xff", MARK, " ", "-", "+", ".", "0", "1", "\x85")


def forms_of(record: Record) -> list[Form]:
    """The forms of the fields of a parameter record, after the first field."""
    return FIELDS.get(record[0], [])[:len(record) - 1]


def with_field(record: Record, at: int, field: str) -> Record:
    at %= len(record)
    return [*record[:at], field, *record[at + 1:]]


def decimal(value: int) -> str:
    """A number of 10^-4 as a decimal."""
    whole, rest = divmod(abs(value), 10**4)
    return "-" * (value < 0) + str(whole) + f".{rest:04d}".rstrip("0").rstrip(".")


def joined(records: list[Record]) -> bytes:
    """A file of these records, without quotes, one on a line."""
    return "".join(",".join(record) + "\n" for record in records).encode("latin-1")


# --- Accepted files ---


class Files:
    """Accepted parameters, positions and orders. With `like`, names and months are taken from other files. With `large`, there are more
    records. With `held`, account 1 holds about as many contracts as it may, perhaps more, and then the files are rejected. With `wide`,
    there are so many commodities, spreads and months that some share a slot."""

    def __init__(self, numbers: random.Random, like: Optional[Files] = None, large: bool = False, held: bool = False,
                 wide: bool = False) -> None:
        self.numbers, self.large, self.held, self.wide = numbers, large, held, wide
        self.version = self.one(1, 2)
        self.style: str = like.style if like else self.one("%s%d", "%s%d", "%s-%d", "%s%012d", "-_%s%d", "%.0s%d")
        self.size = self.one(1, 2, 9, 100, 1000, 450000, 10**8)  # of array values
        self.commodities = self.names("C", self.pick(1, 8) if large else self.one(66, 72, 128) if wide else self.one(1, 2, 3, 3, 4))
        self.months: list[str] = like.months if like else self.some_months()
        count = self.pick(1, 60) if large else len(self.commodities) * (self.one(2, 4) if wide else self.one(1, 3, 5, 6, 8))
        count = max(count, len(like.contracts)) if like and self.often(0.6) else count
        self.contracts: list[str] = self.names("K", HELD + 6 if held else count)
        self.accounts = self.names("A", self.pick(0, 40) if large else 2 if held else self.one(0 if self.often(0.3) else 1, 1, 2, 3, 4))
        self.params = self.parameters()
        self.positions = self.position_records()
        self.orders = self.order_records()

    def pick(self, low: int, high: int) -> int:
        return self.numbers.randint(low, high)

    def one(self, *values: T) -> T:
        return self.numbers.choice(values)

    def often(self, part: float) -> bool:
        return self.numbers.random() < part

    def names(self, letter: str, count: int) -> list[str]:
        return [self.style % (letter, at) for at in range(1, count + 1)]

    def some_months(self) -> list[str]:
        """Months in ascending order, usually with gaps, often over the end of a year, rarely at the limits."""
        at, months = self.one(24310, 24310, 24311, 24300, 22800), []
        if self.wide:
            numbers = self.numbers.sample((0, 1, 2, 63, 64, 65, 66, 128, 129), self.pick(3, 9))
            return [f"{number // 12}{number % 12 + 1:02d}" for number in sorted(at + it for it in [*numbers, 3, 67])]
        if self.often(0.02):
            return ["190001", "190012", "290001", "299912"]
        for _ in range(self.pick(1, 14) if self.large else self.one(1, 2, 2, 3, 3, 4, 5)):
            months.append(f"{at // 12}{at % 12 + 1:02d}")
            at += self.one(1, 1, 2, 11)
        return months

    def rate(self) -> str:
        return str(self.one(0, 1, 3, 7, 100, 333, 30125, self.pick(0, 99999), 10**8 if self.often(0.1) else 1))

    def ratio(self) -> str:
        some = decimal(self.pick(1, 30000))
        return self.one("1", "1", "1", "1.0", "2", "3", "0.5", "1.5", "0.7", "0.3333", some, self.one("1000", "0.0001"))

    def priorities(self, count: int) -> list[str]:
        return list(map(str, self.numbers.sample(range(1, self.one(count + 1, 10000)), count)))

    def array(self) -> list[str]:
        """A risk array: of a future, of any numbers, of gains only or losses only, or of zeros."""
        size = min(10**8, self.size * self.one(1, 1, 1, 2, 3))
        kind, sign = self.one(*["future"] * 3, *["any"] * 4, "one side", "one side", "zeros"), self.one(1, -1)
        moves = (0, 0, -1, -1, 1, 1, -2, -2, 2, 2, -3, -3, 3, 3, self.one(-2, -3), 2)
        if kind == "any":
            return [str(self.pick(-size, size)) for _ in range(16)]
        if kind == "one side":
            return [str(sign * self.pick(1, size)) for _ in range(16)]
        return [str(move * size // 3 if kind == "future" else 0) for move in moves]

    def contract(self, name: str) -> Record:
        kind = self.one("F", "F", "F", "C", "P")
        delta = self.one("1", "0.5", "0.25", "0.3812", "0", "0.0001", decimal(self.pick(0, 10000)), decimal(self.pick(0, 10000)))
        delta = "1" if kind == "F" and self.often(0.7) else delta
        delta = "-" * ((kind == "P") != self.often(0.1)) + delta
        scale = self.one("1", "1", "1", "1.0000", "0.5", "2", "0.1", "1.25", "0.3333", self.one("10", "0.0001"))
        values = ["0"] * 16 if self.held else self.array()
        value = [str(self.pick(0, 3 * self.size) % 10**8) if kind != "F" else "0"] if self.version == 2 else []
        return ["CONTRACT", name, self.one(*self.commodities), kind, self.one(*self.months), delta, scale, *values, *value]

    def tiers(self, commodity: str) -> list[Record]:
        """Tiers of one to three months each. Some months are in no tier."""
        at, found, numbers = self.one(0, 0, 0, 1), [], self.numbers.sample(range(1, self.one(9, 33)), 8)
        while at < len(self.months) and len(numbers) > 2:
            last = min(at + self.one(0, 0, 0, 1, 2), len(self.months) - 1)
            found.append(["TIER", commodity, str(numbers.pop()), self.months[at], self.months[last]])
            at = last + self.one(1, 1, 1, 1, 2)
        return found

    def legs(self, places: Legs) -> list[str]:
        """Two to four legs on these places, on both sides, the first two rarely in the same tier."""
        first = self.one(*places)
        others = [place for place in places if place[1] != first[1]]
        apart = [place for place in others if place[0] != first[0]]
        chosen = [first, self.one(*(apart if apart and self.often(0.8) else others))]
        rest = [place for place in places if place not in chosen]
        chosen += self.numbers.sample(rest, min(len(rest), self.one(0, 0, 0, 1, 2)))
        self.numbers.shuffle(chosen)
        return [field for place, side in chosen for field in (place, side, self.ratio())]

    def of_commodity(self, name: str) -> list[Record]:
        """The records of one commodity, without its contracts."""
        records, tiers = [["COMMODITY", name, self.rate(), self.one("SUM", "MAX")]], self.tiers(name)
        places = [(tier[2], side) for tier in tiers for side in "AB"]
        most = MOST["INTRA"] if self.wide and self.often(0.05) else 5
        for priority in self.priorities(self.one(0 if self.often(0.3) else 1, 2, 3, most)) if places else []:
            records.append(["INTRA", name, priority, self.rate(), *self.legs(places)])
        months = self.months if self.wide else self.months[:3]
        for month in self.numbers.sample(months, min(len(months), self.one(0, 1, 1, 2, 3))):
            records.append(["SPOT", name, month, self.rate(), self.rate()])
        return records + tiers

    def parameters(self) -> list[Record]:
        records = [self.contract(name) for name in self.contracts]
        for name in self.commodities:
            records += self.of_commodity(name)
        if len(self.commodities) > 1:
            for priority in self.priorities(self.one(66, 80, 130) if self.wide else self.one(0 if self.often(0.3) else 1, 2, 3, 5, 8)):
                among = self.commodities[:4] + self.commodities[SLOTS:SLOTS + 4] if self.wide and self.often(0.5) else self.commodities
                cc = self.numbers.sample(among, len(among))
                sides = ["A", "B", *(self.one("A", "B") for _ in cc[2:])]
                basis_points = self.one(0 if self.often(0.3) else 1, 3333, 7400, 10000, self.pick(0, 10000))
                records.append(["INTER", priority, str(basis_points), *self.legs(list(zip(cc, sides)))])
        if self.often(0.9):
            self.numbers.shuffle(records)
        return [["SET", self.style % ("S", self.pick(1, 9)), str(self.version), self.one("USD", "EUR")], *records]

    def quantity(self) -> int:
        return self.one(1, 1, 2, 2, 3, self.pick(0, 9), self.one(self.pick(4, 100), 1000, 7777, 20000))

    def position_records(self) -> list[Record]:
        """Positions. An account often has opposite signs in neighbouring months or commodities, and records that add up to 0."""
        records, listed = [], {record[1]: record for record in self.params if record[0] == "CONTRACT"}
        for account in self.accounts:
            part = self.one(0.3, 0.7, 1, 1) * min(1, (150 if self.wide else 30) / len(self.contracts))
            opposite = self.one("months", "commodities", "none")
            for contract in [it for it in self.contracts if self.often(part)] or [self.one(*self.contracts)]:
                at = self.months.index(listed[contract][4]) if opposite == "months" else self.commodities.index(listed[contract][2])
                first = self.quantity() * (self.one(1, -1) if opposite == "none" or self.often(0.1) else (-1) ** at)
                quantities = [first] + (self.one([-first], [self.one(1, 5000)], [980000, -980000], [0]) if self.often(0.2) else [])
                records += [[account, contract, str(quantity)] for quantity in quantities]
        if self.held:
            most = self.contracts[:HELD + self.one(-3, -1, 0, 0, 1)]
            records = [[self.accounts[0], name, "1"] for name in most] + [[each, self.contracts[0], "1"] for each in self.accounts]
        if self.often(0.7):
            self.numbers.shuffle(records)
        return records

    def sharing(self) -> set[str]:
        """What shares a slot: held commodities, held months of one commodity, or spreads between commodities."""
        names = [record[1] for record in self.params if record[0] == "COMMODITY"]
        contracts = {record[1]: record for record in self.params if record[0] == "CONTRACT"}
        found = {"spreads"} if sum(record[0] == "INTER" for record in self.params) > SLOTS else set()
        for account in self.accounts:
            held = [contracts[name] for name, net in self.nets(account).items() if net]
            places = {(names.index(record[2]), int(record[4][:4]) * 12 + int(record[4][4:])) for record in held}
            found |= {"commodities"} if any(number + SLOTS in dict(places) for number, _ in places) else set()
            found |= {"months"} if any((number, month + SLOTS) in places for number, month in places) else set()
        return found

    def traded(self) -> str:
        """A contract of an order. If account 1 holds about as many as it may, this is usually one that it does not hold."""
        return self.contracts[-self.pick(1, 9)] if self.held else self.one(*self.contracts)

    def nets(self, account: str) -> dict[str, int]:
        nets: dict[str, int] = {}
        for holder, contract, quantity in self.positions:
            if holder == account:
                nets[contract] = nets.get(contract, 0) + int(quantity)
        return nets

    def order_records(self) -> list[Record]:
        """Orders of one or more legs, some for accounts without positions, some that close positions."""
        records = []
        for order in self.names("O", self.pick(0, 30) if self.large else self.one(0 if self.often(0.3) else 1, 1, 2, 3, 5)):
            account = self.one(*self.accounts, *self.accounts[:1] * 3, *self.names("NEW", 2))
            for _ in range(self.one(1, 1, 2, 3, 4)):
                contract, quantity = self.traded(), self.one(1, -1) * self.pick(0, 9)
                records.append([order, account, contract, str(quantity)])
                records += [[order, account, contract, str(-quantity)]] * self.often(0.1)
            if self.often(0.3):
                nets = self.nets(account)
                records += [[order, account, contract, str(-nets[contract])] for contract in nets if self.often(0.3)]
        if self.often(0.7):
            self.numbers.shuffle(records)
        return records


# --- Files with faults ---


class Faults:
    """Changes the records of accepted files, up to `most` fields. With `plain`, each record stays one line without quotes."""

    def __init__(self, numbers: random.Random, most: int = 8, plain: bool = False) -> None:
        self.numbers, self.most, self.plain = numbers, most, plain

    def often(self, part: float) -> bool:
        return self.numbers.random() < part

    def fresh(self, form: Form) -> str:
        """A number at the limit of its field or one beyond it, or an odd text."""
        if form.most and self.often(0.5):
            at = self.numbers.choice((form.least - 1, form.least, form.most, form.most + 1))
            return decimal(at) if form.kind == "decimal" else str(at)
        if self.often(0.1):
            return self.numbers.choice(WHOLES + DECIMALS + NAMES if self.plain else TORN)
        return self.numbers.choice(ODD.get(form.kind, NAMES))

    def odd(self, record: Record, forms: list[Form]) -> Record:
        """A record with a wrong field, one field more or less, or another kind."""
        chosen = self.numbers.random()
        if chosen < 0.15:
            return record[:-1] if chosen < 0.08 and len(record) > 1 else [*record, self.numbers.choice(("", "0", "1"))]
        if chosen < 0.25 and record[0] in FIELDS:
            return [self.numbers.choice((record[0].lower(), "", "TIER", "INTER", record[0] + " ", MARK + "SPOT")), *record[1:]]
        if record[0] == "CONTRACT" and self.often(0.2):  # a value, which a future must not have
            return [*record[:-1], self.numbers.choice(("1", "70"))]
        at = {form: at for at, form in self.numbers.sample(list(enumerate(forms, len(record) - len(forms))), len(forms))}
        form = QUANTITY if QUANTITY in at and self.often(0.6) else self.numbers.choice(list(at))
        return with_field(record, at[form], self.fresh(form))

    def crossed(self, record: Record, forms: list[Form], others: list[tuple[str, Form]]) -> Record:
        """A record with the name, number, month or side of another record, or with one that perhaps no record has."""
        if record[0] == "TIER" and self.often(0.4):
            return [*record[:3], record[4], record[3]]
        if record[0] in ("INTRA", "INTER") and self.often(0.4):
            leg, other = self.numbers.sample(range(len(record) % 3 + 3, len(record), 3), 2)
            field = self.numbers.choice((0, 1))
            return with_field(record, leg + field, record[other + field])
        at, form = self.numbers.choice([(at, form) for at, form in enumerate(forms, len(record) - len(forms)) if form.kind in FRESH])
        values = [value for value, other in others if other.kind == form.kind]
        return with_field(record, at, FRESH[form.kind] if self.often(0.25) else self.numbers.choice(values))

    def changed(self, records: list[Record], forms: list[Form], rules: bool) -> None:
        """Changes or copies some records. With `rules`, each field keeps its form. Without `forms` these are parameter records."""
        others = [pair for record in records for pair in zip(record[-len(forms):], forms)] if forms else [
            pair for record in records for pair in zip(record[1:], forms_of(record))]
        most = 8 if rules else self.most
        for _ in range(self.numbers.choice((1, most // 8, most // 4, most // 2, most))):
            if len(records) < 2:
                return
            kind = self.numbers.choice(sorted({record[0] for record in records[1:]}))
            at = self.numbers.choice([at for at, record in enumerate(records) if forms or at and record[0] == kind])
            record, of_record = records[at], forms or forms_of(records[at])
            if self.often(0.1) or not of_record:
                del records[at]
                continue
            if self.often(0.9):
                record = self.crossed(record, of_record, others) if rules else self.odd(record, of_record)
            if self.often(0.4):
                records.insert(self.numbers.randint(0 if forms else 1, len(records)), record)
            else:
                records[at] = record

    def filled(self, records: list[Record], kind: str) -> None:
        """Adds records of a kind, in a commodity, up to its limit, one less, or one or two more."""
        known = [(*record, "", "")[:3] for record in records]  # a record may have lost fields
        cc, other = self.numbers.sample([name for word, name, _ in known if word == "COMMODITY"] + ["N1", "N2"], 2)
        tier = next((number for word, name, number in known if (word, name) == ("TIER", cc)), "1")
        have = sum(word == kind and (kind in ("COMMODITY", "INTER") or name == cc) for word, name, _ in known)
        for at in range(have, MOST[kind] + self.numbers.choice((-1, 0, 1, 1, 1 if self.plain else 2))):
            record = {"COMMODITY": [f"N{at}", "0", "SUM"], "TIER": [cc, str(at % 32 + 1), f"21{at:02d}01", f"21{at:02d}12"],
                      "SPOT": [cc, f"22{at:02d}01", "0", "0"], "INTRA": [cc, f"{at + 5000}", "0", tier, "A", "1", tier, "B", "1"],
                      "INTER": [f"{at + 5000}", "0", cc, "A", "1", other, "B", "1"]}[kind]
            records.insert(self.numbers.randint(min(1, len(records)), len(records)), [kind, *record])

    def of_params(self, params: list[Record]) -> list[Record]:
        """Parameters with read faults (P), that break rules (C), or with as many records as a limit allows, or more."""
        records, chosen = [*params], self.numbers.random()
        if chosen < 0.3 or 0.85 < chosen < 0.92:
            self.changed(records, [], False)
            if self.often(0.2):
                records.insert(self.numbers.randint(1, len(records)), records[0])
            if self.often(0.3):
                records[0] = self.odd(records[0], forms_of(records[0]))
            if self.often(0.1):
                records = self.numbers.choice((records[:0], records[1:], records[:1], records[::-1]))
        elif chosen < 0.85:
            self.changed(records, [], True)
        for kind in self.numbers.sample(list(MOST), self.numbers.choice((1, 1, 2, len(MOST)))) if chosen > 0.85 else []:
            self.filled(records, kind)
        return records

    def crowded(self, records: list[Record]) -> None:
        """Adds wrong quantities to positions, and accounts up to their limit, one less, or one or two more."""
        for record in self.numbers.sample(records, min(len(records), 3)):
            records.insert(self.numbers.randint(0, len(records)), self.odd(record, [QUANTITY]))
        have = len({record[0] for record in records})
        last = ACCOUNTS + self.numbers.choice((-1, 0, 1, 1, 1 if self.plain else 2))
        records += [[f"B{at}", records[0][1] if records else "K1", "0"] for at in range(have, last)]

    def of_records(self, given: list[Record], forms: list[Form]) -> list[Record]:
        """Positions or orders with read faults (Q, O), or whose contracts or quantities are wrong together (B, O6)."""
        records, chosen = [*given], self.numbers.random()
        if chosen < 0.05 and forms == POSITION:
            self.crowded(records)
        elif chosen < 0.45:
            self.changed(records, forms, False)
        elif chosen < 0.75:
            self.changed(records, forms, True)
        for record in self.numbers.sample(records, min(len(records), 3)) if chosen > 0.65 else []:
            sign, owner = self.numbers.choice((1, -1)), "B1" if forms == POSITION and self.often(0.4) else record[0]
            for quantity in self.numbers.choice(((0,), (100000,), (60000, 40000), (60000, 40001), (10**6, -900000))):
                contract = "NONE" if self.often(0.15) else record[-2]
                records.insert(self.numbers.randint(0, len(records)), [owner, *record[1:-2], contract, str(sign * quantity)])
        return records


# --- Bytes ---


def scrambled(numbers: random.Random, text: str) -> str:
    """A text with some bytes replaced, removed or added, or without its end."""
    for _ in range(numbers.choice((1, 1, 2, 4))):
        at = numbers.randint(0, len(text))
        text = text[:at] + numbers.choice(BYTES) + text[at + numbers.choice((0, 0, 1, 1, 2)):]
    return text[:numbers.randint(0, len(text))] if numbers.random() < 0.2 else text


def quoted(numbers: random.Random, field: str) -> str:
    """A field in quotes, all of it or its beginning."""
    end = numbers.choice((len(field), len(field), numbers.randint(0, len(field))))
    return '"' + field[:end].replace('"', '""') + '"' + field[end:]


def written(numbers: random.Random, records: list[Record]) -> bytes:
    """A file of these records in any form that CSV allows, or with wrong bytes."""
    part, ends = numbers.choice((0, 0, 0.03, 0.5)), numbers.choice(("\n", "\n", "\r", "\r\n", ("\n", "\r", "\r\n", "\n\n", "\r\r", "\n\r")))
    lines = []
    for record in records:
        fields = [quoted(numbers, field) if numbers.random() < (0.7 if set(field) & set(',"\r\n') else part) else field for field in record]
        lines.append(",".join(fields) + (ends if isinstance(ends, str) else numbers.choice(ends)))
    text = "".join(lines)
    if numbers.random() < 0.2:
        text = text.rstrip("\r\n")
    if numbers.random() < 0.3:
        text = numbers.choice((MARK, MARK, MARK, MARK * 2, MARK[:2], "\n")) + text
    return (scrambled(numbers, text) if numbers.random() < 0.2 else text).encode("latin-1")


class Requests:
    """Requests of a session with these files, and with these names of files for SET."""

    def __init__(self, numbers: random.Random, files: Files, sets: list[str]) -> None:
        self.numbers, self.files, self.sets = numbers, files, sets

    def one(self, *values: T) -> T:
        return self.numbers.choice(values)

    def pairs(self) -> list[str]:
        fields: list[str] = []
        for _ in range(self.one(1, 1, 1, 2, 2, 3, 5, self.one(3, 64, 65))):
            quantity = self.one(1, -1) * self.one(0, 1, 1, 2, 3, self.numbers.randint(0, 9), self.one(9, 60000, 100000, 100001, 10**6 + 1))
            fields += [self.files.traded(), str(quantity)]
        return fields

    def fields(self) -> list[str]:
        """A request without faults of form, which may be rejected for its names or quantities."""
        account = self.one(*self.files.accounts * 2, *self.files.accounts[:1] * 3, *self.files.names("NEW", 2))
        word = self.one("MARGIN", "MARGIN", "EXPLAIN", "EXPLAIN", "TRY", "TRY", "TRY", "FILL", "FILL", "FILL", "FILL", "SET", "POSITIONS")
        if word in ("TRY", "FILL"):
            return [word, *["O1"] * (word == "TRY"), account, *self.pairs()]
        if word == "SET":
            return [word, self.one(*self.sets * 3, "missing.csv", ".", "/dev/stdin")]
        return [word] if word == "POSITIONS" or word == "MARGIN" and self.numbers.random() < 0.3 else [word, account]

    def line(self) -> str:
        """A request, which in one case of four has a fault of form, or wrong bytes."""
        fields, chosen = self.fields(), self.numbers.random()
        if chosen < 0.12:
            fields[self.numbers.randrange(len(fields))] = self.one(*WHOLES, *NAMES, "1000000", "1000001", "-1000001")
        elif chosen < 0.17:
            fields = self.one(fields[:-1], [*fields, self.one("", "1", "K1")], [fields[0].lower(), *fields[1:]], ["", *fields],
                              [*fields, *self.pairs()])
        elif chosen < 0.2:
            length = self.one(4095, 4096, 4097, 5000)
            return self.one("MARGIN,", "SET,", ",", "").ljust(length, "A") + self.one("", "\r", "\r\r")
        text = ",".join(fields)
        return scrambled(self.numbers, text) if chosen > 0.96 else text

    def text(self) -> bytes:
        end = self.one("\n", "\n", "\r\n")
        lines = [self.line() + self.one(*[end] * 9, "\n", "\r\n", "\n\n", "\n\r\n", "\r\r\n") for _ in range(self.numbers.randint(1, 30))]
        return "".join(lines)[:None if self.numbers.random() < 0.8 else -1].encode("latin-1")


def write_files(seed: int) -> None:
    """Writes params.csv, positions.csv and orders.csv. All are accepted."""
    files = Files(random.Random(seed), large=True)
    for name, records in ("params", files.params), ("positions", files.positions), ("orders", files.orders):
        Path(f"{name}.csv").write_bytes(joined(records))


def write_faults(seed: int) -> None:
    """Writes faulty-params.csv and faulty-positions.csv, of which one or both have faults. Record N is line N, and if the first record of
    the parameters has no fault, there is no read fault without the records that have one."""
    numbers = random.Random(f"faults {seed}")
    files, faults = Files(numbers, large=True, held=numbers.random() < 0.05), Faults(numbers, plain=True)
    params = faults.of_params(files.params) if numbers.random() < 0.6 else files.params
    positions = faults.of_records(files.positions, POSITION) if numbers.random() < 0.9 else files.positions
    for name, records in ("params", params), ("positions", positions):
        Path(f"faulty-{name}.csv").write_bytes(joined(records))
