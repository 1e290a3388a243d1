"""The parameter file: its records, and the faults P1 to P8 and C1 to C11. FORMATS, Parameter file, P, and C."""

from __future__ import annotations

import re
from fractions import Fraction
from typing import Callable, Dict, Hashable, Iterable, Iterator, List, NamedTuple, Optional, Pattern, Set, Tuple

from . import limits, records


class Fault(NamedTuple):
    """FORMATS, Fault lines: a code with its name, the number of the record, and for B1 to B3 the account or order."""

    code: str
    record: int
    owner: str = ""


class Commodity(NamedTuple):
    """FORMATS, Parameter file: `COMMODITY,cc,minimum rate,method`."""

    record: int
    name: str
    minimum_rate: int
    method: str


class Contract(NamedTuple):
    """FORMATS, Parameter file: `CONTRACT,id,cc,type,month,delta,scale,v1,v2,..,v16`, and `value` under version 2."""

    record: int
    name: str
    commodity: str
    type: str
    month: int
    delta: Fraction
    scale: Fraction
    array: List[int]
    value: int


class Tier(NamedTuple):
    """FORMATS, Parameter file: `TIER,cc,number,first month,last month`. METHOD: "A tier is a range of months"."""

    record: int
    commodity: str
    number: int
    first: int
    last: int


class Leg(NamedTuple):
    """FORMATS, Parameter file: `tier,side,ratio` of an INTRA, `cc,side,ratio` of an INTER. A leg of an INTER has tier 0."""

    commodity: str
    tier: int
    side: str
    ratio: Fraction


class Spread(NamedTuple):
    """FORMATS, Parameter file: `INTRA,cc,priority,rate` or `INTER,priority,basis points`, and legs. An INTER has no commodity."""

    record: int
    commodity: str
    priority: int
    rate: int
    legs: List[Leg]


class Spot(NamedTuple):
    """FORMATS, Parameter file: `SPOT,cc,month,spread rate,outright rate`."""

    record: int
    commodity: str
    month: int
    spread_rate: int
    outright_rate: int


class Parameters:
    """FORMATS, Parameter file: a parameter set, with its records by kind."""

    def __init__(self) -> None:
        """A parameter set without records."""
        self.name = ""
        self.version = 1
        self.commodities: List[Commodity] = []
        self.contracts: List[Contract] = []
        self.tiers: List[Tier] = []
        self.intra_spreads: List[Spread] = []
        self.spots: List[Spot] = []
        self.inter_spreads: List[Spread] = []
        self.contract: Dict[str, Contract] = {}
        self.tiers_of: Dict[str, Dict[int, Tier]] = {}
        self.intra_spreads_of: Dict[str, List[Spread]] = {}
        self.spots_of: Dict[str, List[Spot]] = {}

    def index(self) -> None:
        """Put the records of an accepted set where the method looks for them. METHOD: "by priority, lowest number first"."""
        self.contract = {contract.name: contract for contract in self.contracts}
        by_priority = sorted(self.intra_spreads, key=lambda spread: spread.priority)
        self.inter_spreads = sorted(self.inter_spreads, key=lambda spread: spread.priority)
        for name in [commodity.name for commodity in self.commodities]:
            self.tiers_of[name] = {tier.number: tier for tier in self.tiers if tier.commodity == name}
            self.intra_spreads_of[name] = [spread for spread in by_priority if spread.commodity == name]
            self.spots_of[name] = [spot for spot in self.spots if spot.commodity == name]


# FORMATS, Parameter file: the forms and ranges of the fields.


class Form(NamedTuple):
    """FORMATS, Parameter file: what a field may be, the fault of a malformed one, and the test of its range."""

    pattern: Pattern[str]
    malformed: str
    in_range: Callable[[str], bool]


def word(pattern: str) -> Form:
    """FORMATS, P: a malformed name, currency, method, type or side is P5."""
    return Form(re.compile(pattern), "P5 BadName", lambda text: True)


def whole(low: int, high: int) -> Form:
    """FORMATS, P: a malformed whole number is P6, and one outside its range P7."""
    return Form(records.WHOLE_NUMBER, "P6 BadNumber", lambda text: low <= int(text) <= high)


def decimal(low: int, high: int) -> Form:
    """FORMATS, P: a malformed decimal is P6, and one outside its range P7. METHOD, Limits: the range is in 10^-4."""
    return Form(records.DECIMAL, "P6 BadNumber", lambda text: low <= Fraction(text) * 10000 <= high)


ANY_NAME = word(records.NAME.pattern)
SIDE = word("A|B")
MONTH = Form(records.MONTH, "P6 BadNumber", records.month_exists)
RATE = whole(0, limits.MAX_RATE)
TIER_NUMBER = whole(1, limits.MAX_TIER_NUMBER)
PRIORITY = whole(1, limits.MAX_PRIORITY)
ARRAY_VALUE = whole(-limits.MAX_ARRAY_VALUE, limits.MAX_ARRAY_VALUE)
RATIO = decimal(1, limits.MAX_RATIO)

FORMS: Dict[str, List[Form]] = {
    "SET": [ANY_NAME, whole(1, limits.MAX_PROFILE), word("[A-Z]{3}")],
    "COMMODITY": [ANY_NAME, RATE, word("SUM|MAX")],
    "CONTRACT": [ANY_NAME, ANY_NAME, word("F|C|P"), MONTH, decimal(-limits.MAX_DELTA, limits.MAX_DELTA), decimal(1, limits.MAX_SCALE)]
    + [ARRAY_VALUE] * limits.SCENARIOS,
    "TIER": [ANY_NAME, TIER_NUMBER, MONTH, MONTH],
    "INTRA": [ANY_NAME, PRIORITY, RATE],
    "SPOT": [ANY_NAME, MONTH, RATE, RATE],
    "INTER": [PRIORITY, whole(0, limits.MAX_BASIS_POINTS)],
}
LEG_FORMS: Dict[str, List[Form]] = {"INTRA": [TIER_NUMBER, SIDE, RATIO], "INTER": [ANY_NAME, SIDE, RATIO]}


def possible_forms(fields: List[str], version: int) -> List[List[Form]]:
    """FORMATS, Parameter file: the lists of forms that the fields after the kind may have, one for each number of fields.

    "INTRA and INTER: 2, 3 or 4 legs. CONTRACT: 23 fields under version 1, 24 under version 2. Value: 0 for a future."
    """
    kind = fields[0]
    forms = FORMS[kind]
    if kind in LEG_FORMS:
        return [forms + LEG_FORMS[kind] * legs for legs in range(limits.MIN_LEGS, limits.MAX_LEGS + 1)]
    if kind == "CONTRACT" and version == 2:
        return [forms + [whole(0, 0 if fields[3:4] == ["F"] else limits.MAX_OPTION_VALUE)]]
    return [forms]


# FORMATS, P: reading the parameter file.


def record_fault(number: int, fields: List[str], version: int) -> Optional[str]:
    """FORMATS, P: the lowest-numbered fault of P1 to P7 that the record has."""
    if number == 1 and fields[0] != "SET":
        return "P1 NoSet"
    if number > 1 and fields[0] == "SET":
        return "P2 SecondSet"
    if fields[0] not in FORMS:
        return "P3 UnknownKind"
    for forms in possible_forms(fields, version):
        if len(forms) == len(fields) - 1:
            return min(filter(None, map(field_fault, forms, fields[1:])), default=None)
    return "P4 FieldCount"


def field_fault(form: Form, field: str) -> Optional[str]:
    """FORMATS, P: P5 or P6 if the field is malformed, P7 if it is outside its range."""
    if not form.pattern.fullmatch(field):
        return form.malformed
    return None if form.in_range(field) else "P7 OutOfRange"


LIMITS_OF_FILE = {"COMMODITY": limits.MAX_COMMODITIES, "CONTRACT": limits.MAX_CONTRACTS, "INTER": limits.MAX_INTER_SPREADS}
LIMITS_OF_COMMODITY = {"TIER": limits.MAX_TIERS, "INTRA": limits.MAX_INTRA_SPREADS, "SPOT": limits.MAX_SPOT_MONTHS}
RECORD_LIMITS = {"SET": 1, **LIMITS_OF_FILE, **LIMITS_OF_COMMODITY}


def is_one_too_many(counts: Dict[Tuple[str, str], int], fields: List[str]) -> bool:
    """FORMATS, P: P8 is the fault of the first record over the limit, and of no later one.

    "The 129th COMMODITY, the 4097th CONTRACT and the 257th INTER of the file, and the 33rd TIER, the 65th INTRA and the 17th SPOT with the
    same cc. Repeated records, and those with an unknown cc, count. Records with one of P1 to P7 do not."
    """
    kind = fields[0]
    counted = (kind, fields[1] if kind in LIMITS_OF_COMMODITY else "")
    counts[counted] = counts.get(counted, 0) + 1
    return counts[counted] == RECORD_LIMITS[kind] + 1


def version_of(file: List[List[str]]) -> int:
    """FORMATS, All faults: "If the first record begins with `SET` and its third field is version 1 or 2, CONTRACT records are read under
    that version, even if this record has a fault. Otherwise they are read under version 1."
    """
    version_form = FORMS["SET"][1]
    if file and file[0][0] == "SET" and len(file[0]) > 2 and field_fault(version_form, file[0][2]) is None:
        return int(file[0][2])
    return 1


def read_parameters(text: str) -> Tuple[Parameters, List[Fault]]:
    """FORMATS, All faults: the parameter set, with P1 to P8 by record, or else C1 to C11 by rule and record."""
    parameters = Parameters()
    file = records.records_of(text)
    version = version_of(file)
    faults = [] if file else [Fault("P1 NoSet", 0)]
    counts: Dict[Tuple[str, str], int] = {}
    for number, fields in enumerate(file, 1):
        code = record_fault(number, fields, version)
        if code is None and is_one_too_many(counts, fields):
            code = "P8 TooMany"
        if code is None:
            add_record(parameters, number, fields)
        else:
            faults.append(Fault(code, number))
    if not faults:
        faults = [Fault(code, record) for code, rule in RULES for record in sorted(rule(parameters))]
    if not faults:
        parameters.index()
    return parameters, faults


def add_record(parameters: Parameters, number: int, fields: List[str]) -> None:
    """FORMATS, Parameter file: add a record without fault to the set."""
    kind, name, rest = fields[0], fields[1], fields[2:]
    if kind == "SET":
        parameters.name, parameters.version = name, int(rest[0])
    elif kind == "COMMODITY":
        parameters.commodities.append(Commodity(number, name, int(rest[0]), rest[1]))
    elif kind == "CONTRACT":
        values = [int(value) for value in rest[5:]] + [0]
        array, value = values[: limits.SCENARIOS], values[limits.SCENARIOS]
        delta, scale = Fraction(rest[3]), Fraction(rest[4])
        parameters.contracts.append(Contract(number, name, rest[0], rest[1], int(rest[2]), delta, scale, array, value))
    elif kind == "TIER":
        parameters.tiers.append(Tier(number, name, int(rest[0]), int(rest[1]), int(rest[2])))
    elif kind == "INTRA":
        legs = [Leg(name, int(tier), side, Fraction(ratio)) for tier, side, ratio in in_threes(rest[2:])]
        parameters.intra_spreads.append(Spread(number, name, int(rest[0]), int(rest[1]), legs))
    elif kind == "SPOT":
        parameters.spots.append(Spot(number, name, int(rest[0]), int(rest[1]), int(rest[2])))
    elif kind == "INTER":
        legs = [Leg(commodity, 0, side, Fraction(ratio)) for commodity, side, ratio in in_threes(rest[1:])]
        parameters.inter_spreads.append(Spread(number, "", int(name), int(rest[0]), legs))


def in_threes(fields: List[str]) -> Iterator[Tuple[str, str, str]]:
    """FORMATS, Parameter file: the fields of the legs, three for each leg."""
    return zip(fields[0::3], fields[1::3], fields[2::3])


# FORMATS, C: checking the parameter file. Each rule gives the numbers of the records that break it.


def repeated(keys: List[Tuple[int, Hashable]]) -> List[int]:
    """FORMATS, C: the records with the same key as an earlier one."""
    seen: Set[Hashable] = set()
    again: List[int] = []
    for record, key in sorted(keys, key=lambda pair: pair[0]):
        if key in seen:
            again.append(record)
        seen.add(key)
    return again


def duplicate_commodities(parameters: Parameters) -> List[int]:
    """FORMATS, C1: "a COMMODITY with the cc of an earlier one"."""
    return repeated([(commodity.record, commodity.name) for commodity in parameters.commodities])


def unknown_commodities(parameters: Parameters) -> Set[int]:
    """FORMATS, C2: "of a cc that no COMMODITY of the file has, earlier or later"."""
    known = {commodity.name for commodity in parameters.commodities}
    named = [(contract.record, contract.commodity) for contract in parameters.contracts]
    named += [(tier.record, tier.commodity) for tier in parameters.tiers]
    named += [(spot.record, spot.commodity) for spot in parameters.spots]
    named += [(spread.record, leg.commodity) for spread in parameters.intra_spreads + parameters.inter_spreads for leg in spread.legs]
    return {record for record, commodity in named if commodity not in known}


def duplicate_contracts(parameters: Parameters) -> List[int]:
    """FORMATS, C3: "a CONTRACT with the id of an earlier one"."""
    return repeated([(contract.record, contract.name) for contract in parameters.contracts])


def duplicate_tiers(parameters: Parameters) -> List[int]:
    """FORMATS, C4: "a TIER with the cc and number of an earlier one"."""
    return repeated([(tier.record, (tier.commodity, tier.number)) for tier in parameters.tiers])


def backwards_tiers(parameters: Parameters) -> List[int]:
    """FORMATS, C5: "a TIER whose first month is after its last"."""
    return [tier.record for tier in parameters.tiers if tier.first > tier.last]


def overlapping_tiers(parameters: Parameters) -> List[int]:
    """FORMATS, C6: "a TIER that shares a month with an earlier one of its cc". A backwards tier has no month to share."""
    earlier: Dict[str, List[Tier]] = {}
    overlapping: List[int] = []
    for tier in parameters.tiers:
        others = earlier.setdefault(tier.commodity, [])
        if any(max(tier.first, other.first) <= min(tier.last, other.last) for other in others):
            overlapping.append(tier.record)
        others.append(tier)
    return overlapping


def unknown_tiers(parameters: Parameters) -> Set[int]:
    """FORMATS, C7: "an INTRA with a tier that no TIER of its cc has"."""
    known = {(tier.commodity, tier.number) for tier in parameters.tiers}
    return {spread.record for spread in parameters.intra_spreads for leg in spread.legs if (leg.commodity, leg.tier) not in known}


def repeated_legs(parameters: Parameters) -> List[int]:
    """FORMATS, C8: "an INTRA with a tier twice on one side, or an INTER with a cc twice on any sides"."""
    legs = {spread.record: [(leg.tier, leg.side) for leg in spread.legs] for spread in parameters.intra_spreads}
    legs.update({spread.record: [(0, leg.commodity) for leg in spread.legs] for spread in parameters.inter_spreads})
    return [record for record in legs if len(set(legs[record])) < len(legs[record])]


def one_sided_spreads(parameters: Parameters) -> List[int]:
    """FORMATS, C9: "an INTRA or INTER without a leg on `A`, or without one on `B`"."""
    spreads = parameters.intra_spreads + parameters.inter_spreads
    return [spread.record for spread in spreads if {leg.side for leg in spread.legs} != {"A", "B"}]


def duplicate_priorities(parameters: Parameters) -> List[int]:
    """FORMATS, C10: "an INTRA with the cc and priority, or an INTER with the priority, of an earlier one"."""
    spreads = parameters.intra_spreads + parameters.inter_spreads
    return repeated([(spread.record, (spread.commodity, spread.priority)) for spread in spreads])


def duplicate_spots(parameters: Parameters) -> List[int]:
    """FORMATS, C11: "a SPOT with the cc and month of an earlier one"."""
    return repeated([(spot.record, (spot.commodity, spot.month)) for spot in parameters.spots])


RULES: List[Tuple[str, Callable[[Parameters], Iterable[int]]]] = [
    ("C1 DuplicateCommodity", duplicate_commodities),
    ("C2 UnknownCommodity", unknown_commodities),
    ("C3 DuplicateContract", duplicate_contracts),
    ("C4 DuplicateTier", duplicate_tiers),
    ("C5 TierBackwards", backwards_tiers),
    ("C6 TierOverlap", overlapping_tiers),
    ("C7 UnknownTier", unknown_tiers),
    ("C8 RepeatedLeg", repeated_legs),
    ("C9 OneSided", one_sided_spreads),
    ("C10 DuplicatePriority", duplicate_priorities),
    ("C11 DuplicateSpot", duplicate_spots),
]
