"""The page of an explanation."""
from __future__ import annotations

from typing import List, Mapping, Optional, Sequence, Tuple

from span_margin._attribution import Attribution
from span_margin.report._details import account_part
from span_margin.report._document import Heading, data, document, top_part
from span_margin.report._explanation import Account, Explanation
from span_margin.report._lists import accounts_part, commodities_part, orders_part
from span_margin.report._markup import Unit, anchor, figure, link, percent, text
from span_margin.report._orders import Order
from span_margin.report._scenarios import axis


FOOT = """<p><strong>This page is not proved.</strong> The program span, which printed the lines, is proved. span-report made this page of
the lines of span explain, and checked that their figures agree. Every figure has all digits of its line. Sums of totals and dues, figures
by commodity and parts of bars are computed here, exactly. Shares are rounded, and pictures are only as exact as the eye can see.</p>
<p>Amounts are in {unit}; charges and price risk are exact, with the fraction that they have. A click on a figure selects it.</p>"""


def account_facts(explanation: Explanation, ranked: Sequence[Account], unit: Unit) -> List[Tuple[str, str]]:
    """What the top of the page says of all accounts."""
    largest, whole = ranked[0], sum(account.size() for account in ranked)
    sums = [("sum of totals", sum(int(account.total.total) for account in ranked))]
    if explanation.has_values():
        sums.append(("sum of dues", whole))
    share = f", {percent(largest.size(), whole)} % of all" if len(ranked) > 1 and whole else ""
    return [
        ("accounts", figure(str(len(ranked)))),
        *((name, figure(unit.amount(str(amount)))) for name, amount in sums),
        ("the largest", f"{figure(unit.amount(str(largest.size())))} <small>{link(largest.name, anchor(largest.name))}{share}</small>"),
    ]


def page_of_explanation(
    explanation: Explanation, orders: Optional[Sequence[Order]], top: int, heading: Heading,
    attributions: Optional[Mapping[str, Attribution]] = None,
) -> str:
    """The page of an explanation, with orders and with attributions by account if there are any."""
    ranked, unit = explanation.ranked(), heading.unit
    shown = ranked[:top]
    parts = [axis()]
    if len(ranked) > 1 and any(account.commodities for account in ranked):
        parts.append(commodities_part(ranked, unit))
    parts.append(accounts_part(explanation, ranked, top, unit))
    if orders is not None:
        parts.append(orders_part(explanation, orders, top, frozenset(account.name for account in shown), unit))
    shares = attributions or {}
    parts += [account_part(account, unit, shares.get(account.name)) for account in shown]
    facts_of = account_facts(explanation, ranked, unit)
    top_of_page = top_part(heading, "Margin, with the reasons for it", facts_of)
    return document(heading, top_of_page, parts, FOOT.format(unit=text(unit.name)), data("shares.css") if shares else "")
