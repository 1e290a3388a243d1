"""What each position contributes to the margin of an account: attributions that were made before, which are checked against the lines."""
from __future__ import annotations

import json
import re
from typing import Any, Dict, Iterable, Mapping, Sequence, Type, Union

from span_margin._attribution import LESS_TOTAL, MEASURES, Attribution, Share
from span_margin._amounts import Amount, Money
from span_margin._answers import names_of
from span_margin.report._explanation import TYPES, Account, Explanation, Held, Rejected
from span_margin.report._markup import (
    Scale, Unit, bars, cell, effect, figure, heads, level, part, table, text,
)

MOST = 24  # positions that the waterfall shows one by one
Attributions = Union[bytes, Iterable[Attribution]]  # lines of JSON, or attributions

# --- Reading ---


def bytes_of(attributions: Attributions) -> bytes:
    """Attributions as lines of JSON."""
    return attributions if isinstance(attributions, bytes) else "".join(f"{it.to_json()}\n" for it in attributions).encode()


def taken(found: object, make: Any) -> Any:
    """A whole number as an amount or a number, or a text. A number may not be a bool, which is an int, too."""
    if type(found) is not (str if make is str else int):
        raise ValueError
    return make(found)


def maybe(found: object, make: Any) -> Any:
    return None if found is None else taken(found, make)


def amounts(found: Dict[object, object], amount: Type[Amount]) -> Dict[str, Amount]:
    return {taken(name, str): taken(digits, amount) for name, digits in found.items()}


def fields_of(found: Dict[str, Any], make: Any) -> Dict[str, Any]:
    """The fields of an object, which has exactly the fields of a class."""
    if set(found) != set(names_of(make)):
        raise ValueError
    return found


def share_of(data: Dict[str, Any], amount: Type[Amount]) -> Share:
    found = fields_of(data, Share)
    return Share(
        taken(found["contract"], str), taken(found["commodity"], str), taken(found["quantity"], int), taken(found["share"], amount),
        maybe(found["standard_error"], amount), taken(found["marginal"], amount), amounts(found["parts"], amount))


def attribution_of(line: bytes) -> Attribution:
    """The attribution of a line of JSON. Raises ValueError, TypeError, AttributeError or RecursionError if it is not one."""
    data = json.loads(line)
    currency = maybe(data.pop("currency", None), str)
    if currency is not None and not re.fullmatch("[A-Z]{3}", currency):
        raise ValueError
    found, amount = fields_of(data, Attribution), Money(currency).amount
    return Attribution(
        taken(found["account"], str), taken(found["set"], str), taken(found["of"], str), taken(found["amount"], amount),
        maybe(found["orders"], int), maybe(found["seed"], int), amounts(found["columns"], amount),
        tuple(share_of(it, amount) for it in found["shares"]))


def read_attributions(data: bytes, explanation: Explanation) -> Dict[str, Attribution]:
    """The attributions of lines of JSON by account. Raises Rejected if one is malformed, or does not agree with the explanation."""
    accounts = {account.name: account for account in explanation.accounts}
    found: Dict[str, Attribution] = {}
    for number, line in enumerate(data.split(b"\n")[:-1] if data.endswith(b"\n") or not data else [b""], 1):
        try:
            one = attribution_of(line)
        except (ValueError, TypeError, AttributeError, RecursionError):
            raise Rejected(f"line {number} of the file of attributions is malformed") from None
        reason = "is for an account that has an attribution" if one.account in found else contradiction(one, explanation, accounts)
        if reason:
            raise Rejected(f"line {number} of the file of attributions {reason}")
        found[one.account] = one
    return found


def contradiction(found: Attribution, explanation: Explanation, accounts: Mapping[str, Account]) -> str:
    """How an attribution does not agree with the explanation, or an empty text."""
    account = accounts.get(found.account)
    if account is None or found.set != explanation.set_id:
        return "is for an account or a set that the explanation does not have"
    if found.of not in MEASURES or getattr(account.total, found.of) is None:
        return "is neither of the total nor of a due that the explanation has"
    held = [(line.contract, each.name, int(line.net)) for each in account.commodities for line in each.held]
    if [(it.contract, it.commodity, it.quantity) for it in found.shares] != held:
        return "has other positions than the explanation"
    columns = {each.name: int(each.row.requirement) for each in account.commodities}
    if found.of == "due" and account.total.due is not None:
        columns[LESS_TOTAL] = int(account.total.due) - int(account.total.total)
    if found.columns != columns or found.amount != sum(columns.values()):
        return "has other requirements than the explanation"
    rows_agree = all(it.parts.keys() == columns.keys() and sum(it.parts.values()) == it.share for it in found.shares)
    if not rows_agree or any(sum(it.parts[name] for it in found.shares) != amount for name, amount in columns.items()):
        return "has shares that do not add up"
    is_exact = found.orders is None
    if (found.seed is None) != is_exact or any((it.standard_error is None) != is_exact for it in found.shares):
        return "is neither exact nor of random orders"
    return ""


# --- Drawing ---


def changed_cell(change: int, unit: Unit, name: str) -> str:
    """A cell with a change, in the colour of what it does. The plus sign is drawn, so it is not in text that is copied."""
    does = effect(change)
    return cell(unit.amount(str(change)), f'f {"plus " if does == "costs" else ""}{does}', name)


def rule(found: Attribution) -> str:
    """What a share is."""
    orders = "over all orders" if found.orders is None else f"over {found.orders} random orders (seed {found.seed})"
    error = "" if found.orders is None else " &plusmn; is the standard error of this mean."
    return (
        f"A share is what a position adds to the {found.of}, as a mean {orders} in which the positions could have been added (its Shapley "
        f"value), computed from figures that span printed.{error} The shares add up to the {found.of}. The last figure is how the "
        f"{found.of} changes if the position alone is closed.")


def share_cells(share: Share, unit: Unit) -> str:
    """The share of a position, its standard error if it has one, and what closing it changes."""
    error = "" if share.standard_error is None else f" <small>&plusmn;{unit.amount(str(share.standard_error))}</small>"
    return (
        f'<td class="f" data-l="share">{figure(unit.amount(str(share.share)))}{error}</td>'
        f'{changed_cell(share.marginal, unit, "if closed")}')


def contribution_row(name: str, quantity: str, cells_of_share: str, begin: int, share: int, scale: Scale) -> str:
    drawn = bars(level(scale, begin), scale.bar(effect(share), float(begin), float(begin + share)))
    held = cell(quantity, "f", "quantity") if quantity else "<td></td>"
    return f'<tr><th scope="row">{name}</th>{held}{cells_of_share}{drawn}</tr>'


def contributions(found: Attribution, unit: Unit) -> str:
    """A waterfall of shares, the largest first. Each bar begins where the bar above it ends. Of many shares, the small ones are one row."""
    ranked = sorted(found.shares, key=lambda it: -it.share)
    shown = ranked if len(ranked) <= MOST else sorted(sorted(ranked, key=lambda it: -abs(it.share))[:MOST], key=lambda it: -it.share)
    others = found.amount - sum(it.share for it in shown)
    levels = [0]
    for share in (*(it.share for it in shown), others):
        levels.append(levels[-1] + int(share))
    scale = Scale(map(float, levels))
    rows = [
        contribution_row(text(it.contract), str(it.quantity), share_cells(it, unit), begin, it.share, scale)
        for it, begin in zip(shown, levels)
    ]
    if len(ranked) > MOST:
        sum_cell = cell(unit.amount(str(others)), "f", "share") + "<td></td>"
        rows.append(contribution_row(f"{len(ranked) - MOST} other positions", "", sum_cell, levels[-2], others, scale))
    total = bars(level(scale, int(found.amount)), scale.bar("total", 0.0, float(found.amount)))
    rows.append(
        f'<tr class="sum"><th scope="row">{found.of.capitalize()}</th><td></td>{cell(unit.amount(str(found.amount)), "f", "share")}'
        f"<td></td>{total}</tr>")
    head = heads("Position", ">quantity", ">share", ">if closed", "")
    return part(f"What each position contributes to the {found.of}", table("contributions folds", head, rows), rule(found))


def shared_holdings(title: str, held: Sequence[Held], found: Attribution, unit: Unit) -> str:
    """The holdings of a commodity with their shares."""
    shares = {it.contract: it for it in found.shares}

    def row(line: Held) -> str:
        values = "" if line.value is None else cell(unit.amount(line.value), "f", "value")
        return (
            f'<tr><th scope="row">{text(line.contract)}</th><td>{TYPES[line.kind]}</td><td>{line.month}</td>'
            f'{cell(line.net, "f", "net quantity")}{values}{share_cells(shares[line.contract], unit)}</tr>')

    names = ["Contract", "type", "month", ">net quantity", *([] if held[0].value is None else [">value"]), ">share", ">if closed"]
    return part(title, table("holdings shared folds", heads(*names), map(row, held)))

