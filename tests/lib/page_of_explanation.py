"""The figures of a page of an explanation, for tests. The lines of the explanation are put together again from the cells of the page. Bars,
sums and shares are compared with the lines.
"""
import collections
import csv
import re
import urllib.parse
from decimal import Decimal

from lib.page_tree import bar, bars_are, cells, facts, gaps_are, near, rows

TYPES = {"future": "F", "call": "C", "put": "P"}
# The scenarios by price move, with volatility up and down. The extreme moves have one scenario each (docs/METHOD.md).
SCENARIOS = {
    "Extreme down": [16],
    "Down the whole range": [13, 14],
    "Down two thirds": [9, 10],
    "Down one third": [5, 6],
    "Unchanged": [1, 2],
    "Up one third": [3, 4],
    "Up two thirds": [7, 8],
    "Up the whole range": [11, 12],
    "Extreme up": [15],
}


def sums_of(article):
    found = {}
    for row, (price, numbers) in zip(rows(article, "sums"), SCENARIOS.items()):
        assert row.one("th").text() == price, f"the row {price}"
        assert [int(small.text()) for small in row.all("small")] == numbers, f"the scenarios of {price}"
        found.update(zip(numbers, (figure.text() for figure in row.all("b"))))
    assert sorted(found) == list(range(1, 17)), "not sixteen scenarios"
    return [found[number] for number in range(1, 17)]


# --- Pictures ---

def made_of(row):
    """The parts of the requirement of an R line: scan, calendar, delivery, the amount that the minimum adds, credit."""
    scan, _, calendar, delivery, credit, _, requirement = map(Decimal, row)
    return [scan, calendar, delivery, requirement - (scan + calendar + delivery - credit), credit]


def made_of_all(rows_of):
    """The same, summed over R lines."""
    return [sum(column) for column in zip(*map(made_of, rows_of))] or [Decimal()] * 5


def layers(cell):
    """The widths of the layers of a cell's background, in percent."""
    style = cell.attributes["style"]
    assert re.fullmatch(r"background-size:[0-9.]+% [0-9.]+(rem|%)(,[0-9.]+% [0-9.]+%)*", style), style
    return [float(width) for width in re.findall(r"[:,]([0-9.]+)%", style)]


def made_is(row, parts):
    """Checks the bar of an account: the sums of the charges, each drawn over the next one, and below them the total over the credit."""
    *asked, credit = map(float, parts)
    whole = sum(asked)
    ends = [*(sum(asked[:at]) for at in range(1, 5)), whole - credit, whole]
    cell = row.one("td", "made")
    drawn = layers(cell)
    assert len(drawn) == 6 and all(near(width, end / (whole or 1.0) * 100) for width, end in zip(drawn, ends)), "the bar of an account"
    said = [words.rsplit(" ", 1) for words in cell.attributes["title"].split(", ")]
    assert [name for name, _ in said] == ["scan risk", "calendar", "delivery", "minimum adds", "credit"], said
    assert [Decimal(amount) for _, amount in said] == parts, "the amounts that the bar says"


def share_is(row, amount, largest, whole):
    """Checks a share in percent with one decimal, and its bar on the scale of the largest."""
    cell = row.one("td", "share")
    found = Decimal(cell.one("b").text())
    assert abs(found - (100 * amount / whole if whole else 0)) <= Decimal("0.0500001"), f"the share {found}"
    width, = layers(cell)
    assert near(width, float(100 * amount / largest if largest else 0)), "the bar of a share"


def waterfall_is(article, row):
    """Checks that each bar begins at the end of the bar before it."""
    scan, _, calendar, delivery, credit, minimum, requirement = map(float, row)
    asked = scan + calendar + delivery
    drawn = rows(article, "waterfall") + rows(article, "waterfall", "tfoot")
    found = [bar(each, kind) for each, kind in zip(drawn, ("scan", "calendar", "delivery", "credit", "minimum", "total"))]
    bars_are(found, [(0, scan), (scan, scan + calendar), (scan + calendar, asked), (asked - credit, asked), (0, minimum), (0, requirement)])


def months_are(article):
    found, amounts = [], []
    for row in rows(article, "months"):
        for kind, digits in zip(("before", "after"), cells(row)[1:3]):
            found.append(bar(row, kind))
            amounts.append((0.0, float(digits)))
    bars_are(found, amounts)


POWERS = {"": 0, "thousands": 3, "millions": 6, "billions": 9, "trillions": 12, "quadrillions": 15, "quintillions": 18}


def labels_are(article, values, points, size):
    """Checks that the labels of amounts are at the right heights, and that there are at least two if there is more than one amount."""
    said = next(span.text() for span in article.one("p", "legend").all("span") if span.text().startswith("losses upward"))
    power = POWERS[said[len("losses upward, in "):]]
    labels = list(article.all("text", "amount"))
    assert len(labels) >= (2 if size else 0), "the labels of amounts"
    for label in labels:
        fall = (values[1] - float(label.text()) * 10 ** power) / (size or 1.0) * 150
        assert abs(float(label.attributes["y"]) - 4 - points[1][1] - fall) <= 0.11, f"the height of the label {label.text()}"


def picture_is(article, sums, active):
    """Checks the points of the sixteen sums: one column per price move, larger losses are higher, the ring is on the active scenario."""
    places = {number: place for place, numbers in enumerate(SCENARIOS.values()) for number in numbers}
    found = {}
    for kind, numbers in (("up", range(1, 15, 2)), ("down", range(2, 15, 2)), ("extreme", (15, 16))):
        path = next(path for path in article.all("path", kind) if "dots" in path.classes())
        points = [tuple(map(float, point.split())) for point in re.findall(r"M([-\d. ]+)h0", path.attributes["d"])]
        assert len(points) == len(numbers), f"the points of {kind}"
        found.update(zip(sorted(numbers, key=places.get), sorted(points)))
    columns = sorted({point[0] for point in found.values()})
    assert all(columns.index(found[number][0]) == place for number, place in places.items()), "the columns"
    values = {number: float(sums[number - 1]) for number in found}
    size = max(0.0, *values.values()) - min(0.0, *values.values())
    for number, point in found.items():
        for other in found:
            fall = (values[number] - values[other]) / (size or 1.0) * 150
            assert abs(found[other][1] - point[1] - fall) <= 0.11, f"the heights of {number} and {other}"
    labels_are(article, values, found, size)
    ring = article.one("circle").attributes
    assert (float(ring["cx"]), float(ring["cy"])) == found[active], "the ring"


# --- The lines of a page ---

def charge(article, kind, expected):
    """Checks that the last row of a table, if there is one, has the rounded charge of the R line."""
    for row in rows(article, kind, "tfoot"):
        assert cells(row)[-1] == expected, f"the charge below {kind}"


def reasons(article, row, partners):
    """The lines of a commodity without account, set and commodity: the word and the other fields."""
    said = facts(article)
    lines = [["HELD", each[0], TYPES[each[1]], *each[2:]] for each in map(cells, rows(article, "holdings"))]
    lines.append(["SUMS", *sums_of(article)])
    lines.append(["SCAN", said["scan risk"], said["active"], said["paired"], said["price risk"]])
    lines += [["MONTH", *cells(each)[:3]] for each in rows(article, "months")]
    lines += [["INTRA", *cells(each)] for each in rows(article, "spreads")]
    lines += [["SPOT", *cells(each)] for each in rows(article, "delivery")]
    for each in map(cells, rows(article, "credits")):
        lines.append(["INTER", *each[1:]])
        partners.append((each[1], each[2], each[0].split()))
    lines.append(["CREDIT", said["price risk"], said["net delta"], said["weight"]])
    lines.append(["SHORT", said["short calls"], said["short puts"], said["counted by"], said["rate"]])
    charge(article, "spreads", row[2])
    charge(article, "delivery", row[3])
    fall = [cells(each)[1] for part in ("tbody", "tfoot") for each in rows(article, "waterfall", part)]
    assert fall == [row[0], *row[2:]], "the waterfall is not the R line"
    assert said["credit, rounded down"] == row[4] and said["minimum"] == row[5], "credit and minimum differ from the R line"
    waterfall_is(article, row)
    months_are(article)
    picture_is(article, lines[[line[0] for line in lines].index("SUMS")][1:], int(row[1]))
    active = list(article.all("td", "active"))
    assert len(active) == 1 and active[0].one("small").text() == row[1], "the active scenario is marked"
    assert f"active is {row[1]}" in article.one("svg").attributes["aria-label"], "the picture has the active scenario"
    return lines


def account_lines(section, set_id, has_values):
    """All lines of an account's section, as the program prints them."""
    name = section.one("h2").text()
    lines, partners = [], {}
    table = {cells(row)[0]: cells(row)[1:] for row in rows(section, "statement")}
    articles = list(section.all("article"))
    assert len(articles) == len(table), "a row for each commodity"
    for article, (commodity, row) in zip(articles, table.items()):
        assert next(article.all("h3")).one("a").text() == commodity, "commodities are in the order of the table"
        head = [name, set_id, commodity]
        for word, *fields in reasons(article, row, partners.setdefault(commodity, [])):
            lines.append(",".join([word, *head, *fields]))
        lines.append(",".join(["R", *head, *row]))
    for commodity, found in partners.items():
        for priority, side, names in found:
            others = [other for other, lines_of in partners.items() if other != commodity
                      and any(line[:2] == (priority, side) for line in lines_of)]
            assert names == others and names, "a credit comes from the commodities of the same spread"
    said = facts(section.one("header"))
    figures = [said[each] for each in ("total", "option value", "due", "excess") if each in said]
    assert len(figures) == (4 if has_values else 1), "the figures of a T line"
    assert all(cells(row)[-1] == figures[0] for row in rows(section, "statement", "tfoot")), "the total below the table"
    return lines + [",".join(["T", name, set_id, *figures])]


def explanation_of(root):
    """The lines of each account that a page shows."""
    said = facts(root.one("header", "top"))
    has_values = "sum of dues" in said
    return {section.one("h2").text(): account_lines(section, said["set"], has_values) for section in root.all("section", "account")}


def by_account(text):
    found = collections.OrderedDict()
    for line in text.splitlines():
        found.setdefault(line.split(",")[1], []).append(line)
    return found


def lines_are(root, explained):
    """Checks that a page has the lines of an explanation, and returns them by account."""
    shown, expected = explanation_of(root), by_account(explained)
    assert shown == expected, next(f"{shown.get(name)} for {lines}" for name, lines in expected.items() if shown.get(name) != lines)
    return shown


def order_lines(root, set_id):
    """The lines of each order of a page, by name."""
    found = {}
    for body in root.one("table", "orders").all("tbody"):
        first, *changed = [cells(row) for row in body.all("tr")]
        name, account = first[:2]
        lines = [",".join(["CHANGE", name, account, set_id, *row[1:5]]) for row in changed]
        *figures, effect, _ = first[2:]
        found[name] = lines + [",".join(["ORDER", name, account, set_id, *figures])]
        assert effect == ("frees" if figures[-1][0] == "-" else "same" if figures[-1] == "0" else "costs"), "what an order does"
    return found


# --- The list, the sums and the top of a page ---

def rank(figures):
    """The figure by which accounts are sorted: the amount due, or the total if no amount is due."""
    return Decimal(figures[2] if len(figures) == 4 else figures[0])


def requirements_of(statement):
    """The figures of the R lines of a statement, by account and commodity."""
    return {tuple(line.split(",")[1:4:2]): line.split(",")[4:] for line in statement.splitlines() if line[0] == "R"}


def list_is(root, statement):
    """Checks that the list has all accounts, with details or without, the largest first, and that its CSV has the same figures."""
    totals = {line.split(",")[1]: line.split(",")[3:] for line in statement.splitlines() if line[0] == "T"}
    requirements = requirements_of(statement)
    drawn = rows(root, "accounts")
    listed = {row.one("th").text(): [cell.text() for cell in row.all("td", "f")] for row in drawn}
    assert listed == totals and len(drawn) == len(totals), "the table of accounts"
    order = [(rank(figures), Decimal(figures[0])) for figures in listed.values()]
    assert order == sorted(order, reverse=True), "the largest come first"
    detailed = [section.one("h2").text() for section in root.all("section", "account")]
    assert detailed == list(listed)[:len(detailed)], "the largest have details, in the order of the table"
    linked = [row.one("th").text() for row in drawn if any(True for _ in row.one("th").all("a"))]
    assert linked == detailed, "accounts with details have links"
    whole = sum(map(rank, totals.values()))
    parts_of = {}
    for (account, _), figures in requirements.items():
        parts_of.setdefault(account, []).append(figures)
    for row, (name, figures) in zip(drawn, listed.items()):
        share_is(row, rank(figures), order[0][0], whole)
        made_is(row, made_of_all(parts_of.get(name, [])))
    saved = root.one("a", "csv").attributes
    kind, _, data = saved["href"].partition(",")
    assert (kind, saved["download"]) == ("data:text/csv;charset=utf-8", "accounts.csv"), "the link of the list"
    head, *lines = csv.reader(urllib.parse.unquote(data).splitlines())
    columns = ["total", "option value", "due", "excess"][:len(figures)]
    assert head == ["account", "set", *columns, "scan risk", "calendar", "delivery", "minimum adds", "credit"], head
    assert [line[0] for line in lines] == list(listed) and len({line[1] for line in lines}) == 1, "the accounts of the CSV"
    for name, _, *numbers in lines:
        assert numbers[:len(columns)] == totals[name], "the totals of the CSV"
        assert list(map(Decimal, numbers[len(columns):])) == made_of_all(parts_of.get(name, [])), "the parts of the CSV"
    return listed


def house_is(root, statement):
    """Checks that the table by commodity has the sums of the R lines, the largest first. A page of one account has no such table."""
    requirements = requirements_of(statement)
    by_commodity = {}
    for (_, commodity), figures in requirements.items():
        by_commodity.setdefault(commodity, []).append(figures)
    tables = list(root.all("table", "commodities"))
    if len(by_account(statement)) == 1 or not by_commodity:
        assert not tables, "a table by commodity"
        return
    sums = {name: sum(Decimal(row[-1]) for row in found) for name, found in by_commodity.items()}
    drawn = rows(root, "commodities")
    listed = {row.one("th").text(): [Decimal(cell.text()) for cell in row.all("td", "f")] for row in drawn}
    assert listed == {name: [len(found), *made_of_all(found), sums[name]] for name, found in by_commodity.items()}, "the sums by commodity"
    assert [listed[name][-1] for name in listed] == sorted(sums.values(), reverse=True), "the largest commodity comes first"
    for row, (name, figures) in zip(drawn, listed.items()):
        *asked, credit, requirement = figures[1:]
        assert sum(asked) - credit == requirement, "the parts add up"
        share_is(row, sums[name], max(sums.values()), sum(sums.values()))
    foot, = rows(root, "commodities", "tfoot")
    assert list(map(Decimal, cells(foot)[1:-1])) == [*made_of_all(requirements.values()), sum(sums.values())], "the sums of all"


def top_is(root, listed):
    """Checks that the top of the page has the number of accounts, their sums and the largest account."""
    said = facts(root.one("header", "top"))
    assert said["accounts"] == str(len(listed)), "the number of accounts"
    totals = list(listed.values())
    assert Decimal(said["sum of totals"]) == sum(Decimal(figures[0]) for figures in totals), "the sum of totals"
    whole = sum(map(rank, totals))
    assert "sum of dues" not in said or Decimal(said["sum of dues"]) == whole, "the sum of dues"
    name, figures = next(iter(listed.items()))
    amount, first, *share = said["the largest"].split()
    assert (Decimal(amount), first.rstrip(",")) == (rank(figures), name), "the largest"
    assert not share or share[1:] == ["%", "of", "all"] and abs(Decimal(share[0]) - 100 * rank(figures) / whole) <= Decimal("0.0500001")


def around_is(root, statement):
    """Checks that the list, the sums and the top of a page have the figures of a statement."""
    listed = list_is(root, statement)
    house_is(root, statement)
    top_is(root, listed)
    gaps_are(root)
