"""The figures of a page of two explanations, for tests. All figures are figures of the lines or their differences. The steps of a
requirement add up to its change, and the changes of requirements to the change of the total.
"""
import collections
import csv
import fractions
import re
import urllib.parse

from lib.page_of_explanation import SCENARIOS, TYPES
from lib.page_tree import bar, bars_are, cells, facts, rows

NO_FIGURE = ""  # a figure that one of the two explanations lacks; the page draws a dash
STEPS = ("scan risk", "calendar spreads", "delivery", "credit", "what the minimum adds")
CHANGE = ("before", "after", "change")
# Names of figures on a page, and the fields of lines that have them. {0} and {1} in a name are fields too. FORMED are figures that follow
# from positions and set.
FORMED = {
    "SCAN": {"price risk": 3},
    "MONTH": {"month {0}: delta": 1, "month {0}: left by spreads": 2},
    "INTRA": {"calendar spread {0}, {1} long: spreads": 2, "calendar spread {0}, {1} long: charge": 4},
    "SPOT": {"delivery {0}: used by spreads": 1, "delivery {0}: charge": 5},
    "INTER": {"credit {0}{with}, {1} long: spreads": 2, "credit {0}{with}, {1} long: delta used": 3},
    "CREDIT": {"net delta": 1, "weight of credits": 2},
    "SHORT": {"short calls": 0, "short puts": 1},
    "R": {"short option minimum": 5},
}
RATES = {
    "INTRA": {"calendar spread {0}: rate": 3},
    "SPOT": {"delivery {0}: spread rate": 2, "delivery {0}: outright rate": 4},
    "INTER": {"credit {0}{with}: basis points": 4},
    "SHORT": {"short options: rate": 3, "short options: counted by": 2},
}
NO_COUNTS = ("rate", "charge", "price risk", "minimum")  # the names of amounts end with these


def number(text):
    """The exact value of a figure of a page or a line. A missing figure counts as 0."""
    return fractions.Fraction(text) if text not in (NO_FIGURE, None) else fractions.Fraction(0)


class Lines:
    """The lines of an account in one explanation: the fields of each record word by commodity, and the figures of the T line."""

    def __init__(self):
        self.total, self.commodities = None, {}

    def fields(self, commodity, word):
        return self.commodities.get(commodity, {}).get(word, [])

    def row(self, commodity):
        """The R line: scan risk, active scenario, calendar, delivery, credit, minimum, requirement."""
        return (self.fields(commodity, "R") or [None])[0]


def lines_by_account(text):
    found = collections.defaultdict(Lines)
    for line in text.splitlines():
        word, account, _, *rest = line.split(",")
        if word == "T":
            found[account].total = rest
        else:
            found[account].commodities.setdefault(rest[0], {}).setdefault(word, []).append(rest[1:])
    return found


def changes_are(found, before, after, scale=1):
    """Checks three cells: a figure before, after, and their difference. If an explanation lacks the figure, its cell is empty."""
    assert [each == NO_FIGURE for each in found[:2]] == [before is None, after is None], f"{found} of {before} and {after}"
    expected = [number(before), number(after), number(after) - number(before)]
    assert [number(each) * scale for each in found] == expected, f"{found} of {before} and {after}"


# --- A commodity ---

def parts_of_row(row):
    """The amounts whose sum is a requirement. What the minimum adds is computed from the rule of the requirement, not from its figure."""
    if row is None:
        return [0] * 5
    scan, calendar, delivery, credit, minimum = (int(row[at]) for at in (0, 2, 3, 4, 5))
    risk = scan + calendar + delivery - credit
    return [scan, calendar, delivery, -credit, max(0, minimum - risk)]


def steps_are(article, old, new, scale):
    """Checks the waterfall: the steps add up from the requirement before to the one after, and each bar begins at the end of the last
    one."""
    drawn = rows(article, "steps")
    begin, *steps, end = map(cells, drawn)
    before, after = (int(row[6]) if row else 0 for row in (old, new))
    assert begin[:1] + end[:1] == ["Requirement before", "Requirement after"], "the ends of the waterfall"
    assert number(begin[1]) * scale == before and number(end[2]) * scale == after, "the requirements at its ends"
    assert number(begin[1]) + sum(number(step[3]) for step in steps) == number(end[2]), "the steps add up"
    assert number(end[2]) - number(begin[1]) == number(end[3]), "the change of the requirement"
    levels = [before]
    for step, one, other in zip(steps, parts_of_row(old), parts_of_row(new)):
        taken_off = "credit" in step[0]
        shown = [number(each) * scale for each in step[1:4]]
        assert shown == [-one if taken_off else one, -other if taken_off else other, other - one], step
        levels.append(levels[-1] + other - one)
    found = [bar(drawn[0], "minimum"), bar(drawn[-1], "total")]
    found += [bar(row, "costs") or bar(row, "frees") for row in drawn[1:-1]]
    bars_are(found, [(0, before), (0, after), *zip(levels, levels[1:])])


def curves_are(article, sums, active):
    """Checks the sums of both explanations as points and lines, and the rings on their active scenarios."""
    places = {each: place for place, numbers in enumerate(SCENARIOS.values()) for each in numbers}
    found, values = {}, {}
    for kind, of in sums.items():
        lines = {name: [] for name in ("up", "down", "dots")}
        for path in article.all("path", kind):
            name = "dots" if "dots" in path.classes() else "down" if "dashed" in path.classes() else "up"
            lines[name] = re.findall(r"[-\d.]+ [-\d.]+", path.attributes["d"])
        assert len(lines["dots"]) == 16, "sixteen points"
        inner = list(SCENARIOS.values())[1:-1]
        assert [lines["up"], lines["down"]] == [[lines["dots"][each[way] - 1] for each in inner] for way in (0, 1)], "the lines"
        for at, point in enumerate(lines["dots"], 1):
            found[kind, at], values[kind, at] = tuple(map(float, point.split())), float(of[at - 1])
        ring = article.one("circle", kind).attributes
        assert (float(ring["cx"]), float(ring["cy"])) == found[kind, active[kind]], "the ring"
    columns = sorted({point[0] for point in found.values()})
    assert all(columns.index(point[0]) == places[at] for (_, at), point in found.items()), "the columns"
    size = max(0.0, *values.values()) - min(0.0, *values.values())
    first = next(iter(found))
    for key, point in found.items():
        fall = (values[first] - values[key]) / (size or 1.0) * 150
        assert abs(point[1] - found[first][1] - fall) <= 0.11, f"the height of {key}"


def sums_table_is(article, sums, active, scale):
    drawn = rows(article, "sums")
    assert len(drawn) == 16, "sixteen rows"
    for at, row in enumerate(drawn):
        changes_are(cells(row)[1:], *(sums[kind][at] if kind in sums else None for kind in ("was", "now")), scale)
        marks = [mark.text() for mark in row.all("small", "active")]
        names = [name for kind, name in (("was", "before"), ("now", "after")) if active.get(kind) == at + 1]
        assert marks == ([f"active {' and '.join(names)}"] if names else []), f"the active scenarios, {marks}"


def partners_of(pair, commodity, spread):
    """The other commodities of a spread with this priority and long side, as a page shows them."""
    names = [name for lines in pair for name in lines.commodities if any(each[:2] == spread for each in lines.fields(name, "INTER"))]
    others = [name for name in dict.fromkeys(names) if name != commodity]
    return " with " + " ".join(others) if others else ""


def named_fields(pair, commodity, names):
    """The fields of a commodity's lines before and after, by their names on a page."""
    found = [], []
    for of, lines in zip(found, pair):
        for word, fields_of in names.items():
            for fields in lines.fields(commodity, word):
                partners = partners_of(pair, commodity, fields[:2]) if word == "INTER" else ""
                of += ((name.format(*fields, **{"with": partners}), fields[at]) for name, at in fields_of.items())
    return [dict(of) for of in found]


def moved_is(article, kind, old, new, scale):
    """Checks that a table has exactly the figures that differ between the two explanations."""
    found = {cells(row)[0]: cells(row)[1:] for row in rows(article, kind)}
    differ = {name for name in {**old, **new} if old.get(name) != new.get(name)
              and (not is_number(old.get(name)) or number(old.get(name)) != number(new.get(name)))}
    assert found.keys() == differ, f"{kind}: {sorted(found.keys() ^ differ)}"
    for name, shown in found.items():
        if is_number(old.get(name)):
            changes_are(shown, old.get(name), new.get(name), scale if name.endswith(NO_COUNTS) else 1)
        else:
            assert shown == [old[name], new[name], ""], name


def is_number(text):
    return text is None or re.fullmatch(r"-?[0-9.]+", text)


def nets(lines, commodity, month=None):
    return {fields[0]: fields[3] for fields in lines.fields(commodity, "HELD") if month in (None, fields[2])}


def rates_are(article, old, new, commodity, is_one_set, scale):
    """Checks the rates that both explanations show, the deltas of months with unchanged positions, and the text about arrays."""
    before, after = named_fields((old, new), commodity, RATES)
    for lines, found in ((old, before), (new, after)):
        found.update((f"month {month}: delta, same positions", delta) for month, delta, _ in lines.fields(commodity, "MONTH")
                     if nets(old, commodity, month) == nets(new, commodity, month))
    both = before.keys() & after.keys()
    moved_is(article, "rates", {name: before[name] for name in both}, {name: after[name] for name in both}, scale)
    page_text = article.text()
    sums = [lines.fields(commodity, "SUMS")[0] for lines in (old, new)]
    moved = sum(one != other for one, other in zip(*sums))
    if nets(old, commodity) == nets(new, commodity):
        words = f"{moved} of the sixteen sums changed: the risk arrays changed" if moved else "All sixteen sums are the same"
    elif moved:
        words = "only the positions changed the sums" if is_one_set else "do not show whether the risk arrays changed"
    else:
        words = "All sixteen sums are the same"
    assert words in page_text, f"it does not say that {words}"


def positions_are(article, old, new, commodity, scale):
    """Checks the positions that were opened, closed or changed, or whose value changed. All others are counted."""
    held = [{fields[0]: fields[1:] for fields in lines.fields(commodity, "HELD")} for lines in (old, new)]
    valued = all(len(fields) == 4 for of in held for fields in of.values())
    found, same = {cells(row)[0]: cells(row)[1:] for row in rows(article, "positions")}, 0
    for contract in {**held[0], **held[1]}:
        before, after = (of.get(contract) for of in held)
        kept = 4 if valued else 3
        if before and after and before[2:kept] == after[2:kept]:
            assert contract not in found, f"{contract} is the same"
            same += 1
            continue
        word, kind, month, *figures = found.pop(contract)
        expected = "opened" if not before else "closed" if not after else "changed" if before[2] != after[2] else "value"
        assert word == expected and [TYPES[kind], month] == (after or before)[:2], contract
        changes_are(figures[:3], *(of[2] if of else None for of in (before, after)))
        if valued:
            changes_are(figures[3:], *(of[3] if of else None for of in (before, after)), scale)
        assert len(figures) == (6 if valued else 3), "the figures of a position"
    assert not found, f"other positions, {found}"
    assert same == 0 or f"Unchanged: {same} position" in article.text(), "the number of unchanged positions"


def commodity_is(article, old, new, commodity, is_one_set, scale):
    both = [(kind, lines) for kind, lines in (("was", old), ("now", new)) if commodity in lines.commodities]
    sums = {kind: lines.fields(commodity, "SUMS")[0] for kind, lines in both}
    active = {kind: int(lines.row(commodity)[1]) for kind, lines in both}
    steps_are(article, old.row(commodity), new.row(commodity), scale)
    curves_are(article, sums, active)
    sums_table_is(article, sums, active, scale)
    moved_is(article, "formed", *named_fields((old, new), commodity, FORMED), scale)
    positions_are(article, old, new, commodity, scale)
    if len(both) == 2:
        rates_are(article, old, new, commodity, is_one_set, scale)


# --- An account ---

def requirements_are(section, old, new, scale):
    """Checks the table of an account: each row adds up to the change of a requirement, and all rows add up to the change of the total."""
    *each, last = map(cells, rows(section, "changes"))
    assert [row[0] for row in each] == list({**old.commodities, **new.commodities}), "the commodities"
    for name, *figures in each:
        before, after = (row[6] if row else None for row in (old.row(name), new.row(name)))
        changes_are(figures[:3], before, after, scale)
        parts = [parts_of_row(lines.row(name)) for lines in (old, new)]
        assert [number(step) * scale for step in figures[3:]] == [other - one for one, other in zip(*parts)], name
        assert sum(map(number, figures[3:])) == number(figures[2]), f"the steps of {name} add up"
    changes_are(last[1:4], *(lines.total[0] if lines.total else None for lines in (old, new)), scale)
    for at in range(1, len(last)):
        assert number(last[at]) == sum(number(row[at]) for row in each), f"column {at} adds up"
    assert sum(map(number, last[4:])) == number(last[3]), "the steps of the total add up"


TOTAL_NAMES = ("total", "option value", "due", "excess")


def total_changes(old, new):
    """The figures of T lines that can be compared, before and after."""
    given = [lines.total for lines in (old, new) if lines.total]
    return {name: tuple(lines.total[at] if lines.total else None for lines in (old, new))
            for at, name in enumerate(TOTAL_NAMES) if all(at < len(total) for total in given)}


def three_figures(words):
    """The figures of `BEFORE to AFTER CHANGE`."""
    before, _, after, change = words.split()
    return [before.replace("none", NO_FIGURE), after.replace("none", NO_FIGURE), change]


def is_changed(old, new):
    if not (old.total and new.total):
        return bool(old.commodities or new.commodities)
    names = {**old.commodities, **new.commodities}
    return any(before != after for before, after in total_changes(old, new).values()) or any(
        (old.row(name) or ["0"])[-1] != (new.row(name) or ["0"])[-1] for name in names)


def section_is(section, old, new, is_one_set, scale):
    said = facts(section.one("header"))
    figures = total_changes(old, new)
    assert said.keys() == figures.keys(), "the figures of T lines"
    for name, pair in figures.items():
        changes_are(three_figures(said[name]), *pair, scale)
    requirements_are(section, old, new, scale)
    differ = [name for name in {**old.commodities, **new.commodities} if old.commodities.get(name) != new.commodities.get(name)]
    articles = list(section.all("article"))
    assert len(articles) == len(differ), "an article for each commodity with other lines"
    for article, name in zip(articles, differ):
        assert next(article.all("h3")).one("a").text() == name, "the name of a commodity"
        commodity_is(article, old, new, name, is_one_set, scale)


# --- All accounts ---

STEP_BARS = ("scan", "calendar", "delivery", "credit", "minimum")


def steps_of_account(old, new):
    """The amounts by which each part changes the total of an account."""
    names = {**old.commodities, **new.commodities}
    parts = [[parts_of_row(lines.row(name)) for name in names] for lines in (old, new)]
    before, after = ([sum(each) for each in zip(*of)] or [0] * 5 for of in parts)
    return [other - one for one, other in zip(before, after)]


def stacks_are(root, old, new):
    """Checks the bars of the list: increases are to the right of 0, decreases to the left, and below them is their sum. All have one
    scale."""
    found, amounts = [], []
    for row in rows(root, "accounts"):
        name = cells(row)[0]
        steps, ends = steps_of_account(old.get(name, Lines()), new.get(name, Lines())), {True: 0, False: 0}
        for kind, step in zip(STEP_BARS, steps):
            begin = ends[step > 0]
            ends[step > 0] += step
            found.append(bar(row, kind))
            amounts.append((begin, begin + step))
        found.append(bar(row, "costs") or bar(row, "frees"))
        amounts.append((0, sum(steps)))
    if any(found):
        bars_are(found, amounts)


def saved_is(root, old, new, has_dues, scale):
    """Checks that the CSV of the list has the rows of the table, the ids of both sets, and the steps of each account."""
    saved = root.one("a", "csv").attributes
    kind, _, data = saved["href"].partition(",")
    assert (kind, saved["download"]) == ("data:text/csv;charset=utf-8", "changes.csv"), "the link of the list"
    head, *lines = csv.reader(urllib.parse.unquote(data).splitlines())
    names = ("total", "due") if has_dues else ("total",)
    columns = [f"{name} {when}" for name in names for when in CHANGE]
    assert head == ["account", "set before", "set after", *columns, *STEPS, "presence"], head
    sets = root.one("h1").text().split()[2::2]
    assert len(lines) == len(rows(root, "accounts")), "the rows of the CSV"
    for row, line in zip(rows(root, "accounts"), lines):
        name, *figures = cells(row)
        assert line[:3] == [name, *sets] and line[3:3 + len(columns)] == figures[:len(columns)], f"the CSV of {name}"
        steps = steps_of_account(old.get(name, Lines()), new.get(name, Lines()))
        assert [number(each) * scale for each in line[3 + len(columns):-1]] == steps, f"the steps of {name} in the CSV"
        assert line[-1] == figures[-1], f"the presence of {name} in the CSV"


def listed_are(root, old, new, scale):
    """Checks that the list has all accounts, the largest change first, and says which are in only one explanation."""
    has_dues = all(len(lines.total) == 4 for side in (old, new) for lines in side.values())
    sizes, names = [], set()
    for row in rows(root, "accounts"):
        name, *figures = cells(row)
        one, other = old.get(name, Lines()), new.get(name, Lines())
        pairs = total_changes(one, other)
        changes_are(figures[:3], *pairs["total"], scale)
        if has_dues:
            changes_are(figures[3:6], *pairs["due"], scale)
        word = "only after" if not one.total else "only before" if not other.total else "" if is_changed(one, other) else "no change"
        assert figures[-1] == word, f"{name}: {figures[-1]}"
        assert word != "no change" or not row.attributes.get("href"), "no link"
        sizes.append(abs(number(figures[5 if has_dues else 2])))
        names.add(name)
    assert names == old.keys() | new.keys() and len(sizes) == len(names), "each account once"
    assert sizes == sorted(sizes, reverse=True), "the largest change first"
    saved_is(root, old, new, has_dues, scale)
    stacks_are(root, old, new)


def change_is(root, before, after, scale=1):
    """Checks a page of two explanations: its figures are figures of the lines or their differences, and they add up."""
    old, new = lines_by_account(before), lines_by_account(after)
    sets = [text.split(",", 3)[2].split("\n")[0] for text in (before, after)]
    assert root.one("h1").text() == f"Margin from {sets[0]} to {sets[1]}", "the heading"
    listed_are(root, old, new, scale)
    said = facts(root.one("header", "top"))
    totals = [str(sum(int(lines.total[0]) for lines in side.values())) for side in (old, new)]
    changes_are(three_figures(said["sum of totals"]), *totals, scale)
    sections = {section.one("h2").text(): section for section in root.all("section", "account")}
    listed = [cells(row)[0] for row in rows(root, "accounts")]
    changed = [name for name in listed if is_changed(old[name], new[name])]
    assert list(sections) == changed, f"accounts with details, {set(sections) ^ set(changed)}"
    for name, section in sections.items():
        section_is(section, old[name], new[name], sets[0] == sets[1], scale)
