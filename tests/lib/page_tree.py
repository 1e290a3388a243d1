"""Pages of span-report as trees, for tests: their elements, the cells of their tables, and their bars."""
import base64
import hashlib
import html.parser
import re

VOID = {"meta", "path", "circle", "use", "input"}  # elements without an end tag, or written as <NAME ../>


class Node:
    """An element with its children, which are elements and texts."""

    def __init__(self, tag, attributes):
        self.tag, self.attributes, self.children = tag, dict(attributes), []
        self.elements = None

    def classes(self):
        return (self.attributes.get("class") or "").split()

    def text(self):
        return "".join(child if isinstance(child, str) else child.text() for child in self.children)

    def inside(self):
        """All elements in it, in order. The list is cached, since pages are large, so the tree must be complete."""
        if self.elements is None:
            self.elements = []
            for child in self.children:
                if isinstance(child, Node):
                    self.elements.append(child)
                    self.elements += child.inside()
        return self.elements

    def all(self, tag=None, kind=None):
        """All elements in it with this tag and class, in order."""
        for node in self.inside():
            if tag in (None, node.tag) and (kind is None or kind in node.classes()):
                yield node

    def one(self, tag, kind=None):
        found = list(self.all(tag, kind))
        assert len(found) == 1, f"{len(found)} elements {tag} {kind}"
        return found[0]


class Tree(html.parser.HTMLParser):
    """Reads a page and checks that each tag is closed by its own end tag."""

    def __init__(self, page):
        super().__init__(convert_charrefs=True)
        self.root = Node("", ())
        self.open = [self.root]
        self.feed(page)
        self.close()
        assert len(self.open) == 1, f"{self.open[-1].tag} is not closed"

    def handle_starttag(self, tag, attributes):
        assert len(dict(attributes)) == len(attributes), f"an attribute of {tag} appears twice"
        node = Node(tag, attributes)
        self.open[-1].children.append(node)
        if tag not in VOID:
            self.open.append(node)

    def handle_startendtag(self, tag, attributes):
        assert tag in VOID, f"{tag} ends itself"
        self.handle_starttag(tag, attributes)

    def handle_endtag(self, tag):
        if tag in VOID:
            return  # browsers write these without an end tag
        assert self.open[-1].tag == tag, f"{tag} ends, and {self.open[-1].tag} is open"
        self.open.pop()

    def handle_data(self, data):
        self.open[-1].children.append(data)


def cells(row):
    return [cell.text() for cell in row.children if isinstance(cell, Node) and cell.tag in ("th", "td")]


def rows(node, kind, part="tbody"):
    """The rows of the tables of a class."""
    return [row for table in node.all("table", kind) for body in table.all(part) for row in body.all("tr")]


def facts(node):
    """The names and values of the lists directly below."""
    return {pair.one("dt").text(): pair.one("dd").text() for pair in node.all("div") if any(True for _ in pair.all("dt"))
            and not any(True for _ in pair.all("div"))}


def whole_by_itself(page):
    """Checks that a page has no URL and needs no other file, that each id appears once, that links stay within the page, that its only
    script is the one that the policy names, and that no attribute is a script."""
    root = Tree(page).root
    assert page.startswith("<!DOCTYPE html>\n"), "its first line"
    assert "://" not in page and "url(" not in page and "@import" not in page, "an address"
    nodes = list(root.all())
    ids = [node.attributes["id"] for node in nodes if "id" in node.attributes]
    assert len(ids) == len(set(ids)), "an id appears twice"
    for node in nodes:
        assert node.tag not in ("link", "iframe", "img", "object", "form", "base", "embed"), node.tag
        for name, value in node.attributes.items():
            assert not name.startswith("on") and name != "src", name
            is_list = "csv" in node.classes() and re.fullmatch(r"data:text/csv;charset=utf-8,[A-Za-z0-9_.~/,%-]*", value)
            assert name != "href" or (value[0] == "#" and value[1:] in ids) or is_list, value
    script = root.one("script").text()
    digest = base64.b64encode(hashlib.sha256(script.encode()).digest()).decode()
    policy = next(node.attributes["content"] for node in nodes if node.attributes.get("http-equiv") == "Content-Security-Policy")
    assert f"script-src 'sha256-{digest}'" in policy and "default-src 'none'" in policy, policy
    assert "not proved" in root.one("footer").text(), "the foot"


def gaps_are(root):
    """Checks that figures have a gap before each group of three digits, and that gaps are not text."""
    for number in root.all("b"):
        first, *groups = re.fullmatch(r"-?([0-9]+)(?:\.[0-9]+)?", number.text()).groups()
        size = len(first)
        groups = [span.text() for span in number.all("span")]
        assert all(re.fullmatch("[0-9]{3}", group) for group in groups), f"the groups of {number.text()}"
        assert "".join(groups) == first[size - 3 * len(groups):] and 1 <= size - 3 * len(groups) <= 3, f"the gaps of {number.text()}"


# --- Bars ---

def near(one, other):
    return abs(one - other) <= 0.02


def bar(row, kind):
    """The begin and the end of a bar of a row, in percent, or None if there is no such bar."""
    for mark in row.all("i", kind):
        left, width = re.fullmatch(r"left:([-\d.]+)%;width:([-\d.]+)%", mark.attributes["style"]).groups()
        return float(left), float(left) + float(width)
    return None


def bars_are(found, amounts):
    """Checks that bars reach from one amount to the other, on a scale that contains 0 and all amounts."""
    least = min(0.0, *(min(pair) for pair in amounts))
    size = max(0.0, *(max(pair) for pair in amounts)) - least
    for drawn, pair in zip(found, amounts):
        low, high = min(pair), max(pair)
        assert (drawn is None) == (low == high), "a bar of 0 is not drawn"
        if drawn:
            assert near(drawn[0], (low - least) / size * 100) and near(drawn[1], (high - least) / size * 100), f"a bar of {pair}"
