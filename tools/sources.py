"""Shared by the tools: reads pages, crates.txt, and the items of files of definitions (.antt) and of files of code (.rt)."""
import itertools
import os
import re
from dataclasses import dataclass

NEAR = "near"


def text_of(path):
    with open(path, encoding="utf-8") as file:
        return file.read()


def to_root():
    """Changes to the directory of the repository. All paths are relative to it."""
    os.chdir(os.path.join(os.path.dirname(os.path.abspath(__file__)), ".."))


def prose_of(text):
    """A page without its blocks of code. The lines keep their numbers."""
    text = re.sub(r"^```.*?^```", lambda it: re.sub(r"[^\n]", " ", it.group()), text, flags=re.M | re.S)
    return re.sub(r"^ {4}.*$", "", text, flags=re.M)


def headings_of(text):
    """The headings of a page: the level of each one, its text, and the anchor that links use for it."""
    found, seen = [], {}
    for level, words in re.findall(r"^(#+) +(.*)$", prose_of(text), re.M):
        anchor = re.sub(r"[^\w -]", "", words.strip().lower()).replace(" ", "-")
        seen[anchor] = seen.get(anchor, 0) + 1
        found.append((len(level), words.strip(), anchor if seen[anchor] == 1 else f"{anchor}-{seen[anchor] - 1}"))
    return found


def crates():
    """The crates of crates.txt, each after the crates that it uses, with the names of the crates that it uses."""
    return {name: uses.split() for name, uses in re.findall(r"^(\w+):(.*)$", text_of("crates.txt"), re.M)}


def files_of(directory, ending):
    """The paths of the files with this ending in a directory and below it, sorted."""
    found = []
    for place, below, names in os.walk(directory):
        below[:] = [it for it in below if it != "out"]
        found.extend(os.path.join(place, name) for name in names if name.endswith(ending))
    return sorted(found)


@dataclass
class Item:
    """A definition, or a type or constant of the code, and the text whose names count. If a type has a Model, contracts see the Model's
    Value, and neither the fields nor the invariant. `at`, `kind`, `public`, `doc` and `text` describe an item of the code."""

    path: str
    name: str
    words: str
    is_model: bool = False
    at: int = 0
    kind: str = ""
    public: bool = False
    doc: list = ()
    text: str = ""


# --- Files of definitions ---

USE = re.compile(r"^\s*(pub\s+)?(?:ghost\s+)?use\s+(Rattle\.[\w.]+?)(?:\.\{([^}]*)\}|\s+as\s+(\w+))?\s*;?\s*$", re.M)
HEAD = re.compile(r"^( *)(?:(?:abbrev|unfoldable|pub)\s+)*(?:(record|data)\s+)?([A-Za-z_][\w']*)")
DECLARES = re.compile(r"^ *(?:abbrev|unfoldable|pub)\b|^ *[A-Za-z_][\w']*(?:\s+\{[^}]*\})?\s+:\s")


class Imports:
    """What a file imports: the module of each name and its name there, the module of each alias, and what `pub use` exports again."""

    def __init__(self, text):
        self.names, self.aliases, self.handed_on = {}, {}, []
        for handed, module, listed, alias in USE.findall(text):
            found = [item.split() for item in listed.split(",") if item.strip()]
            self.names.update({words[-1]: (module, words[0]) for words in found})
            if not found:
                self.aliases[alias or module.split(".")[-1]] = module
            if handed:
                self.handed_on.extend((module, words[0]) for words in found or [[None]])


class DefinitionFile(Imports):
    """A file of definitions: its items by name. `of_data` has the type of each constructor and field of a `data`."""

    def __init__(self, path):
        lines = text_of(path).splitlines()
        super().__init__("\n".join(lines))
        self.path, self.items, self.of_data = path, {}, {}
        module, at = [], 0
        while at < len(lines):
            end = at + 1
            if lines[at].startswith("module"):
                module = [lines[at]]
            elif not re.match(r" *--|\s*$|use |pub use |pub mod ", lines[at]):
                end = self._end_of_item(lines, at)
                self._add(lines[at:end], module)
            at = end

    def _end_of_item(self, lines, at):
        """The line after the item that begins at a line, with its clauses."""
        deeper, end = HEAD.match(lines[at]).group(1) + " ", at + 1
        while end < len(lines) and not re.match(r"\s*$|module\b|use\b", lines[end]):
            if not lines[end].startswith(deeper) and (DECLARES.match(lines[end]) or re.match(r" *--", lines[end])):
                break
            end += 1
        return end

    def _add(self, body, module):
        _, kind, name = HEAD.match(body[0]).groups()
        words = re.sub(r"(?m)(^|\s)--.*$", r"\1", "\n".join(module + body))
        self.items[name] = Item(self.path, name, words)
        if kind == "data":
            self.of_data.update({made: name for made in re.findall(r"(?m)^\s+(\w+)\s*:", "\n".join(body[1:]))})


# --- Files of code ---

RUST_USE = re.compile(r"^(?:pub(?:\(\w+\))? )?use ((?:[^;{]|\{[^;]*\})*);", re.M)
ITEM = re.compile(r"^(?:pub(?:\(\w+\))? )?(?:const )?(struct|enum|const|static|type) (\w+)", re.M)
OWNER = re.compile(r"^(?:unsafe )?(?:impl\b|(?:pub(?:\(\w+\))? )?trait )[^{]*", re.M)
FUNCTION = re.compile(r"^((?:    )?)((?:pub(?:\(\w+\))? )?)(?:const |unsafe )*fn (\w+)", re.M)
CLAUSE = re.compile(r"\b(?:requires|ensures)(?:\s+\w+)?\s*$")


def rust_paths(text):
    """The paths in the tree of a `use`, each with the name that it declares."""
    above, last = [""], ""
    for part in re.findall(r"[\w:*]+(?: as \w+)?|[{}]", " ".join(text.split())):
        if part == "{":
            above.append(above[-1] + last)
        elif part == "}":
            above.pop()
        elif part.endswith("::"):
            last = part
        else:
            path, _, alias = part.partition(" as ")
            yield (above[-1] + path).split("::"), alias or path.split("::")[-1]


def closing(text, at):
    """The index of the bracket that closes the bracket at an index."""
    depth = 0
    for match in re.compile(r'"[^"]*"|[][(){}]').finditer(text, at):
        depth += {"{": 1, "(": 1, "[": 1, "}": -1, ")": -1, "]": -1}.get(match.group(), 0)
        if depth == 0:
            return match.start()


def header_of(text, start):
    """Returns where the header of a function ends, where its first clause begins, and the texts of its clauses."""
    at, head, clauses = start, None, []
    while True:
        opened = re.compile(r"[([{;]").search(text, at).start()
        clause = CLAUSE.search(text, at, opened) if text[opened] == "{" else None
        if text[opened] == ";" or (text[opened] == "{" and not clause):
            return opened, opened if head is None else head, clauses
        at = closing(text, opened) + 1
        if clause:
            head = clause.start() if head is None else head
            clauses.append(text[opened + 1 : at - 1].strip())


def doc_above(text, start):
    """The lines of the comment for users (`///`) directly above an index."""
    lines = text[:start].split("\n")[:-1]
    comments = [*itertools.takewhile(re.compile(r"\s*(///|#\[|//[^/!])").match, reversed(lines))]
    return [re.sub(r"^\s*/// ?", "", line) for line in reversed(comments) if re.match(r"\s*///", line)]


@dataclass
class Function:
    """A function. `header` is its signature with its clauses, and `owner` the first line of its impl block or trait."""

    at: int
    name: str
    doc: list
    signature: str
    header: str
    clauses: list
    public: bool
    owner: str


class CodeFile(Imports):
    """A file of code: its types and constants by name, its functions, and its imports."""

    def __init__(self, path, crate, module):
        self.path, self.crate, self.module, self.text = path, crate, module, text_of(path)
        super().__init__(self.text)
        self.uses = {name: where for tree in RUST_USE.findall(self.text) for where, name in rust_paths(tree)}
        self.head = [re.sub(r"^//! ?", "", line) for line in self.text.splitlines() if line.startswith("//!")]
        self.models = {}
        for match in re.finditer(r"^impl(?:<[^\n]*?>)? Model for (\w+)", self.text, re.M):
            opened = self.text.index("{", match.end())
            model = self.text[opened : closing(self.text, opened) + 1]
            self.models[match.group(1)] = re.search(r"ghost Value = (\{.*?\});", model, re.S).group(1)
        self.items = {match.group(2): self._item(match) for match in ITEM.finditer(self.text)}

    def _item(self, match):
        kind, name = match.groups()
        end = match.end()
        while self.text[end] not in ";{(" or (self.text[end] == "(" and kind in ("const", "static", "type")):
            end += 1
        if self.text[end] == "{" and kind in ("struct", "enum"):
            end = closing(self.text, end)
        elif self.text[end] != ";":
            end = self.text.index(";", end)
        text, value = self.text[match.start() : end + 1], self.models.get(name)
        words, doc = re.sub(r"//.*|#\[[^\n]*\]", "", value or text), doc_above(self.text, match.start())
        return Item(self.path, name, words, bool(value), match.start(), kind, text.startswith("pub "), doc, text)

    def traits(self):
        """The public traits of the file: index, name, first line, comment."""
        for match in re.finditer(r"^pub trait (\w+)[^{]*", self.text, re.M):
            yield match.start(), match.group(1), match.group(0).strip(), doc_above(self.text, match.start())

    def functions(self):
        """The functions of the file in their order, also of impl blocks and traits, but not functions inside of functions."""
        owners = []
        for match in OWNER.finditer(self.text):
            opened = self.text.index("{", match.end() - 1)
            owners.append((opened, closing(self.text, opened), " ".join(match.group(0).split())))
        for match in FUNCTION.finditer(self.text):
            indent, public, name = match.groups()
            owner = next((it for first, last, it in owners if first < match.start() < last), "")
            if indent and not owner:
                continue
            end, head, clauses = header_of(self.text, match.end())
            begin = match.start() + len(indent)
            signature, header = (re.sub(rf"(?m)^{indent}", "", self.text[begin:last].rstrip()) for last in (head, end))
            # A method in the impl of a trait counts as public if it has clauses of its own in place of the clauses of the trait.
            is_public = public == "pub " or re.match(r"pub trait |impl.* for " if clauses else "pub trait ", owner)
            yield Function(begin, name, doc_above(self.text, match.start()), signature, header, clauses, bool(is_public), owner)


class Sources:
    """The files of the crates. Each is read once."""

    def __init__(self):
        self.crates, self.read = list(crates()), {}

    def file(self, path, kind, *more):
        """A file, or None if there is none with this path."""
        if path not in self.read:
            self.read[path] = kind(path, *more) if os.path.isfile(path) else None
        return self.read[path]

    def code(self, crate, module):
        """The file of a module of a crate, or None if there is no such file."""
        ends = [[*module, "lib"], [*module, "main"]] if not module else [module, [*module, "mod"]]
        found = (self.file("/".join([f"crates/{crate}/src", *end]) + ".rt", CodeFile, crate, module) for end in ends)
        return next(filter(None, found), None)

    def definitions(self, crate, where):
        return self.file("/".join([f"crates/{crate}/specs", *where]) + ".antt", DefinitionFile)

    def is_public(self, crate, module):
        """Whether a module can be named from outside of its crate."""
        above = [self.code(crate, module[:depth]) for depth in range(len(module))]
        return all(file and re.search(rf"(?m)^pub mod {name};", file.text) for file, name in zip(above, module))

    def definition(self, module, name, seen=()):
        """The item that a name of a module of definitions stands for, or None if it belongs to the toolchain."""
        _, crate, *where = module.split(".")
        where = where[1:]
        if crate not in self.crates or (module, name) in seen:
            return None
        found = self.declared(crate, where[1:], name) if where[:1] == ["declared"] else None
        if found:
            return found
        file, seen = self.definitions(crate, where), (*seen, (module, name))
        if not file:
            # An index exports a module of another crate.
            index = self.definitions(crate, where[:-1] or ["Lib"]) or self.definitions(crate, ["Lib"])
            others = [other for other, listed in index.handed_on if listed is None and other.split(".")[-1] == where[-1]] if index else []
            return self.definition(others[0], name, seen) if others else None
        name = file.of_data.get(name, name)
        if name in file.items:
            return file.items[name]
        others = (self.definition(other, name, seen) for other, listed in file.handed_on if listed in (name, None))
        return next(filter(None, others), None)

    def declared(self, crate, where, name):
        """The type or constant of the code that a name in `declared` stands for. For a variant or a field, its type."""
        owners = [it for it in where if it[0].isupper() and not it.startswith("The")]
        file = self.code(crate, [it for it in where if it[0].islower()])
        return file.items.get(owners[0] if owners else name) if file else None

    def code_item(self, file, name, seen=()):
        """The type or constant that a name in a file of code stands for. None for a trait, and for what is built in or of the toolchain."""
        if name in file.items:
            return file.items[name]
        crate, *parts = file.uses.get(name, [""])
        if (file.path, name) in seen:
            return None
        if crate in ("self", "super"):
            base = list(file.module)
            while crate in ("self", "super"):
                base = base[:-1] if crate == "super" else base
                crate, *parts = parts
            crate, parts = file.crate, [*base, crate, *parts]
        elif crate == "crate":
            crate = file.crate
        other = self.code(crate, parts[:-1]) if crate in self.crates and parts else None
        return self.code_item(other, parts[-1], (*seen, (file.path, name))) if other else None
