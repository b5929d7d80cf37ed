"""The items of src/: functions with their contracts, types, traits and what implements them."""
import pathlib
import re
from collections.abc import Iterator
from dataclasses import dataclass, field

from definitions_of import Imports, imports_of, indent_of

BEGINS = re.compile(r"(pub(?:\([a-z]+\))? )?(?:const (?=fn))?(fn|struct|enum|trait|const|type|impl)\b(.*)")
CLAUSE = re.compile(r" *(requires|ensures) ?(\w*) \{(.*)\}", re.DOTALL)
QUIET = re.compile(r'"(?:\\.|[^"\\])*"|\'(?:\\.|[^\'\\])\'|//.*')


@dataclass
class Clause:
    """One clause of a contract: what is required or ensured, by its name, in its own words."""

    sort: str
    name: str
    text: str

    def __str__(self) -> str:
        return " ".join(it for it in (self.sort, self.name, f"{{ {self.text} }}") if it)


@dataclass
class Item:
    """An item with its documentation, and the items that it holds."""

    kind: str
    name: str
    owner: str
    is_pub: bool
    documentation: list[str]
    lines: list[str]
    signature: str
    clauses: list[Clause]
    inner: list["Item"] = field(default_factory=list)
    trait: str = ""

    @property
    def title(self) -> str:
        return f"{self.owner}::{self.name}" if self.owner else self.name

    @property
    def ghosts(self) -> str:
        """What the item itself says in ghost lines."""
        return "\n".join(ghost_lines(self.lines))


@dataclass
class Source:
    """A file of code."""

    crate: str
    module: str
    file: str
    imports: Imports
    items: list[Item]


@dataclass
class Code:
    """The files of a crate, with what it hands out: by module and by name."""

    crate: str
    head: str
    sources: list[Source]
    exported: set[tuple[str, str]]

    def is_public(self, source: Source, item: Item) -> bool:
        """Whether other crates can name the item."""
        handed_out = source.module == "lib" or (source.module, "*") in self.exported or (source.module, item.name) in self.exported
        return item.is_pub and handed_out

    def is_public_type(self, name: str) -> bool:
        """Whether other crates can name a type or a trait of this name."""
        return any(self.is_public(source, it) for source in self.sources for it in source.items if it.name == name and it.kind != "impl")


def depth_of(line: str) -> int:
    """How many more brackets a line opens than it closes."""
    bare = QUIET.sub("", line)
    return sum(bare.count(it) for it in "([{") - sum(bare.count(it) for it in ")]}")


def end_of(lines: list[str], at: int) -> int:
    """The number of the line behind an item that begins at this one."""
    indent, depth = indent_of(lines[at]), 0
    for end in range(at, len(lines)):
        depth += depth_of(lines[end])
        line = lines[end].rstrip()
        closes = indent_of(line) == indent and line.strip().startswith(("}", "{}")) or end == at and line.endswith("}")
        if depth == 0 and line and (line.endswith(";") or closes):
            return end + 1
    return len(lines)


def ghost_lines(lines: list[str]) -> Iterator[str]:
    """The ghost lines of an item, but for the names that they take, each with the lines that it goes on for."""
    at = 0
    while at < len(lines):
        if not re.match(r" *ghost (?!use )", lines[at]):
            at += 1
            continue
        depth, begun = depth_of(lines[at]), at
        while depth > 0:
            at += 1
            depth += depth_of(lines[at])
        at += 1
        yield from lines[begun:at]


def header_of(lines: list[str]) -> list[str]:
    """The lines of a function up to its body."""
    indent, begun = indent_of(lines[0]), False
    for at, line in enumerate(lines):
        begun = begun or at > 0 and indent_of(line) == indent + 4 and line.lstrip().startswith(("requires ", "ensures "))
        if indent_of(line) == indent and line.strip() in ("{", "{}"):
            return lines[:at]
        if not begun and line.endswith("{"):
            return [*lines[:at], line.removesuffix(" {")]
    return lines


def clauses_of(header: list[str]) -> list[Clause]:
    """The clauses of a contract, each on one line."""
    indent, texts = indent_of(header[0]) + 4, []
    for line in header[1:]:
        if indent_of(line) == indent and line.lstrip().startswith(("requires ", "ensures ")):
            texts.append(line.strip())
        elif texts:
            texts[-1] += " " + line.strip()
    found = (CLAUSE.match(text.rstrip(";")) for text in texts)
    return [Clause(it[1], it[2], it[3].strip()) for it in found if it]


def signature_of(header: list[str]) -> str:
    """A function without its contract, on one line."""
    indent = indent_of(header[0]) + 4
    end = next((at for at, it in enumerate(header) if at and indent_of(it) == indent and it.lstrip().startswith(("requires ", "ensures "))), len(header))
    text = " ".join(line.strip() for line in header[:end]).rstrip(";")
    return text.replace("( ", "(").replace(", )", ")").replace("< ", "<").replace(", >", ">")


def bare(text: str) -> str:
    """A type without its parameters, references and path."""
    text = re.sub(r"^(&('\w+ )?(mut )?|dyn )+", "", text.strip())
    return re.split(r"[<({ ]", text, maxsplit=1)[0].split("::")[-1]


def parts_of_impl(rest: str) -> tuple[str, str]:
    """The trait, if there is one, and the type of an impl."""
    depth, at = 0, 0
    if rest.startswith("<"):
        for at, sign in enumerate(rest):
            depth += {"<": 1, ">": -1}.get(sign, 0) if rest[at - 1 : at + 1] != "->" else 0
            if depth == 0:
                break
        rest = rest[at + 1 :]
    trait, found, of = rest.strip().removesuffix("{").partition(" for ")
    return (trait.strip(), bare(of)) if found else ("", bare(trait))


def item_at(lines: list[str], begins: re.Match[str], docs: list[str], owner: str) -> Item:
    """The item that these lines are."""
    kind, rest = begins[2], begins[3].strip()
    name = re.match(r"\w*", rest)[0]
    header = header_of(lines) if kind == "fn" else lines[:1]
    item = Item(kind, name, owner, begins[1] == "pub ", docs, lines, signature_of(header), clauses_of(header) if kind == "fn" else [])
    if kind in ("impl", "trait"):
        trait, of = parts_of_impl(rest) if kind == "impl" else ("", name)
        item.trait, item.name = trait, of
        item.inner = items_in(lines[1:-1], indent_of(lines[0]) + 4, of)
    return item


def items_in(lines: list[str], indent: int, owner: str = "") -> list[Item]:
    """The items that begin so far in."""
    found, docs, at = [], [], 0
    while at < len(lines):
        line = lines[at]
        begins = BEGINS.match(line.strip()) if indent_of(line) == indent else None
        if begins:
            end = end_of(lines, at)
            found.append(item_at(lines[at:end], begins, docs, owner))
            docs, at = [], end
            continue
        if line.strip().startswith("///"):
            docs = [*docs, line.strip()[3:].removeprefix(" ")]
        elif not line.strip().startswith("#["):
            docs = []
        at += 1
    return found


def exports_of(root: str) -> set[tuple[str, str]]:
    """What a crate's lib.rt hands out: the module and the name of each."""
    found = {(name, "*") for name in re.findall(r"^pub mod (\w+);", root, re.MULTILINE)}
    for path in re.findall(r"^pub use ([^;]*);", root, re.MULTILINE):
        module, _, names = "".join(path.split()).rpartition("::") if "{" not in path else "".join(path.split()).partition("::{")
        found |= {(module.replace("::", "/"), name) for name in names.rstrip("}").split(",") if name}
    return found


def code_of(crate: str, top: pathlib.Path) -> Code:
    """The code of a crate."""
    folder = top / "crates" / crate / "src"
    root = (folder / "lib.rt" if (folder / "lib.rt").exists() else folder / "main.rt").read_text(encoding="utf-8")
    head = "\n".join(line[3:].strip() for line in root.split("\n") if line.startswith("//!"))
    sources = []
    for path in sorted(folder.rglob("*.rt")):
        text = path.read_text(encoding="utf-8")
        module = str(path.relative_to(folder).with_suffix(""))
        sources.append(Source(crate, module, str(path.relative_to(top)), imports_of(text), items_in(text.split("\n"), 0)))
    return Code(crate, head, sources, exports_of(root))
