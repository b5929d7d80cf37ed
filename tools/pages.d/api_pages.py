"""docs/api: the public items of the crates that the author of a tester calls, with their documentation and contracts."""
import re
from collections.abc import Iterator

from items_of import Code, Item, depth_of, header_of, indent_of
from prefaces_of import Preface
from tree_of import Tree

SORT = "API"


def heading(text: str) -> str:
    """The heading of an item."""
    return f"### `{text}`"


def documented(item: Item) -> list[str]:
    """The documentation of an item, its headings below those of the page."""
    text = "\n".join(f"##### {line.removeprefix('# ')}" if line.startswith("# ") else line for line in item.documentation)
    return [text] if text else []


def fenced(lines: list[str]) -> str:
    """Code, from the first column on."""
    least = min((indent_of(line) for line in lines if line.strip()), default=0)
    return "```rust\n" + "\n".join(line[least:] for line in lines).strip("\n") + "\n```"


def without_bodies(lines: list[str], private: bool) -> Iterator[str]:
    """The lines of a type, but for the names that it takes in ghost lines, its attributes, comments, and its fields that are private."""
    depth = 0
    for at, line in enumerate(lines):
        inner = at > 0 and depth == 1 and line.strip() not in ("}", "};")
        depth += depth_of(line)
        hidden = inner and private and not line.strip().startswith(("pub ", "ghost ", "///")) and indent_of(line) == indent_of(lines[0]) + 4
        if not re.match(r" *(ghost use|#\[|//(?!/))", line) and not hidden:
            yield line


def shape(item: Item) -> str:
    """A struct, an enum, a constant, a name of a type: as it stands, but for what is private, for which two dots stand."""
    lines = [*without_bodies(item.lines, item.kind == "struct")]
    hides = item.kind == "struct" and item.lines[0].endswith("{") and any(re.match(r"    (?!pub |ghost )\w+: ", line) for line in item.lines)
    return fenced([*lines[:-1], "    ..", lines[-1]] if hides else lines)


def call(item: Item) -> str:
    """A function without its body: its signature and its contract."""
    return fenced(header_of(item.lines))


def trait(item: Item) -> str:
    """A trait with all that its implementors give and keep."""
    lines = [line for line in item.lines if not line.strip().startswith("ghost use")]
    return fenced([line for at, line in enumerate(lines) if line.strip() or lines[at - 1].strip() and at > 1])


def implemented(item: Item) -> str:
    """What a type is as an implementor, in its ghost lines."""
    head = item.lines[0].rstrip(" {}")
    kept = item.ghosts.split("\n") if item.ghosts else []
    more = [line for it in item.inner if it.clauses for line in ["", *header_of(it.lines)]]
    return fenced([head + (" {" if kept or more else ""), *kept, *more, *(["}"] if kept or more else [])])


def of_impl(item: Item) -> Iterator[str]:
    """The public methods of a type, or what it is as an implementor."""
    if item.trait and not item.trait.startswith(("Model", "From", "Drop", "PartialEq", "Eq", "Hash")):
        yield "\n\n".join([heading(f"{item.trait} for {item.name}"), implemented(item)])
    for inner in item.inner if not item.trait else []:
        if inner.is_pub and inner.kind == "fn":
            yield "\n\n".join([heading(inner.title), *documented(inner), call(inner)])


def entries(code: Code) -> Iterator[str]:
    """The public items of a crate, file by file."""
    for source in code.sources:
        for item in source.items:
            if item.kind == "impl" and code.is_public_type(item.name):
                yield from of_impl(item)
            elif item.kind != "impl" and code.is_public(source, item):
                show = {"fn": call, "trait": trait}.get(item.kind, shape)
                yield "\n\n".join([heading(item.name), *documented(item), show(item)])


def page(code: Code, preface: Preface) -> str:
    """The page of one crate: what its root says of it, what the preface says, and its items."""
    parts = [f"# {code.crate}", code.head.strip(), preface.text, *entries(code)]
    return "\n\n".join(filter(None, parts)) + "\n"


def pages(tree: Tree) -> list[tuple[str, str]]:
    """A page for each crate that has a heading among the prefaces of these pages."""
    crates = tree.prefaces[SORT].crates if SORT in tree.prefaces else {}
    return [(f"docs/api/{it}.md", page(tree.code[it], crates[it])) for it in tree.crates if it in crates]
