"""Who cites each definition: public calls and types by their contracts, other definitions, and last private functions."""
from collections import defaultdict
from collections.abc import Iterator
from dataclasses import dataclass, field

from items_of import Code, Item, Source
from tree_of import Tree

Key = tuple[str, str, str]


@dataclass
class Citers:
    """Who cites one definition: each by its crate and its name."""

    calls: list[tuple[str, str]] = field(default_factory=list)
    definitions: list[tuple[str, str]] = field(default_factory=list)
    private: list[tuple[str, str]] = field(default_factory=list)


def clauses_text(item: Item) -> str:
    """All that a contract says."""
    return "\n".join(clause.text for clause in item.clauses)


def said_by(code: Code, source: Source, item: Item) -> Iterator[tuple[str, str, bool]]:
    """What an item and those that it holds say in contracts and ghost lines: by whom, in which words, and whether others can call it."""
    public = code.is_public(source, item)
    if item.kind == "fn":
        yield item.title, clauses_text(item), public
    elif item.kind == "impl":
        public = code.is_public_type(item.name)
        title = f"the model of {item.name}" if item.trait.startswith("Model") else f"{item.trait} for {item.name}"
        yield title, item.ghosts, public
        for inner in item.inner:
            yield inner.title, clauses_text(inner), public and (inner.is_pub or bool(item.trait))
    elif item.kind == "trait":
        yield item.name, "\n".join([item.ghosts, *map(clauses_text, item.inner)]), public
    else:
        yield item.name, item.ghosts, public


def citers_of(tree: Tree) -> dict[Key, Citers]:
    """The citers of each definition, in the order of crates.txt and of the files."""
    found: dict[Key, Citers] = defaultdict(Citers)
    for crate in tree.crates:
        for source in tree.code[crate].sources:
            for item in source.items:
                for title, text, public in said_by(tree.code[crate], source, item):
                    for key in tree.names.cited(text, source.imports, {}):
                        (found[key].calls if public else found[key].private).append((crate, title))
        for spec in tree.specs[crate]:
            own = {it.name.strip("◌").split("◌")[0]: it.key for it in spec.definitions}
            for it in spec.definitions:
                for key in tree.names.cited(it.text, spec.imports, own) - {it.key}:
                    found[key].definitions.append((crate, it.name))
    return found
