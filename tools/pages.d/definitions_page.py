"""docs/definitions.md, and a page of definitions for each crate."""
import re

from citers_of import Citers, citers_of
from definitions_of import Definition, Spec
from prefaces_of import Preface
from tree_of import Tree

SORT = "Definitions"
SHOWN = 8
Page = tuple[str, str]


def code_span(text: str) -> str:
    """A text as code, also where it has a backtick."""
    return f"``{text}``" if "`" in text else f"`{text}`"


def listed(citers: list[tuple[str, str]], crate: str) -> str:
    """The first names, those of other crates with their crate, and how many more there are."""
    names = list(dict.fromkeys(name if of == crate else f"{of}::{name}" for of, name in citers))
    more = len(names) - SHOWN
    return ", ".join(map(code_span, names[:SHOWN] if more > 1 else names)) + (f" and {more} more" if more > 1 else "")


def cited(citers: Citers, crate: str) -> str:
    """Who cites a definition: public calls and types; where none does, definitions; and else private functions."""
    if citers.calls:
        return f"*Cited by* {listed(citers.calls, crate)}."
    if citers.definitions:
        return f"*In the definitions* {listed(citers.definitions, crate)}."
    if citers.private:
        return f"*In private functions:* {listed(citers.private, crate)}."
    return "*Cited by* no contract: proofs alone speak of it."


def sentence(text: str) -> str:
    """A text that begins and ends as a sentence does; a name at its begin stays as it is."""
    begun = text[:1].upper() + text[1:] if re.match(r"[a-z]+[\s,;:']", text) else text
    return begun if not begun or begun.endswith((".", ":", "?")) else begun + "."


def entry(it: Definition, citers: Citers, preface: Preface) -> str:
    """A definition: its signature, what its file and the preface say of it, and who cites it."""
    signature = it.signature.removeprefix(it.name).strip()
    given = f", given {code_span(it.given)}" if it.given else ""
    words = [sentence(it.comment), *map(sentence, preface.words.get(it.name, []))]
    lines = [f"- **{code_span(it.name)}**" + (f" {code_span(signature)}" if signature else "") + given]
    lines += [" ".join(filter(None, words))] if any(words) else []
    return "\\\n  ".join([*lines, cited(citers, it.crate)])


def part(spec: Spec, citers: dict[tuple[str, str, str], Citers], preface: Preface) -> str:
    """The definitions of a file."""
    file = spec.file.removeprefix(f"crates/{spec.crate}/")
    head = f"In [{file}](../../{spec.file})" + (f": {spec.head}" if spec.head else ".")
    entries = "\n".join(entry(it, citers.get(it.key, Citers()), preface) for it in spec.definitions)
    return f"## {spec.module}\n\n{head}\n\n{entries}\n"


def index(tree: Tree) -> str:
    """The page that leads to those of the crates."""
    prefaces = tree.prefaces.get(SORT)
    rows = [f"| [{it}](definitions/{it}.md) | {sum(len(spec.definitions) for spec in tree.specs[it])} |" for it in tree.crates if tree.specs[it]]
    count = sum(len(spec.definitions) for specs in tree.specs.values() for spec in specs)
    whole = f"{prefaces.whole}\n\n" if prefaces and prefaces.whole else ""
    return f"# Definitions\n\n{whole}| crate | of {count:,} definitions |\n|---|---|\n" + "\n".join(rows) + "\n"


def entries_of(tree: Tree, crate: str) -> set[str]:
    """The names that a crate's page has."""
    return {it.name for spec in tree.specs[crate] for it in spec.definitions}


def pages(tree: Tree) -> list[Page]:
    """The pages, by their names from the top."""
    citers = citers_of(tree)
    made = [("docs/definitions.md", index(tree))]
    for crate in tree.crates:
        if tree.specs[crate]:
            preface = tree.prefaces[SORT].of(crate) if SORT in tree.prefaces else Preface()
            parts = [part(spec, citers, preface) for spec in tree.specs[crate]]
            made.append((f"docs/definitions/{crate}.md", "\n".join([f"# Definitions of {crate}\n", *([preface.text + "\n"] if preface.text else []), *parts])))
    return made
