"""docs/refusals.md: what each public call may refuse, and which clauses of its contract say so."""
import re
from collections.abc import Iterator

from definitions_page import code_span, sentence
from items_of import Clause, Code, Item, Source
from prefaces_of import Preface
from tree_of import Tree

SORT = "Refusals"
GOES_WELL = re.compile(r"^(IfOk|OnOk|IfSome|OnSome) result\b")


def answer_of(signature: str) -> str:
    """The type that a function answers."""
    return signature.rpartition(") -> ")[2] if ") -> " in signature else ""


def last_part(text: str) -> str:
    """The last of the parts that commas divide, outside of any brackets."""
    depth, begun = 0, 0
    for at, sign in enumerate(text):
        depth += {"<": 1, "(": 1, "[": 1, ">": -1, ")": -1, "]": -1}.get(sign, 0)
        if sign == "," and depth == 0:
            begun = at + 1
    return text[begun:].strip()


def refused_by(answer: str) -> list[str]:
    """What an answer of this type may refuse by: its error, and None where it, or what it holds, is an option."""
    found = re.fullmatch(r"Result<(.*)>", answer)
    inner = found[1] if found else answer
    error = [last_part(inner)] if found and last_part(inner) != inner else []
    return (["None"] if inner.startswith("Option<") else []) + error


def speaks(clause: Clause, by: list[str]) -> bool:
    """Whether a clause says something of a refusal too: one that is ensured, and not only of what goes well. None may be what goes well."""
    well = GOES_WELL.match(clause.text)
    return clause.sort == "ensures" and not (well and not ("None" in by and well[1] in ("IfOk", "OnOk")))


def spoken(item: Item) -> list[Clause]:
    """The clauses of a call that speak of a refusal."""
    by = refused_by(answer_of(item.signature))
    return [it for it in item.clauses if speaks(it, by)]


def variants_of(tree: Tree) -> dict[str, list[str]]:
    """The variants of each enum of the code, by its name."""
    items = (item for code in tree.code.values() for source in code.sources for item in source.items if item.kind == "enum")
    return {it.name: re.findall(r"^    (\w+)", "\n".join(it.lines), re.MULTILINE) for it in items}


def errors_of(item: Item) -> str:
    """The part `# Errors` of an item's documentation, as one text."""
    text = "\n".join(item.documentation)
    found = re.search(r"^# Errors\n(.*?)(?=^# |\Z)", text, re.MULTILINE | re.DOTALL)
    return " ".join(found[1].split()) if found else ""


def calls_of(code: Code, source: Source) -> Iterator[Item]:
    """The calls of a file that other crates can make; those of an impl of a trait only where they say more than the trait does."""
    for item in source.items:
        if item.kind == "fn" and code.is_public(source, item):
            yield item
        if item.kind == "trait" and code.is_public(source, item):
            yield from (it for it in item.inner if it.kind == "fn")
        if item.kind == "impl" and code.is_public_type(item.name):
            yield from (it for it in item.inner if it.kind == "fn" and (it.is_pub or item.trait and it.clauses))


def shown(error: str, variants: dict[str, list[str]]) -> str:
    """An error, and its variants where it is an enum."""
    known = variants.get(error, [])
    return code_span(error) + (f" ({', '.join(map(code_span, known))})" if known else "")


def entry(item: Item, preface: Preface, variants: dict[str, list[str]]) -> str:
    """A call with what it refuses, in its own words and in those of the preface, and its clauses that speak of that."""
    told = [*filter(None, [errors_of(item)]), *preface.words.get(item.title, [])]
    by = ", ".join(shown(it, variants) for it in refused_by(answer_of(item.signature)))
    head = f"- **`{item.title}`**: {by}" + (". " + " ".join(map(sentence, told)) if told else "")
    return "\n".join([head, *(f"  - {code_span(str(it))}" for it in spoken(item))])


def is_bare(item: Item, preface: Preface) -> bool:
    """Whether all that is to be said of a call's refusals is that memory may run out."""
    only = refused_by(answer_of(item.signature)) == ["NoMemory"]
    return only and not errors_of(item) and item.title not in preface.words and not spoken(item)


def refusing(code: Code) -> list[Item]:
    """The calls of a crate that may refuse."""
    return [it for source in code.sources for it in calls_of(code, source) if refused_by(answer_of(it.signature))]


def entries_of(tree: Tree, crate: str) -> set[str]:
    """The names of the calls that the page has of a crate."""
    return {it.title for it in refusing(tree.code[crate])}


def section(code: Code, preface: Preface, variants: dict[str, list[str]]) -> str:
    """The calls of a crate."""
    calls = refusing(code)
    bare = [it for it in calls if is_bare(it, preface)]
    parts = [preface.text] if preface.text else []
    parts += ["\n".join(entry(it, preface, variants) for it in calls if it not in bare)] if len(bare) < len(calls) else []
    parts += [f"Of `NoMemory` alone: {', '.join(f'`{it.title}`' for it in bare)}."] if bare else []
    return f"## {code.crate}\n\n" + "\n\n".join(parts) + "\n" if parts else ""


def pages(tree: Tree) -> list[tuple[str, str]]:
    """The page, by its name from the top. Crates of tests have no calls that anyone makes."""
    prefaces = tree.prefaces.get(SORT)
    crates = [it for it in tree.crates if not it.startswith("tests_")]
    variants = variants_of(tree)
    sections = [section(tree.code[it], prefaces.of(it) if prefaces else Preface(), variants) for it in crates]
    whole = [prefaces.whole + "\n"] if prefaces and prefaces.whole else []
    return [("docs/refusals.md", "\n".join(["# What each public call refuses\n", *whole, *filter(None, sections)]))]
