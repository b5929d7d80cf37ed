"""References from documents to files of the repository, and to headings in these."""
import pathlib
import re
from collections.abc import Iterator

LINK = re.compile(r"(?<!!)\[[^\]]*\]\(([^)\s]+)\)|!\[[^\]]*\]\(([^)\s]+)\)")
NAMED = re.compile(r"(?<![\w/.])((?:docs|tools|examples|rows|\.ci|crates(?!/NAME|/tests_LAYER|/\w+/out))/[\w./-]*\w|README\.md|CONTRIBUTING\.md)(?![\w*/]|\.\w)(?:, \"([^\"]+)\")?")
OUTSIDE = re.compile(r"[a-z]+:")


def documents(top: pathlib.Path) -> list[pathlib.Path]:
    """The documents of the repository."""
    return [top / "README.md", top / "CONTRIBUTING.md", *sorted((top / "docs").rglob("*.md"))]


def prose(text: str) -> str:
    """A document without the texts that it shows, of which only the line feeds are left."""
    return re.sub(r"^```.*?^```$|^    .*?$", lambda it: "\n" * it[0].count("\n"), text, flags=re.MULTILINE | re.DOTALL)


def headings(path: pathlib.Path) -> list[str]:
    """The headings of a document, and the bold words that begin a paragraph."""
    text = path.read_text(encoding="utf-8")
    return re.findall(r"^#+ (.*)$", text, re.MULTILINE) + re.findall(r"^\*\*(.*?)\.?\*\*", text, re.MULTILINE)


def anchor(heading: str) -> str:
    """The name by which a link reaches a heading."""
    return re.sub(r"[^\w\- ]", "", heading.lower()).replace(" ", "-")


def fault(source: pathlib.Path, target: pathlib.Path, heading: str, linked: bool) -> str:
    """What is wrong with a reference, if anything is."""
    if not target.exists():
        return "there is no such file"
    if not heading or target.suffix != ".md":
        return ""
    found = [anchor(it) for it in headings(target)] if linked else headings(target)
    return "" if heading in found else f"it has no heading {heading!r}"


def references(path: pathlib.Path, top: pathlib.Path) -> Iterator[tuple[int, str, pathlib.Path, str, bool]]:
    """Each reference of a document: where it stands, how it is written, the file, the heading, and whether it is a link."""
    text = prose(path.read_text(encoding="utf-8"))
    for it in LINK.finditer(text):
        target, _, heading = (it[1] or it[2]).partition("#")
        if not OUTSIDE.match(target):
            yield text[: it.start()].count("\n") + 1, it[0], (path.parent / target if target else path), heading, True
    for it in NAMED.finditer(LINK.sub(lambda it: "_" * len(it[0]), text)):
        yield text[: it.start()].count("\n") + 1, it[0], top / it[1], it[2] or "", False


def dead(top: pathlib.Path) -> Iterator[str]:
    """A line for each reference that leads nowhere."""
    for path in documents(top):
        for line, written, target, heading, linked in references(path, top):
            wrong = fault(path, target, heading, linked)
            if wrong:
                yield f"{path.relative_to(top)}:{line}: {written}: {wrong}"
