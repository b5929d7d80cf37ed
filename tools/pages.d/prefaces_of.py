"""What a person writes for the made pages: docs/prefaces.md."""
import pathlib
import re
from dataclasses import dataclass, field

FILE = "docs/prefaces.md"
WORDS = re.compile(r"^- ((?:`[^`]+`(?:, )?)+): (.*)$")


@dataclass
class Preface:
    """What stands before the entries of a page, and further words for some of these."""

    text: str = ""
    words: dict[str, list[str]] = field(default_factory=dict)


@dataclass
class Prefaces:
    """The prefaces of one sort of page: of the whole, and by crate."""

    whole: str = ""
    crates: dict[str, Preface] = field(default_factory=dict)

    def of(self, crate: str) -> Preface:
        return self.crates.get(crate, Preface())


def preface_of(text: str) -> Preface:
    """One section. A line `- NAMES: TEXT` holds words for an entry: for the first of the names, and of the others too."""
    preface, kept = Preface(), []
    for line in text.strip().split("\n"):
        found = WORDS.match(line)
        if not found:
            kept.append(line)
            continue
        first, *others = re.findall(r"`([^`]+)`", found[1])
        also = f" (with {', '.join(f'`{it}`' for it in others)})" if others else ""
        preface.words.setdefault(first, []).append(found[2] + also)
    preface.text = "\n".join(kept).strip()
    return preface


def prefaces_of(top: pathlib.Path) -> dict[str, Prefaces]:
    """All prefaces, by the sort of page: the headings of the file, and below each the crates."""
    found = {}
    for section in re.split(r"^## ", (top / FILE).read_text(encoding="utf-8"), flags=re.MULTILINE)[1:]:
        title, _, rest = section.partition("\n")
        whole, *crates = re.split(r"^### ", rest, flags=re.MULTILINE)
        parts = (it.partition("\n") for it in crates)
        found[title.strip()] = Prefaces(whole.strip(), {crate.strip(): preface_of(text) for crate, _, text in parts})
    return found
